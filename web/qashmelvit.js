// Loads the WebAssembly build of Qashmelvit, and offers its calls on texts and numbers of JavaScript; include/qashmelvit.h says what each call answers.

/** The style J. */
export const JULIAN = 1;
/** The style G. */
export const GREGORIAN = 2;
/** The style O. */
export const OLD_EASTER = 3;

/** The refusal of a style or feast number that is none. */
export const NAME = 1;
/** The refusal of a dating line of 0 or of more than 120 bytes, and of a page or transcript of more than 65,536. */
export const LENGTH = 2;
/** The refusal of a text that is no dating line by the grammar. */
export const FORM = 3;
/** The refusal of a year that the style does not serve, or that has no such feast. */
export const YEAR = 4;
/** The refusal of a month that is none, or of a day that the month does not have. */
export const DATE = 5;
/** The refusal of a day outside the style's span. */
export const SPAN = 6;
/** The refusal of a transcript that is not UTF-8. */
export const ENCODING = 9;

/** The first day of all. */
export const FIRST_DAY = 1721424;

/**
 * A text is a string, which the library is passed as UTF-8, or the bytes themselves; a number that no style, feast, year, month or day has is refused.
 * @typedef {string | Uint8Array} Text
 * @typedef {number | bigint} Numeral
 * @typedef {{ refusal: number }} Refused
 * @typedef {{ day: number } | Refused} DayOrRefusal
 * @typedef {{ day: number, start: number, length: number } | Refused} LineAnswer
 * @typedef {{ start: number, end: number }} Place
 * @typedef {Place & { bytes: Place, characters: Place } & DayOrRefusal} Mark
 *
 * @typedef {object} Calls
 * @property {(text: Text) => LineAnswer} line The day of a dating line, and where its feast word or date stands: text.slice(start, start + length).
 * @property {(text: Text) => { answers: DayOrRefusal[] } | Refused} page The day or refusal of each line of a page, in which a line feed ends a line.
 * @property {(text: Text) => { marks: Mark[] } | Refused} marks The marks of a transcript, and where each stands: text.slice(start, end).
 * @property {(style: Numeral, feast: Numeral, year: Numeral) => DayOrRefusal} feast The day of a feast, by its number from 1 to 48.
 * @property {(style: Numeral, year: Numeral, month: Numeral, day: Numeral) => DayOrRefusal} day The day of a date.
 * @property {(style: Numeral, day: Numeral) => { weekday: number } | Refused} weekday The weekday of a day, 1 for Monday to 7 for Sunday.
 * @property {(style1: Numeral, year1: Numeral, month1: Numeral, day1: Numeral, style2: Numeral, year2: Numeral, month2: Numeral, day2: Numeral) =>
 *     { distance: number } | Refused} distance The second date's day less the first's.
 */

// The bytes of the longest page or transcript, of the places of the most marks that one can have, and of a step in which a memory grows.
const LONGEST = 65536;
const PLACES = 16384 * 20;
const STEP = 65536;

// A number that is no style, feast, year, month or day, for every one that 64 bits do not hold.
const NONE = 2n ** 64n - 1n;

// What the first byte of a character has beside its number, where so many bytes more follow.
const FIRST_BYTE = [0x00, 0xc0, 0xe0, 0xf0];

// What typed arrays tell of their kind and length, whatever one of them says of itself.
const typedArrays = Object.getOwnPropertyDescriptors(Object.getPrototypeOf(Uint8Array.prototype));
const kindOf = typedArrays[Symbol.toStringTag].get;
const lengthOf = typedArrays.length.get;

async function compiled(source) {
    if (source instanceof WebAssembly.Module) {
        return source;
    }
    if (source instanceof URL || typeof source === 'string') {
        return compiled(await fetch(source));
    }
    if (!(source instanceof Response)) {
        return WebAssembly.compile(source);
    }
    if (!source.ok) {
        throw new Error(`${source.url} is answered by ${source.status}`);
    }
    return WebAssembly.compile(await source.arrayBuffer());
}

function numberOf(value) {
    if (typeof value !== 'number' && typeof value !== 'bigint') {
        throw new TypeError(`wanted a Number or a BigInt, got: ${typeof value}`);
    }
    const number = typeof value === 'bigint' || Number.isInteger(value) ? BigInt(value) : NONE;
    return number >= 0n && number <= NONE ? number : NONE;
}

// Puts bytes into the room where they are not too many for it, which all calls refuse alike, and answers how many it then has.
function putBytes(room, bytes) {
    const length = lengthOf.call(bytes);
    if (length >= room.length) {
        return room.length;
    }
    room.set(bytes);
    return length;
}

// Puts a string into the room as UTF-8, as far as that goes, and answers how many bytes; a surrogate that stands alone, which has no UTF-8, gives the three
// bytes that its number would have, so that the library refuses it.
function putString(room, text) {
    let count = 0;
    for (let place = 0; place < text.length && count < room.length; place++) {
        const code = text.codePointAt(place);
        let more = code < 0x80 ? 0 : code < 0x800 ? 1 : code < 0x10000 ? 2 : 3;
        room[count++] = FIRST_BYTE[more] | code >> 6 * more;
        while (more > 0) {
            more--;
            room[count++] = 0x80 | code >> 6 * more & 0x3f;
        }
        place += code < 0x10000 ? 0 : 1;
    }
    return Math.min(count, room.length);
}

function put(room, text) {
    if (typeof text === 'string') {
        return putString(room, text);
    }
    if (kindOf.call(text) !== 'Uint8Array') {
        throw new TypeError(`wanted a string or a Uint8Array, got: ${typeof text}`);
    }
    return putBytes(room, text);
}

// A function that tells where in the string a character stands; it is asked for them in their order.
function placesIn(string) {
    let place = 0;
    let passed = 0;
    return (character) => {
        for (; passed < character; passed++) {
            place += string.codePointAt(place) < 0x10000 ? 1 : 2;
        }
        return place;
    };
}

function dayOrRefusal(number) {
    return number < FIRST_DAY ? { refusal: number } : { day: number };
}

function unlessRefused(refusal, answer) {
    return refusal === 0 ? answer() : { refusal };
}

/**
 * Loads the build, by default from beside this file, and answers its calls; in Node, which fetches no files, it is given the build's bytes.
 * @param {string | URL | Response | Promise<Response> | ArrayBuffer | Uint8Array | WebAssembly.Module} [source]
 * @returns {Promise<Readonly<Calls>>}
 */
export async function load(source = new URL('qashmelvit.wasm', import.meta.url)) {
    const { exports } = await WebAssembly.instantiate(await compiled(await source));
    const { memory, __stack_pointer: stack, ...calls } = exports;

    // A call that ends where JavaScript's own stack runs out does not put the library's back, so that each begins with it whole.
    const whole = stack.value;
    const library = {};
    for (const [name, call] of Object.entries(calls)) {
        library[name] = (...lent) => {
            stack.value = whole;
            return call(...lent);
        };
    }

    // The memory grows here and never again: by the places, and by the bytes of a text up to the first that makes it too long.
    const places = memory.grow(Math.ceil((PLACES + LONGEST + 1) / STEP)) * STEP;
    const texts = places + PLACES;
    const bytes = new Uint8Array(memory.buffer, texts, LONGEST + 1);
    const numbers = new DataView(memory.buffer, places, PLACES);
    const size = BigInt(PLACES);

    // What the library is lent of a text: where it starts, and how many bytes it has.
    function lend(text) {
        return [texts, BigInt(put(bytes, text))];
    }

    // The places, each of so many numbers, that the call fills.
    function filled(call, lent, count) {
        const length = Number(call(...lent, places, size));
        return Array.from({ length }, (_, i) => Array.from({ length: count }, (_, k) => numbers.getUint32(4 * (count * i + k), true)));
    }

    function line(text) {
        const lent = lend(text);
        const answer = dayOrRefusal(library.qv_line(...lent));
        if ('refusal' in answer) {
            return answer;
        }
        return { ...answer, start: Number(library.qv_part_start(...lent)), length: Number(library.qv_part_length(...lent)) };
    }

    function page(text) {
        const lent = lend(text);
        return unlessRefused(library.qv_page_refusal(...lent, size), () => ({
            answers: filled(library.qv_page, lent, 1).map(([answer]) => dayOrRefusal(answer)),
        }));
    }

    function marks(text) {
        const lent = lend(text);
        const placeOf = typeof text === 'string' ? placesIn(text) : undefined;
        return unlessRefused(library.qv_marks_refusal(...lent, size), () => ({
            marks: filled(library.qv_marks, lent, 5).map(([start, end, first, past, answer]) => ({
                start: placeOf ? placeOf(first) : start,
                end: placeOf ? placeOf(past) : end,
                bytes: { start, end },
                characters: { start: first, end: past },
                ...dayOrRefusal(answer),
            })),
        }));
    }

    function feast(style, feast, year) {
        return dayOrRefusal(library.qv_feast(...[style, feast, year].map(numberOf)));
    }

    function day(style, year, month, day) {
        return dayOrRefusal(library.qv_day(...[style, year, month, day].map(numberOf)));
    }

    function weekday(style, day) {
        const lent = [style, day].map(numberOf);
        return unlessRefused(library.qv_weekday_refusal(...lent), () => ({ weekday: library.qv_weekday(...lent) }));
    }

    function distance(style1, year1, month1, day1, style2, year2, month2, day2) {
        const lent = [style1, year1, month1, day1, style2, year2, month2, day2].map(numberOf);
        return unlessRefused(library.qv_distance_refusal(...lent), () => ({ distance: library.qv_distance(...lent) }));
    }

    return Object.freeze({ line, page, marks, feast, day, weekday, distance });
}

// Holds the script and the build to what no C program can tell: the build's form and the header's numbers, what may be loaded, numbers and texts that are
// none of C's, places in a string, and what a call costs and leaves.
import assert from 'node:assert/strict';
import { readFileSync } from 'node:fs';
import { runInNewContext } from 'node:vm';
import { bytes as build, file, script } from './built.mjs';

const { load, ...constants } = script;
const header = readFileSync(new URL('../../include/qashmelvit.h', import.meta.url), 'utf8');
const module = await WebAssembly.compile(build);

// The numbers of the header, and those alone; and a build that asks for nothing, and has the header's calls and its memory alone.
const defined = [...header.matchAll(/^#define QV_([A-Z_]+) ([0-9]+)/gm)].map(([, name, number]) => [name, Number(number)]);
assert.deepEqual({ ...constants }, Object.fromEntries(defined));
assert.deepEqual(WebAssembly.Module.imports(module), []);
const exported = WebAssembly.Module.exports(module).map(({ kind, name }) => `${kind} ${name}`);
const calls = [...new Set(header.match(/\bqv_[a-z_]+/g))].map((name) => `function ${name}`);
assert.deepEqual(exported.sort(), [...calls, 'global __stack_pointer', 'memory memory'].sort());

// Node 18 takes the script for a module by what stands beside it, where later ones see it by themselves.
assert.deepEqual(JSON.parse(readFileSync(new URL('package.json', file), 'utf8')), { type: 'module' });

// The memory and the stack's place of what was loaded last, which the script keeps to itself.
let memory;
let stack;
const { instantiate } = WebAssembly;
WebAssembly.instantiate = async (...given) => {
    const instance = await instantiate(...given);
    ({ memory, __stack_pointer: stack } = instance.exports);
    return instance;
};

// What may be loaded, and by default what stands beside the script.
const { fetch } = globalThis;
const fetched = [];
globalThis.fetch = async (source) => {
    fetched.push(String(source));
    return new Response(build);
};
const buffer = new Uint8Array(build).buffer;
const response = () => new Response(build);
const sources = [undefined, 'some/where', new URL('http://some/where'), build, buffer, module, response(), Promise.resolve(response())];
for (const source of sources) {
    const loaded = await load(source);
    assert.deepEqual(loaded.feast(script.JULIAN, 13, 1225), { day: 2168578 });
    assert(Object.isFrozen(loaded));
}
assert.deepEqual(fetched, [String(file), 'some/where', 'http://some/where']);
globalThis.fetch = fetch;
await assert.rejects(load(new Response(build, { status: 404 })), /404/);
await assert.rejects(load(new Uint8Array(8)), WebAssembly.CompileError);
for (const source of [null, 5, {}, []]) {
    await assert.rejects(load(source), TypeError);
}

const library = await load(build);
const { line, page, marks, feast, day, weekday, distance } = library;
const EASTER = 'easter 1225 J';
const easter = { day: 2168578 };

// In each place of a call a number that is none of its list is refused by that list's refusal, also where it would be one by its low bits, and what is no
// number is an error.
const places = [
    [feast, [1, 13, 1225], [script.NAME, script.NAME, script.YEAR]],
    [day, [2, 1582, 10, 15], [script.NAME, script.YEAR, script.DATE, script.DATE]],
    [weekday, [1, 2415092], [script.NAME, script.SPAN]],
    [distance, [1, 1582, 10, 5, 2, 1582, 10, 15], [1, 2].flatMap(() => [script.NAME, script.YEAR, script.DATE, script.DATE])],
];
const TURNS = [2n ** 32n, 2n ** 64n, -(2n ** 64n)];
const NONE = [-1, 0.5, 1.5, NaN, Infinity, -Infinity, 2 ** 53, 2 ** 63, 2 ** 64, Number.MAX_VALUE, Number.MIN_VALUE, -1n, 2n ** 64n - 1n, 10n ** 30n];
for (const [call, good, refusals] of places) {
    const answer = call(...good);
    assert.equal(answer.refusal, undefined);
    good.forEach((number, place) => {
        const instead = (value) => () => call(...good.slice(0, place), value, ...good.slice(place + 1));
        assert.deepEqual(instead(BigInt(number))(), answer);
        for (const value of [...NONE, number + 0.5, -number, number + 2 ** 32, ...TURNS.map((turn) => BigInt(number) + turn)]) {
            assert.deepEqual(instead(value)(), { refusal: refusals[place] }, `${call.name} of ${good} with ${value} in place ${place}`);
        }
        for (const value of [String(number), undefined, null, true, {}, [number], new Number(number), Symbol('number')]) {
            assert.throws(instead(value), TypeError);
        }
        assert.throws(() => call(...good.slice(0, place)), TypeError);
    });
}
assert.deepEqual(feast(1, 13, -0), { refusal: script.YEAR });
assert.deepEqual(distance(2, 2000, 3, 1, 2, 2000, 2, 28), { distance: -2 });

// What is no text is an error; bytes are taken from where they stand, and from another window too; bytes that are gone are an error.
for (const text of [undefined, null, 5, 5n, true, {}, [101], new String(EASTER), buffer, new DataView(buffer), new Uint16Array(4), Symbol('text')]) {
    for (const call of [line, page, marks]) {
        assert.throws(() => call(text), TypeError);
    }
}
const padded = Buffer.from(`xxx${EASTER}xxx`);
assert.deepEqual(line(padded.subarray(3, 16)), { ...easter, start: 0, length: 6 });
assert.deepEqual(line(runInNewContext('Uint8Array').from(Buffer.from(EASTER))), { ...easter, start: 0, length: 6 });
const gone = new Uint8Array(Buffer.from(EASTER));
structuredClone(gone, { transfer: [gone.buffer] });
assert.throws(() => line(gone), TypeError);
if ('resizable' in ArrayBuffer.prototype) {
    const shrunk = new ArrayBuffer(13, { maxByteLength: 13 });
    const views = [new Uint8Array(shrunk, 0, 13), new Uint8Array(shrunk, 6)];
    shrunk.resize(3);
    views.forEach((view) => assert.throws(() => line(view), TypeError));
}

// Bytes are what they are, whatever they say of themselves.
class Odd extends Uint8Array {
    static get [Symbol.species]() {
        return Uint16Array;
    }

    get length() {
        return 3;
    }

    get [Symbol.toStringTag]() {
        return 'Odd';
    }

    subarray() {
        return new Uint8Array(70000);
    }
}
const wide = Uint16Array.from(Buffer.from(EASTER), (byte) => byte + 256);
Object.defineProperty(wide, Symbol.toStringTag, { value: 'Uint8Array' });
assert.deepEqual(line(Odd.from(Buffer.from(EASTER))), { ...easter, start: 0, length: 6 });
assert.throws(() => line(wide), TypeError);
assert.deepEqual([line(''), page(''), marks('')], [{ refusal: script.LENGTH }, { answers: [] }, { marks: [] }]);

// Nothing is mended: a surrogate that stands alone is refused, and a byte order mark, a carriage return and a zero stay.
const alone = ['\ud800', '\udbff', '\udc00', '\udfff', '\ude00\ud83d', '\ud83d\ud83d'];
for (const text of [...alone, '\ufeff', '\ufffd', '\r', '\0', ' ', '\u0301']) {
    assert.deepEqual([line(text + EASTER), line(EASTER + text)], [{ refusal: script.FORM }, { refusal: script.FORM }]);
    assert.deepEqual(page(`${text}\n${EASTER}\n`), { answers: [{ refusal: script.FORM }, easter] });
    for (const transcript of [`${text}[[${EASTER}]]`, `[[${EASTER}]]${text}`, `[[${text}]]`]) {
        assert.equal(marks(transcript).refusal, alone.includes(text) ? script.ENCODING : undefined);
    }
}

// Every character there is becomes as many bytes as it must, and UTF-8, which the library sees; slice gives the mark behind it.
const points = [];
for (let code = 0; code <= 0x10ffff; code++) {
    if (code < 0xd800 || code > 0xdfff) {
        points.push(String.fromCodePoint(code));
    }
}
for (let first = 0; first < points.length; first += 16000) {
    const before = points.slice(first, first + 16000).filter((character) => character !== '[' && character !== ']');
    const text = `${before.join('')}[[${EASTER}]]`;
    const { start, end, ...mark } = marks(text).marks[0];
    assert.equal(text.slice(start, end), EASTER);
    const [byte, character] = [Buffer.byteLength(text) - 15, before.length + 2];
    assert.deepEqual(mark, { bytes: { start: byte, end: byte + 13 }, characters: { start: character, end: character + 13 }, ...easter });
}
const letter = '😀 é [[easter 1225 J]] 😀😀 [[😀]] \u{10ffff}[[29.2 1900 G]]';
assert.deepEqual(marks(letter).marks.map(({ start, end, day, refusal }) => [letter.slice(start, end), day ?? refusal]),
    [[EASTER, easter.day], ['😀', script.FORM], ['29.2 1900 G', script.DATE]]);

// Lengths are of bytes, and the longest texts have room for all their answers; longer ones are refused, however long, and take no memory.
const room = memory.buffer.byteLength;
const refusals = (...texts) => texts.map((text) => line(text).refusal);
assert.deepEqual(refusals('é'.repeat(60), 'é'.repeat(61), '😀'.repeat(30), `x${'😀'.repeat(30)}`, `${'x'.repeat(117)}\ud800`, `${'x'.repeat(118)}\ud800`),
    [script.FORM, script.LENGTH, script.FORM, script.LENGTH, script.FORM, script.LENGTH]);
assert.equal(page('\n'.repeat(65536)).answers.length, 65536);
assert.equal(marks('[[]]'.repeat(16384)).marks.length, 16384);
for (const [text, count] of [['x', 65536], ['é', 32768], ['😀', 16384]]) {
    assert.deepEqual(marks(text.repeat(count)), { marks: [] });
    for (const long of [`${text.repeat(count)}x`, `x${text.repeat(count)}`, `${text.repeat(count)}\ud800`, text.repeat(1e7)]) {
        for (const call of [line, page, marks]) {
            assert.deepEqual([call(long), call(Buffer.from(long))], [{ refusal: script.LENGTH }, { refusal: script.LENGTH }]);
        }
    }
}
assert.deepEqual(line(EASTER), { ...easter, start: 0, length: 6 });
assert.equal(memory.buffer.byteLength, room);

// A call that ends where the stack of JavaScript runs out takes nothing from the later ones, wherever in the call that is.
function deep(call) {
    try {
        deep(call);
    } catch {
        // the stack of JavaScript has run out
    }
    try {
        call();
    } catch {
        // and again
    }
}
function deeper(more, call) {
    return more > 0 ? deeper(more - 1, call) : deep(call);
}
const whole = stack.value;
for (let more = 0; more < 20; more++) {
    deeper(more, () => marks(letter));
}
assert.deepEqual(line(EASTER), { ...easter, start: 0, length: 6 });
assert.equal(stack.value, whole);
assert.equal(marks(letter).marks.length, 3);

// An answer stays as it is when another call is made, of the same library or of another.
const other = await load(module);
const [kept, beside] = [page(`${EASTER}\n29.2 1900 G\n`), other.marks(`[[${EASTER}]]`)];
const copies = structuredClone([kept, beside]);
page('\n\n\n\n');
other.marks('[[x]] [[y]]');
assert.deepEqual([kept, beside], copies);
assert.deepEqual([line(EASTER), other.line('29.2 1900 G'), line(EASTER).day], [{ ...easter, start: 0, length: 6 }, { refusal: script.DATE }, easter.day]);

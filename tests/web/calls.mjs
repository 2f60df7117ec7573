// Prints calls on numbers, 'CALL NUMBER ..': every feast in some years, dates about the ends of months and spans, weekdays and distances of days about
// those and between, and in each place of a call numbers about the bounds of lists and of bits.

const STYLES = [1, 2, 3];
const YEARS = [0, 1, 2, 4, 100, 1225, 1500, 1581, 1582, 1583, 1587, 1600, 1700, 1900, 1999, 2000, 2026, 9996, 9998, 9999, 10000];
const DATES = [
    [0, 1, 1], [1, 1, 1], [1, 1, 2], [4, 2, 29], [1500, 2, 29], [1582, 2, 29], [1582, 10, 4], [1582, 10, 5], [1582, 10, 14], [1582, 10, 15],
    [1600, 2, 29], [1700, 2, 29], [1900, 3, 1], [2000, 2, 29], [2026, 13, 1], [9999, 10, 19], [9999, 12, 31], [9999, 12, 32], [10000, 1, 1],
];
const ENDS = [1721424, 2299161, 5373484, 5373557];
const BOUNDS = [31n, 32n, 53n, 63n].flatMap((bits) => [-1n, 0n, 1n, 2n].map((more) => 2n ** bits + more)).concat(2n ** 64n - 1n);
const SMALL = [0, 1, 2, 3, 12, 13, 28, 29, 30, 31, 32, 48, 49];

const upTo = (last) => Array.from({ length: last + 1 }, (_, i) => i);
const calls = [];
const add = (...words) => calls.push(`${words.join(' ')}\n`);

for (const style of STYLES) {
    for (const year of YEARS) {
        upTo(49).forEach((feast) => add('feast', style, feast, year));
        for (const month of upTo(13)) {
            [0, 1, 14, 15, 28, 29, 30, 31, 32].forEach((day) => add('day', style, year, month, day));
        }
    }
    for (const end of ENDS) {
        upTo(20).forEach((i) => add('weekday', style, end - 10 + i));
    }
    for (let day = ENDS[0]; day < ENDS[3]; day += 9973) {
        add('weekday', style, day);
    }
    for (const first of DATES) {
        for (const second of DATES) {
            STYLES.forEach((other) => add('distance', style, ...first, other, ...second));
        }
    }
}

const GOOD = { feast: [1, 13, 1225], day: [2, 1582, 10, 15], weekday: [1, 2415092], distance: [1, 1582, 10, 5, 2, 1582, 10, 15] };
for (const [call, numbers] of Object.entries(GOOD)) {
    numbers.forEach((good, place) => {
        for (const number of [...SMALL, ...BOUNDS, 2n ** 32n + BigInt(good)]) {
            add(call, ...numbers.slice(0, place), number, ...numbers.slice(place + 1));
        }
    });
}
process.stdout.write(calls.join(''));

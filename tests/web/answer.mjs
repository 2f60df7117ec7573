// Prints for standard input what the C program of the same name as the argument prints, lines, pages, marks or numbers, where a text has the same answers as
// bytes and, being UTF-8, as a string, and a number as a BigInt and as a Number.
import assert from 'node:assert/strict';
import { readFileSync } from 'node:fs';
import { bytes as build, script } from './built.mjs';

const library = await script.load(build);
const utf8 = new TextDecoder('utf-8', { fatal: true, ignoreBOM: true });

function stringOf(bytes) {
    try {
        return utf8.decode(bytes);
    } catch {
        return undefined;
    }
}

function linesOf(bytes) {
    const lines = [];
    for (let start = 0, end; start < bytes.length; start = end + 1) {
        end = bytes.indexOf(0x0a, start);
        end = end < 0 ? bytes.length : end;
        lines.push(bytes.subarray(start, end));
    }
    return lines;
}

// The text of a case 'SIZE: PIECE PIECE ..', as second/pieces.rs tells them.
function textOf(line) {
    const [, ...pieces] = line.toString().split(/[: ]+/);
    return Buffer.concat(pieces.map((piece) => {
        const [digits, count = 1] = piece.split('*').reverse();
        return Buffer.alloc(digits.length / 2 * count, digits, 'hex');
    }));
}

// The answer to a text, which is the same for its string.
function answered(call, bytes) {
    const answer = call(bytes);
    const string = stringOf(bytes);
    if (string !== undefined) {
        assert.deepEqual(call(string), answer);
    }
    return answer;
}

// An answer has a day or a refusal, and of both one alone.
function numberIn({ day, refusal, ...others }) {
    assert.deepEqual(others, {});
    assert.equal(day === undefined, refusal !== undefined);
    assert.equal(day === undefined, (day ?? refusal) < script.FIRST_DAY);
    return day ?? refusal;
}

function lineAnswer(bytes) {
    const { start = 0, length = 0, ...answer } = answered(library.line, bytes);
    return [numberIn(answer), start, length];
}

function pageAnswer(line) {
    const { refusal = 0, answers = [] } = answered(library.page, textOf(line));
    return [refusal, answers.length, ...answers.map(numberIn)];
}

// The marks of a text, whose places in it are its own: slice gives the same text of a string as of its bytes.
function marksOf(text) {
    const { refusal = 0, marks = [] } = library.marks(text);
    return {
        refusal,
        marks: marks.map(({ start, end, ...mark }) => ({ ...mark, text: Buffer.from(text.slice(start, end)).toString('hex') })),
    };
}

function marksAnswer(line) {
    const { refusal, marks } = answered(marksOf, textOf(line));
    return [refusal, marks.length, ...marks.flatMap(({ bytes, characters, text, ...answer }) =>
        [bytes.start, bytes.end, characters.start, characters.end, numberIn(answer)])];
}

function numbersAnswer(line) {
    const [call, ...words] = line.toString().split(' ');
    const answer = library[call](...words.map(BigInt));
    const numbers = words.map((word) => (BigInt(Number(word)) === BigInt(word) ? Number(word) : BigInt(word)));
    assert.deepEqual(library[call](...numbers), answer);
    const { refusal = 0, [call]: value = 0 } = answer;
    return call === 'weekday' || call === 'distance' ? [refusal, value] : [numberIn(answer)];
}

const answers = { lines: lineAnswer, pages: pageAnswer, marks: marksAnswer, numbers: numbersAnswer };
const answerOf = answers[process.argv[2]];
process.stdout.write(linesOf(readFileSync(0)).map((line) => `${answerOf(line).join(' ')}\n`).join(''));

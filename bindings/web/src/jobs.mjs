import { readingOf, textOf, verdictOf } from './answers.mjs';
import { fieldsInOrder, numberOf, signed } from './choices.mjs';
import { countLines } from './lists.mjs';
import { bytesOf } from './memory.mjs';
import { unlessAccepted } from './refusal.mjs';

const LONGEST_PATTERN = 256;
const BYTES_A_PATTERN_BYTE = 8;
const READ_ANSWER = 48;
const CHECK_ANSWER = 10;

/** In the place of an opened book: the English names. */
const NO_BOOK = new Uint8Array(0);

export function rowOfBook(book) {
    return book ? book.row : NO_BOOK;
}

/** Calls a function whose last argument is its answer, of so many entries, and answers that. */
export function asked(memory, name, entries, ...lent) {
    const answer = new BigInt64Array(entries);
    unlessAccepted(memory.call(name, ...lent, answer), answer);
    return answer;
}

/** Calls a function that lays bytes into an output of so many, and answers them. */
export function written(memory, name, room, ...lent) {
    const out = new Uint8Array(room);
    const [length] = asked(memory, name, 2, ...lent, out);
    return out.subarray(0, Number(length));
}

/** What is written by a pattern of a length, lent to the function before the fields. */
export function writtenBy(memory, name, length, lent, fields) {
    const room = BYTES_A_PATTERN_BYTE * Math.min(length, LONGEST_PATTERN);
    return textOf(written(memory, name, room, ...lent, ...fieldsInOrder(fields)));
}

/** What a text is read as by a pattern, or by the row of a prepared one. */
export function readBy(memory, name, pattern, text, currentYear, choices) {
    const year = signed('currentYear', currentYear);
    const given = [numberOf(choices), rowOfBook(choices.book), pattern, text, year];
    return readingOf(asked(memory, name, READ_ANSWER, ...given));
}

/** What the check says of a pattern, or of a prepared one. */
export function checkedBy(memory, name, pattern, currentYear, edition) {
    const year = signed('currentYear', currentYear);
    return verdictOf(asked(memory, name, CHECK_ANSWER, numberOf({ edition }), pattern, year));
}

/** What a list is read as by a pattern, or by a prepared one. */
export function listedBy(memory, name, pattern, text, currentYear, choices) {
    const bytes = bytesOf(text);
    const count = countLines(bytes);
    const [days, months, years] = [0, 1, 2].map(() => new Int32Array(count));
    const codes = new Uint32Array(count);
    const year = signed('currentYear', currentYear);
    const given = [numberOf(choices), rowOfBook(choices.book), pattern, bytes, year];
    asked(memory, name, 2, ...given, days, months, years, codes);
    return { days, months, years, codes };
}

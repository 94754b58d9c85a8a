import { Refusal, open } from '../../../dist/sheet.mjs';
import { encoded } from './words.mjs';

export const sheet = await open();

/** An entry of a row that no call lays there. */
const MARK = -(2n ** 63n);
/** Their details are the part and the place. */
const OF_A_PART = [8, 9, 10, 11, 15, 19];

const PREPARED_ROW = 259;

export const MOST_ROOM = 4096;
export const NO_ROOM = 5;

/** Bytes that no text has, each another than its neighbours. */
const MARKS = Buffer.from(Array.from({ length: MOST_ROOM }, (_, place) => 128 + (place % 127)));

export function filled(room) {
    return Uint8Array.from(MARKS.subarray(0, room));
}

/** The first place from the given one on whose byte is not the one that filled it. */
export function firstAltered(out, from) {
    if (from >= out.length || MARKS.compare(out, from, out.length, from, out.length) === 0) {
        return null;
    }
    return out.findIndex((byte, place) => place >= from && byte !== MARKS[place]);
}

export function marked(entries) {
    return new BigInt64Array(entries).fill(MARK);
}

/** What a call returned, and left in a row for its answer, which was full of marks. */
export function asked(name, entries, ...lent) {
    const row = marked(entries);
    return { number: sheet.call(name, ...lent, row), row };
}

export function rowOfBook(book) {
    return book ? book.row : new Uint8Array(0);
}

/** The row of a prepared pattern, which a refused one has too. */
export function preparedRow(pattern, date) {
    const row = new BigUint64Array(PREPARED_ROW);
    sheet.call('sheet_prepare', date ? 1 : 0, pattern, row, marked(2));
    return row;
}

/** The line of a refusal, whose details are followed by zeros; where the row has something else, all of it. */
export function refusedRow({ number, row }) {
    const details = OF_A_PART.includes(number) ? 2 : 1;
    if (row.subarray(details).some((entry) => entry !== 0n)) {
        return ['answer', ...row].join(' ');
    }
    return ['refused', number, ...row.subarray(0, details)].join(' ');
}

/** The line of a function of the module: what it says, or its refusal. */
export function own(said) {
    try {
        return said();
    } catch (error) {
        if (error instanceof Refusal) {
            return ['refused', error.number, ...error.details].join(' ');
        }
        throw error;
    }
}

/** The answer of all that do the same; where they do not agree, each one's. */
export function agreed(...answers) {
    return new Set(answers).size === 1 ? answers[0] : answers.join(' unlike ');
}

/** What a writer did with an output that was filled before; a mended pattern has more behind it. */
export function writtenRow({ number, row }, out) {
    const length = number === 0 ? Number(row[0]) : 0;
    const place = firstAltered(out, length);
    if (place !== null) {
        return `altered ${place}`;
    }
    if (number !== 0) {
        return refusedRow({ number, row });
    }
    return row[1] === 0n ? wrote(out.subarray(0, length), length) : ['answer', ...row].join(' ');
}

export function wrote(bytes, length = bytes.length) {
    return `wrote ${length} ${encoded(bytes)}`;
}

/** What a function of the module wrote, as if it had been lent so many bytes. */
export function wroteInto(room, bytes) {
    return bytes.length <= room ? wrote(bytes) : `refused ${NO_ROOM} ${bytes.length}`;
}

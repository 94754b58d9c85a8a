import { units } from '../../../dist/sheet.mjs';
import {
    MOST_ROOM, agreed, asked, filled, firstAltered, own, preparedRow, refusedRow, rowOfBook, sheet, writtenRow, wroteInto,
} from './lent.mjs';
import { answerList } from './lists.mjs';
import { answerMend } from './mending.mjs';
import { BAD_REQUEST, Words, encoded, ofFields, wanted } from './words.mjs';

const BOOK_ROW = 1344;
const NAMES = 64;
const NAME_ROOM = 21;
const LONGEST_NAME = 20;
/** Bytes behind an opened book, which show where one alters too many. */
const BEHIND = 64;
const READ_ANSWER = 48;
const READ_STARTS = 18;
const READ_ENDS = 33;
const CHECK_ANSWER = 10;
const KINDS = ['run', 'quotes', 'quoted', 'open'];
const PART = 3;

const ANSWERS = {
    split: answerSplit,
    write: (words, prepared) => answerWrite(words, false, prepared),
    write_date: (words, prepared) => answerWrite(words, true, prepared),
    read: (words, prepared) => answerRead(words, false, prepared),
    read_date: (words, prepared) => answerRead(words, true, prepared),
    parse_offset: answerOffset,
    check: answerCheck,
    day_of: answerDay,
    day_number: answerNumber,
    book: answerBook,
    book_write: answerBookWrite,
    list: (words, prepared) => answerList(words, withBook, prepared),
    mend: answerMend,
    rfc_read: answerStamp,
    rfc_write: answerStampWrite,
};

/** The requests that may have the word `prepared` before them. */
const BY_PREPARED = ['write', 'write_date', 'read', 'read_date', 'check', 'list'];

/** A line with more bytes is no request. */
export const LONGEST = 20000;

export function answerTo(line) {
    try {
        wanted(line.length <= LONGEST);
        const words = new Words(line);
        const isPrepared = words.takes('prepared');
        const first = words.word();
        wanted(!isPrepared || BY_PREPARED.includes(first));
        return wanted(Object.hasOwn(ANSWERS, first) && ANSWERS[first])(words, isPrepared);
    } catch (error) {
        if (error === BAD_REQUEST) {
            return error.message;
        }
        throw error;
    }
}

/** The answer with the book that is named, or with none; where it is refused, its refusal. */
function withBook(bytes, answer) {
    return own(() => answer(bytes ? sheet.readBook(bytes) : undefined));
}

function answerSplit(words) {
    const pattern = words.bytes();
    words.end();
    const parts = new BigInt64Array(PART * 256).fill(-1n);
    const answer = new BigInt64Array(2);
    const number = sheet.call('sheet_split', pattern, answer, parts);
    return agreed(
        number === 0 ? laidParts(parts, Number(answer[0])) : refusedSplit(number, answer, parts),
        own(() => shownParts(sheet.split(pattern).map(({ kind, start, length }) => [kind, start, length]))),
    );
}

function laidParts(parts, count) {
    return shownParts(Array.from({ length: count }, (_, k) => {
        const [kind, start, length] = parts.subarray(PART * k);
        return [KINDS[kind], start, length];
    }));
}

function refusedSplit(number, row, parts) {
    const place = parts.findIndex((entry) => entry !== -1n);
    return place < 0 ? refusedRow({ number, row }) : `altered ${place}`;
}

function shownParts(parts) {
    return [`parts ${parts.length}`, ...parts.map((part) => part.join(':'))].join(' ');
}

function answerWrite(words, date, isPrepared) {
    const pattern = words.bytes();
    const fields = words.fields();
    const room = words.unsigned(MOST_ROOM);
    const bytes = words.book();
    words.end();
    return withBook(bytes, (book) => {
        const out = filled(room);
        const [name, ...lent] = writer(pattern, date, book, isPrepared);
        const row = asked(name, 2, ...lent, ...ofFields(fields), out);
        const text = () => {
            return isPrepared
                ? sheet.prepare(pattern, { date }).write(fields, { book })
                : sheet.write(pattern, fields, { date, book });
        };
        return agreed(writtenRow(row, out), own(() => wroteInto(room, Buffer.from(text()))));
    });
}

/** The function that writes, and what it is lent before the fields. */
function writer(pattern, date, book, isPrepared) {
    if (isPrepared) {
        return ['sheet_prepared_write', rowOfBook(book), preparedRow(pattern, date)];
    }
    return book ? ['sheet_write_by', date ? 1 : 0, book.row, pattern] : [date ? 'sheet_write_date' : 'sheet_write', pattern];
}

function answerRead(words, date, isPrepared) {
    const [pattern, text, year] = [words.bytes(), words.bytes(), words.signed()];
    const choices = { date, strict: words.takes('strict'), edition: words.edition() };
    const bytes = words.book();
    words.end();
    const number = (date ? 1 : 0) + (choices.strict ? 2 : 0) + (choices.edition === 2 ? 4 : 0);
    return withBook(bytes, (book) => {
        const calls = isPrepared
            ? [['sheet_prepared_read', number, rowOfBook(book), preparedRow(pattern, date)]]
            : readers(pattern, number, book);
        const laid = calls.map(([name, ...lent]) => readRow(asked(name, READ_ANSWER, ...lent, text, year)));
        const reading = () => {
            return isPrepared
                ? sheet.prepare(pattern, { date }).read(text, year, { ...choices, book })
                : sheet.read(pattern, text, year, { ...choices, book });
        };
        return agreed(own(() => shownReading(reading())), ...laid);
    });
}

/** The functions that read, each with what it is lent before the text; without a choice but for the pair two do the same. */
function readers(pattern, number, book) {
    const ofPairs = ['sheet_read', 'sheet_read_date'];
    if (book) {
        return [['sheet_read_by', number, book.row, pattern]];
    }
    const withChoices = ['sheet_read_with', number, pattern];
    return number < ofPairs.length ? [withChoices, [ofPairs[number], pattern]] : [withChoices];
}

function readRow({ number, row }) {
    if (number !== 0) {
        return refusedRow({ number, row });
    }
    const spans = units.map((_, unit) => `${row[READ_STARTS + unit]}:${row[READ_ENDS + unit]}`);
    return ['read', ...row.subarray(0, READ_STARTS), ...spans].join(' ');
}

function shownReading({ taken, mask, values, spans }) {
    const shownSpans = units.map((unit) => (spans[unit] ? `${spans[unit].start}:${spans[unit].end}` : '0:0'));
    const shownValues = units.map((unit) => values[unit] ?? 0);
    return ['read', taken, mask, Object.keys(values).length, ...shownValues, ...shownSpans].join(' ');
}

function answerOffset(words) {
    const text = words.bytes();
    words.end();
    const { number, row } = asked('sheet_parse_offset', 2, text);
    return agreed(
        number === 0 ? `offset ${row[0]}` : refusedRow({ number, row }),
        own(() => `offset ${sheet.parseOffset(text)}`),
    );
}

function answerCheck(words, isPrepared) {
    const [pattern, year, edition] = [words.bytes(), words.signed(), words.edition()];
    const bytes = words.book();
    words.end();
    return withBook(bytes, () => {
        const calls = isPrepared ? preparedChecks(pattern, edition) : checks(pattern, edition);
        const laid = calls.map(([name, ...lent]) => checkRow(asked(name, CHECK_ANSWER, ...lent, year)));
        const verdict = () => {
            return isPrepared ? sheet.prepare(pattern).check(year, { edition }) : sheet.check(pattern, year, { edition });
        };
        return agreed(own(() => shownVerdict(verdict())), ...laid);
    });
}

/** The functions that check, each with what it is lent before the year. */
function checks(pattern, edition) {
    return edition === 2
        ? [['sheet_check_with', 4, pattern]]
        : [['sheet_check_with', 0, pattern], ['sheet_check', pattern]];
}

/** For either pair that can be prepared. */
function preparedChecks(pattern, edition) {
    return [false, true].map((date) => ['sheet_prepared_check', edition === 2 ? 4 : 0, preparedRow(pattern, date)]);
}

function checkRow({ number, row }) {
    if (number !== 0) {
        return refusedRow({ number, row });
    }
    return row[0] === 1n && row.subarray(1).every((entry) => entry === 0n) ? 'yes' : ['no', ...row.subarray(1)].join(' ');
}

export function shownVerdict({ trusted, part, record }) {
    return trusted ? 'yes' : ['no', part, ...ofFields(record)].join(' ');
}

function answerDay(words) {
    const number = words.signed();
    words.end();
    return agreed(
        ['day', ...asked('sheet_day', 6, number).row].join(' '),
        own(() => ['day', ...ofFields(sheet.dayOf(number))].join(' ')),
    );
}

function answerNumber(words) {
    const day = [words.signed(), words.unsigned(), words.unsigned()];
    words.end();
    const { number, row } = asked('sheet_day_number', 2, ...day);
    return agreed(
        number === 0 && row[1] === 0n ? `number ${row[0]}` : refusedRow({ number, row }),
        own(() => `number ${sheet.dayNumber(...day)}`),
    );
}

function answerBook(words) {
    const bytes = words.bytes();
    words.end();
    const version = 256 * bytes[3] + bytes[4];
    const shownBook = (names) => ['book', version, ...names.map(encoded)].join(' ');
    return agreed(
        openedRow(bytes, shownBook),
        own(() => shownBook(Object.values(sheet.readBook(bytes).names).flat().map((name) => Buffer.from(name)))),
    );
}

function openedRow(bytes, shownBook) {
    const out = filled(BOOK_ROW + BEHIND);
    const { number, row } = asked('sheet_book_read', 2, bytes, out);
    const place = firstAltered(out, number === 0 ? BOOK_ROW : 0);
    if (place !== null) {
        return `altered ${place}`;
    }
    if (number !== 0 || Number(row[0]) !== BOOK_ROW || row[1] !== 0n) {
        return refusedRow({ number, row });
    }
    return shownBook(Array.from({ length: NAMES }, (_, k) => nameIn(out.subarray(NAME_ROOM * k))));
}

function nameIn(room) {
    return room.subarray(1, 1 + Math.min(room[0], LONGEST_NAME));
}

/** Names may have any bytes, and be longer than any that a book has; the module takes those that are texts. */
function answerBookWrite(words) {
    const room = words.unsigned(MOST_ROOM);
    const names = Array.from({ length: NAMES }, () => words.bytes());
    wanted(names.every((name) => name.length <= 255));
    words.end();
    const out = filled(room);
    const laid = writtenRow(asked('sheet_book_write', 2, rowOfNames(names), out), out);
    return agreed(laid, own(() => wroteInto(room, sheet.writeBook(sheet.makeBook(names)))));
}

function rowOfNames(names) {
    const row = new Uint8Array(BOOK_ROW);
    names.forEach((name, k) => {
        row[NAME_ROOM * k] = name.length;
        row.set(name.subarray(0, LONGEST_NAME), NAME_ROOM * k + 1);
    });
    return row;
}

function answerStamp(words) {
    const text = words.bytes();
    words.end();
    const { number, row } = asked('sheet_rfc_read', 6, text);
    return agreed(
        number === 0 ? ['stamp', ...row].join(' ') : refusedRow({ number, row }),
        own(() => ['stamp', ...Object.values(sheet.readStamp(text)).map(Number)].join(' ')),
    );
}

function answerStampWrite(words) {
    const [year, month, day] = [words.signed(), words.unsigned(), words.unsigned()];
    const [nanoseconds, offset, mark] = [words.unsigned64(), words.signed(), words.unsigned(1)];
    const room = words.unsigned(MOST_ROOM);
    words.end();
    const out = filled(room);
    const laid = writtenRow(asked('sheet_rfc_write', 2, year, month, day, nanoseconds, offset, mark, out), out);
    const stamp = { year, month, day, nanoseconds, offset, unknown: mark === 1 };
    return agreed(laid, own(() => wroteInto(room, Buffer.from(sheet.writeStamp(stamp)))));
}

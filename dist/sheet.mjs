// Made by tools/dist from bindings/web/src. sheet.d.ts has the types.
// MIT or Apache-2.0, as LICENSE-MIT and LICENSE-APACHE have them.

/** Of a pattern or a text no more bytes are shown at once. */
const MOST_SHOWN = 24;

const NUMBERS = ['no', 'one', 'two', 'three', 'four', 'five', 'six', 'seven', 'eight', 'nine'];

const ESCAPES = new Map([[9, '\\t'], [10, '\\n'], [13, '\\r']]);

/** Bytes as they are shown from a place on: what can't be printed is escaped, and what is long is cut. */
function shown(bytes, from = 0) {
    const some = Array.from(bytes.subarray(from, from + MOST_SHOWN), escaped).join('');
    return `\`${dots(from > 0)}${some}${dots(bytes.length > from + MOST_SHOWN)}\``;
}

function dots(isCut) {
    return isCut ? '..' : '';
}

function escaped(byte) {
    if (byte >= 32 && byte < 127) {
        return String.fromCharCode(byte);
    }
    return ESCAPES.get(byte) ?? `\\x${byte.toString(16).padStart(2, '0')}`;
}

function spelled(number) {
    return NUMBERS[number] ?? String(number);
}

/** As in `one digit`, `one or two digits`, `one to three digits`. */
function countedWords(least, most, what) {
    const many = most === 1 ? '' : 's';
    if (most === least) {
        return `${spelled(most)} ${what}${many}`;
    }
    return `${spelled(least)} ${most - least === 1 ? 'or' : 'to'} ${spelled(most)} ${what}${many}`;
}

/** Rows of 64-bit numbers begin at such places, and so does all else. */
const ALIGNED = 8;
const PAGE = 65536;

const encoder = new TextEncoder();

function bytesOf(text) {
    return typeof text === 'string' ? encoder.encode(text) : text;
}

/** Entries of a row, from one to the one before another, as numbers. */
function numbersOf(row, from, to) {
    const numbers = [];
    for (let k = from; k < to; k += 1) {
        numbers.push(Number(row[k]));
    }
    return numbers;
}

/** The most bytes that an argument takes of the memory: a character of a string has three at most. */
function mostBytes(lent) {
    return ALIGNED + (typeof lent === 'string' ? 3 * lent.length : (lent?.byteLength ?? 0));
}

function isNumber(lent) {
    return typeof lent === 'number' || typeof lent === 'bigint';
}

function bytesBehind(array) {
    return new Uint8Array(array.buffer, array.byteOffset, array.byteLength);
}

/** The functions of the library, and the memory in which each call is lent what it is given; a call leaves nothing there. */
class Memory {
    #functions;
    #memory;
    #start;
    #bytes;

    constructor({ memory, __heap_base, ...functions }) {
        this.#functions = new Map(Object.entries(functions));
        this.#memory = memory;
        this.#start = Math.ceil(__heap_base.value / ALIGNED) * ALIGNED;
        this.#bytes = new Uint8Array(memory.buffer);
    }

    /** Calls a function: a string or an array is lent as a pointer and a length, and an array then has what was altered. */
    call(name, ...lent) {
        const called = this.#functions.get(name);
        if (!called) {
            throw new TypeError(`the library has no function ${name}`);
        }
        this.#makeRoom(lent);
        const given = [];
        const places = [];
        let next = this.#start;
        for (const one of lent) {
            places.push(next);
            next = this.#lend(one, next, given);
        }
        const number = called(...given) >>> 0;
        for (let k = 0; k < lent.length; k += 1) {
            this.#giveBack(lent[k], places[k]);
        }
        return number;
    }

    /** Views of a memory that has grown are of no use any more, and made anew. */
    #makeRoom(lent) {
        let end = this.#start;
        for (const one of lent) {
            end += isNumber(one) ? 0 : mostBytes(one);
        }
        const lacking = end - this.#bytes.length;
        if (lacking > 0) {
            this.#memory.grow(Math.ceil(lacking / PAGE));
            this.#bytes = new Uint8Array(this.#memory.buffer);
        }
    }

    /** Lays an argument at a place, adds what the function is given for it, and answers the next place. */
    #lend(one, place, given) {
        if (isNumber(one)) {
            given.push(one);
            return place;
        }
        let length;
        if (typeof one === 'string') {
            length = encoder.encodeInto(one, this.#bytes.subarray(place)).written;
            given.push(place, BigInt(length));
        } else if (ArrayBuffer.isView(one) && 'length' in one) {
            length = one.byteLength;
            this.#bytes.set(bytesBehind(one), place);
            given.push(place, BigInt(one.length));
        } else {
            throw new TypeError('what is lent has to be a string or an array of numbers of its type');
        }
        return place + Math.ceil(length / ALIGNED) * ALIGNED;
    }

    #giveBack(one, place) {
        if (ArrayBuffer.isView(one)) {
            bytesBehind(one).set(this.#bytes.subarray(place, place + one.byteLength));
        }
    }
}

/** What each number says, in words that need no details. */
const WORDS = new Map([
    [1, 'the pattern has over 256 bytes'],
    [2, 'the pattern has a byte that is zero or not plain ASCII'],
    [3, 'the pattern ends with a quote that opens nothing'],
    [4, 'a field is out of its range'],
    [5, 'the output is too short for the text'],
    [6, 'the text has over 2,048 bytes'],
    [7, 'the text has a byte that is not plain ASCII'],
    [8, 'the text has too few bytes left'],
    [9, 'the text has no number where one should stand'],
    [10, 'the text has no name or period that fits where one should stand'],
    [11, 'the text has no sign of a zone where one should stand'],
    [12, 'the offset has another length than +05:30, and does not begin with Z'],
    [13, 'the hour or the minute of the offset is too large'],
    [14, 'the current year is not from 1 to 9999, or from 81 in the second edition'],
    [15, 'the text differs from the literal that should stand there'],
    [16, 'the text goes on where the pattern ends'],
    [17, 'there is no such day'],
    [18, "the day's number doesn't fit 32 signed bits"],
    [19, 'the text has a plus in front of a number'],
    [20, 'the book does not begin with the mark LNB'],
    [21, 'the book is of another version than 1 and 2'],
    [22, 'the book is cut short, or goes on behind its names'],
    [23, 'the book has a bad name'],
    [24, 'a row is shorter than the lines'],
    [25, 'the text is not a stamp of RFC 3339'],
    [26, 'a number of the stamp is out of its range'],
    [27, 'the stamp has the second 60'],
    [28, 'the year of the stamp is not from 1 to 9999'],
    [29, 'the offset of the stamp is not of whole minutes, or not 0 though it is unknown'],
    [30, 'the mended pattern has over 256 bytes'],
    [100, 'a row for the answer is too small'],
    [101, 'there is no such choice'],
    [102, 'the bytes are no opened book'],
    [103, 'no line is left at that place'],
    [104, 'the changes do not fit the pattern'],
    [105, 'the row is no prepared pattern'],
]);

/** From here on a number has no details. */
const FIRST_WITHOUT_DETAILS = 100;

/** Their details are the part and the place. */
const OF_A_PART = new Set([8, 9, 10, 11, 15, 19]);

/** Their detail is 0, and says no more. */
const SAY_ALL = new Set([17, 18, 20, 21, 22, 24, 26, 27, 28, 29, 30]);

/** The fields in the order of their numbers, each with its range. */
const FIELDS = [
    ['year', '-5,879,611 to 5,879,611 without 0'],
    ['month', '1 to 12'],
    ['day', '1 to 31'],
    ['day of the year', '1 to 366'],
    ['week', '1 to 53'],
    ['weekday', '0 to 6'],
    ['nanosecond of the day', '0 to 86,399,999,999,999'],
    ['offset', '-86,399 to 86,399 seconds'],
];

/** The lists of a book in its order: how many names each has, what one is called, and the rule for all of them. */
const RULES_OF_NAMES = [
    [12, 'wide month', '2 to 20 ASCII letters, and none begins another'],
    [12, 'short month', '2 to 20 ASCII letters, and none begins another'],
    [7, 'wide weekday', '2 to 20 ASCII letters, and none begins another'],
    [7, 'short weekday', '3 ASCII letters'],
    [7, 'two-letter weekday', '2 ASCII letters'],
    [7, 'narrow weekday', '1 ASCII letter'],
    [12, 'narrow month', '1 ASCII letter'],
];

/** Refusal 14 in words. */
function currentYears(edition) {
    return `the current year is not from ${edition === 2 ? 81 : 1} to 9999`;
}

/** The years 1 to 80 are refused in the second edition alone, all others that are refused in both. */
function wordsOf(number, detail) {
    if (number === 14) {
        return currentYears(detail >= 1 && detail <= 80 ? 2 : 1);
    }
    return WORDS.get(number) ?? 'no such number';
}

/** Which name of a book a number from 1 on is, by its list and its place there, and the rule of the list. */
function nameOfABook(number) {
    let place = number;
    for (const [count, name, rule] of RULES_OF_NAMES) {
        if (place <= count) {
            const from = name.endsWith('weekday') ? ' from Sunday' : '';
            return `name ${number}, the ${ordinal(place)} ${name}${from}; ${name}s have ${rule}`;
        }
        place -= count;
    }
    return `name ${number}`;
}

/** Of 1 to 12. */
function ordinal(place) {
    return `${place}${['st', 'nd', 'rd'][place - 1] ?? 'th'}`;
}

/** The details of a refusal in words. */
function detailsInWords(number, [detail, place]) {
    if (OF_A_PART.has(number)) {
        return `at place ${place}, for part ${detail}, both counted from 0`;
    }
    switch (number) {
        case 1: case 6: case 12: return `it has ${detail} bytes`;
        case 2: case 3: case 7: case 16: case 25: return `at place ${detail}, counted from 0`;
        case 4: return `the ${FIELDS[detail - 1][0]}, which is ${FIELDS[detail - 1][1]}`;
        case 5: return `it needs ${detail} bytes`;
        case 13: return detail === 1 ? 'the hour is over 23' : 'the minute is over 59';
        case 23: return nameOfABook(detail);
        default: return `it is ${detail}`;
    }
}

class Refusal extends Error {
    constructor(number, details) {
        const text = wordsOf(number, details[0]);
        super(details.length === 0 || SAY_ALL.has(number) ? text : `${text}: ${detailsInWords(number, details)}`);
        this.number = number;
        this.details = details;
        this.text = text;
    }

    get name() {
        return 'Refusal';
    }
}

/** Throws a refusal where the number returned is one; its details are the first entries of the row. */
function unlessAccepted(number, answer) {
    if (number !== 0) {
        throw new Refusal(number, detailsOf(number, answer));
    }
}

function detailsOf(number, answer) {
    if (number >= FIRST_WITHOUT_DETAILS) {
        return [];
    }
    return numbersOf(answer, 0, OF_A_PART.has(number) ? 2 : 1);
}

const units = Object.freeze([
    'year', 'month', 'dayOfMonth', 'dayOfYear', 'hour', 'period', 'periodHour', 'minute', 'second',
    'decis', 'centis', 'millis', 'micros', 'nanos', 'offset',
]);

const KINDS = ['run', 'quotes', 'quoted', 'open'];
const FIRST_TIME_UNIT = units.indexOf('hour');
const LITERAL = -1;
const QUOTE = 39;

/** Where in the row of a reading the values start, the places where their parts began, and those where they ended. */
const VALUES = 3;
const STARTS = 18;
const ENDS = 33;

const decoder = new TextDecoder();

function textOf(bytes) {
    return decoder.decode(bytes);
}

function readingOf(row) {
    const mask = Number(row[1]);
    const values = {};
    const spans = {};
    units.forEach((unit, k) => {
        if ((mask >> k) & 1) {
            values[unit] = Number(row[VALUES + k]);
            spans[unit] = { start: Number(row[STARTS + k]), end: Number(row[ENDS + k]) };
        }
    });
    return { taken: Number(row[0]), mask, values, spans };
}

function dayOf(row) {
    const [year, month, day, dayOfYear, week, weekday] = numbersOf(row, 0, 6);
    return { year, month, day, dayOfYear, week, weekday };
}

function verdictOf(row) {
    if (row[0] === 1n) {
        return { trusted: true };
    }
    const [part, year, month, day, dayOfYear, week, weekday, nanoseconds, offset] = numbersOf(row, 1, 10);
    return { trusted: false, part, record: { year, month, day, dayOfYear, week, weekday, nanoseconds, offset } };
}

/** A part of a pattern by its three entries and its unit's. */
function partOf(bytes, [kind, start, length], unit, date) {
    const own = bytes.subarray(start, start + length);
    const isLiteral = unit === LITERAL || (date && unit >= FIRST_TIME_UNIT && unit < units.length);
    return {
        kind: KINDS[kind],
        start,
        length,
        text: textOf(own),
        literal: isLiteral ? textOf(standsFor(KINDS[kind], own)) : null,
        unit: isLiteral ? null : (units[unit] ?? null),
    };
}

/** The bytes that a literal stands for: an escaped quote is one, and those around a quoted part are none. */
function standsFor(kind, own) {
    const from = kind === 'open' || kind === 'quoted' ? 1 : 0;
    const inside = own.subarray(from, own.length - (kind === 'quoted' ? 1 : 0));
    const literal = [];
    for (let k = 0; k < inside.length; k += inside[k] === QUOTE ? 2 : 1) {
        literal.push(inside[k]);
    }
    return Uint8Array.from(literal);
}

function charPlace(text, bytePlace) {
    let place = 0;
    let bytes = 0;
    for (const character of text) {
        bytes += bytesOf(character).length;
        if (bytes > bytePlace) {
            return place;
        }
        place += character.length;
    }
    return place;
}

const DATE_PAIR = 1;
const STRICT = 2;
const SECOND_EDITION = 4;

/** The number that stands for choices. */
function numberOf({ date = false, strict = false, edition = 1 }) {
    if (edition !== 1 && edition !== 2) {
        throw new RangeError(`edition has to be 1 or 2, and is ${edition}`);
    }
    return (date ? DATE_PAIR : 0) + (strict ? STRICT : 0) + (edition === 2 ? SECOND_EDITION : 0);
}

/** A number that the library's type holds; of any other WebAssembly would drop bits. */
function held(what, value, least, most) {
    if (!Number.isInteger(value) || value < least || value > most) {
        throw new RangeError(`${what} has to be a whole number from ${least} to ${most}, and is ${value}`);
    }
    return value;
}

function signed(what, value) {
    return held(what, value, -(2 ** 31), 2 ** 31 - 1);
}

function unsigned(what, value) {
    return held(what, value, 0, 2 ** 32 - 1);
}

/** As a bigint, of either kind of number. */
function unsigned64(what, value) {
    const number = typeof value === 'bigint' || Number.isInteger(value) ? BigInt(value) : -1n;
    if (number !== BigInt.asUintN(64, number)) {
        throw new RangeError(`${what} has to be a whole number from 0 to 2^64 - 1, and is ${value}`);
    }
    return number;
}

/** An entry of a row, as a bigint. */
function entry(what, value) {
    return BigInt(held(what, value, Number.MIN_SAFE_INTEGER, Number.MAX_SAFE_INTEGER));
}

/** The eight fields in the order of the library's arguments. */
function fieldsInOrder({ year, month, day, dayOfYear, week, weekday, nanoseconds = 0, offset = 0 }) {
    return [
        signed('year', year),
        unsigned('month', month),
        unsigned('day', day),
        unsigned('dayOfYear', dayOfYear),
        unsigned('week', week),
        unsigned('weekday', weekday),
        unsigned64('nanoseconds', nanoseconds),
        signed('offset', offset),
    ];
}

const BOOK_ROW = 1344;
const LONGEST_BOOK = 743;
const NAMES = 64;
const NAME_ROOM = 21;
const LONGEST_NAME = 20;
const LONGEST_LENGTH = 255;

/** The lists in book order, each with how many names it has. */
const LISTS = [
    ['wideMonths', 12],
    ['shortMonths', 12],
    ['wideWeekdays', 7],
    ['shortWeekdays', 7],
    ['twoLetterWeekdays', 7],
    ['narrowWeekdays', 7],
    ['narrowMonths', 12],
];

class Book {
    constructor(row) {
        this.row = row;
    }

    get names() {
        const inOrder = Array.from({ length: NAMES }, (_, number) => this.#name(number));
        return Object.fromEntries(LISTS.map(([list, count]) => [list, inOrder.splice(0, count)]));
    }

    #name(number) {
        const room = this.row.subarray(NAME_ROOM * number, NAME_ROOM * (number + 1));
        return textOf(room.subarray(1, 1 + room[0]));
    }
}

/** Names laid out as in an opened book; of one that is too long a length that no name has, and as much as fits. */
function rowOfNames(names) {
    const row = new Uint8Array(BOOK_ROW);
    inBookOrder(names).forEach((name, number) => {
        const bytes = bytesOf(name);
        row[NAME_ROOM * number] = Math.min(bytes.length, LONGEST_LENGTH);
        row.set(bytes.subarray(0, LONGEST_NAME), NAME_ROOM * number + 1);
    });
    return row;
}

function inBookOrder(names) {
    if (Array.isArray(names)) {
        return counted('a book', names, NAMES);
    }
    return LISTS.flatMap(([list, count]) => counted(list, names[list], count));
}

function counted(what, names, count) {
    if (!Array.isArray(names) || names.length !== count) {
        throw new RangeError(`${what} has to have ${count} names`);
    }
    return names;
}

const NEWLINE = 10;
const LINE_ANSWER = 51;
const LINE_READING = 3;
const NO_LINE = 103;

/** How many lines a text has: a newline ends one, and a last one without counts. */
function countLines(bytes) {
    let count = 0;
    for (let at = 0; at < bytes.length; at = behindLine(bytes, at)) {
        count += 1;
    }
    return count;
}

function behindLine(bytes, at) {
    const newline = bytes.indexOf(NEWLINE, at);
    return newline < 0 ? bytes.length : newline + 1;
}

/** The lines of a text, each lent by itself with its newline, so that a long text is not lent anew for each. */
function* linesOf(memory, choices, bytes, currentYear) {
    const answer = new BigInt64Array(LINE_ANSWER);
    let start = 0;
    for (let number = 0; ; number += 1) {
        const line = bytes.subarray(start, behindLine(bytes, start));
        const code = memory.call('sheet_read_line', ...choices, line, 0n, currentYear, answer);
        if (code === NO_LINE) {
            return;
        }
        yield lineOf(number, start, line, code, answer);
        start += Number(answer[2]);
    }
}

function lineOf(number, start, line, code, answer) {
    const end = Number(answer[1]);
    const reading = answer.subarray(LINE_READING);
    return {
        number,
        start,
        end: start + end,
        text: textOf(line.subarray(0, end)),
        reading: code === 0 ? readingOf(reading) : null,
        refusal: code === 0 ? null : new Refusal(code, detailsOf(code, reading)),
    };
}

const LONGEST_PATTERN = 256;
const BYTES_A_PATTERN_BYTE = 8;
const READ_ANSWER = 48;
const CHECK_ANSWER = 10;

/** In the place of an opened book: the English names. */
const NO_BOOK = new Uint8Array(0);

function rowOfBook(book) {
    return book ? book.row : NO_BOOK;
}

/** Calls a function whose last argument is its answer, of so many entries, and answers that. */
function asked(memory, name, entries, ...lent) {
    const answer = new BigInt64Array(entries);
    unlessAccepted(memory.call(name, ...lent, answer), answer);
    return answer;
}

/** Calls a function that lays bytes into an output of so many, and answers them. */
function written(memory, name, room, ...lent) {
    const out = new Uint8Array(room);
    const [length] = asked(memory, name, 2, ...lent, out);
    return out.subarray(0, Number(length));
}

/** What is written by a pattern of a length, lent to the function before the fields. */
function writtenBy(memory, name, length, lent, fields) {
    const room = BYTES_A_PATTERN_BYTE * Math.min(length, LONGEST_PATTERN);
    return textOf(written(memory, name, room, ...lent, ...fieldsInOrder(fields)));
}

/** What a text is read as by a pattern, or by the row of a prepared one. */
function readBy(memory, name, pattern, text, currentYear, choices) {
    const year = signed('currentYear', currentYear);
    const given = [numberOf(choices), rowOfBook(choices.book), pattern, text, year];
    return readingOf(asked(memory, name, READ_ANSWER, ...given));
}

/** What the check says of a pattern, or of a prepared one. */
function checkedBy(memory, name, pattern, currentYear, edition) {
    const year = signed('currentYear', currentYear);
    return verdictOf(asked(memory, name, CHECK_ANSWER, numberOf({ edition }), pattern, year));
}

/** What a list is read as by a pattern, or by a prepared one. */
function listedBy(memory, name, pattern, text, currentYear, choices) {
    const bytes = bytesOf(text);
    const count = countLines(bytes);
    const [days, months, years] = [0, 1, 2].map(() => new Int32Array(count));
    const codes = new Uint32Array(count);
    const year = signed('currentYear', currentYear);
    const given = [numberOf(choices), rowOfBook(choices.book), pattern, bytes, year];
    asked(memory, name, 2, ...given, days, months, years, codes);
    return { days, months, years, codes };
}

const PREPARED_ROW = 259;

class Prepared {
    #memory;

    constructor(memory, pattern, { date }) {
        this.#memory = memory;
        this.pattern = textOf(bytesOf(pattern));
        this.row = new BigUint64Array(PREPARED_ROW);
        asked(memory, 'sheet_prepare', 2, numberOf({ date }), pattern, this.row);
    }

    write(fields, { book } = {}) {
        return writtenBy(this.#memory, 'sheet_prepared_write', this.pattern.length, [rowOfBook(book), this.row], fields);
    }

    read(text, currentYear, { strict, edition, book } = {}) {
        return readBy(this.#memory, 'sheet_prepared_read', this.row, text, currentYear, { strict, edition, book });
    }

    check(currentYear, { edition } = {}) {
        return checkedBy(this.#memory, 'sheet_prepared_check', this.row, currentYear, edition);
    }

    readList(text, currentYear, { strict, edition, book } = {}) {
        return listedBy(this.#memory, 'sheet_prepared_read_list', this.row, text, currentYear, { strict, edition, book });
    }
}

/** How far a part reads, and whether it is disturbed, does not depend on the current year. */
const ANY_YEAR = 2025;

const LITERAL_DIFFERS = 15;
const TEXT_LEFT = 16;
const CURRENT_YEAR = 14;

/** What stood in a text that was refused, and what was wanted, in one sentence. */
function explained(sheet, pattern, text, refusal, choices) {
    const { number, details } = refusal;
    if (number === TEXT_LEFT || number === LITERAL_DIFFERS) {
        if (!choices.strict) {
            return refusal.message;
        }
    }
    if (number === TEXT_LEFT) {
        return ofARest(bytesOf(text), refusal);
    }
    if (number === CURRENT_YEAR && choices.edition === 2) {
        return `${currentYears(2)}: it is ${details[0]}`;
    }
    return (details.length === 2 && ofAPart(sheet, bytesOf(pattern), bytesOf(text), details, choices)) || refusal.message;
}

/** The sentence, where the text has a rest there. */
function ofARest(text, refusal) {
    const rest = text.subarray(refusal.details[0]);
    return rest.length > 0 ? `${refusal.text}, with ${shown(rest)}` : refusal.message;
}

/**
 * The sentence, where the pattern has that part. What is found is shown from where the part begins, which is behind what the parts
 * before it read; of a literal that is too long for that, from where it differs.
 */
function ofAPart(sheet, pattern, text, [number, place], choices) {
    const part = partAt(sheet, pattern, number, choices);
    if (!part) {
        return null;
    }
    const start = readBefore(sheet, pattern.subarray(0, part.start), text, choices) ?? place;
    const from = place - start >= MOST_SHOWN ? place - start : 0;
    const [words, most] = wanted(sheet, part, from, choices);
    const rest = text.subarray(start);
    const found = rest.length === 0 ? 'the end of the text' : shown(rest.subarray(0, most), from);
    return `${shown(bytesOf(part.text))} needs ${words}, found ${found}`;
}

function partAt(sheet, pattern, number, { date }) {
    return unlessRefused(() => sheet.split(pattern, { date })[number]);
}

/** How many bytes the parts before take. */
function readBefore(sheet, before, text, choices) {
    return unlessRefused(() => sheet.read(before, text, ANY_YEAR, { ...choices, strict: false }).taken);
}

/** What is answered; nothing where it is refused. */
function unlessRefused(asked) {
    try {
        return asked();
    } catch (error) {
        if (error instanceof Refusal) {
            return undefined;
        }
        throw error;
    }
}

/** What a part wants, in words, and the most bytes that it takes. A literal wants what it stands for, or as many bytes of any. */
function wanted(sheet, part, from, { strict, edition, book }) {
    if (part.literal === null) {
        return wantedBy(part.text[0], part.length, edition, (book ?? sheet.englishBook()).names);
    }
    const literal = bytesOf(part.literal);
    return strict ? [shown(literal, from), literal.length] : bytes(literal.length);
}

/** What each symbol wants at each count, as the specification's table says; in the second edition a single M as much as d. */
function wantedBy(symbol, count, edition, names) {
    switch (symbol) {
        case 'G': return era(count);
        case 'y': return year(count);
        case 'q': return quarter(count);
        case 'M': return month(count, edition, names);
        case 'w': return count === 1 ? bytes(1, 2) : bytes(2);
        case 'D': return digits(count === 2 || count === 3 ? count : 1, 3);
        case 'e': return weekday(count, names);
        case 'a': return period(count);
        case 'b': return periodWithNoon(count);
        case 'n': return fraction(count);
        case 'X': return zone(count, '`Z` or ');
        case 'x': return zone(count, '');
        default: return count === 1 ? digits(1, 2) : digits(2);
    }
}

function bytes(least, most = least) {
    return [countedWords(least, most, 'byte'), most];
}

function digits(least, most = least) {
    return [countedWords(least, most, 'digit'), most];
}

/** A name of a list, of which one is shown. */
function name(what, names, place) {
    return [`a ${what} such as \`${names[place]}\``, Math.max(...names.map((one) => one.length))];
}

function era(count) {
    if (count <= 3) {
        return bytes(2);
    }
    return count === 5 ? bytes(1) : ['`Before Christ` or `Anno Domini`', 13];
}

/** From ten digits on there are some that make no year. */
function year(count) {
    if (count === 1 || count === 3 || count === 4) {
        return ['a year in digits, 2147483647 at most', 11];
    }
    const [words] = digits(count);
    return [`${words}, or \`-\` and ${words}${count < 10 ? '' : ', 2147483647 at most'}`, count + 1];
}

function quarter(count) {
    if (count === 4) {
        return ['a quarter such as `4th quarter`', 11];
    }
    return count === 2 || count === 3 ? bytes(2) : bytes(1);
}

function month(count, edition, { shortMonths, wideMonths }) {
    switch (count) {
        case 1: return digits(1, edition === 2 ? 2 : 1);
        case 2: return digits(2);
        case 3: return name('month', shortMonths, 11);
        case 5: return bytes(1);
        default: return name('month', wideMonths, 11);
    }
}

function weekday(count, { wideWeekdays }) {
    switch (count) {
        case 2: case 6: case 8: return bytes(2);
        case 3: return bytes(3);
        case 4: return name('weekday', wideWeekdays, 3);
        default: return bytes(1);
    }
}

function period(count) {
    switch (count) {
        case 4: return ['`a.m.` or `p.m.`', 4];
        case 5: return ['`a` or `p`', 1];
        default: return ['`am`, `AM`, `pm` or `PM`', 2];
    }
}

function periodWithNoon(count) {
    switch (count) {
        case 4: return ['`a.m.`, `midnight`, `p.m.` or `noon`', 8];
        case 5: return ['`a`, `mi`, `p` or `n`', 2];
        default: return ['`am`, `AM`, `midnight`, `pm`, `PM` or `noon`', 8];
    }
}

function fraction(count) {
    return digits([1, 2, 3, 6, 9][count - 1] ?? 3);
}

function zone(count, zero) {
    const [forms, most] = {
        1: ['`+05` or `+0530`', 5],
        2: ['`+0530`', 5],
        4: ['`+0530` or `+053009`', 7],
        5: ['`+05:30` or `+05:30:09`', 9],
    }[count] ?? ['`+05:30`', 6];
    return [`${zero}an offset such as ${forms}`, most];
}

/** What the check answers, in one sentence. */
function explainedCheck(sheet, pattern, currentYear, choices) {
    const verdict = sheet.check(pattern, currentYear, choices);
    if (verdict.trusted) {
        return 'on every day each part reads just what it wrote';
    }
    return ofANo(sheet, bytesOf(pattern), currentYear, verdict, choices);
}

/** The sentence. The parts before the one that fails come back, so that it is read from where its own text starts. */
function ofANo(sheet, pattern, currentYear, { part: number, record }, choices) {
    const part = sheet.split(pattern)[number];
    const text = bytesOf(sheet.write(pattern, record));
    const start = sheet.write(pattern.subarray(0, part.start), record).length;
    const own = bytesOf(sheet.write(part.text, record));
    const day = sheet.write(dayShown(part.unit), record);
    const from = start < MOST_SHOWN ? 0 : start;
    const takes = cameBack(sheet, part.text, text.subarray(start), own, currentYear, choices);
    return `part ${number}, ${shown(bytesOf(part.text))}: on ${day} the text is ${shown(text, from)}; ${takes}`;
}

/** The pattern for the day, with the time or the offset where a part shows it. */
function dayShown(unit) {
    if (unit === 'offset') {
        return "eeee, d MMMM y 'at the offset' xxx";
    }
    return units.indexOf(unit) >= units.indexOf('hour') ? "eeee, d MMMM y 'at' HH:mm:ss" : 'eeee, d MMMM y';
}

/** What a part takes of a text that starts with its own, or why it can't be read. */
function cameBack(sheet, symbol, text, own, currentYear, choices) {
    const ofOwn = `, of which ${shown(own)} is its own`;
    let reading;
    try {
        reading = sheet.read(symbol, text, currentYear, choices);
    } catch (refusal) {
        if (!(refusal instanceof Refusal)) {
            throw refusal;
        }
        return sheet.explain(symbol, text, refusal, choices) + (own.length < text.length ? ofOwn : '');
    }
    const takes = `${shown(bytesOf(symbol))} takes ${shown(text.subarray(0, reading.taken))}`;
    if (reading.taken !== own.length) {
        return reading.taken < own.length ? `${takes} of ${shown(own)}` : takes + ofOwn;
    }
    const [value] = Object.values(reading.values);
    return value === undefined ? takes : `${takes} as ${value}`;
}

/** Each change of a mending in a sentence; of spaces also why they were put in. */
function explainedMending(sheet, { pattern, changes }) {
    return changes.map((change) => unlessRefused(() => whySpaces(sheet, pattern, change)) ?? plainly(change));
}

function plainly({ byte, before, after }) {
    if (before > 0) {
        return `${repeated(byte, before)} became ${repeated(byte, after)}`;
    }
    if (byte === "'") {
        return 'the quote at the end was closed';
    }
    return `${byte === ' ' ? countedSpaces(after) : repeated(byte, after)} put in`;
}

/** A byte so many times, as far as it is shown. */
function repeated(byte, times) {
    return shown(Uint8Array.from({ length: Math.min(times, MOST_SHOWN + 1) }, () => byte.charCodeAt(0)));
}

/** As in `a space`, `two spaces`. */
function countedSpaces(count) {
    return count === 1 ? 'a space' : `${spelled(count)} spaces`;
}

/** The sentence for spaces that were put behind a part; none where the pattern is another than the changes are of. */
function whySpaces(sheet, pattern, { place, byte, before, after }) {
    if (before !== 0 || byte !== ' ' || place + after > pattern.length) {
        return null;
    }
    const disturbed = sheet.split(pattern.slice(0, place)).at(-1);
    const parts = sheet.split(pattern.slice(place + after));
    const why = disturbed && (after === 1 ? firstDigit(parts[0], '') : secondDigit(sheet, disturbed, parts));
    return why ? `${countedSpaces(after)} after ${shownPart(disturbed)}, since ${why}` : null;
}

function shownPart(part) {
    return shown(bytesOf(part.text));
}

/** Which digit a part has in front. */
function firstDigit(part, whereItIs) {
    if (!part) {
        return null;
    }
    if (part.literal === null) {
        return `${shownPart(part)}${whereItIs} can begin with a digit`;
    }
    return `${shownPart(part)}${whereItIs} ${part.length === 1 ? 'is a digit' : 'begins with a digit'}`;
}

/** Which digit can stand a byte further: the next part's own, or the first of the one behind where the next can be one byte. */
function secondDigit(sheet, disturbed, [next, behind]) {
    if (!next) {
        return null;
    }
    if (failsBefore(sheet, disturbed, next)) {
        return `${shownPart(next)} ${next.literal === null ? 'can have' : 'has'} a digit as its second byte`;
    }
    return firstDigit(behind, ` behind ${shownPart(next)}`);
}

/** Whether the check says no to a part because of another alone. */
function failsBefore(sheet, part, other) {
    const verdict = sheet.check(part.text + other.text, ANY_YEAR);
    return !verdict.trusted && verdict.part === 0;
}

const NOT_STAMP = 25;
const STAMP_RANGE = 26;

/** Where the date and the time have their signs; all other places up to the last have a digit. */
const SIGNS = new Map([[4, '`-`'], [7, '`-`'], [10, '`T`'], [13, '`:`'], [16, '`:`']]);
/** How many bytes the date and the time have. */
const SECONDS_END = 19;
const OFFSET_LENGTH = 6;

/** What stood in a text that is no stamp and what was wanted, or which number is out of its range. */
function explainedStamp(text, refusal) {
    const bytes = bytesOf(text);
    if (refusal.number === NOT_STAMP) {
        return whereItStops(bytes, refusal.details[0]) ?? refusal.message;
    }
    return (refusal.number === STAMP_RANGE && outOfRange(bytes)) || refusal.message;
}

/** The sentence of 25, where the text has such a place. */
function whereItStops(bytes, place) {
    if (place > bytes.length) {
        return null;
    }
    const wanted = wantedAt(bytes, place);
    return place === bytes.length
        ? `the stamp ends too soon: it needs ${wanted}`
        : `the stamp can't go on at ${shown(bytes.subarray(place))}: it needs ${wanted}`;
}

/** What a stamp has at a place up to which it is one. */
function wantedAt(bytes, place) {
    if (place < SECONDS_END) {
        return SIGNS.get(place) ?? 'a digit';
    }
    const [, fraction, zone] = /^(\.\d*)?(.*)$/s.exec(asciiOf(bytes.subarray(SECONDS_END, place)));
    if (zone === '') {
        return wantedBehind(fraction);
    }
    if (zone.toUpperCase() === 'Z' || zone.length === OFFSET_LENGTH) {
        return 'the end';
    }
    return zone.length === 3 ? '`:`' : 'a digit';
}

/** Behind the seconds, and a fraction that may be there. */
function wantedBehind(fraction) {
    switch (fraction) {
        case undefined: return '`.` and digits, `Z`, or an offset such as `+05:30`';
        case '.': return 'a digit';
        default: return 'one more digit, `Z`, or an offset such as `+05:30`';
    }
}

function asciiOf(bytes) {
    return String.fromCharCode(...bytes);
}

/** The sentence of 26, which has no detail: the first number of the stamp that is not in its range. */
function outOfRange(bytes) {
    const offset = bytes.length - OFFSET_LENGTH;
    const numbers = [
        ["stamp's month", 5, 1, 12],
        ["stamp's day", 8, 1, 31],
        ["stamp's hour", 11, 0, 23],
        ["stamp's minute", 14, 0, 59],
        ["stamp's second", 17, 0, 60],
        ["hour of the stamp's offset", offset + 1, 0, 23],
        ["minute of the stamp's offset", offset + 4, 0, 59],
    ];
    for (const [name, at, first, last] of numbers) {
        const digits = asciiOf(bytes.subarray(Math.max(at, 0), Math.max(at + 2, 0)));
        if (/^\d\d$/.test(digits) && (Number(digits) < first || Number(digits) > last)) {
            return `the ${name} is ${digits}, not ${String(first).padStart(2, '0')} to ${last}`;
        }
    }
    return null;
}

const LONGEST_MENDED = 256;
const LONGEST_STAMP = 35;
const DAY_ANSWER = 6;
const STAMP_ANSWER = 6;
const SPLIT_PARTS = 768;
const UNITS_ROW = 256;
const CHANGES_ROW = 512;
const CHANGE = 4;
const MISFIT = 104;

/** Groups of so many entries, as numbers. */
function* inGroups(row, size, count) {
    for (let k = 0; k < count; k += 1) {
        yield numbersOf(row, size * k, size * (k + 1));
    }
}

class Sheet {
    #memory;

    constructor(memory) {
        this.#memory = memory;
    }

    call(name, ...lent) {
        return this.#memory.call(name, ...lent);
    }

    write(pattern, fields, choices = {}) {
        const lent = [numberOf(choices), rowOfBook(choices.book), pattern];
        return writtenBy(this.#memory, 'sheet_write_by', pattern.length, lent, fields);
    }

    read(pattern, text, currentYear, choices = {}) {
        return readBy(this.#memory, 'sheet_read_by', pattern, text, currentYear, choices);
    }

    wasRead({ mask }, unit) {
        return this.call('sheet_was_read', entry('mask', mask), units.indexOf(unit)) === 1;
    }

    check(pattern, currentYear, { edition } = {}) {
        return checkedBy(this.#memory, 'sheet_check_with', pattern, currentYear, edition);
    }

    split(pattern, { date = false } = {}) {
        const bytes = bytesOf(pattern);
        const [parts, ofParts, answer] = [SPLIT_PARTS, UNITS_ROW, 2].map((entries) => new BigInt64Array(entries));
        unlessAccepted(this.call('sheet_split', bytes, answer, parts), answer);
        unlessAccepted(this.call('sheet_units', bytes, answer, ofParts), answer);
        const groups = inGroups(parts, 3, Number(answer[0]));
        return Array.from(groups, (part, k) => partOf(bytes, part, Number(ofParts[k]), date));
    }

    mend(pattern, currentYear, { edition } = {}) {
        const out = new Uint8Array(LONGEST_MENDED);
        const row = new BigInt64Array(CHANGES_ROW);
        const year = signed('currentYear', currentYear);
        const [length, count] = asked(this.#memory, 'sheet_mend', 2, numberOf({ edition }), pattern, year, out, row);
        const changes = Array.from(inGroups(row, CHANGE, Number(count)), ([place, byte, before, after]) => {
            return { place, byte: String.fromCharCode(byte), before, after };
        });
        return { pattern: textOf(out.subarray(0, Number(length))), changes };
    }

    undo(pattern, changes) {
        const bytes = bytesOf(pattern);
        const row = BigInt64Array.from(changes.flatMap(({ place, byte, before, after }) => {
            return [place, byte.charCodeAt(0), before, after].map((number) => entry('a number of a change', number));
        }));
        const undone = written(this.#memory, 'sheet_undo', bytes.length, bytes, row);
        return typeof pattern === 'string' ? textOf(undone) : undone;
    }

    undoOne({ pattern, changes }, number) {
        const undone = changes[number];
        if (!undone) {
            throw new Refusal(MISFIT, []);
        }
        const moved = changes.slice(number + 1).map((change) => {
            return { ...change, place: change.place - (undone.after - undone.before) };
        });
        return { pattern: this.undo(pattern, [undone]), changes: [...changes.slice(0, number), ...moved] };
    }

    dayOf(number) {
        return dayOf(asked(this.#memory, 'sheet_day', DAY_ANSWER, signed('number', number)));
    }

    dayNumber(year, month, day) {
        const given = [signed('year', year), unsigned('month', month), unsigned('day', day)];
        return Number(asked(this.#memory, 'sheet_day_number', 2, ...given)[0]);
    }

    readList(pattern, text, currentYear, choices = {}) {
        return listedBy(this.#memory, 'sheet_read_list', pattern, text, currentYear, choices);
    }

    lines(pattern, text, currentYear, choices = {}) {
        const year = signed('currentYear', currentYear);
        return linesOf(this.#memory, [numberOf(choices), rowOfBook(choices.book), pattern], bytesOf(text), year);
    }

    parseOffset(text) {
        return Number(asked(this.#memory, 'sheet_parse_offset', 2, text)[0]);
    }

    readStamp(text) {
        const row = asked(this.#memory, 'sheet_rfc_read', STAMP_ANSWER, text);
        const [year, month, day, nanoseconds, offset, unknown] = numbersOf(row, 0, STAMP_ANSWER);
        return { year, month, day, nanoseconds, offset, unknown: unknown === 1 };
    }

    writeStamp({ year, month, day, nanoseconds, offset, unknown = false }) {
        const given = [signed('year', year), unsigned('month', month), unsigned('day', day)];
        given.push(unsigned64('nanoseconds', nanoseconds), signed('offset', offset), unknown ? 1 : 0);
        return textOf(written(this.#memory, 'sheet_rfc_write', LONGEST_STAMP, ...given));
    }

    readBook(bytes) {
        return new Book(written(this.#memory, 'sheet_book_read', BOOK_ROW, bytes));
    }

    makeBook(names) {
        const book = new Book(rowOfNames(names));
        this.writeBook(book);
        return book;
    }

    writeBook(book) {
        return written(this.#memory, 'sheet_book_write', LONGEST_BOOK, rowOfBook(book));
    }

    englishBook() {
        return this.readBook(this.writeBook(null));
    }

    prepare(pattern, choices = {}) {
        return new Prepared(this.#memory, pattern, choices);
    }

    explain(pattern, text, refusal, choices = {}) {
        return explained(this, pattern, text, refusal, choices);
    }

    explainCheck(pattern, currentYear, { edition } = {}) {
        return explainedCheck(this, pattern, currentYear, { edition });
    }

    explainMending(mending) {
        return explainedMending(this, mending);
    }

    explainStamp(text, refusal) {
        return explainedStamp(text, refusal);
    }
}

/** The bytes at a place: of a file in node, which does not fetch those, else fetched. */
async function bytesFrom(place) {
    if (isFile(place)) {
        const { readFile } = await import('node:fs/promises');
        return readFile(/^file:/.test(place) ? new URL(place) : place);
    }
    const response = await fetch(place);
    if (!response.ok) {
        throw new Error(`${place} can't be fetched: ${response.status}`);
    }
    return response.arrayBuffer();
}

function isFile(place) {
    return typeof process !== 'undefined' && process.versions?.node && !/^https?:/.test(place);
}

/** The bytes of sheet.wasm, which stands beside the module. */
function bytesBeside() {
    return bytesFrom(new URL('sheet.wasm', import.meta.url));
}

async function open(source) {
    const { instance } = await WebAssembly.instantiate(await bytesOfModule(source));
    return new Sheet(new Memory(instance.exports));
}

function bytesOfModule(source) {
    if (source === undefined) {
        return bytesBeside();
    }
    return typeof source === 'string' || source instanceof URL ? bytesFrom(source) : source;
}

export { Refusal, charPlace, open, units };

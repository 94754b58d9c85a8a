/**
 * Dates, times and zone offsets by patterns such as `yyyy/MM/dd`, numbers of days, and stamps of RFC 3339.
 *
 * `docs/SPECIFICATION.md` says what a pattern means, `sheet.h` what each function of the library answers and refuses. Places in a
 * pattern or a text are counted from 0 in bytes of UTF-8, as the library counts them; patterns and texts that are accepted are
 * plain ASCII, where a byte is a character. {@link charPlace} is for the others.
 */

/** A pattern or a text: a string, which is lent as UTF-8, or bytes. */
export type Text = string | Uint8Array;

/** Bytes, or the entries of a row. */
export type Lent = Uint8Array | BigInt64Array | BigUint64Array | Int32Array | Uint32Array;

/** What can be read. `period` is 0 before noon and 1 from noon on, `offset` is in seconds east of UTC. */
export type Unit =
    | 'year' | 'month' | 'dayOfMonth' | 'dayOfYear' | 'hour' | 'period' | 'periodHour' | 'minute' | 'second'
    | 'decis' | 'centis' | 'millis' | 'micros' | 'nanos' | 'offset';

/** All units, in the order of the mask's bits. */
export const units: readonly Unit[];

/** What is written: a date, a time of day and an offset. The fields need not agree with each other. */
export interface Fields {
    /** -5,879,611 to 5,879,611; there is no year 0. */
    year: number;
    /** 1 to 12. */
    month: number;
    /** 1 to 31. */
    day: number;
    /** 1 to 366. */
    dayOfYear: number;
    /** 1 to 53. */
    week: number;
    /** 0 to 6, from Sunday. */
    weekday: number;
    /** Since the start of the day, 0 to 86,399,999,999,999; 0 where it is left out. */
    nanoseconds?: number | bigint;
    /** In seconds east of UTC, -86,399 to 86,399; 0 where it is left out. */
    offset?: number;
}

/** A day of the Gregorian calendar, also of times before it was in use. It can be written as it is. */
export interface Day {
    year: number;
    month: number;
    day: number;
    dayOfYear: number;
    /** By ISO 8601: at the ends of a year it may be a week of the year before or behind it. */
    week: number;
    weekday: number;
}

/** A record that a check shows: all eight fields. */
export type Shown = Day & { nanoseconds: number; offset: number };

/** A stamp of RFC 3339, such as `2025-12-03T07:05:09.5+05:30`. */
export interface Stamp {
    /** 1 to 9999. */
    year: number;
    month: number;
    day: number;
    /** Since the start of the day. */
    nanoseconds: number;
    /** In seconds east of UTC, of whole minutes. */
    offset: number;
    /** Whether the offset is unknown: it is written `-00:00`, and is 0. */
    unknown: boolean;
}

/** Which edition of the rules a text is read by; 1 where it is left out. */
export interface EditionChoice {
    /** In edition 2 a single `M` takes one digit or two, and a year of two digits is one around the current year. */
    edition?: 1 | 2;
}

/** For which pair of functions a pattern is. */
export interface PairChoice {
    /** For dates alone: time symbols stand for themselves. */
    date?: boolean;
}

/** Which names are written and read; the English ones where it is left out. */
export interface BookChoice {
    book?: Book;
}

/** How a text is to be read. */
export interface ReadChoices extends EditionChoice, PairChoice, BookChoice {
    /** Each byte of a literal has to be the one that it stands for, and nothing may be left over. */
    strict?: boolean;
}

/** How a record is to be written. The choices for reading make no difference, so that the same can be given to both. */
export type WriteChoices = ReadChoices;

/** From a place to the one behind the last byte. */
export interface Span {
    start: number;
    end: number;
}

/** What a text was read as. */
export interface Reading {
    /** How many bytes were read; the text may have a rest. */
    taken: number;
    /** Bit k is set where unit k was read. */
    mask: number;
    /** By unit, of those that were read. Where several parts read the same unit, the last one's. No value is held to a range. */
    values: Partial<Record<Unit, number>>;
    /** By unit, of those that were read: all that its part took of the text, a sign included. */
    spans: Partial<Record<Unit, Span>>;
}

/** A part of a pattern. */
export interface Part {
    /** Equal bytes side by side, escaped quotes, a part in quotes, or one that no quote closes. */
    kind: 'run' | 'quotes' | 'quoted' | 'open';
    /** Where it starts in the pattern. */
    start: number;
    /** How many bytes of the pattern it has, quotes included. */
    length: number;
    /** Its bytes as they stand in the pattern. */
    text: string;
    /** What it stands for, where it is a literal; null for a symbol. */
    literal: string | null;
    /** The unit that it carries; null for a literal, and for a symbol that carries nothing. */
    unit: Unit | null;
}

/** Whether a pattern can be trusted to read back what it wrote: yes; or the first part that fails, and a record that shows it. */
export type Verdict = { trusted: true } | { trusted: false; part: number; record: Shown };

/** What was altered at one place of a pattern. */
export interface Change {
    /** Where in the mended pattern it is. */
    place: number;
    /** The byte that was put there, as a character. */
    byte: string;
    /** How often it stood there before. */
    before: number;
    /** How often it stands there now. */
    after: number;
}

/** A mended pattern, and what was altered of the one that was given. */
export interface Mending {
    /** The check says yes to it. */
    pattern: string;
    /** In the order of their places; none where the check says yes to the pattern that was given. */
    changes: Change[];
}

/** What a list was read as, an entry for each of its lines. */
export interface Columns {
    /** By line, the day, the month and the year that were read; 0 where none was. */
    days: Int32Array;
    months: Int32Array;
    years: Int32Array;
    /** By line, 0 where it was read, else the number of its refusal. */
    codes: Uint32Array;
}

/** A line of a list, with its own answer: one of `reading` and `refusal` is null. */
export interface Line {
    /** Which line it is, counted from 0. */
    number: number;
    /** Where in the text it starts, and where it ends, before its newline. */
    start: number;
    end: number;
    /** The line, without its newline. */
    text: string;
    /** Places in it are counted from the start of the line. */
    reading: Reading | null;
    refusal: Refusal | null;
}

/** The names of a book in seven lists, the months from January and the weekdays from Sunday. They are ASCII letters. */
export interface Names {
    /** 12 names of 2 to 20 letters; none begins another of its list. */
    wideMonths: readonly string[];
    /** 12 names of 2 to 20 letters; none begins another of its list. */
    shortMonths: readonly string[];
    /** 7 names of 2 to 20 letters; none begins another of its list. */
    wideWeekdays: readonly string[];
    /** 7 names of 3 letters. */
    shortWeekdays: readonly string[];
    /** 7 names of 2 letters. */
    twoLetterWeekdays: readonly string[];
    /** 7 names of 1 letter. */
    narrowWeekdays: readonly string[];
    /** 12 names of 1 letter. */
    narrowMonths: readonly string[];
}

/** An opened name book, as {@link Sheet.readBook} and {@link Sheet.makeBook} give it. */
export interface Book {
    readonly names: Names;
    /** The names as {@link Sheet.call} is lent them: 64 rooms of 21 bytes. */
    readonly row: Uint8Array;
}

/** Why nothing was done. */
export class Refusal extends Error {
    private constructor();
    /** Always `Refusal`. */
    readonly name: 'Refusal';
    /** 1 to 30, as the specification's table has them; 104 where changes do not fit a pattern, 105 where a row is not prepared. */
    readonly number: number;
    /** What is told with the number: one or two numbers, none from 100 on. */
    readonly details: readonly number[];
    /** What the number says, in words that need no details. */
    readonly text: string;
    /** The same with the details, in one sentence. */
    readonly message: string;
}

/**
 * A pattern that is prepared: it is split, and the rule of each of its parts is chosen, once. It is prepared for one pair; whether
 * a reading is strict, its edition and its book are chosen at each use.
 */
export interface Prepared {
    readonly pattern: string;
    /** What {@link Sheet.call} is lent in the place of the pattern. */
    readonly row: BigUint64Array;
    /** As {@link Sheet.write}. */
    write(fields: Fields, choices?: BookChoice): string;
    /** As {@link Sheet.read}. */
    read(text: Text, currentYear: number, choices?: Omit<ReadChoices, 'date'>): Reading;
    /** As {@link Sheet.check}, which is of patterns with time symbols, whichever pair was prepared. */
    check(currentYear: number, choices?: EditionChoice): Verdict;
    /** As {@link Sheet.readList}. */
    readList(text: Text, currentYear: number, choices?: Omit<ReadChoices, 'date'>): Columns;
}

/**
 * The library. Each function answers, or throws a {@link Refusal}; a {@link TypeError} or a {@link RangeError} where it is given
 * what is no number, or one that the type in `sheet.h` can't hold. No function keeps anything of a call.
 */
export interface Sheet {
    /** Writes a record by a pattern. Refuses with 1, 2, 3 or 4, the first in this order. */
    write(pattern: Text, fields: Fields, choices?: WriteChoices): string;

    /**
     * Reads a text by a pattern. `currentYear` is 1 to 9999, in edition 2 81 to 9999; a year of two digits is told by it. Refuses
     * with 1, 2, 3, 14, 6 or 7, the first in this order, then with 8 to 11, 15 or 19 at the first part that can't be read, then
     * with 16.
     */
    read(pattern: Text, text: Text, currentYear: number, choices?: ReadChoices): Reading;

    /** Whether a unit was read, by the mask of a reading. */
    wasRead(reading: Pick<Reading, 'mask'>, unit: Unit): boolean;

    /** Says whether a pattern can be trusted to read back what it wrote. Refuses with 1, 2, 3 or 14, the first in this order. */
    check(pattern: Text, currentYear: number, choices?: EditionChoice): Verdict;

    /** The parts of a pattern, in order, as an editor needs them that colours patterns. Refuses with 1 or 2. */
    split(pattern: Text, choices?: PairChoice): Part[];

    /** Mends a pattern to which the check says no, so that it says yes. Refuses as the check does, then with 30. */
    mend(pattern: Text, currentYear: number, choices?: EditionChoice): Mending;

    /**
     * Undoes changes: the pattern with what stood at the place of each before. With a mended pattern and all its changes that is
     * the one that was mended. Refuses with 104 where they do not fit.
     */
    undo(pattern: string, changes: readonly Change[]): string;
    undo(pattern: Uint8Array, changes: readonly Change[]): Uint8Array;

    /**
     * The same mending with one change undone, counted from 0: those behind it move. Refuses with 104 where there is no such
     * change.
     */
    undoOne(mending: Mending, change: number): Mending;

    /** The day of a number: 0 is 1 January of year 1, a Monday, and negative numbers are the days before. */
    dayOf(number: number): Day;

    /** The number of a day. Refuses with 17 where there is no such day, then with 18 where 32 signed bits can't hold it. */
    dayNumber(year: number, month: number, day: number): number;

    /**
     * Reads a list: each line of a text by one pattern, by itself. A newline ends a line, a last line without one counts. Refuses
     * with 1, 2, 3 or 14; a line that is refused has its number among the codes, and spoils no other.
     */
    readList(pattern: Text, text: Text, currentYear: number, choices?: ReadChoices): Columns;

    /** The lines of a list one by one, each with where its values stand or why it is refused. */
    lines(pattern: Text, text: Text, currentYear: number, choices?: ReadChoices): IterableIterator<Line>;

    /** Reads an offset by itself, such as `+05:30`, or `Z`, and answers its seconds. Refuses with 6, 7, 12, 19, 9 or 13. */
    parseOffset(text: Text): number;

    /** Reads a stamp of RFC 3339, and nothing behind it. Refuses with 6, 7, 25, 26, 27, 28 or 17, the first in this order. */
    readStamp(text: Text): Stamp;

    /** Writes a stamp of RFC 3339. Refuses with 4, 28, 17 or 29, the first in this order. */
    writeStamp(stamp: Stamp): string;

    /** Opens the bytes of a book file, of version 1 or 2. Refuses with 20, 21, 22 or 23. */
    readBook(bytes: Uint8Array): Book;

    /** Makes a book of names: of seven lists, or of all 64 in book order. Refuses with 23 at the first that breaks a rule. */
    makeBook(names: Names | readonly string[]): Book;

    /** The bytes of a book file with its names, of version 1. */
    writeBook(book: Book): Uint8Array;

    /** The book of the names that are used without one. */
    englishBook(): Book;

    /** Prepares a pattern, for one that is used again and again. Refuses with 1, 2 or 3. */
    prepare(pattern: Text, choices?: PairChoice): Prepared;

    /**
     * Says of a text that was refused, by the same pattern and choices, what stood there and what was wanted: `` `dd` needs two
     * digits, found `3/` ``. A refusal that is not of a part is said as its message says it.
     */
    explain(pattern: Text, text: Text, refusal: Refusal, choices?: ReadChoices): string;

    /**
     * Says what the check answers in one sentence: of a no the part, the day, what is written on it, and what the part takes of
     * that.
     */
    explainCheck(pattern: Text, currentYear: number, choices?: EditionChoice): string;

    /**
     * Each change of a mending in a sentence: what became of a part, or behind which part spaces were put, and what can follow
     * it.
     */
    explainMending(mending: Mending): string[];

    /**
     * Says of a text that {@link readStamp} refused what stood there and what was wanted, or which number is out of its range.
     */
    explainStamp(text: Text, refusal: Refusal): string;

    /**
     * Calls a function of `sheet.h` by its name, and gives back the number that it returned. A pointer and its length are one
     * argument: a string or a `Uint8Array` for bytes, for a row an array of its type, such as a `BigInt64Array`. What the
     * function alters is altered in the array that was given. A number of 64 bits is a bigint.
     */
    call(name: string, ...lent: (number | bigint | string | Lent)[]): number;
}

/**
 * Opens the library: from `sheet.wasm` beside this module, which is read in node and fetched in a browser; from another place; or
 * from bytes. The script `sheet.js`, for pages that are opened from a file, has the bytes in it, and gives this function as
 * `openSheet`, with `openSheet.Refusal`, `openSheet.charPlace` and `openSheet.units`.
 */
export function open(source?: string | URL | ArrayBuffer | ArrayBufferView): Promise<Sheet>;

/** The place in a string, in its own units, of the character that has a byte at this place of the string's UTF-8. */
export function charPlace(text: string, bytePlace: number): number;

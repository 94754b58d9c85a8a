import { dayOf, partOf, textOf, units } from './answers.mjs';
import { BOOK_ROW, Book, LONGEST_BOOK, rowOfNames } from './book.mjs';
import { entry, numberOf, signed, unsigned, unsigned64 } from './choices.mjs';
import { explained } from './explaining.mjs';
import { explainedCheck } from './explaining_checks.mjs';
import { explainedMending } from './explaining_mending.mjs';
import { explainedStamp } from './explaining_stamps.mjs';
import { asked, checkedBy, listedBy, readBy, rowOfBook, written, writtenBy } from './jobs.mjs';
import { linesOf } from './lists.mjs';
import { bytesOf, numbersOf } from './memory.mjs';
import { Prepared } from './prepared.mjs';
import { Refusal, unlessAccepted } from './refusal.mjs';

const LONGEST_MENDED = 256;
const LONGEST_STAMP = 35;
const DAY_ANSWER = 6;
const STAMP_ANSWER = 6;
const SPLIT_PARTS = 768;
const UNITS_ROW = 256;
const CHANGES_ROW = 512;
const CHANGE = 4;
const MISFIT = 104;

/** Groups of so many entries, as numbers. */
function* inGroups(row, size, count) {
    for (let k = 0; k < count; k += 1) {
        yield numbersOf(row, size * k, size * (k + 1));
    }
}

export class Sheet {
    #memory;

    constructor(memory) {
        this.#memory = memory;
    }

    call(name, ...lent) {
        return this.#memory.call(name, ...lent);
    }

    write(pattern, fields, choices = {}) {
        const lent = [numberOf(choices), rowOfBook(choices.book), pattern];
        return writtenBy(this.#memory, 'sheet_write_by', pattern.length, lent, fields);
    }

    read(pattern, text, currentYear, choices = {}) {
        return readBy(this.#memory, 'sheet_read_by', pattern, text, currentYear, choices);
    }

    wasRead({ mask }, unit) {
        return this.call('sheet_was_read', entry('mask', mask), units.indexOf(unit)) === 1;
    }

    check(pattern, currentYear, { edition } = {}) {
        return checkedBy(this.#memory, 'sheet_check_with', pattern, currentYear, edition);
    }

    split(pattern, { date = false } = {}) {
        const bytes = bytesOf(pattern);
        const [parts, ofParts, answer] = [SPLIT_PARTS, UNITS_ROW, 2].map((entries) => new BigInt64Array(entries));
        unlessAccepted(this.call('sheet_split', bytes, answer, parts), answer);
        unlessAccepted(this.call('sheet_units', bytes, answer, ofParts), answer);
        const groups = inGroups(parts, 3, Number(answer[0]));
        return Array.from(groups, (part, k) => partOf(bytes, part, Number(ofParts[k]), date));
    }

    mend(pattern, currentYear, { edition } = {}) {
        const out = new Uint8Array(LONGEST_MENDED);
        const row = new BigInt64Array(CHANGES_ROW);
        const year = signed('currentYear', currentYear);
        const [length, count] = asked(this.#memory, 'sheet_mend', 2, numberOf({ edition }), pattern, year, out, row);
        const changes = Array.from(inGroups(row, CHANGE, Number(count)), ([place, byte, before, after]) => {
            return { place, byte: String.fromCharCode(byte), before, after };
        });
        return { pattern: textOf(out.subarray(0, Number(length))), changes };
    }

    undo(pattern, changes) {
        const bytes = bytesOf(pattern);
        const row = BigInt64Array.from(changes.flatMap(({ place, byte, before, after }) => {
            return [place, byte.charCodeAt(0), before, after].map((number) => entry('a number of a change', number));
        }));
        const undone = written(this.#memory, 'sheet_undo', bytes.length, bytes, row);
        return typeof pattern === 'string' ? textOf(undone) : undone;
    }

    undoOne({ pattern, changes }, number) {
        const undone = changes[number];
        if (!undone) {
            throw new Refusal(MISFIT, []);
        }
        const moved = changes.slice(number + 1).map((change) => {
            return { ...change, place: change.place - (undone.after - undone.before) };
        });
        return { pattern: this.undo(pattern, [undone]), changes: [...changes.slice(0, number), ...moved] };
    }

    dayOf(number) {
        return dayOf(asked(this.#memory, 'sheet_day', DAY_ANSWER, signed('number', number)));
    }

    dayNumber(year, month, day) {
        const given = [signed('year', year), unsigned('month', month), unsigned('day', day)];
        return Number(asked(this.#memory, 'sheet_day_number', 2, ...given)[0]);
    }

    readList(pattern, text, currentYear, choices = {}) {
        return listedBy(this.#memory, 'sheet_read_list', pattern, text, currentYear, choices);
    }

    lines(pattern, text, currentYear, choices = {}) {
        const year = signed('currentYear', currentYear);
        return linesOf(this.#memory, [numberOf(choices), rowOfBook(choices.book), pattern], bytesOf(text), year);
    }

    parseOffset(text) {
        return Number(asked(this.#memory, 'sheet_parse_offset', 2, text)[0]);
    }

    readStamp(text) {
        const row = asked(this.#memory, 'sheet_rfc_read', STAMP_ANSWER, text);
        const [year, month, day, nanoseconds, offset, unknown] = numbersOf(row, 0, STAMP_ANSWER);
        return { year, month, day, nanoseconds, offset, unknown: unknown === 1 };
    }

    writeStamp({ year, month, day, nanoseconds, offset, unknown = false }) {
        const given = [signed('year', year), unsigned('month', month), unsigned('day', day)];
        given.push(unsigned64('nanoseconds', nanoseconds), signed('offset', offset), unknown ? 1 : 0);
        return textOf(written(this.#memory, 'sheet_rfc_write', LONGEST_STAMP, ...given));
    }

    readBook(bytes) {
        return new Book(written(this.#memory, 'sheet_book_read', BOOK_ROW, bytes));
    }

    makeBook(names) {
        const book = new Book(rowOfNames(names));
        this.writeBook(book);
        return book;
    }

    writeBook(book) {
        return written(this.#memory, 'sheet_book_write', LONGEST_BOOK, rowOfBook(book));
    }

    englishBook() {
        return this.readBook(this.writeBook(null));
    }

    prepare(pattern, choices = {}) {
        return new Prepared(this.#memory, pattern, choices);
    }

    explain(pattern, text, refusal, choices = {}) {
        return explained(this, pattern, text, refusal, choices);
    }

    explainCheck(pattern, currentYear, { edition } = {}) {
        return explainedCheck(this, pattern, currentYear, { edition });
    }

    explainMending(mending) {
        return explainedMending(this, mending);
    }

    explainStamp(text, refusal) {
        return explainedStamp(text, refusal);
    }
}

import { textOf } from './answers.mjs';
import { numberOf } from './choices.mjs';
import { asked, checkedBy, listedBy, readBy, rowOfBook, writtenBy } from './jobs.mjs';
import { bytesOf } from './memory.mjs';

const PREPARED_ROW = 259;

export class Prepared {
    #memory;

    constructor(memory, pattern, { date }) {
        this.#memory = memory;
        this.pattern = textOf(bytesOf(pattern));
        this.row = new BigUint64Array(PREPARED_ROW);
        asked(memory, 'sheet_prepare', 2, numberOf({ date }), pattern, this.row);
    }

    write(fields, { book } = {}) {
        return writtenBy(this.#memory, 'sheet_prepared_write', this.pattern.length, [rowOfBook(book), this.row], fields);
    }

    read(text, currentYear, { strict, edition, book } = {}) {
        return readBy(this.#memory, 'sheet_prepared_read', this.row, text, currentYear, { strict, edition, book });
    }

    check(currentYear, { edition } = {}) {
        return checkedBy(this.#memory, 'sheet_prepared_check', this.row, currentYear, edition);
    }

    readList(text, currentYear, { strict, edition, book } = {}) {
        return listedBy(this.#memory, 'sheet_prepared_read_list', this.row, text, currentYear, { strict, edition, book });
    }
}

/** What is thrown where a line is no request. */
export const BAD_REQUEST = new Error('bad request');

const FIELDS = ['year', 'month', 'day', 'dayOfYear', 'week', 'weekday', 'nanoseconds', 'offset'];

export function wanted(value) {
    if (value === undefined || value === null || value === false) {
        throw BAD_REQUEST;
    }
    return value;
}

/** Bytes as a word: two lowercase digits each, `-` for none. */
export function encoded(bytes) {
    return bytes.length === 0 ? '-' : Buffer.from(bytes).toString('hex');
}

function decoded(word) {
    if (word === '-') {
        return new Uint8Array(0);
    }
    return /^([0-9a-f]{2})+$/.test(word) ? new Uint8Array(Buffer.from(word, 'hex')) : null;
}

/** The words of a line, separated by one space, each taken as what a request asks for next. */
export class Words {
    constructor(line) {
        this.left = line.split(' ');
    }

    word() {
        return wanted(this.left.shift());
    }

    takes(word) {
        return this.left[0] === word && this.left.shift() === word;
    }

    end() {
        wanted(this.left.length === 0);
    }

    bytes() {
        return wanted(decoded(this.word()));
    }

    /** The bytes of a book where the next word is `book:` and a byte string; else none. */
    book() {
        const bytes = this.left[0]?.startsWith('book:') ? decoded(this.left[0].slice('book:'.length)) : null;
        if (bytes) {
            this.left.shift();
        }
        return bytes;
    }

    edition() {
        return this.takes('second') ? 2 : 1;
    }

    /** A number that its type holds: digits, behind a `-` where the type has signs. */
    #number(form, least, most) {
        const word = this.word();
        wanted(form.test(word));
        const number = BigInt(word);
        wanted(number >= least && number <= most);
        return number;
    }

    signed() {
        return Number(this.#number(/^-?\d+$/, -(2n ** 31n), 2n ** 31n - 1n));
    }

    unsigned(most = 2 ** 32 - 1) {
        return Number(this.#number(/^\d+$/, 0n, BigInt(most)));
    }

    unsigned64() {
        return this.#number(/^\d+$/, 0n, 2n ** 64n - 1n);
    }

    fields() {
        const kinds = { year: 'signed', nanoseconds: 'unsigned64', offset: 'signed' };
        return Object.fromEntries(FIELDS.map((field) => [field, this[kinds[field] ?? 'unsigned']()]));
    }
}

/** The numbers of a record, as they are asked for. */
export function ofFields(fields) {
    return FIELDS.filter((field) => field in fields).map((field) => fields[field]);
}

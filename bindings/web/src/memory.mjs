/** Rows of 64-bit numbers begin at such places, and so does all else. */
const ALIGNED = 8;
const PAGE = 65536;

const encoder = new TextEncoder();

export function bytesOf(text) {
    return typeof text === 'string' ? encoder.encode(text) : text;
}

/** Entries of a row, from one to the one before another, as numbers. */
export function numbersOf(row, from, to) {
    const numbers = [];
    for (let k = from; k < to; k += 1) {
        numbers.push(Number(row[k]));
    }
    return numbers;
}

/** The most bytes that an argument takes of the memory: a character of a string has three at most. */
function mostBytes(lent) {
    return ALIGNED + (typeof lent === 'string' ? 3 * lent.length : (lent?.byteLength ?? 0));
}

function isNumber(lent) {
    return typeof lent === 'number' || typeof lent === 'bigint';
}

function bytesBehind(array) {
    return new Uint8Array(array.buffer, array.byteOffset, array.byteLength);
}

/** The functions of the library, and the memory in which each call is lent what it is given; a call leaves nothing there. */
export class Memory {
    #functions;
    #memory;
    #start;
    #bytes;

    constructor({ memory, __heap_base, ...functions }) {
        this.#functions = new Map(Object.entries(functions));
        this.#memory = memory;
        this.#start = Math.ceil(__heap_base.value / ALIGNED) * ALIGNED;
        this.#bytes = new Uint8Array(memory.buffer);
    }

    /** Calls a function: a string or an array is lent as a pointer and a length, and an array then has what was altered. */
    call(name, ...lent) {
        const called = this.#functions.get(name);
        if (!called) {
            throw new TypeError(`the library has no function ${name}`);
        }
        this.#makeRoom(lent);
        const given = [];
        const places = [];
        let next = this.#start;
        for (const one of lent) {
            places.push(next);
            next = this.#lend(one, next, given);
        }
        const number = called(...given) >>> 0;
        for (let k = 0; k < lent.length; k += 1) {
            this.#giveBack(lent[k], places[k]);
        }
        return number;
    }

    /** Views of a memory that has grown are of no use any more, and made anew. */
    #makeRoom(lent) {
        let end = this.#start;
        for (const one of lent) {
            end += isNumber(one) ? 0 : mostBytes(one);
        }
        const lacking = end - this.#bytes.length;
        if (lacking > 0) {
            this.#memory.grow(Math.ceil(lacking / PAGE));
            this.#bytes = new Uint8Array(this.#memory.buffer);
        }
    }

    /** Lays an argument at a place, adds what the function is given for it, and answers the next place. */
    #lend(one, place, given) {
        if (isNumber(one)) {
            given.push(one);
            return place;
        }
        let length;
        if (typeof one === 'string') {
            length = encoder.encodeInto(one, this.#bytes.subarray(place)).written;
            given.push(place, BigInt(length));
        } else if (ArrayBuffer.isView(one) && 'length' in one) {
            length = one.byteLength;
            this.#bytes.set(bytesBehind(one), place);
            given.push(place, BigInt(one.length));
        } else {
            throw new TypeError('what is lent has to be a string or an array of numbers of its type');
        }
        return place + Math.ceil(length / ALIGNED) * ALIGNED;
    }

    #giveBack(one, place) {
        if (ArrayBuffer.isView(one)) {
            bytesBehind(one).set(this.#bytes.subarray(place, place + one.byteLength));
        }
    }
}

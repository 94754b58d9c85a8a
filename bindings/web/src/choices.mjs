const DATE_PAIR = 1;
const STRICT = 2;
const SECOND_EDITION = 4;

/** The number that stands for choices. */
export function numberOf({ date = false, strict = false, edition = 1 }) {
    if (edition !== 1 && edition !== 2) {
        throw new RangeError(`edition has to be 1 or 2, and is ${edition}`);
    }
    return (date ? DATE_PAIR : 0) + (strict ? STRICT : 0) + (edition === 2 ? SECOND_EDITION : 0);
}

/** A number that the library's type holds; of any other WebAssembly would drop bits. */
function held(what, value, least, most) {
    if (!Number.isInteger(value) || value < least || value > most) {
        throw new RangeError(`${what} has to be a whole number from ${least} to ${most}, and is ${value}`);
    }
    return value;
}

export function signed(what, value) {
    return held(what, value, -(2 ** 31), 2 ** 31 - 1);
}

export function unsigned(what, value) {
    return held(what, value, 0, 2 ** 32 - 1);
}

/** As a bigint, of either kind of number. */
export function unsigned64(what, value) {
    const number = typeof value === 'bigint' || Number.isInteger(value) ? BigInt(value) : -1n;
    if (number !== BigInt.asUintN(64, number)) {
        throw new RangeError(`${what} has to be a whole number from 0 to 2^64 - 1, and is ${value}`);
    }
    return number;
}

/** An entry of a row, as a bigint. */
export function entry(what, value) {
    return BigInt(held(what, value, Number.MIN_SAFE_INTEGER, Number.MAX_SAFE_INTEGER));
}

/** The eight fields in the order of the library's arguments. */
export function fieldsInOrder({ year, month, day, dayOfYear, week, weekday, nanoseconds = 0, offset = 0 }) {
    return [
        signed('year', year),
        unsigned('month', month),
        unsigned('day', day),
        unsigned('dayOfYear', dayOfYear),
        unsigned('week', week),
        unsigned('weekday', weekday),
        unsigned64('nanoseconds', nanoseconds),
        signed('offset', offset),
    ];
}

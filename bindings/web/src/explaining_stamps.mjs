import { bytesOf } from './memory.mjs';
import { shown } from './shown.mjs';

const NOT_STAMP = 25;
const STAMP_RANGE = 26;

/** Where the date and the time have their signs; all other places up to the last have a digit. */
const SIGNS = new Map([[4, '`-`'], [7, '`-`'], [10, '`T`'], [13, '`:`'], [16, '`:`']]);
/** How many bytes the date and the time have. */
const SECONDS_END = 19;
const OFFSET_LENGTH = 6;

/** What stood in a text that is no stamp and what was wanted, or which number is out of its range. */
export function explainedStamp(text, refusal) {
    const bytes = bytesOf(text);
    if (refusal.number === NOT_STAMP) {
        return whereItStops(bytes, refusal.details[0]) ?? refusal.message;
    }
    return (refusal.number === STAMP_RANGE && outOfRange(bytes)) || refusal.message;
}

/** The sentence of 25, where the text has such a place. */
function whereItStops(bytes, place) {
    if (place > bytes.length) {
        return null;
    }
    const wanted = wantedAt(bytes, place);
    return place === bytes.length
        ? `the stamp ends too soon: it needs ${wanted}`
        : `the stamp can't go on at ${shown(bytes.subarray(place))}: it needs ${wanted}`;
}

/** What a stamp has at a place up to which it is one. */
function wantedAt(bytes, place) {
    if (place < SECONDS_END) {
        return SIGNS.get(place) ?? 'a digit';
    }
    const [, fraction, zone] = /^(\.\d*)?(.*)$/s.exec(asciiOf(bytes.subarray(SECONDS_END, place)));
    if (zone === '') {
        return wantedBehind(fraction);
    }
    if (zone.toUpperCase() === 'Z' || zone.length === OFFSET_LENGTH) {
        return 'the end';
    }
    return zone.length === 3 ? '`:`' : 'a digit';
}

/** Behind the seconds, and a fraction that may be there. */
function wantedBehind(fraction) {
    switch (fraction) {
        case undefined: return '`.` and digits, `Z`, or an offset such as `+05:30`';
        case '.': return 'a digit';
        default: return 'one more digit, `Z`, or an offset such as `+05:30`';
    }
}

function asciiOf(bytes) {
    return String.fromCharCode(...bytes);
}

/** The sentence of 26, which has no detail: the first number of the stamp that is not in its range. */
function outOfRange(bytes) {
    const offset = bytes.length - OFFSET_LENGTH;
    const numbers = [
        ["stamp's month", 5, 1, 12],
        ["stamp's day", 8, 1, 31],
        ["stamp's hour", 11, 0, 23],
        ["stamp's minute", 14, 0, 59],
        ["stamp's second", 17, 0, 60],
        ["hour of the stamp's offset", offset + 1, 0, 23],
        ["minute of the stamp's offset", offset + 4, 0, 59],
    ];
    for (const [name, at, first, last] of numbers) {
        const digits = asciiOf(bytes.subarray(Math.max(at, 0), Math.max(at + 2, 0)));
        if (/^\d\d$/.test(digits) && (Number(digits) < first || Number(digits) > last)) {
            return `the ${name} is ${digits}, not ${String(first).padStart(2, '0')} to ${last}`;
        }
    }
    return null;
}

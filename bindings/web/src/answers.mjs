import { bytesOf, numbersOf } from './memory.mjs';

export const units = Object.freeze([
    'year', 'month', 'dayOfMonth', 'dayOfYear', 'hour', 'period', 'periodHour', 'minute', 'second',
    'decis', 'centis', 'millis', 'micros', 'nanos', 'offset',
]);

const KINDS = ['run', 'quotes', 'quoted', 'open'];
const FIRST_TIME_UNIT = units.indexOf('hour');
const LITERAL = -1;
const QUOTE = 39;

/** Where in the row of a reading the values start, the places where their parts began, and those where they ended. */
const VALUES = 3;
const STARTS = 18;
const ENDS = 33;

const decoder = new TextDecoder();

export function textOf(bytes) {
    return decoder.decode(bytes);
}

export function readingOf(row) {
    const mask = Number(row[1]);
    const values = {};
    const spans = {};
    units.forEach((unit, k) => {
        if ((mask >> k) & 1) {
            values[unit] = Number(row[VALUES + k]);
            spans[unit] = { start: Number(row[STARTS + k]), end: Number(row[ENDS + k]) };
        }
    });
    return { taken: Number(row[0]), mask, values, spans };
}

export function dayOf(row) {
    const [year, month, day, dayOfYear, week, weekday] = numbersOf(row, 0, 6);
    return { year, month, day, dayOfYear, week, weekday };
}

export function verdictOf(row) {
    if (row[0] === 1n) {
        return { trusted: true };
    }
    const [part, year, month, day, dayOfYear, week, weekday, nanoseconds, offset] = numbersOf(row, 1, 10);
    return { trusted: false, part, record: { year, month, day, dayOfYear, week, weekday, nanoseconds, offset } };
}

/** A part of a pattern by its three entries and its unit's. */
export function partOf(bytes, [kind, start, length], unit, date) {
    const own = bytes.subarray(start, start + length);
    const isLiteral = unit === LITERAL || (date && unit >= FIRST_TIME_UNIT && unit < units.length);
    return {
        kind: KINDS[kind],
        start,
        length,
        text: textOf(own),
        literal: isLiteral ? textOf(standsFor(KINDS[kind], own)) : null,
        unit: isLiteral ? null : (units[unit] ?? null),
    };
}

/** The bytes that a literal stands for: an escaped quote is one, and those around a quoted part are none. */
function standsFor(kind, own) {
    const from = kind === 'open' || kind === 'quoted' ? 1 : 0;
    const inside = own.subarray(from, own.length - (kind === 'quoted' ? 1 : 0));
    const literal = [];
    for (let k = 0; k < inside.length; k += inside[k] === QUOTE ? 2 : 1) {
        literal.push(inside[k]);
    }
    return Uint8Array.from(literal);
}

export function charPlace(text, bytePlace) {
    let place = 0;
    let bytes = 0;
    for (const character of text) {
        bytes += bytesOf(character).length;
        if (bytes > bytePlace) {
            return place;
        }
        place += character.length;
    }
    return place;
}

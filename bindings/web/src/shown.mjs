/** Of a pattern or a text no more bytes are shown at once. */
export const MOST_SHOWN = 24;

const NUMBERS = ['no', 'one', 'two', 'three', 'four', 'five', 'six', 'seven', 'eight', 'nine'];

const ESCAPES = new Map([[9, '\\t'], [10, '\\n'], [13, '\\r']]);

/** Bytes as they are shown from a place on: what can't be printed is escaped, and what is long is cut. */
export function shown(bytes, from = 0) {
    const some = Array.from(bytes.subarray(from, from + MOST_SHOWN), escaped).join('');
    return `\`${dots(from > 0)}${some}${dots(bytes.length > from + MOST_SHOWN)}\``;
}

function dots(isCut) {
    return isCut ? '..' : '';
}

function escaped(byte) {
    if (byte >= 32 && byte < 127) {
        return String.fromCharCode(byte);
    }
    return ESCAPES.get(byte) ?? `\\x${byte.toString(16).padStart(2, '0')}`;
}

export function spelled(number) {
    return NUMBERS[number] ?? String(number);
}

/** As in `one digit`, `one or two digits`, `one to three digits`. */
export function countedWords(least, most, what) {
    const many = most === 1 ? '' : 's';
    if (most === least) {
        return `${spelled(most)} ${what}${many}`;
    }
    return `${spelled(least)} ${most - least === 1 ? 'or' : 'to'} ${spelled(most)} ${what}${many}`;
}

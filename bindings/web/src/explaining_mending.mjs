import { ANY_YEAR, unlessRefused } from './explaining.mjs';
import { bytesOf } from './memory.mjs';
import { MOST_SHOWN, shown, spelled } from './shown.mjs';

/** Each change of a mending in a sentence; of spaces also why they were put in. */
export function explainedMending(sheet, { pattern, changes }) {
    return changes.map((change) => unlessRefused(() => whySpaces(sheet, pattern, change)) ?? plainly(change));
}

function plainly({ byte, before, after }) {
    if (before > 0) {
        return `${repeated(byte, before)} became ${repeated(byte, after)}`;
    }
    if (byte === "'") {
        return 'the quote at the end was closed';
    }
    return `${byte === ' ' ? countedSpaces(after) : repeated(byte, after)} put in`;
}

/** A byte so many times, as far as it is shown. */
function repeated(byte, times) {
    return shown(Uint8Array.from({ length: Math.min(times, MOST_SHOWN + 1) }, () => byte.charCodeAt(0)));
}

/** As in `a space`, `two spaces`. */
function countedSpaces(count) {
    return count === 1 ? 'a space' : `${spelled(count)} spaces`;
}

/** The sentence for spaces that were put behind a part; none where the pattern is another than the changes are of. */
function whySpaces(sheet, pattern, { place, byte, before, after }) {
    if (before !== 0 || byte !== ' ' || place + after > pattern.length) {
        return null;
    }
    const disturbed = sheet.split(pattern.slice(0, place)).at(-1);
    const parts = sheet.split(pattern.slice(place + after));
    const why = disturbed && (after === 1 ? firstDigit(parts[0], '') : secondDigit(sheet, disturbed, parts));
    return why ? `${countedSpaces(after)} after ${shownPart(disturbed)}, since ${why}` : null;
}

function shownPart(part) {
    return shown(bytesOf(part.text));
}

/** Which digit a part has in front. */
function firstDigit(part, whereItIs) {
    if (!part) {
        return null;
    }
    if (part.literal === null) {
        return `${shownPart(part)}${whereItIs} can begin with a digit`;
    }
    return `${shownPart(part)}${whereItIs} ${part.length === 1 ? 'is a digit' : 'begins with a digit'}`;
}

/** Which digit can stand a byte further: the next part's own, or the first of the one behind where the next can be one byte. */
function secondDigit(sheet, disturbed, [next, behind]) {
    if (!next) {
        return null;
    }
    if (failsBefore(sheet, disturbed, next)) {
        return `${shownPart(next)} ${next.literal === null ? 'can have' : 'has'} a digit as its second byte`;
    }
    return firstDigit(behind, ` behind ${shownPart(next)}`);
}

/** Whether the check says no to a part because of another alone. */
function failsBefore(sheet, part, other) {
    const verdict = sheet.check(part.text + other.text, ANY_YEAR);
    return !verdict.trusted && verdict.part === 0;
}

import { bytesOf } from './memory.mjs';
import { Refusal, currentYears } from './refusal.mjs';
import { MOST_SHOWN, countedWords, shown } from './shown.mjs';

/** How far a part reads, and whether it is disturbed, does not depend on the current year. */
export const ANY_YEAR = 2025;

const LITERAL_DIFFERS = 15;
const TEXT_LEFT = 16;
const CURRENT_YEAR = 14;

/** What stood in a text that was refused, and what was wanted, in one sentence. */
export function explained(sheet, pattern, text, refusal, choices) {
    const { number, details } = refusal;
    if (number === TEXT_LEFT || number === LITERAL_DIFFERS) {
        if (!choices.strict) {
            return refusal.message;
        }
    }
    if (number === TEXT_LEFT) {
        return ofARest(bytesOf(text), refusal);
    }
    if (number === CURRENT_YEAR && choices.edition === 2) {
        return `${currentYears(2)}: it is ${details[0]}`;
    }
    return (details.length === 2 && ofAPart(sheet, bytesOf(pattern), bytesOf(text), details, choices)) || refusal.message;
}

/** The sentence, where the text has a rest there. */
function ofARest(text, refusal) {
    const rest = text.subarray(refusal.details[0]);
    return rest.length > 0 ? `${refusal.text}, with ${shown(rest)}` : refusal.message;
}

/**
 * The sentence, where the pattern has that part. What is found is shown from where the part begins, which is behind what the parts
 * before it read; of a literal that is too long for that, from where it differs.
 */
function ofAPart(sheet, pattern, text, [number, place], choices) {
    const part = partAt(sheet, pattern, number, choices);
    if (!part) {
        return null;
    }
    const start = readBefore(sheet, pattern.subarray(0, part.start), text, choices) ?? place;
    const from = place - start >= MOST_SHOWN ? place - start : 0;
    const [words, most] = wanted(sheet, part, from, choices);
    const rest = text.subarray(start);
    const found = rest.length === 0 ? 'the end of the text' : shown(rest.subarray(0, most), from);
    return `${shown(bytesOf(part.text))} needs ${words}, found ${found}`;
}

function partAt(sheet, pattern, number, { date }) {
    return unlessRefused(() => sheet.split(pattern, { date })[number]);
}

/** How many bytes the parts before take. */
function readBefore(sheet, before, text, choices) {
    return unlessRefused(() => sheet.read(before, text, ANY_YEAR, { ...choices, strict: false }).taken);
}

/** What is answered; nothing where it is refused. */
export function unlessRefused(asked) {
    try {
        return asked();
    } catch (error) {
        if (error instanceof Refusal) {
            return undefined;
        }
        throw error;
    }
}

/** What a part wants, in words, and the most bytes that it takes. A literal wants what it stands for, or as many bytes of any. */
function wanted(sheet, part, from, { strict, edition, book }) {
    if (part.literal === null) {
        return wantedBy(part.text[0], part.length, edition, (book ?? sheet.englishBook()).names);
    }
    const literal = bytesOf(part.literal);
    return strict ? [shown(literal, from), literal.length] : bytes(literal.length);
}

/** What each symbol wants at each count, as the specification's table says; in the second edition a single M as much as d. */
function wantedBy(symbol, count, edition, names) {
    switch (symbol) {
        case 'G': return era(count);
        case 'y': return year(count);
        case 'q': return quarter(count);
        case 'M': return month(count, edition, names);
        case 'w': return count === 1 ? bytes(1, 2) : bytes(2);
        case 'D': return digits(count === 2 || count === 3 ? count : 1, 3);
        case 'e': return weekday(count, names);
        case 'a': return period(count);
        case 'b': return periodWithNoon(count);
        case 'n': return fraction(count);
        case 'X': return zone(count, '`Z` or ');
        case 'x': return zone(count, '');
        default: return count === 1 ? digits(1, 2) : digits(2);
    }
}

function bytes(least, most = least) {
    return [countedWords(least, most, 'byte'), most];
}

function digits(least, most = least) {
    return [countedWords(least, most, 'digit'), most];
}

/** A name of a list, of which one is shown. */
function name(what, names, place) {
    return [`a ${what} such as \`${names[place]}\``, Math.max(...names.map((one) => one.length))];
}

function era(count) {
    if (count <= 3) {
        return bytes(2);
    }
    return count === 5 ? bytes(1) : ['`Before Christ` or `Anno Domini`', 13];
}

/** From ten digits on there are some that make no year. */
function year(count) {
    if (count === 1 || count === 3 || count === 4) {
        return ['a year in digits, 2147483647 at most', 11];
    }
    const [words] = digits(count);
    return [`${words}, or \`-\` and ${words}${count < 10 ? '' : ', 2147483647 at most'}`, count + 1];
}

function quarter(count) {
    if (count === 4) {
        return ['a quarter such as `4th quarter`', 11];
    }
    return count === 2 || count === 3 ? bytes(2) : bytes(1);
}

function month(count, edition, { shortMonths, wideMonths }) {
    switch (count) {
        case 1: return digits(1, edition === 2 ? 2 : 1);
        case 2: return digits(2);
        case 3: return name('month', shortMonths, 11);
        case 5: return bytes(1);
        default: return name('month', wideMonths, 11);
    }
}

function weekday(count, { wideWeekdays }) {
    switch (count) {
        case 2: case 6: case 8: return bytes(2);
        case 3: return bytes(3);
        case 4: return name('weekday', wideWeekdays, 3);
        default: return bytes(1);
    }
}

function period(count) {
    switch (count) {
        case 4: return ['`a.m.` or `p.m.`', 4];
        case 5: return ['`a` or `p`', 1];
        default: return ['`am`, `AM`, `pm` or `PM`', 2];
    }
}

function periodWithNoon(count) {
    switch (count) {
        case 4: return ['`a.m.`, `midnight`, `p.m.` or `noon`', 8];
        case 5: return ['`a`, `mi`, `p` or `n`', 2];
        default: return ['`am`, `AM`, `midnight`, `pm`, `PM` or `noon`', 8];
    }
}

function fraction(count) {
    return digits([1, 2, 3, 6, 9][count - 1] ?? 3);
}

function zone(count, zero) {
    const [forms, most] = {
        1: ['`+05` or `+0530`', 5],
        2: ['`+0530`', 5],
        4: ['`+0530` or `+053009`', 7],
        5: ['`+05:30` or `+05:30:09`', 9],
    }[count] ?? ['`+05:30`', 6];
    return [`${zero}an offset such as ${forms}`, most];
}

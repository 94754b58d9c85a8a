import { numbersOf } from './memory.mjs';

/** What each number says, in words that need no details. */
const WORDS = new Map([
    [1, 'the pattern has over 256 bytes'],
    [2, 'the pattern has a byte that is zero or not plain ASCII'],
    [3, 'the pattern ends with a quote that opens nothing'],
    [4, 'a field is out of its range'],
    [5, 'the output is too short for the text'],
    [6, 'the text has over 2,048 bytes'],
    [7, 'the text has a byte that is not plain ASCII'],
    [8, 'the text has too few bytes left'],
    [9, 'the text has no number where one should stand'],
    [10, 'the text has no name or period that fits where one should stand'],
    [11, 'the text has no sign of a zone where one should stand'],
    [12, 'the offset has another length than +05:30, and does not begin with Z'],
    [13, 'the hour or the minute of the offset is too large'],
    [14, 'the current year is not from 1 to 9999, or from 81 in the second edition'],
    [15, 'the text differs from the literal that should stand there'],
    [16, 'the text goes on where the pattern ends'],
    [17, 'there is no such day'],
    [18, "the day's number doesn't fit 32 signed bits"],
    [19, 'the text has a plus in front of a number'],
    [20, 'the book does not begin with the mark LNB'],
    [21, 'the book is of another version than 1 and 2'],
    [22, 'the book is cut short, or goes on behind its names'],
    [23, 'the book has a bad name'],
    [24, 'a row is shorter than the lines'],
    [25, 'the text is not a stamp of RFC 3339'],
    [26, 'a number of the stamp is out of its range'],
    [27, 'the stamp has the second 60'],
    [28, 'the year of the stamp is not from 1 to 9999'],
    [29, 'the offset of the stamp is not of whole minutes, or not 0 though it is unknown'],
    [30, 'the mended pattern has over 256 bytes'],
    [100, 'a row for the answer is too small'],
    [101, 'there is no such choice'],
    [102, 'the bytes are no opened book'],
    [103, 'no line is left at that place'],
    [104, 'the changes do not fit the pattern'],
    [105, 'the row is no prepared pattern'],
]);

/** From here on a number has no details. */
const FIRST_WITHOUT_DETAILS = 100;

/** Their details are the part and the place. */
const OF_A_PART = new Set([8, 9, 10, 11, 15, 19]);

/** Their detail is 0, and says no more. */
const SAY_ALL = new Set([17, 18, 20, 21, 22, 24, 26, 27, 28, 29, 30]);

/** The fields in the order of their numbers, each with its range. */
const FIELDS = [
    ['year', '-5,879,611 to 5,879,611 without 0'],
    ['month', '1 to 12'],
    ['day', '1 to 31'],
    ['day of the year', '1 to 366'],
    ['week', '1 to 53'],
    ['weekday', '0 to 6'],
    ['nanosecond of the day', '0 to 86,399,999,999,999'],
    ['offset', '-86,399 to 86,399 seconds'],
];

/** The lists of a book in its order: how many names each has, what one is called, and the rule for all of them. */
const RULES_OF_NAMES = [
    [12, 'wide month', '2 to 20 ASCII letters, and none begins another'],
    [12, 'short month', '2 to 20 ASCII letters, and none begins another'],
    [7, 'wide weekday', '2 to 20 ASCII letters, and none begins another'],
    [7, 'short weekday', '3 ASCII letters'],
    [7, 'two-letter weekday', '2 ASCII letters'],
    [7, 'narrow weekday', '1 ASCII letter'],
    [12, 'narrow month', '1 ASCII letter'],
];

/** Refusal 14 in words. */
export function currentYears(edition) {
    return `the current year is not from ${edition === 2 ? 81 : 1} to 9999`;
}

/** The years 1 to 80 are refused in the second edition alone, all others that are refused in both. */
function wordsOf(number, detail) {
    if (number === 14) {
        return currentYears(detail >= 1 && detail <= 80 ? 2 : 1);
    }
    return WORDS.get(number) ?? 'no such number';
}

/** Which name of a book a number from 1 on is, by its list and its place there, and the rule of the list. */
function nameOfABook(number) {
    let place = number;
    for (const [count, name, rule] of RULES_OF_NAMES) {
        if (place <= count) {
            const from = name.endsWith('weekday') ? ' from Sunday' : '';
            return `name ${number}, the ${ordinal(place)} ${name}${from}; ${name}s have ${rule}`;
        }
        place -= count;
    }
    return `name ${number}`;
}

/** Of 1 to 12. */
function ordinal(place) {
    return `${place}${['st', 'nd', 'rd'][place - 1] ?? 'th'}`;
}

/** The details of a refusal in words. */
function detailsInWords(number, [detail, place]) {
    if (OF_A_PART.has(number)) {
        return `at place ${place}, for part ${detail}, both counted from 0`;
    }
    switch (number) {
        case 1: case 6: case 12: return `it has ${detail} bytes`;
        case 2: case 3: case 7: case 16: case 25: return `at place ${detail}, counted from 0`;
        case 4: return `the ${FIELDS[detail - 1][0]}, which is ${FIELDS[detail - 1][1]}`;
        case 5: return `it needs ${detail} bytes`;
        case 13: return detail === 1 ? 'the hour is over 23' : 'the minute is over 59';
        case 23: return nameOfABook(detail);
        default: return `it is ${detail}`;
    }
}

export class Refusal extends Error {
    constructor(number, details) {
        const text = wordsOf(number, details[0]);
        super(details.length === 0 || SAY_ALL.has(number) ? text : `${text}: ${detailsInWords(number, details)}`);
        this.number = number;
        this.details = details;
        this.text = text;
    }

    get name() {
        return 'Refusal';
    }
}

/** Throws a refusal where the number returned is one; its details are the first entries of the row. */
export function unlessAccepted(number, answer) {
    if (number !== 0) {
        throw new Refusal(number, detailsOf(number, answer));
    }
}

export function detailsOf(number, answer) {
    if (number >= FIRST_WITHOUT_DETAILS) {
        return [];
    }
    return numbersOf(answer, 0, OF_A_PART.has(number) ? 2 : 1);
}

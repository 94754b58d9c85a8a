import { textOf } from './answers.mjs';
import { bytesOf } from './memory.mjs';

export const BOOK_ROW = 1344;
export const LONGEST_BOOK = 743;
const NAMES = 64;
const NAME_ROOM = 21;
const LONGEST_NAME = 20;
const LONGEST_LENGTH = 255;

/** The lists in book order, each with how many names it has. */
const LISTS = [
    ['wideMonths', 12],
    ['shortMonths', 12],
    ['wideWeekdays', 7],
    ['shortWeekdays', 7],
    ['twoLetterWeekdays', 7],
    ['narrowWeekdays', 7],
    ['narrowMonths', 12],
];

export class Book {
    constructor(row) {
        this.row = row;
    }

    get names() {
        const inOrder = Array.from({ length: NAMES }, (_, number) => this.#name(number));
        return Object.fromEntries(LISTS.map(([list, count]) => [list, inOrder.splice(0, count)]));
    }

    #name(number) {
        const room = this.row.subarray(NAME_ROOM * number, NAME_ROOM * (number + 1));
        return textOf(room.subarray(1, 1 + room[0]));
    }
}

/** Names laid out as in an opened book; of one that is too long a length that no name has, and as much as fits. */
export function rowOfNames(names) {
    const row = new Uint8Array(BOOK_ROW);
    inBookOrder(names).forEach((name, number) => {
        const bytes = bytesOf(name);
        row[NAME_ROOM * number] = Math.min(bytes.length, LONGEST_LENGTH);
        row.set(bytes.subarray(0, LONGEST_NAME), NAME_ROOM * number + 1);
    });
    return row;
}

function inBookOrder(names) {
    if (Array.isArray(names)) {
        return counted('a book', names, NAMES);
    }
    return LISTS.flatMap(([list, count]) => counted(list, names[list], count));
}

function counted(what, names, count) {
    if (!Array.isArray(names) || names.length !== count) {
        throw new RangeError(`${what} has to have ${count} names`);
    }
    return names;
}

import { readingOf, textOf } from './answers.mjs';
import { Refusal, detailsOf } from './refusal.mjs';

const NEWLINE = 10;
const LINE_ANSWER = 51;
const LINE_READING = 3;
const NO_LINE = 103;

/** How many lines a text has: a newline ends one, and a last one without counts. */
export function countLines(bytes) {
    let count = 0;
    for (let at = 0; at < bytes.length; at = behindLine(bytes, at)) {
        count += 1;
    }
    return count;
}

function behindLine(bytes, at) {
    const newline = bytes.indexOf(NEWLINE, at);
    return newline < 0 ? bytes.length : newline + 1;
}

/** The lines of a text, each lent by itself with its newline, so that a long text is not lent anew for each. */
export function* linesOf(memory, choices, bytes, currentYear) {
    const answer = new BigInt64Array(LINE_ANSWER);
    let start = 0;
    for (let number = 0; ; number += 1) {
        const line = bytes.subarray(start, behindLine(bytes, start));
        const code = memory.call('sheet_read_line', ...choices, line, 0n, currentYear, answer);
        if (code === NO_LINE) {
            return;
        }
        yield lineOf(number, start, line, code, answer);
        start += Number(answer[2]);
    }
}

function lineOf(number, start, line, code, answer) {
    const end = Number(answer[1]);
    const reading = answer.subarray(LINE_READING);
    return {
        number,
        start,
        end: start + end,
        text: textOf(line.subarray(0, end)),
        reading: code === 0 ? readingOf(reading) : null,
        refusal: code === 0 ? null : new Refusal(code, detailsOf(code, reading)),
    };
}

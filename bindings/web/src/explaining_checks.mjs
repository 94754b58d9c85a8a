import { units } from './answers.mjs';
import { bytesOf } from './memory.mjs';
import { Refusal } from './refusal.mjs';
import { MOST_SHOWN, shown } from './shown.mjs';

/** What the check answers, in one sentence. */
export function explainedCheck(sheet, pattern, currentYear, choices) {
    const verdict = sheet.check(pattern, currentYear, choices);
    if (verdict.trusted) {
        return 'on every day each part reads just what it wrote';
    }
    return ofANo(sheet, bytesOf(pattern), currentYear, verdict, choices);
}

/** The sentence. The parts before the one that fails come back, so that it is read from where its own text starts. */
function ofANo(sheet, pattern, currentYear, { part: number, record }, choices) {
    const part = sheet.split(pattern)[number];
    const text = bytesOf(sheet.write(pattern, record));
    const start = sheet.write(pattern.subarray(0, part.start), record).length;
    const own = bytesOf(sheet.write(part.text, record));
    const day = sheet.write(dayShown(part.unit), record);
    const from = start < MOST_SHOWN ? 0 : start;
    const takes = cameBack(sheet, part.text, text.subarray(start), own, currentYear, choices);
    return `part ${number}, ${shown(bytesOf(part.text))}: on ${day} the text is ${shown(text, from)}; ${takes}`;
}

/** The pattern for the day, with the time or the offset where a part shows it. */
function dayShown(unit) {
    if (unit === 'offset') {
        return "eeee, d MMMM y 'at the offset' xxx";
    }
    return units.indexOf(unit) >= units.indexOf('hour') ? "eeee, d MMMM y 'at' HH:mm:ss" : 'eeee, d MMMM y';
}

/** What a part takes of a text that starts with its own, or why it can't be read. */
function cameBack(sheet, symbol, text, own, currentYear, choices) {
    const ofOwn = `, of which ${shown(own)} is its own`;
    let reading;
    try {
        reading = sheet.read(symbol, text, currentYear, choices);
    } catch (refusal) {
        if (!(refusal instanceof Refusal)) {
            throw refusal;
        }
        return sheet.explain(symbol, text, refusal, choices) + (own.length < text.length ? ofOwn : '');
    }
    const takes = `${shown(bytesOf(symbol))} takes ${shown(text.subarray(0, reading.taken))}`;
    if (reading.taken !== own.length) {
        return reading.taken < own.length ? `${takes} of ${shown(own)}` : takes + ofOwn;
    }
    const [value] = Object.values(reading.values);
    return value === undefined ? takes : `${takes} as ${value}`;
}

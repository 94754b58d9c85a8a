// What is said of refusals, checks, mendings and stamps: the words of the header and of the crate for Rust.
import assert from 'node:assert/strict';
import { readFileSync } from 'node:fs';
import { test } from 'node:test';
import { Refusal, open } from '../../../dist/sheet.mjs';

const sheet = await open();

function fileOf(name) {
    return readFileSync(new URL(`../../${name}`, import.meta.url), 'utf8');
}

function refusalOf(asked) {
    try {
        asked();
    } catch (error) {
        assert.ok(error instanceof Refusal && error instanceof Error, error.stack);
        return error;
    }
    return assert.fail('this is not refused');
}

/** The sentences of `sheet_refusal_text`, by number. */
function wordsOfHeader() {
    const header = fileOf('c/sheet.h');
    const defined = header.matchAll(/^#define (SHEET_\w+) (\d+)/gm);
    const numbers = new Map(Array.from(defined, ([, name, number]) => [name, Number(number)]));
    return Array.from(header.matchAll(/case (SHEET_\w+): return "(.*)";/g), ([, name, words]) => [numbers.get(name), words]);
}

test('the words of the header', () => {
    const words = wordsOfHeader().filter(([number]) => number !== 0 && number !== 14);
    assert.ok(words.length >= 34);
    for (const [number, sentence] of words) {
        assert.equal(new Refusal(number, []).text, sentence);
    }
});

test('of a refused read, as the crate for Rust says it', () => {
    const lines = fileOf('rust/tests/explained.tsv').trimEnd().split('\n').slice(1);
    assert.ok(lines.length > 90);
    for (const line of lines) {
        const [pattern, text, sentence, strict] = line.split('\t');
        const choices = { strict: strict === 'strict' };
        const refusal = refusalOf(() => sheet.read(pattern, text, 2025, choices));
        assert.equal(sheet.explain(pattern, text, refusal, choices), sentence);
    }
});

test('with the details', () => {
    const fields = { year: 2025, month: 12, day: 3, dayOfYear: 337, week: 49, weekday: 3 };
    const names = { ...sheet.englishBook().names };
    for (const [asked, number, details, message] of [
        [() => sheet.check('d'.repeat(257), 2025), 1, [257], 'the pattern has over 256 bytes: it has 257 bytes'],
        [() => sheet.check("d'", 2025), 3, [1], 'the pattern ends with a quote that opens nothing: at place 1, counted from 0'],
        [() => sheet.write('d', { ...fields, day: 32 }), 4, [3], 'a field is out of its range: the day, which is 1 to 31'],
        [() => sheet.parseOffset('+05:60'), 13, [2], 'the hour or the minute of the offset is too large: the minute is over 59'],
        [() => sheet.check('d', 0), 14, [0], 'the current year is not from 1 to 9999: it is 0'],
        [() => sheet.check('d', 80, { edition: 2 }), 14, [80], 'the current year is not from 81 to 9999: it is 80'],
        [() => sheet.dayNumber(2026, 2, 29), 17, [0], 'there is no such day'],
        [() => sheet.read('dd/MM', '3/12', 2025), 9, [0, 0],
            'the text has no number where one should stand: at place 0, for part 0, both counted from 0'],
        [() => sheet.makeBook({ ...names, wideWeekdays: ['S', ...names.wideWeekdays.slice(1)] }), 23, [25],
            'the book has a bad name: name 25, the 1st wide weekday from Sunday; '
            + 'wide weekdays have 2 to 20 ASCII letters, and none begins another'],
    ]) {
        const refusal = refusalOf(asked);
        assert.deepEqual([refusal.number, refusal.details, refusal.message], [number, details, message]);
    }
});

test('of a check', () => {
    for (const [pattern, edition, sentence] of [
        ['d/MM', 1, 'on every day each part reads just what it wrote'],
        ['d/M', 1, 'part 2, `M`: on Saturday, 23 November 2024 the text is `23/11`; `M` takes `1` of `11`'],
        ['Mdd', 2, 'part 0, `M`: on Monday, 5 February 2024 the text is `205`; `M` takes `20`, of which `2` is its own'],
        ['yy', 1, 'part 0, `yy`: on Friday, 23 November 1000001 the text is `01`; `yy` takes `01` as 2001'],
        ['X5', 1, 'part 0, `X`: on Monday, 5 February 2024 at the offset +08:00 the text is `+085`; '
            + '`X` needs `Z` or an offset such as `+05` or `+0530`, found `+085`, of which `+08` is its own'],
        ['d. Hmm', 2, 'part 3, `H`: on Monday, 5 February 2024 at 03:04:07 the text is `5. 304`; '
            + '`H` takes `30`, of which `3` is its own'],
    ]) {
        assert.equal(sheet.explainCheck(pattern, 2025, { edition }), sentence);
    }
});

test('of a mending', () => {
    for (const [pattern, sentences] of [
        ['d/MM', []],
        ["yyXXXXX.5 'o''", [
            '`yy` became `yyyy`',
            'two spaces after `XXXXX`, since `5` behind `.` is a digit',
            'the quote at the end was closed',
        ]],
        ["d'5 o''clock'", ["a space after `d`, since `'5 o''clock'` begins with a digit"]],
        ['XXXXXd', ['two spaces after `XXXXX`, since `d` can have a digit as its second byte']],
    ]) {
        assert.deepEqual(sheet.explainMending(sheet.mend(pattern, 2025)), sentences);
    }
    const changes = [{ place: 9, byte: ' ', before: 0, after: 2 }, { place: 0, byte: '-', before: 0, after: 1 }];
    assert.deepEqual(sheet.explainMending({ pattern: 'd', changes }), ['two spaces put in', '`-` put in']);
});

test('of a stamp', () => {
    for (const [text, sentence] of [
        ['2025-12-03T07:05:09,5Z', "the stamp can't go on at `,5Z`: it needs `.` and digits, `Z`, or an offset such as `+05:30`"],
        ['2025-12-03T07:05', 'the stamp ends too soon: it needs `:`'],
        ['2025-12-03T07:05:09.12!', "the stamp can't go on at `!`: it needs one more digit, `Z`, or an offset such as `+05:30`"],
        ['2025-12-03T07:05:09.5-23:60', "the minute of the stamp's offset is 60, not 00 to 59"],
        ['2025-12-03T07:05:60Z', 'the stamp has the second 60'],
    ]) {
        assert.equal(sheet.explainStamp(text, refusalOf(() => sheet.readStamp(text))), sentence);
    }
});

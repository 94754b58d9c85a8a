// A prepared pattern does what the pattern does.
import assert from 'node:assert/strict';
import { test } from 'node:test';
import { Refusal, open } from '../../../dist/sheet.mjs';

const sheet = await open();
const day = { ...sheet.dayOf(739587), nanoseconds: 25509000120000, offset: 19800 };
const names = sheet.englishBook().names;
const book = sheet.makeBook({ ...names, shortMonths: [...names.shortMonths.slice(0, 11), 'Dez'] });

/** What is answered, or the refusal. */
function said(asked) {
    try {
        return asked();
    } catch (error) {
        assert.ok(error instanceof Refusal, error.stack);
        return [error.number, error.details];
    }
}

test('it writes, reads and checks as the pattern does', () => {
    for (const pattern of ['', 'd/M', "eeee, d MMM 'at' HH:mm XXX", 'yyyy-MM-dd', 'dH']) {
        for (const date of [false, true]) {
            const prepared = sheet.prepare(pattern, { date });
            assert.equal(prepared.pattern, pattern);
            const text = sheet.write(pattern, day, { date, book });
            assert.equal(prepared.write(day, { book }), text);
            for (const choices of [{}, { strict: true }, { edition: 2 }]) {
                const [all, lines] = [{ ...choices, book }, `${text}\nx\n`];
                assert.deepEqual(
                    said(() => prepared.read(text, 2025, all)),
                    said(() => sheet.read(pattern, text, 2025, { ...all, date })),
                );
                assert.deepEqual(prepared.readList(lines, 2025, all), sheet.readList(pattern, lines, 2025, { ...all, date }));
            }
            assert.deepEqual(prepared.check(2025), sheet.check(pattern, 2025));
        }
    }
});

test('one that is refused is not prepared', () => {
    assert.throws(() => sheet.prepare("d'"), { number: 3, details: [1] });
    assert.throws(() => sheet.prepare('d'.repeat(257)), { number: 1, details: [257] });
    assert.throws(() => sheet.prepare('d').read('x', 2025), { number: 9, details: [0, 0] });
});

test('a row that is damaged is refused', () => {
    const prepared = sheet.prepare('d');
    prepared.row[0] ^= 1n;
    for (const asked of [() => prepared.write(day), () => prepared.read('3', 2025), () => prepared.check(2025)]) {
        assert.throws(asked, { number: 105, details: [], message: 'the row is no prepared pattern' });
    }
});

// What the types say of the module holds: its functions, its memory, the numbers that it takes, and the script beside it.
import assert from 'node:assert/strict';
import { readFileSync } from 'node:fs';
import { test } from 'node:test';
import { fileURLToPath } from 'node:url';
import vm from 'node:vm';
import { Refusal, charPlace, open, units } from '../../../dist/sheet.mjs';

const dist = new URL('../../../dist/', import.meta.url);
const wasm = readFileSync(new URL('sheet.wasm', dist));
const sheet = await open();
const day = sheet.dayOf(sheet.dayNumber(2025, 12, 3));

function declared(interfaceName) {
    const types = readFileSync(new URL('sheet.d.ts', dist), 'utf8');
    const [, body] = new RegExp(`^export interface ${interfaceName} \\{$(.*?)^\\}$`, 'ms').exec(types);
    return new Set(Array.from(body.matchAll(/^ {4}(\w+)\(/gm), ([, name]) => name));
}

function functionsOf(object) {
    return new Set(Object.getOwnPropertyNames(Object.getPrototypeOf(object)).filter((name) => name !== 'constructor'));
}

test('has just the functions that are declared', () => {
    assert.deepEqual([...functionsOf(sheet)].sort(), [...declared('Sheet')].sort());
    assert.deepEqual([...functionsOf(sheet.prepare('d'))].sort(), [...declared('Prepared')].sort());
});

test('the library has every function of the header, and asks for none', async () => {
    const header = readFileSync(new URL('sheet.h', dist), 'utf8');
    const names = Array.from(header.matchAll(/^uint32_t (sheet_\w+)\(/gm), ([, name]) => name);
    assert.ok(names.length >= 23);
    const module = await WebAssembly.compile(wasm);
    const exported = WebAssembly.Module.exports(module).map(({ name }) => name);
    assert.deepEqual(exported.sort(), ['__heap_base', 'memory', ...names].sort());
    assert.deepEqual(WebAssembly.Module.imports(module), []);
});

test('is opened from beside the module, from a place and from bytes', async () => {
    const file = new URL('sheet.wasm', dist);
    for (const source of [undefined, file, file.href, fileURLToPath(file), wasm, new Uint8Array(wasm).buffer]) {
        assert.equal((await open(source)).write('yyyy/MM/dd', day), '2025/12/03');
    }
    await assert.rejects(open(new Uint8Array(3)));
});

test('the script gives the same', async () => {
    const room = vm.createContext({ WebAssembly, TextEncoder, TextDecoder, atob, URL });
    vm.runInContext(readFileSync(new URL('sheet.js', dist), 'utf8'), room);
    const scripted = await room.openSheet();
    assert.equal(scripted.explainCheck('d/M', 2025), sheet.explainCheck('d/M', 2025));
    assert.equal(scripted.readStamp('2025-12-03T07:05:09Z').nanoseconds, 25509000000000);
    assert.throws(() => scripted.dayNumber(2025, 2, 29), room.openSheet.Refusal);
    assert.deepEqual([...room.openSheet.units], [...units]);
    assert.equal(room.openSheet.charPlace('é/', 2), 1);
});

test('memory that has grown is lent as before', async () => {
    const own = await open();
    const [first, rows] = [own.readList('d/MM', '3/12\n', 2025), 300000];
    const long = own.readList('d/MM', `${'3/12\nx\n'.repeat(rows / 2)}`, 2025);
    assert.deepEqual([long.codes.length, long.codes[rows - 1], long.days[rows - 2], long.months[rows - 2]], [rows, 9, 3, 12]);
    assert.deepEqual([[...first.days], [...first.months]], [[3], [12]]);
    assert.deepEqual(own.read('d/MM', '3/12', 2025).values, { month: 12, dayOfMonth: 3 });
    assert.throws(() => own.read('d', 'x'.repeat(5000000), 2025), { number: 6, details: [5000000] });
});

test('answers of one call are not altered by the next', () => {
    const columns = sheet.readList('d', '1\n2\n3', 2025);
    const book = sheet.readBook(sheet.writeBook(sheet.englishBook()));
    sheet.readList('d', '7\n8\n9', 2025);
    sheet.check('d/M', 2025);
    assert.deepEqual([...columns.days], [1, 2, 3]);
    assert.equal(book.names.wideMonths[4], 'May');
});

test('lines come one by one, at any place of a text', () => {
    const text = '3/12\n\u00e9\n14/1\n\n24/12';
    const lines = [...sheet.lines('d/MM', text, 2025)];
    assert.deepEqual(lines.map((line) => [line.number, line.start, line.end, line.text]), [
        [0, 0, 4, '3/12'], [1, 5, 7, '\u00e9'], [2, 8, 12, '14/1'], [3, 13, 13, ''], [4, 14, 19, '24/12'],
    ]);
    assert.deepEqual(lines.map((line) => line.refusal?.number ?? 0), [0, 7, 8, 8, 0]);
    assert.deepEqual(lines[4].reading.spans.month, { start: 3, end: 5 });
    assert.deepEqual([...sheet.readList('d/MM', text, 2025).codes], [0, 7, 8, 8, 0]);
    assert.deepEqual([...sheet.lines('d', '', 2025)], []);
});

test('a number that a type does not hold is not cut', () => {
    const stamp = { year: 2025, month: 12, day: 3, nanoseconds: 0, offset: 0, unknown: false };
    for (const asked of [
        () => sheet.dayOf(2 ** 31),
        () => sheet.dayOf(0.5),
        () => sheet.dayOf('1'),
        () => sheet.dayNumber(2025, 2 ** 32 + 1, 1),
        () => sheet.check('d', 2 ** 32 + 2025),
        () => sheet.write('d', { ...day, day: undefined }),
        () => sheet.write('d', { ...day, nanoseconds: 2n ** 64n }),
        () => sheet.write('d', { ...day, nanoseconds: -1 }),
        () => sheet.writeStamp({ ...stamp, nanoseconds: 0.5 }),
        () => sheet.read('d', '3', 2025, { edition: 3 }),
        () => sheet.undo('d', [{ place: 2 ** 64, byte: 'd', before: 1, after: 1 }]),
        () => sheet.makeBook(['January']),
    ]) {
        assert.throws(asked, RangeError);
    }
    assert.throws(() => sheet.call('sheet_none'), TypeError);
    assert.throws(() => sheet.read(undefined, '', 2025), TypeError);
    assert.throws(() => sheet.write('d', { ...day, nanoseconds: 2n ** 64n - 1n }), { number: 4, details: [7] });
});

test('strings are lent as UTF-8, and bytes as they are', () => {
    assert.throws(() => sheet.read('d\u00e9', '3', 2025), { number: 2, details: [1] });
    assert.throws(() => sheet.read('d', '\u{1f6a2}'.repeat(600), 2025), { number: 6, details: [2400] });
    assert.throws(() => sheet.read(Uint8Array.of(100, 0), '3', 2025), { number: 2, details: [1] });
    assert.deepEqual(sheet.read(Buffer.from('d'), Buffer.from('3'), 2025), sheet.read('d', '3', 2025));
    assert.deepEqual(['a\u00e9\u{1f6a2}z', 'a'].map((text) => [0, 1, 2, 3, 6, 7, 9].map((place) => charPlace(text, place))), [
        [0, 1, 1, 2, 2, 4, 5], [0, 1, 1, 1, 1, 1, 1],
    ]);
});

test('parts say what they stand for', () => {
    const shown = (pattern, choices) => sheet.split(pattern, choices).map(({ text, literal, unit }) => [text, literal, unit]);
    assert.deepEqual(shown("w/HH 'o''c' '''"), [
        ['w', null, null], ['/', '/', null], ['HH', null, 'hour'], [' ', ' ', null], ["'o''c'", "o'c", null], [' ', ' ', null],
        ["''", "'", null], ["'", '', null],
    ]);
    assert.deepEqual(shown('HHdw', { date: true }), [['HH', 'HH', null], ['d', null, 'dayOfMonth'], ['w', null, null]]);
});

test('changes are undone, all or one', () => {
    const mending = sheet.mend('yyd', 2025);
    assert.equal(mending.pattern, 'yyyy d');
    assert.equal(sheet.undo(mending.pattern, mending.changes), 'yyd');
    assert.deepEqual(sheet.undo(Buffer.from('yyyy d'), mending.changes), new Uint8Array(Buffer.from('yyd')));
    assert.deepEqual(sheet.undoOne(mending, 0), { pattern: 'yy d', changes: [{ place: 2, byte: ' ', before: 0, after: 1 }] });
    for (const asked of [() => sheet.undo('yyyy/d', mending.changes), () => sheet.undoOne(mending, 2)]) {
        assert.throws(asked, { number: 104, details: [], message: 'the changes do not fit the pattern' });
    }
});

test('a refusal is an error with a name', () => {
    const refusal = new Refusal(17, [0]);
    assert.equal(String(refusal), 'Refusal: there is no such day');
    assert.ok(sheet.wasRead(sheet.read('d', '3', 2025), 'dayOfMonth'));
    assert.ok(!sheet.wasRead(sheet.read('d', '3', 2025), 'month'));
});

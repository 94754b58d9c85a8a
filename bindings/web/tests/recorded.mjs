// The answers that the crate for Rust is held to, given by the ES module and sheet.wasm.
import assert from 'node:assert/strict';
import { readFileSync } from 'node:fs';
import { test } from 'node:test';
import { answerTo } from '../ask/answers.mjs';

function linesOf(name) {
    const text = readFileSync(new URL(`../../rust/tests/${name}`, import.meta.url), 'latin1');
    return text.replace(/\n$/, '').split('\n');
}

/** A recording is two lines, a request and its answer; a line that begins with # stands between recordings. */
function recordings(name) {
    const lines = linesOf(name).filter((line) => !line.startsWith('#'));
    return Array.from({ length: lines.length / 2 }, (_, k) => [lines[2 * k], lines[2 * k + 1]]);
}

function differing(pairs) {
    return pairs.filter(([request, answer]) => answerTo(request) !== answer);
}

for (const [name, count] of [['recorded.txt', 8000], ['boundaries.txt', null]]) {
    test(`${name} is given`, () => {
        const pairs = recordings(name);
        assert.equal(pairs.length, count ?? pairs.length);
        assert.ok(pairs.length > 1000);
        assert.deepEqual(differing(pairs), []);
    });
}

test('so is every kind of request', () => {
    const answers = linesOf('requests.out');
    const requests = linesOf('requests.in');
    assert.ok(requests.length > 1000 && requests.length <= answers.length);
    assert.deepEqual(differing(requests.map((request, k) => [request, answers[k]])), []);
});

test('a wrong recording is reported', () => {
    const wrong = ['split 47', 'parts 1 run:0:2'];
    assert.deepEqual(differing([wrong, ['split 47', 'parts 1 run:0:1']]), [wrong]);
});

#!/usr/bin/env node
// bindings/web/ask.mjs <REQUESTS >ANSWERS
// Answers requests for the library, one a line, by the ES module of dist/ and its sheet.wasm: as the program `ask` does, whose README
// has the protocol. Each request is also put to the functions of sheet.h with lent rows full of marks; where the answers do not agree,
// both are shown with the word `unlike` between them.
import { LONGEST, answerTo } from './ask/answers.mjs';

const NEWLINE = 10;

function answer(line) {
    return `${answerTo(line.toString('latin1'))}\n`;
}

if (process.argv.length > 2) {
    console.error('usage: bindings/web/ask.mjs <REQUESTS >ANSWERS');
    process.exit(2);
}
// A reader that has enough may close the pipe.
process.stdout.on('error', (error) => process.exit(error.code === 'EPIPE' ? 0 : 1));

let held = Buffer.alloc(0);
for await (const chunk of process.stdin) {
    const bytes = Buffer.concat([held, chunk]);
    const answers = [];
    let start = 0;
    for (let end = bytes.indexOf(NEWLINE); end >= 0; end = bytes.indexOf(NEWLINE, start)) {
        answers.push(answer(bytes.subarray(start, end)));
        start = end + 1;
    }
    process.stdout.write(answers.join(''));
    // Of a line that is too long just so much is kept that it stays too long.
    held = bytes.subarray(start, start + LONGEST + 1);
}
if (held.length > 0) {
    process.stdout.write(answer(held));
}

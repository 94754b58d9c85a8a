// A pattern is typed: its parts, its text, the verdict and the mending are shown at each key.
import { holds, same, within } from './held.mjs';

const verdict = (tab) => tab.value(`document.getElementById('verdict').dataset.kind`);

export async function typing(tab) {
    await tab.retype('#pattern', '');
    same(await verdict(tab), 'yes', 'the verdict on no pattern');
    const kinds = [];
    for (const key of 'd/M') {
        await tab.type(key);
        kinds.push(await verdict(tab));
    }
    same(kinds, ['yes', 'yes', 'no'], 'the verdict at each key of d/M');
    same(await tab.texts('#parts .bytes'), ['d', '/', 'M'], 'the parts');
    same(await tab.texts('#parts .words'), ['day, one or two digits', 'itself', 'month, one or two digits'], 'the words of the parts');
    same(await tab.text('#written'), '3/12', 'what is written');
    const shown = `[...document.querySelectorAll('#pattern-shown [data-colour]')]`;
    const colours = await tab.value(`${shown}.map((part) => getComputedStyle(part).color)`);
    same(new Set(colours.slice(0, 3)).size, 3, 'the colours of d, / and M');
}

// Every symbol has words at each count, and they name what its part carries.
export async function words(tab) {
    await tab.retype('#pattern', 'MM/MMM');
    same(await tab.texts('#parts .words'), ['month, two digits', 'itself', 'month, short name'], 'the words of the parts');
    for (const symbol of 'GyqMwdDeabhKHkmsnXx') {
        await tab.repaste('#pattern', Array.from({ length: 12 }, (_, place) => symbol.repeat(place + 1)).join('/'));
        const cards = await tab.texts('#parts .part.symbol .words');
        same(cards.length, 12, `the parts of ${symbol} that are symbols`);
        holds(cards.every((card) => /^[a-zA-Z]/.test(card)), `each part of ${symbol} has words: ${cards}`);
    }
}

// What is shown as written, part by part, is what the library writes.
export async function written(tab) {
    const date = 'year: 2025, month: 12, day: 3, dayOfYear: 337, week: 49, weekday: 3';
    const record = `{ ${date}, nanoseconds: 25509000120000, offset: 19800 }`;
    for (const pattern of ["'abc''", "''''", "'''a'", "dd''dd", "h 'o''clock'", "'at' HH", 'yyyyMMddHH', 'eeee  w  q', '\tY']) {
        await tab.repaste('#pattern', pattern);
        const text = await tab.value(`openSheet().then((sheet) => sheet.write(${JSON.stringify(pattern)}, ${record}))`);
        same((await tab.texts('#written span')).join(''), text, `what ${pattern} writes`);
    }
}

export async function aNo(tab) {
    await tab.retype('#pattern', 'd/M');
    within(await tab.text('#verdict-sentence'), /^No\. Part 2, M, does not come back/, 'the verdict');
    same(await tab.texts('#pattern-shown .failing'), ['M'], 'the part that is underlined');
    const line = await tab.value(`getComputedStyle(document.querySelector('#pattern-shown .failing')).textDecorationLine`);
    same(line, 'underline', 'its line');
    const cards = await tab.value(`[...document.querySelectorAll('#parts .part')].map((part) => part.classList.contains('failing'))`);
    same(cards, [false, false, true], 'the card that is marked');
    within(await tab.text('#failing dd:nth-of-type(1)'), /^Saturday, 23 November 2024$/, 'the day');
    same(await tab.text('#failing dd:nth-of-type(2)'), '23/11', 'its text');
    same(await tab.text('#failing .text .failing'), '11', 'what the part writes');
    within(await tab.text('#failing dd:nth-of-type(3)'), /month 1 instead of 11.* 1 is left over/, 'what comes back');
}

// A no by a reading that is refused, and one by a time and by an offset.
export async function othersOfANo(tab) {
    await tab.retype('#pattern', 'd/M/yy');
    within(await tab.text('#failing dd:nth-of-type(3)'), /^Refused 9: yy needs two digits, .*found \/2/, 'why it is not read');
    await tab.retype('#pattern', 'Hmm');
    within(await tab.text('#failing dd:nth-of-type(1)'), / at \d\d:\d\d:\d\d$/, 'the time');
    await tab.retype('#pattern', 'X5');
    within(await tab.text('#failing dd:nth-of-type(1)'), / at the offset [+-]\d\d:\d\d/, 'the offset');
}

export async function aYes(tab) {
    await tab.retype('#pattern', 'YYYY-MM-DD');
    same(await tab.text('#verdict-sentence'), 'Yes. Every day comes back as it was written.', 'the verdict');
    same(await tab.text('#verdict-more'), 'A reading gives month and day of the year.', 'what a reading gives');
    within(await tab.text('#verdict-limits'), /does not say that the letters are the ones that were meant/, 'what yes does not say');
    same(await tab.text('#written'), 'YYYY-12-337', 'what is written');
    same(await tab.text('#parts .words'), 'no symbol: itself', 'the words for YYYY');
    holds(await tab.value(`document.getElementById('mending').hidden`), 'a yes has nothing to mend');
}

export async function mending(tab) {
    await tab.retype('#pattern', 'dM yy HHmm');
    same(await tab.text('#mended'), 'd MM yyyy HHmm', 'the mended pattern');
    same(await tab.texts('#mended ins'), [' ', 'M', 'yy'], 'what is marked in it');
    const sentences = ['a space after d, since MM can begin with a digit', 'M became MM', 'yy became yyyy'];
    same(await tab.texts('#changes button'), sentences, 'the changes');
    within(await tab.text('#mended-verdict'), /^Yes\. .*It writes 3 12 2025 0705\.$/, 'the verdict on it');
    await tab.click('#changes li:nth-child(2) button');
    same(await tab.text('#mended'), 'd M yyyy HHmm', 'with one change undone');
    same(await tab.value(`document.querySelector('#changes li:nth-child(2) button').ariaPressed`), 'false', 'the button of that change');
    within(await tab.text('#mended-verdict'), /^No\. Part 2, M, still/, 'the verdict with one change undone');
    await tab.click('#changes li:nth-child(2) button');
    await tab.click('#changes li:nth-child(3) button');
    same(await tab.text('#mended'), 'd MM yy HHmm', 'with the first change taken again and another undone');
    await tab.click('#changes li:nth-child(3) button');
    await tab.click('#use');
    same(await tab.value(`document.getElementById('pattern').value`), 'd MM yyyy HHmm', 'the pattern that is used');
    same(await verdict(tab), 'yes', 'the verdict on it');
}

export async function theDay(tab) {
    await tab.retype('#pattern', 'eeee yyyy-MM-dd D w HH:mm:ss nnnnn XXX');
    same(await tab.text('#written'), 'Wednesday 2025-12-03 337 49 07:05:09 000120000 +05:30', 'the first day');
    await tab.pick('#date', '2024-02-29');
    await tab.pick('#time', '23:59:58');
    await tab.repaste('#nanos', '999999999');
    await tab.repaste('#offset', '-03:30');
    same(await tab.text('#written'), 'Thursday 2024-02-29 60 9 23:59:58 999999999 -03:30', 'another day');
    await tab.repaste('#offset', '-25:00');
    within(await tab.text('#day-words'), /Refused 13/, 'an offset that is none');
    await tab.repaste('#nanos', '1x');
    within(await tab.text('#day-words'), /nine digits/, 'nanoseconds that are none');
    same(await tab.text('#written'), 'Thursday 2024-02-29 60 9 23:59:58 999999999 -03:30', 'the day that stays');
}

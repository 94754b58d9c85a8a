// A column is pasted: each line with its values, the bytes that they came from, and the reason where it is refused.
import { holds, same, within } from './held.mjs';

const row = (number) => `.row[data-line="${number}"]`;
const lit = (tab) => tab.texts('.row .line .lit');

async function paste(tab, text) {
    await tab.repaste('#column', text);
    await tab.until(`document.getElementById('window').ariaBusy === 'false'`);
}

export async function values(tab) {
    await tab.retype('#pattern', 'dd/MM/yyyy HH:mm XXX');
    await paste(tab, '03/12/2025 07:05 +05:30\n31-01-2026 18:40 Z, berth 4\n3/12/2025\n\n03/12/20\u00e95');
    within(await tab.text('#tally'), /^2 lines read, 3 refused$/, 'the tally');
    const first = ['day 3', 'month 12', 'year 2025', 'hour 7', 'minute 5', 'offset +05:30'];
    same(await tab.texts(`${row(0)} button.value`), first, 'the values of the first line');
    within(await tab.text(`${row(2)} .said`), /^9 dd needs two digits, found 3\/$/, 'why a line is refused');
    same(await tab.texts(`${row(2)} .fault`), ['3'], 'the place that is lit up');
    within(await tab.text(`${row(3)} .said`), /^8 dd needs two digits, found the end of the text$/, 'why an empty line is refused');
    within(await tab.text(`${row(4)} .said`), /^7 /, 'why a line beyond ASCII is refused');
    same(await tab.texts(`${row(4)} .fault`), ['\u00e9'], 'the letter that is lit up');
}

export async function lighting(tab) {
    await tab.retype('#pattern', 'dd/MM/yyyy');
    await paste(tab, '03/12/2025\n31/01/2026');
    if (tab.touch) await tab.click(`${row(1)} button[data-unit="month"]`);
    else await tab.point(`${row(1)} button[data-unit="month"]`);
    same(await lit(tab), ['01'], 'the bytes of the month that is pointed at');
    await tab.value(`document.querySelector('${row(0)} button[data-unit="year"]').focus()`);
    if (!tab.touch) await tab.point('h1');
    same(await lit(tab), ['2025'], 'the bytes of the year that has the focus');
}

export async function refusedAlone(tab) {
    await tab.retype('#pattern', 'dd/MM');
    await paste(tab, '03/12\nberth 4\n04/12\nberth 5');
    await tab.click('#refused-alone');
    same(await tab.texts('.row .number'), ['2', '4'], 'the refused lines alone');
    await tab.click('#refused-alone');
    same(await tab.texts('.row .number'), ['1', '2', '3', '4'], 'all lines');
}

// Only rows in sight are elements; by the wheel or by Tab the others come.
export async function scrolling(tab) {
    await tab.retype('#pattern', 'dd/MM');
    await paste(tab, '03/12\n'.repeat(2000));
    holds((await tab.value(`document.querySelectorAll('.row').length`)) < 60, 'rows out of sight are no elements');
    await tab.value(`document.getElementById('window').scrollTop = 1e9`);
    await tab.until(`document.querySelector('${row(1999)}')`);
    holds((await tab.value(`document.querySelectorAll('.row').length`)) < 60, 'rows above those in sight are no elements');
    await tab.value(`document.getElementById('window').scrollTop = 0`);
    await tab.until(`document.querySelector('${row(0)}')`);
    await tab.value(`document.querySelector('${row(0)} button').focus()`);
    for (let presses = 0; presses < 60; presses += 1) await tab.key('Tab');
    same(await tab.value(`document.activeElement.closest('.row')?.dataset.line`), '30', 'the line after sixty times Tab');
    const numbers = (await tab.texts('.row .number')).map(Number);
    same(numbers, [...numbers].sort((some, other) => some - other), 'the order of the rows');
}

// What is read of long lines is what a reading gives, and the place at fault is in sight.
export async function longLines(tab) {
    await tab.retype('#pattern', 'dd');
    await paste(tab, `${'03'.padEnd(2048, 'x')}\n${'03'.padEnd(2049, 'x')}`);
    within(await tab.text('#tally'), /^1 line read, 1 refused$/, 'the tally');
    within(await tab.text(`${row(1)} .said`), /^6 .*2049 bytes$/, 'why the longer one is refused');
    const isInSight = `(() => {
        const [fault, line] = ['.fault', '.line'].map((name) => document.querySelector('${row(1)} ' + name).getBoundingClientRect());
        return fault.right <= line.right && fault.left >= line.left;
    })()`;
    holds(await tab.value(isInSight), 'the byte that is too many is in sight');
}

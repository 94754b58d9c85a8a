// Strict or not, the edition, the pair, the book of names; and the link that holds them.
import { readFileSync, writeFileSync } from 'node:fs';
import { join } from 'node:path';
import { holds, same, within } from './held.mjs';

const verdict = (tab) => tab.text('#verdict-sentence');
const said = (tab) => tab.text('.row .said');

async function paste(tab, text) {
    await tab.repaste('#column', text);
    await tab.until(`document.getElementById('window').ariaBusy === 'false'`);
}

export async function switches(tab) {
    await tab.retype('#pattern', 'd/M');
    await paste(tab, '3-12');
    same(await said(tab), 'day 3month 1', 'a plain reading in the first edition');
    await tab.click('input[name="edition"][value="2"]');
    within(await verdict(tab), /^Yes/, 'the verdict in the second edition');
    same(await said(tab), 'day 3month 12', 'a reading in the second edition');
    await tab.click('#strict');
    same(await said(tab), '15 / needs /, found -', 'a strict reading');
    await tab.retype('#pattern', 'dd HH');
    await tab.click('input[name="pair"][value="date"]');
    same(await tab.text('#written'), '03 HH', 'what is written of dates alone');
    within(await verdict(tab), /^No verdict\./, 'the verdict on dates alone with a time symbol');
    await tab.retype('#pattern', 'dd M');
    within(await verdict(tab), /^Yes/, 'the verdict on dates alone without one');
}

export async function books(tab, { books: folder, room }) {
    await tab.retype('#pattern', 'd MMMM');
    await tab.pick('#book', 'dutch');
    same(await tab.text('#written'), '3 december', 'what is written in Dutch');
    await tab.pick('#book', 'spanish');
    same(await tab.text('#written'), '3 diciembre', 'what is written in Spanish');
    const noBook = join(room, 'no-book.lnb');
    writeFileSync(noBook, 'LNB');
    await tab.chooseFile('#book-file', noBook);
    await tab.until(`document.getElementById('book-said').textContent !== ''`);
    within(await tab.text('#book-said'), /^Refused 22: .* stays\.$/, 'a file that is no book');
    same(await tab.text('#written'), '3 diciembre', 'the book that stays');
    await tab.chooseFile('#book-file', join(folder, 'dutch.lnb'));
    await tab.until(`document.getElementById('written').textContent === '3 december'`);
    same(await tab.text('#book-said'), 'Opened: januari to december.', 'a book from a file');
    await tab.click('#send');
    const sent = await tab.value('location.href');
    await tab.leave();
    await tab.open(sent);
    same(await tab.text('#written'), '3 december', 'what is written with the book of a link');
    same(await tab.text('#book option:checked'), 'From the link', 'the book that is chosen then');
}

// The books of the page are those of the repository.
export async function sameBooks(tab, { books: folder, page }) {
    const script = readFileSync(join(page, 'books.js'), 'utf8');
    for (const name of ['dutch', 'spanish']) {
        const bytes = readFileSync(join(folder, `${name}.lnb`)).toString('base64');
        holds(script.includes(`${name}: '${bytes}'`), `the ${name} book of the page is that of books/`);
    }
}

// A link opens what was there when it was made.
export async function link(tab, { address }) {
    await tab.retype('#pattern', `d MMMM 'é & #' %41+`);
    await tab.pick('#date', '2024-02-29');
    await tab.repaste('#year', '1999');
    await tab.click('#strict');
    await tab.click('input[name="edition"][value="2"]');
    await tab.pick('#book', 'dutch');
    await paste(tab, '29 februari\nberth 4');
    await tab.click('#send');
    const [sent, state] = await tab.value(`[location.href, [...document.querySelectorAll('input:not([type=file]), select, textarea')].map(
        (control) => control.type === 'checkbox' || control.type === 'radio' ? control.checked : control.value)]`);
    await tab.leave();
    await tab.open(sent);
    const opened = await tab.value(`[...document.querySelectorAll('input:not([type=file]), select, textarea')].map(
        (control) => control.type === 'checkbox' || control.type === 'radio' ? control.checked : control.value)`);
    same(opened, state, 'the state that a link opens');
    within(sent, new RegExp(`^${address}#`), 'the address of the link');
}

export async function badLinks(tab, { address }) {
    const noneIsGood = '#date=2025-99-99&time=99:99&offset=%2B99:99&year=x&edition=9&book=__proto__&names=x';
    for (const hash of ['#%', '#pattern=%E9%zz', noneIsGood, '#constructor=1', `#names=${'A'.repeat(205)}`]) {
        await tab.leave();
        await tab.open(address + hash);
        holds((await verdict(tab)) !== '', `the page opens with ${hash}`);
        holds((await tab.text('#written')) !== '' || hash.includes('pattern'), `a text is written with ${hash}`);
    }
}

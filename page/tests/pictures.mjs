// Takes pictures of the page's main states: node pictures.mjs PROGRAM FOLDER.
import { mkdirSync, writeFileSync } from 'node:fs';
import { dirname, join } from 'node:path';
import { fileURLToPath, pathToFileURL } from 'node:url';
import { Browser } from './browser.mjs';

const [program, folder] = process.argv.slice(2);
const page = dirname(dirname(fileURLToPath(import.meta.url)));
const address = pathToFileURL(join(page, 'index.html')).href;
const browser = new Browser(program);

const COLUMN = ['03/12/2025 07:05', '14/02/2026 18:40', '28-02-2026 06:15', '7/3/2026 09:30', '31/12/2026 24:00', 'berth 4'].join('\n');
const state = (entries) => `#${new URLSearchParams({ year: '2025', ...entries })}`;
const YES = state({ pattern: "eee dd/MM/yyyy 'at' HH:mm XXX", column: COLUMN });
const NO = state({ pattern: 'd/M/yy', column: '3/12/25\n14/2/26' });
const READ = state({ pattern: 'dd/MM/yyyy HH:mm', column: COLUMN });

const lightMonth = (tab) => tab.point('.row[data-line="1"] button[data-unit="month"]');
const inSight = (selector) => `(() => {
    const { x, y, width, height } = document.querySelector('${selector}').getBoundingClientRect();
    return { x: x + scrollX - 8, y: y + scrollY - 8, width: width + 16, height: height + 16 };
})()`;

// Each picture: its name, the look of the tab, the state, what is done first, and the part of the page that is taken.
const PICTURES = [
    ['yes', { width: 1280, height: 800 }, YES],
    ['no', { width: 1280, height: 800 }, NO],
    ['column', { width: 1280, height: 900 }, READ, lightMonth, '.column'],
    ['dark', { width: 1280, height: 800, dark: true }, NO],
    ['tablet', { width: 820, height: 1180, touch: true }, NO],
    ['phone', { width: 390, height: 844, touch: true, dark: true }, YES],
];

async function take([name, look, hash, prepare = async () => {}, selector]) {
    const tab = await browser.tab({ touch: false, dark: false, ...look });
    await tab.open(address + hash);
    await tab.until(`document.getElementById('window').ariaBusy === 'false'`);
    await prepare(tab);
    // Colours that change have changed by then.
    await tab.value('new Promise((resolve) => setTimeout(resolve, 400))');
    const clip = selector && (await tab.value(inSight(selector)));
    const bytes = await tab.picture(clip);
    writeFileSync(join(folder, `${name}.png`), bytes);
    console.log(`${name}.png: ${bytes.length} bytes`);
}

mkdirSync(folder, { recursive: true });
try {
    for (const picture of PICTURES) await take(picture);
} finally {
    await browser.close();
}

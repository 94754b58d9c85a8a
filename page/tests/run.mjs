// Tries the page in a browser: node run.mjs PROGRAM BOOKS. The last line says how many checks held.
import { cpSync, mkdtempSync, readFileSync, rmSync, writeFileSync } from 'node:fs';
import { tmpdir } from 'node:os';
import { dirname, join, resolve } from 'node:path';
import { fileURLToPath, pathToFileURL } from 'node:url';
import { Browser } from './browser.mjs';
import { FAULTS } from './faults.mjs';
import { served } from './served.mjs';
import * as anything from './anything.mjs';
import * as choices from './choices.mjs';
import * as columns from './columns.mjs';
import * as looks from './looks.mjs';
import * as patterns from './patterns.mjs';
import * as refusals from './refusals.mjs';
import * as speed from './speed.mjs';

const GROUPS = { patterns, refusals, anything, columns, choices, looks, speed };
const WINDOW = { width: 1280, height: 800, touch: false, dark: false };
const DARK = { ...WINDOW, dark: true };
const TABLET = { width: 820, height: 1180, touch: true, dark: false };
const PHONE = { width: 390, height: 844, touch: true, dark: true };

// Which checks are tried where: all in a window, and what size, touch and colours can change in the others.
const SIZED = ['patterns.typing', 'patterns.aNo', 'patterns.mending', 'columns.values', 'columns.lighting', 'columns.longLines'];
const PLACES = [
    ['window', WINDOW, Object.entries(GROUPS).flatMap(([group, checks]) => Object.keys(checks).map((name) => `${group}.${name}`))],
    ['window, dark', DARK, ['looks.contrast']],
    ['tablet', TABLET, [...SIZED, 'choices.switches', 'looks.targets', 'looks.width', 'looks.field']],
    ['phone, dark', PHONE, [...SIZED, 'looks.contrast', 'looks.targets', 'looks.width', 'looks.field']],
].map(([place, look, names]) => [place, look, names.filter((name) => look.touch || name !== 'looks.targets')]);

const program = process.argv[2];
const books = resolve(process.argv[3]);
const page = dirname(dirname(fileURLToPath(import.meta.url)));
const addressOf = (folder) => pathToFileURL(join(folder, 'index.html')).href;
const room = mkdtempSync(join(tmpdir(), 'page-room-'));
const browser = new Browser(program);

const isOwn = (address, asked) => asked === 'about:blank' || asked.startsWith('data:') || asked.startsWith(new URL('.', address).href);

const tabs = new Map();

// The tab with a look, in which nothing is open.
async function emptyTab(look) {
    if (!tabs.has(look)) tabs.set(look, await browser.tab(look));
    const tab = tabs.get(look);
    await tab.leave();
    tab.forget();
    return tab;
}

// Tries a check: what failed, or nothing. The page may throw nothing and ask for nothing from elsewhere.
async function tried(name, look, folder, address, say) {
    const [group, check] = name.split('.');
    try {
        const tab = await emptyTab(look);
        await tab.open(address);
        await GROUPS[group][check](tab, { address, page: folder, books, room, say });
        const elsewhere = tab.asked.filter((asked) => !isOwn(address, asked));
        if (elsewhere.length > 0) return `the page asks for ${elsewhere[0]}`;
        return tab.faults.length > 0 ? `the page says ${tab.faults[0]}` : undefined;
    } catch (error) {
        return error.message;
    }
}

let [held, failed] = [0, 0];

function tell(what, why) {
    if (why === undefined) held += 1;
    else failed += 1;
    if (why !== undefined) console.log(`page: ${what}: ${why}`);
}

async function tryPlaces() {
    for (const [place, look, names] of PLACES) {
        for (const name of names) {
            const say = (words) => console.log(`page: ${place}: ${words}`);
            tell(`${place}: ${name}`, await tried(name, look, page, addressOf(page), say));
        }
    }
}

// The same page from a server of plain files.
async function tryServed() {
    const server = await served(page);
    for (const name of ['patterns.typing', 'choices.link']) {
        tell(`served: ${name}`, await tried(name, WINDOW, page, server.address, () => {}));
    }
    server.close();
}

// A copy of the page with one fault in it, which the check that is named has to notice.
async function tryFaults() {
    for (const [file, right, wrong, name, place = 'window'] of FAULTS) {
        const copy = join(room, 'page');
        rmSync(copy, { recursive: true, force: true });
        cpSync(page, copy, { recursive: true });
        const text = readFileSync(join(copy, file), 'utf8');
        if (text.split(right).length !== 2) tell(`fault in ${file}`, `${right} does not stand there once`);
        writeFileSync(join(copy, file), text.replace(right, () => wrong));
        const look = PLACES.find(([known]) => known === place)[1];
        const why = await tried(name, look, copy, addressOf(copy), () => {});
        tell(`fault in ${file}, ${wrong}`, why === undefined ? `${name} does not notice it` : undefined);
    }
}

try {
    await browser.send('Browser.getVersion');
    await tryPlaces();
    await tryServed();
    await tryFaults();
} catch (error) {
    tell('the browser', error.message);
} finally {
    await browser.close();
    rmSync(room, { recursive: true, force: true });
}
console.log(`page in a browser: ${held} checks hold, ${failed} do not`);
process.exitCode = failed === 0 ? 0 : 1;

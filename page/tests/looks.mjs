// What can be read, reached and touched, at the size and in the colours that the tab has.
import { holds, same } from './held.mjs';

const LEAST_CONTRAST = 4.5;
const LEAST_TARGET = 40;

const STATES = [
    '#pattern=yyyy-MM-dd+HH:mm:ss.nnn+XXX+eee+a+D&column=2025-12-03+07:05:09.000+Z+Wed+AM+337%0Aberth+4',
    '#pattern=dM+yy+h&column=312+25+7%0A3x',
    '#pattern=dd+%C3%A9',
    '#pattern=dd+HH&pair=date&offset=%2B99:99',
];

// Of each element with text of its own that is shown, the contrast with what it stands on.
const CONTRASTS = `(() => {
    const brush = new OffscreenCanvas(1, 1).getContext('2d', { willReadFrequently: true });
    const bytesOf = (colour) => {
        brush.clearRect(0, 0, 1, 1);
        brush.fillStyle = colour;
        brush.fillRect(0, 0, 1, 1);
        return [...brush.getImageData(0, 0, 1, 1).data];
    };
    const linear = (byte) => (byte / 255 <= 0.04045 ? byte / 255 / 12.92 : ((byte / 255 + 0.055) / 1.055) ** 2.4);
    const light = ([red, green, blue]) => 0.2126 * linear(red) + 0.7152 * linear(green) + 0.0722 * linear(blue);
    const ground = (element) => {
        const bytes = bytesOf(getComputedStyle(element).backgroundColor);
        return bytes[3] > 250 || !element.parentElement ? bytes : ground(element.parentElement);
    };
    const hasText = (element) => [...element.childNodes].some((node) => node.nodeType === 3 && node.data.trim() !== '');
    const found = [];
    for (const element of document.querySelectorAll('body *')) {
        const isShown = element.checkVisibility() && !element.disabled && !['SCRIPT', 'NOSCRIPT', 'OPTION'].includes(element.tagName);
        if (!isShown || !(hasText(element) || (element.value && element.id !== 'pattern'))) continue;
        const [some, other] = [light(bytesOf(getComputedStyle(element).color)), light(ground(element))];
        const contrast = (Math.max(some, other) + 0.05) / (Math.min(some, other) + 0.05);
        found.push([contrast, element.tagName + ' ' + element.className + ' ' + element.textContent.trim().slice(0, 20)]);
    }
    return found.sort((some, other) => some[0] - other[0]);
})()`;

export async function contrast(tab, { address, say }) {
    let least = Infinity;
    for (const state of STATES) {
        await tab.leave();
        await tab.open(address + state);
        await tab.value(`document.querySelector('.row button')?.focus()`);
        const found = await tab.value(CONTRASTS);
        holds(found.length > 40, `texts are looked at: ${found.length}`);
        holds(found[0][0] >= LEAST_CONTRAST, `contrast ${found[0][0].toFixed(2)} of ${found[0][1]}`);
        least = Math.min(least, found[0][0]);
    }
    say(`least contrast ${least.toFixed(2)}`);
}

const TARGETS = `(() => {
    const controls = [...document.querySelectorAll('button, input, select, textarea')].filter((control) => control.checkVisibility());
    const sizeOf = (control) => {
        const isSmall = control.type === 'checkbox' || control.type === 'radio';
        const { width, height } = (isSmall ? control.closest('label') : control).getBoundingClientRect();
        return [Math.min(width, height), control.id || control.textContent];
    };
    return controls.map(sizeOf).sort((some, other) => some[0] - other[0]);
})()`;

export async function targets(tab, { address, say }) {
    await tab.leave();
    await tab.open(address + STATES[1]);
    const [[least, which]] = await tab.value(TARGETS);
    holds(least >= LEAST_TARGET, `${which} can be touched on ${least} pixels alone`);
    say(`least target ${least.toFixed(0)} pixels`);
}

// Nothing is cut at the side, whatever is typed.
export async function width(tab, { address }) {
    for (const state of [...STATES, `#pattern=${'d/M'.repeat(85)}&column=${'x'.repeat(900)}`, `#pattern=${'y'.repeat(256)}`]) {
        await tab.leave();
        await tab.open(address + state);
        const [shown, room] = await tab.value(`[document.documentElement.scrollWidth, document.documentElement.clientWidth]`);
        holds(shown <= room, `the page is ${shown} wide in a window of ${room}, with ${state.slice(0, 40)}`);
    }
}

// The field and what lies under it break their lines alike, so that the caret stands where the letters are.
export async function field(tab) {
    for (const pattern of ['yyyy-MM-dd', 'd/M '.repeat(64), `${'   '.repeat(60)}'xx'`, 'M'.repeat(256)]) {
        await tab.repaste('#pattern', pattern);
        const [shown, own] = await tab.value(`['pattern-shown', 'pattern'].map((id) => document.getElementById(id).scrollHeight)`);
        holds(Math.abs(shown - own) <= 1, `the field is ${own} high and its letters ${shown}, with ${pattern.slice(0, 12)}`);
    }
}

const REACHABLE = `(() => {
    const groups = new Set();
    return [...document.querySelectorAll('button, input, select, textarea')].filter((control) => {
        if (!control.checkVisibility() || control.disabled) return false;
        if (control.type !== 'radio') return true;
        return groups.has(control.name) ? false : groups.add(control.name);
    }).length;
})()`;

const FOCUSED = `(() => {
    const control = document.activeElement;
    const shown = control.id === 'pattern' ? control.closest('.field') : control;
    const isNew = !control.dataset.seen;
    control.dataset.seen = 'yes';
    const hasOutline = getComputedStyle(shown).outlineStyle !== 'none' && parseFloat(getComputedStyle(shown).outlineWidth) >= 2;
    return { isControl: control.matches('button, input, select, textarea'), isNew, hasOutline, name: control.id || control.textContent };
})()`;

// Every control is reached by Tab, and seen to be.
export async function keyboard(tab, { address }) {
    await tab.leave();
    await tab.open(address + STATES[1]);
    const wanted = await tab.value(REACHABLE);
    const reached = new Set();
    for (let presses = 0; presses < 90; presses += 1) {
        await tab.key('Tab');
        const { isControl, isNew, hasOutline, name } = await tab.value(FOCUSED);
        if (!isControl) continue;
        holds(hasOutline, `${name} shows that it has the focus`);
        if (isNew) reached.add(presses);
    }
    same(reached.size, wanted, 'how many controls Tab reaches');
}

export async function byKeys(tab) {
    await tab.retype('#pattern', 'd/M');
    await tab.value(`document.querySelector('#changes button').focus()`);
    await tab.key('Space');
    same(await tab.text('#mended'), 'd/M', 'a change that is undone by a key');
    await tab.key('Space');
    await tab.value(`document.getElementById('use').focus()`);
    await tab.key('Enter');
    same(await tab.value(`document.getElementById('pattern').value`), 'd/MM', 'a pattern that is used by a key');
    same(await tab.value('document.activeElement.id'), 'pattern', 'where the focus is then');
}

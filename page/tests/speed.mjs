// How long a key and a pasted column take.
import { holds } from './held.mjs';

const MOST_A_KEY = 16;
const MOST_WITHOUT_A_BREATH = 50;
const KEYS = 50;

// The time of a key: all that the page does at it, and the layout of what it shows.
const WATCH_KEYS = `(() => {
    window.times = [];
    let start = 0;
    window.addEventListener('input', () => (start = performance.now()), true);
    window.addEventListener('input', () => {
        document.body.offsetHeight;
        window.times.push(performance.now() - start);
    });
})()`;

// Other work on the machine makes a time longer, never shorter: what is too long is measured again before it counts.
async function measured(isGood, measure) {
    let times = await measure();
    for (let more = 2; more > 0 && !isGood(times); more -= 1) times = await measure();
    return times;
}

async function keyTimes(tab, pattern) {
    await tab.repaste('#pattern', pattern.slice(0, 256 - KEYS));
    await tab.key('Home');
    await tab.value('window.times.length = 0');
    await tab.type('d/'.repeat(KEYS / 2));
    const times = (await tab.value('window.times')).sort((some, other) => some - other);
    holds(times.length === KEYS, `${times.length} keys were timed`);
    return { median: times[KEYS / 2], worst: times.at(-1) };
}

async function keys(tab, what, pattern, say) {
    const isGood = ({ median }) => median < MOST_A_KEY;
    const times = await measured(isGood, () => keyTimes(tab, pattern));
    say(`${what}: ${times.median.toFixed(1)} ms a key, ${times.worst.toFixed(1)} at worst`);
    holds(isGood(times), `${what} takes ${times.median.toFixed(1)} ms a key`);
}

export async function typing(tab, { say }) {
    await tab.value(WATCH_KEYS);
    await keys(tab, '256 bytes that are trusted', 'dd/MM/yyyy HH:mm:ss '.repeat(13), say);
    await keys(tab, '256 bytes that are not', 'd/yy '.repeat(52), say);
    await tab.repaste('#column', '03/12/2025 07:05\n'.repeat(5000));
    await keys(tab, '256 bytes beside 5,000 lines', 'dd/MM/yyyy HH:mm:ss '.repeat(13), say);
}

// From the paste on, the longest time in which the page took no other message.
const WATCH_BREATHS = `(() => {
    window.gap = 0;
    let last = performance.now();
    const { port1, port2 } = new MessageChannel();
    port1.onmessage = () => {
        const now = performance.now();
        window.gap = Math.max(window.gap, now - last);
        last = now;
        port2.postMessage(0);
    };
    port2.postMessage(0);
})()`;

const line = (number) => (number % 10 === 9 ? `berth ${number}` : `03/12/${1000 + number} 07:05`);
const COLUMN = Array.from({ length: 5000 }, (_, number) => line(number)).join('\n');

// Pastes a text into an empty field, and gives how long the page took no other message meanwhile, and how long it was until all was shown.
async function pasted(tab, selector, text, isDone) {
    await tab.repaste(selector, '-');
    await tab.until(`!(${isDone})`);
    await tab.value('window.gap = 0');
    const start = Date.now();
    await tab.repaste(selector, text);
    await tab.until(isDone);
    return { gap: await tab.value('window.gap'), took: Date.now() - start };
}

// The browser itself takes a while to lay out so many lines in a box, so it is asked first what a bare one takes; the page may take as
// much again, which is more than it needs, and a moment.
export async function column(tab, { say }) {
    await tab.retype('#pattern', 'dd/MM/yyyy HH:mm');
    await tab.value(`document.body.append(Object.assign(document.createElement('textarea'), { id: 'bare', rows: 5, wrap: 'off' }))`);
    await tab.value(WATCH_BREATHS);
    const isGood = ({ read, bare }) => read.gap < 2 * bare.gap + MOST_WITHOUT_A_BREATH;
    const { read, bare } = await measured(isGood, async () => ({
        bare: await pasted(tab, '#bare', COLUMN, `document.getElementById('bare').value.length > 1`),
        read: await pasted(tab, '#column', COLUMN, `document.getElementById('tally').textContent === '4,500 lines read, 500 refused'`),
    }));
    const most = `${read.gap.toFixed(0)} ms without a breath at most`;
    say(`5,000 lines: read after ${read.took} ms, ${most}, of which a bare box takes ${bare.gap.toFixed(0)}`);
    holds(isGood({ read, bare }), `5,000 lines stop the page: ${most}`);
}

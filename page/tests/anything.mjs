// Patterns and columns of any letters, by a seed: what is shown of each is what the library answers, and the page throws nothing.
import { same } from './held.mjs';

// Runs in the page, where a letter may also be half of a pair that no message can carry.
async function inPage() {
    const LETTERS = [..."GyqMwdDeabhKHkmsnXx''''    //--:.,TZ059<&\"`\\\t", '\u0000', '\u007f', '\u00e9', '\u202e', '\ud83d', '\ud83d\udea2'];
    const sheet = await openSheet();
    let seed = 1;
    const random = (below) => {
        seed = (seed * 1103515245 + 12345) % 2147483648;
        return Math.floor((seed / 2147483648) * below);
    };
    const some = (most) => Array.from({ length: random(most) }, () => LETTERS[random(LETTERS.length)].repeat(1 + random(3))).join('');
    const put = (id, text) => {
        const field = document.getElementById(id);
        field.value = text;
        field.dispatchEvent(new Event('input', { bubbles: true }));
    };
    const wanted = (pattern) => {
        try {
            return sheet.check(pattern, Number(document.getElementById('year').value)).trusted ? 'yes' : 'no';
        } catch {
            return 'refused';
        }
    };
    const kinds = new Set();
    for (let turn = 0; turn < 400; turn += 1) {
        const pattern = some(turn % 20 === 0 ? 150 : 12);
        put('column', `${some(9)}\n${some(9)}`);
        put('pattern', pattern);
        // Now and then the column is read.
        if (turn % 8 === 0) await new Promise((resolve) => setTimeout(resolve, 2));
        const isAsTyped = document.getElementById('pattern-shown').textContent === `${pattern}\u200b`;
        const { kind } = document.getElementById('verdict').dataset;
        if (!isAsTyped || kind !== wanted(pattern)) return `${kind} is said of ${JSON.stringify(pattern)}`;
        kinds.add(kind);
    }
    return [...kinds].sort();
}

export async function anything(tab) {
    same(await tab.value(`(${inPage})()`), ['no', 'refused', 'yes'], 'the verdicts on patterns of any letters');
}

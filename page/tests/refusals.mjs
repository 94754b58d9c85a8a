// Whatever is typed or pasted is shown as itself, and what the library refuses as a refusal with its place lit up.
import { holds, same, within } from './held.mjs';

const lit = (tab) => tab.texts('#pattern-shown .refused');

export async function beyondAscii(tab) {
    for (const [pattern, character] of [['dd é MM', 'é'], ['d\u{1f6a2}M', '\u{1f6a2}'], ['d\u2019M', '\u2019'], ['M\u00a0d', '\u00a0']]) {
        await tab.retype('#pattern', pattern);
        within(await tab.text('#verdict-sentence'), /^Refused 2\. The pattern has a byte/, `the verdict on ${pattern}`);
        same(await lit(tab), [character], `what is lit up in ${pattern}`);
        same((await tab.texts('#pattern-shown span')).join(''), `${pattern}\u200b`, 'the pattern as it is shown');
    }
}

export async function tooLong(tab) {
    await tab.repaste('#pattern', `${'d/'.repeat(128)}M`);
    within(await tab.text('#verdict-sentence'), /^Refused 1\. .*257 bytes\.$/, 'the verdict on 257 bytes');
    same(await lit(tab), ['M'], 'what is lit up');
    await tab.key('Backspace');
    within(await tab.text('#verdict-sentence'), /^Yes/, 'the verdict on 256 bytes');
    await tab.repaste('#pattern', 'M/'.repeat(128));
    within(await tab.text('#mended-verdict'), /^Refused 30/, 'a mending that gets too long');
}

export async function loneQuote(tab) {
    await tab.retype('#pattern', "dd '");
    within(await tab.text('#verdict-sentence'), /^Refused 3/, 'the verdict on a lone quote');
    same(await lit(tab), ["'"], 'what is lit up');
    same(await tab.texts('#parts .words'), ['day, two digits', 'a space', 'a quote that opens nothing'], 'the words of the parts');
    same(await tab.text('#written'), '', 'what is written');
}

// What is typed is never markup, and no byte is lost in showing it.
export async function markup(tab) {
    const words = '<img src=x onerror="document.title=1"><i>&amp;</i>';
    await tab.repaste('#pattern', `'${words}'`);
    same((await tab.texts('#pattern-shown span')).join(''), `'${words}'\u200b`, 'the pattern as it is shown');
    same(await tab.text('#written'), words, 'what it writes');
    await tab.retype('#pattern', '');
    await tab.repaste('#column', words);
    await tab.until(`document.querySelector('.row .line')?.textContent === ${JSON.stringify(words)}`);
    same(await tab.value(`document.querySelectorAll('img, i').length`), 0, 'the markup on the page');
    await tab.repaste('#pattern', 'd/\nMM\tH\r\n');
    same(await tab.value(`document.getElementById('pattern').value`), 'd/MM\tH', 'a pattern with new lines');
    await tab.repaste('#pattern', 'd`M`');
    within(await tab.text('#verdict-sentence'), /^No\. Part 2/, 'the verdict on backquotes');
}

export async function currentYear(tab) {
    await tab.retype('#pattern', 'dd');
    await tab.repaste('#year', '0');
    within(await tab.text('#verdict-sentence'), /^Refused 14/, 'the year 0');
    await tab.repaste('#year', '80');
    within(await tab.text('#verdict-sentence'), /^Yes/, 'the year 80');
    await tab.click('input[name="edition"][value="2"]');
    within(await tab.text('#verdict-sentence'), /^Refused 14.*81/, 'the year 80 in the second edition');
    await tab.repaste('#year', 'soon');
    within(await tab.text('#verdict-sentence'), /^Refused 14/, 'a year that is no number');
    holds((await tab.text('#tally')).startsWith('No line is read'), 'the lines of a pattern that is refused');
}

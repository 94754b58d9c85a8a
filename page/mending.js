'use strict';

// The mended pattern: each change is marked in it, and taken or undone by a button.
const Mending = (() => {
    const { byId, make, sentence } = Elements;

    // The mending that is shown, which of its changes are taken, and the pattern that results.
    let mending = { pattern: '', changes: [] };
    let taken = [];
    let result = '';

    function mended(sheet, state) {
        try {
            return { ...sheet.mend(state.pattern, state.year, state.choices), refusal: null };
        } catch (refusal) {
            if (!(refusal instanceof openSheet.Refusal)) throw refusal;
            return { pattern: '', changes: [], refusal };
        }
    }

    // The mended pattern in pieces. Of a change that is taken the bytes that are new are marked, and the place of one that is undone.
    function pieces() {
        const shown = [];
        let at = 0;
        mending.changes.forEach(({ place, byte, before, after }, number) => {
            shown.push(mending.pattern.slice(at, place) + byte.repeat(before));
            const data = { change: number };
            shown.push(taken[number] ? make('ins', { data }, byte.repeat(after - before)) : make('del', { data }));
            at = place + after;
        });
        return [...shown, mending.pattern.slice(at)];
    }

    function said(sheet, state, sample) {
        const verdict = sheet.check(result, state.year, state.choices);
        const writes = [' It writes ', make('code', {}, sample(result)), '.'];
        if (verdict.trusted) return [make('strong', {}, 'Yes.'), ' Every day comes back.', ...writes];
        const part = make('code', {}, sheet.split(result)[verdict.part].text);
        return [make('strong', {}, 'No.'), ` Part ${verdict.part}, `, part, ', still does not come back.', ...writes];
    }

    function showResult(sheet, state, sample) {
        const undone = mending.changes.filter((_, number) => !taken[number]);
        result = sheet.undo(mending.pattern, undone);
        byId('mended').replaceChildren(...pieces());
        const line = byId('mended-verdict');
        line.replaceChildren(...said(sheet, state, sample));
        line.dataset.kind = undone.length === 0 ? 'yes' : 'no';
        byId('use').disabled = result === state.pattern;
    }

    function changeShown(text, number, toggled) {
        const button = make('button', { type: 'button', className: 'change', data: { change: number }, aria: { pressed: true } });
        button.append(make('span', { className: 'mark' }), make('span', {}, ...sentence(text)));
        button.addEventListener('click', () => {
            taken[number] = !taken[number];
            button.setAttribute('aria-pressed', taken[number]);
            toggled();
        });
        return make('li', {}, button);
    }

    function showRefused(refusal) {
        byId('mended').replaceChildren();
        byId('changes').replaceChildren();
        byId('use').disabled = true;
        const line = byId('mended-verdict');
        line.dataset.kind = 'no';
        line.replaceChildren(make('strong', {}, `Refused ${refusal.number}.`), ` ${Words.capitalised(refusal.message)}.`);
    }

    // `sample` gives what a pattern writes on the day that is picked.
    function show(sheet, state, isNo, sample) {
        byId('mending').hidden = !isNo;
        if (!isNo) return;
        mending = mended(sheet, state);
        if (mending.refusal) {
            showRefused(mending.refusal);
            return;
        }
        taken = mending.changes.map(() => true);
        const toggled = () => showResult(sheet, state, sample);
        const sentences = sheet.explainMending(mending);
        byId('changes').replaceChildren(...sentences.map((text, number) => changeShown(text, number, toggled)));
        toggled();
    }

    return { show, result: () => result };
})();

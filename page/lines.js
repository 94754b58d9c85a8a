'use strict';

// The pasted column: read in slices, so that the page never stops, and shown by a window, so that only rows in sight are elements.
const Lines = (() => {
    const { byId, make, sentence } = Elements;

    // A slice takes a few milliseconds, of chunks that take well below one.
    const SLICE_MILLISECONDS = 6;
    const CHUNK_LINES = 100;
    // Rows before and behind those in sight, so that the next one can be reached by Tab.
    const ROWS_MORE = 6;
    // A longer line is shown from a little before the place that is at fault.
    const LONGEST_SHOWN = 160;
    const SHOWN_BEFORE = 8;

    // What is being read: the lines, how, and what is known of them so far.
    let job = { lines: [], codes: [], refused: [], refusal: null, pattern: '', year: 0, choices: {} };
    let sheet;
    let timer = 0;

    function linesOf(text) {
        const lines = text.split('\n');
        if (lines.at(-1) === '') lines.pop();
        return lines;
    }

    const rowsShown = () => (byId('refused-alone').checked ? job.refused : null);
    const rowCount = () => rowsShown()?.length ?? job.lines.length;

    function readChunk() {
        const start = job.codes.length;
        const chunk = job.lines.slice(start, start + CHUNK_LINES);
        const { codes } = sheet.readList(job.pattern, `${chunk.join('\n')}\n`, job.year, job.choices);
        codes.forEach((code, number) => {
            if (code !== 0) job.refused.push(start + number);
            job.codes.push(code);
        });
    }

    function showProgress(isDone) {
        byId('window').ariaBusy = !isDone;
        const bar = byId('progress');
        bar.hidden = isDone;
        bar.value = job.lines.length === 0 ? 0 : job.codes.length / job.lines.length;
        if (isDone) byId('tally').replaceChildren(...tally());
    }

    function tally() {
        if (job.lines.length === 0) return [];
        if (job.refusal) return ['No line is read, since the pattern is refused.'];
        const refused = job.refused.length;
        const read = Words.counted(job.lines.length - refused, 'line');
        return [make('b', {}, read), ' read, ', make('b', { className: refused ? 'some' : '' }, refused.toLocaleString('en')), ' refused'];
    }

    function readSlice() {
        const start = performance.now();
        while (job.codes.length < job.lines.length && performance.now() - start < SLICE_MILLISECONDS) readChunk();
        const isDone = job.codes.length >= job.lines.length;
        showProgress(isDone);
        if (byId('refused-alone').checked) showRows();
        if (!isDone) timer = setTimeout(readSlice, 0);
    }

    function valueShown(unit, value) {
        return make(
            'button',
            { type: 'button', className: 'value', data: { colour: unit, unit } },
            make('span', {}, Words.units[unit]),
            ' ',
            make('b', {}, Words.ofValue(unit, value))
        );
    }

    // The line in pieces, one for each value's bytes.
    function piecesOfRead(line, units, spans) {
        const shown = [];
        let at = 0;
        for (const unit of units) {
            const { start, end } = spans[unit];
            shown.push(line.slice(at, start), make('span', { data: { colour: unit, unit } }, line.slice(start, end)));
            at = end;
        }
        return [...shown, line.slice(at)];
    }

    // Where in the line a refusal is; for one that is too long, where it goes over.
    function faultOf(line, { number, details }) {
        if (number === 6) return openSheet.charPlace(line, 2048);
        return openSheet.charPlace(line, details.at(-1));
    }

    // The end of the line is shown as a mark of its own where it is what was not expected.
    function piecesOfRefused(line, refusal) {
        const place = faultOf(line, refusal);
        const from = place > SHOWN_BEFORE * 2 ? place - SHOWN_BEFORE : 0;
        const character = place < line.length ? String.fromCodePoint(line.codePointAt(place)) : '';
        const fault = make('span', { className: character ? 'fault' : 'fault end' }, character);
        const behind = place + character.length;
        return [from > 0 ? '…' : '', line.slice(from, place), fault, line.slice(behind, behind + LONGEST_SHOWN)];
    }

    function answerOf(line) {
        if (job.refusal) return { shown: [line], said: [] };
        try {
            const { values, spans } = sheet.read(job.pattern, line, job.year, job.choices);
            const units = Words.inOrder(spans);
            const said = units.map((unit) => valueShown(unit, values[unit]));
            return { shown: piecesOfRead(line, units, spans), said: said.length > 0 ? said : ['no value'] };
        } catch (refusal) {
            if (!(refusal instanceof openSheet.Refusal)) throw refusal;
            const why = sheet.explain(job.pattern, line, refusal, job.choices);
            const said = [make('b', {}, String(refusal.number)), ' ', ...sentence(why)];
            return { shown: piecesOfRefused(line, refusal), said, isRefused: true };
        }
    }

    function rowOf(place, number, height) {
        const { shown, said, isRefused } = answerOf(job.lines[number]);
        const className = isRefused ? 'row refused' : 'row';
        const row = make(
            'li',
            { className, aria: { posinset: place + 1, setsize: rowCount() }, data: { place, line: number } },
            make('span', { className: 'number' }, String(number + 1)),
            make('code', { className: 'line' }, ...shown),
            make('span', { className: 'said' }, ...said)
        );
        row.style.top = `${place * height}px`;
        return row;
    }

    // Rows that stay in sight stay as they are, so that the one with the focus keeps it.
    function showRows() {
        const [frame, list] = [byId('window'), byId('rows')];
        const height = parseFloat(getComputedStyle(list).getPropertyValue('--row'));
        const rows = rowsShown();
        const count = rowCount();
        list.style.height = `${count * height}px`;
        const first = Math.max(0, Math.floor(frame.scrollTop / height) - ROWS_MORE);
        const last = Math.min(count, Math.ceil((frame.scrollTop + frame.clientHeight) / height) + ROWS_MORE);
        const kept = new Map();
        for (const row of [...list.children]) {
            const place = Number(row.dataset.place);
            const isKept = place >= first && place < last && Number(row.dataset.line) === (rows ? rows[place] : place);
            if (isKept) kept.set(place, row);
            else row.remove();
        }
        let next = list.firstChild;
        for (let place = first; place < last; place += 1) {
            if (kept.has(place)) next = kept.get(place).nextSibling;
            else list.insertBefore(rowOf(place, rows ? rows[place] : place, height), next);
        }
    }

    function showAnew() {
        byId('rows').replaceChildren();
        showRows();
    }

    // Reads a column anew; what was being read is left.
    function read(library, text, state, refusal) {
        sheet = library;
        clearTimeout(timer);
        const lines = text === job.text ? job.lines : linesOf(text);
        job = { text, lines, codes: [], refused: [], refusal, pattern: state.pattern, year: state.year, choices: state.choices };
        byId('window').ariaBusy = true;
        timer = setTimeout(startReading, 0);
    }

    // Not at the key itself: rows ask for a layout.
    function startReading() {
        showAnew();
        if (job.refusal) showProgress(true);
        else readSlice();
    }

    // Lights up the bytes that a value came from while it is pointed at or has the focus.
    function light(event, isLit) {
        const value = event.target.closest?.('button.value');
        if (!value) return;
        const bytes = value.closest('.row').querySelector(`.line [data-unit="${value.dataset.unit}"]`);
        value.classList.toggle('lit', isLit);
        bytes.classList.toggle('lit', isLit);
    }

    function listen() {
        const [frame, rows] = [byId('window'), byId('rows')];
        frame.addEventListener('scroll', showRows, { passive: true });
        window.addEventListener('resize', showAnew);
        byId('refused-alone').addEventListener('change', showAnew);
        for (const name of ['pointerover', 'focusin']) rows.addEventListener(name, (event) => light(event, true));
        for (const name of ['pointerout', 'focusout']) rows.addEventListener(name, (event) => light(event, false));
    }

    return { listen, read };
})();

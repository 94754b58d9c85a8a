'use strict';

// The page: its state is that of its controls, and every change shows all of it anew.
(async () => {
    const { byId, make } = Elements;

    const DEFAULTS = {
        pattern: 'd/M/yy HH:mm',
        date: '2025-12-03',
        time: '07:05:09',
        nanos: '120000',
        offset: '+05:30',
        year: String(new Date().getFullYear()),
        strict: '0',
        edition: '1',
        pair: 'full',
        book: 'english',
        column: '3/12/25 07:05\n14/2/26 18:40\n28-2-26 06:15\n7/3/2026 09:30\nberth 4',
    };
    const TEXTS = ['pattern', 'date', 'time', 'nanos', 'offset', 'year', 'column'];
    const CHOSEN = ['edition', 'pair'];

    const sheet = await openSheet();
    // The book of a file, and its names as they stand in a link.
    let own;
    let keeping = 0;

    const chosen = (name) => document.querySelector(`input[name="${name}"]:checked`).value;

    // The controls as texts, as a link holds them.
    function controls() {
        const book = byId('book').value;
        const state = { strict: byId('strict').checked ? '1' : '0', book, names: book === 'own' ? own.names : undefined };
        for (const name of TEXTS) state[name] = byId(name).value;
        for (const name of CHOSEN) state[name] = chosen(name);
        return state;
    }

    function setControls(state) {
        for (const name of TEXTS) byId(name).value = state[name];
        for (const name of CHOSEN) document.querySelector(`input[name="${name}"][value="${state[name]}"]`).checked = true;
        byId('strict').checked = state.strict === '1';
        byId('book').value = state.book;
        if (state.names) takeBook(Books.fromLink(state.names), 'From the link');
    }

    // The current year is the library's to refuse; what is no number is none.
    function stateNow() {
        const { pattern, year, strict, edition, pair, book } = controls();
        const names = book === 'own' ? own.book : Books.shipped(sheet, book);
        const choices = { strict: strict === '1', edition: Number(edition), date: pair === 'date', book: names };
        return { pattern, year: /^\d+$/.test(year) ? Number(year) : 0, choices, fields: Day.read(sheet) };
    }

    // Of a call that may be refused its answer, or the refusal.
    function asked(call) {
        try {
            return { answer: call() };
        } catch (refusal) {
            if (!(refusal instanceof openSheet.Refusal)) throw refusal;
            return { refusal };
        }
    }

    // For dates alone the check holds where no part is of time.
    const isOfTime = (part) => openSheet.units.indexOf(part.unit) >= openSheet.units.indexOf('hour');

    // What the library says of the pattern: its parts, their texts on the day, and the verdict; or why it is refused.
    function lookAt({ pattern, year, choices, fields }) {
        const parts = asked(() => sheet.split(pattern, choices));
        if (parts.refusal) return { refusal: parts.refusal };
        const written = (text) => asked(() => sheet.write(text, fields, choices)).answer;
        const verdict = asked(() => sheet.check(pattern, year, choices));
        const texts = parts.answer.map((part) => written(part.text) ?? '');
        const look = { parts: parts.answer, texts, isWritten: written(pattern) !== undefined, refusal: verdict.refusal };
        if (verdict.refusal) return look;
        if (choices.date && sheet.split(pattern).some(isOfTime)) return { ...look, unchecked: true };
        return verdict.answer.trusted ? look : { ...look, failing: verdict.answer.part, record: verdict.answer.record };
    }

    function showLength(pattern) {
        const bytes = new TextEncoder().encode(pattern).length;
        byId('length').textContent = `${bytes} of 256 bytes`;
        byId('length').classList.toggle('fault', bytes > 256);
    }

    function show() {
        const state = stateNow();
        const look = lookAt(state);
        Parts.show(state.pattern, look);
        showLength(state.pattern);
        Verdict.show(sheet, state, look);
        Mending.show(sheet, state, look.failing !== undefined, (pattern) => sheet.write(pattern, state.fields, state.choices));
        Lines.read(sheet, byId('column').value, state, look.refusal);
        clearTimeout(keeping);
        keeping = setTimeout(keepLink, 250);
    }

    function keepLink() {
        const link = Link.written(controls());
        if (link !== location.hash) history.replaceState(null, '', link);
    }

    // The defaults are read first, so that there is a day where that of a link is none.
    function restore() {
        setControls(DEFAULTS);
        Day.read(sheet);
        setControls({ ...DEFAULTS, ...Link.read(location.hash) });
        show();
    }

    // A pattern is one line, as in a field of one line.
    function typed() {
        const field = byId('pattern');
        if (/[\r\n]/.test(field.value)) field.value = field.value.replace(/[\r\n]/g, '');
        show();
    }

    function use(pattern) {
        byId('pattern').value = pattern;
        show();
        byId('pattern').focus();
    }

    function sayOfBook(said, isFault) {
        byId('book-said').textContent = said;
        byId('book-said').classList.toggle('fault', isFault);
    }

    // Takes the bytes of a book; where they are none, the book that is used stays.
    function takeBook(bytes, title) {
        const { answer, refusal } = asked(() => Books.opened(sheet, bytes));
        if (refusal) {
            sayOfBook(`Refused ${refusal.number}: ${refusal.message}. The book that was there stays.`, true);
            return false;
        }
        own = answer;
        byId('book').querySelector('[value="own"]')?.remove();
        byId('book').append(make('option', { value: 'own', selected: true }, title));
        const { wideMonths } = own.book.names;
        sayOfBook(`Opened: ${wideMonths[0]} to ${wideMonths[11]}.`, false);
        return true;
    }

    async function takeFile() {
        const [file] = byId('book-file').files;
        if (file && takeBook(new Uint8Array(await file.arrayBuffer()), file.name)) show();
        byId('book-file').value = '';
    }

    async function send() {
        keepLink();
        const copied = await navigator.clipboard?.writeText(location.href).then(() => true, () => false);
        byId('sent').textContent = copied ? 'Copied' : 'The link stands in the address bar';
    }

    function listen() {
        byId('pattern').addEventListener('input', typed);
        for (const name of TEXTS.slice(1)) byId(name).addEventListener('input', show);
        for (const control of document.querySelectorAll('input[type="radio"], #strict')) control.addEventListener('change', show);
        byId('book').addEventListener('change', () => {
            sayOfBook('', false);
            show();
        });
        byId('book-file').addEventListener('change', takeFile);
        byId('use').addEventListener('click', () => use(Mending.result()));
        for (const sample of document.querySelectorAll('.sample')) sample.addEventListener('click', () => use(sample.textContent));
        byId('send').addEventListener('click', send);
        window.addEventListener('hashchange', restore);
        Lines.listen();
    }

    for (const [name, title] of Object.entries(Books.titles)) byId('book').append(make('option', { value: name }, title));
    listen();
    restore();
})();

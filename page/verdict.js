'use strict';

// What the check says of the pattern, as a sentence; of a no also the day on which it fails.
const Verdict = (() => {
    const { byId, make, sentence } = Elements;

    const LIMITS =
        'Yes speaks of what this pattern itself writes. It does not say that the letters are the ones that were meant, that a whole date ' +
        'is read, or how texts from elsewhere are read.';

    const NO_CHECK =
        'The check speaks of dates with times and offsets. For dates alone, where the time symbols of this pattern stand for themselves, ' +
        'it says nothing.';

    // The pattern for the day, with the time or the offset where the part shows it.
    function dayPattern(unit) {
        if (unit === 'offset') return "eeee, d MMMM y 'at the offset' xxxxx";
        const isOfTime = openSheet.units.indexOf(unit) >= openSheet.units.indexOf('hour');
        return isOfTime ? "eeee, d MMMM y 'at' HH:mm:ss" : 'eeee, d MMMM y';
    }

    function valuesOf(record) {
        const whole = Math.floor(record.nanoseconds / 1e9);
        const hour = Math.floor(whole / 3600);
        return {
            year: record.year,
            month: record.month,
            dayOfMonth: record.day,
            dayOfYear: record.dayOfYear,
            hour,
            period: hour < 12 ? 0 : 1,
            periodHour: hour % 12,
            minute: Math.floor(whole / 60) % 60,
            second: whole % 60,
            offset: record.offset,
        };
    }

    // A value that came back, and what was written where it is another.
    function valueShown(unit, value, written) {
        const differs = written !== undefined && written !== value;
        const shown = make(
            'span',
            { className: differs ? 'value differs' : 'value', data: { colour: unit } },
            make('span', {}, Words.units[unit]),
            ' ',
            make('b', {}, Words.ofValue(unit, value))
        );
        if (differs) shown.append(` instead of ${Words.ofValue(unit, written)}`);
        return shown;
    }

    function cameBack(sheet, pattern, text, state, record) {
        try {
            const { values, spans, taken } = sheet.read(pattern, text, state.year, state.choices);
            const written = valuesOf(record);
            const shown = Words.inOrder(spans).map((unit) => valueShown(unit, values[unit], written[unit]));
            if (taken < text.length) shown.push(make('span', {}, 'and ', make('code', {}, text.slice(taken)), ' is left over'));
            return shown;
        } catch (refusal) {
            if (!(refusal instanceof openSheet.Refusal)) throw refusal;
            const why = sheet.explain(pattern, text, refusal, state.choices);
            return [make('span', { className: 'why' }, `Refused ${refusal.number}: `, ...sentence(why))];
        }
    }

    // The text of the record with that of the failing part marked.
    function textShown(sheet, parts, failing, record, choices) {
        const texts = parts.map((part) => sheet.write(part.text, record, choices));
        const makePiece = (text, number) => {
            const className = number === failing ? 'failing' : '';
            return make('span', { className, data: { colour: Words.colourOf(parts[number]) } }, text);
        };
        return make('code', { className: 'text' }, ...texts.map(makePiece));
    }

    function failingRows(sheet, state, { parts, failing, record }) {
        const text = sheet.write(state.pattern, record, state.choices);
        const day = sheet.write(dayPattern(parts[failing].unit), record);
        return [
            ['For example on', [day]],
            ['it writes', [textShown(sheet, parts, failing, record, state.choices)]],
            ['read back, it gives', cameBack(sheet, state.pattern, text, state, record)],
        ];
    }

    function showFailing(rows) {
        const list = byId('failing');
        list.hidden = rows.length === 0;
        list.replaceChildren(...rows.flatMap(([name, shown]) => [make('dt', {}, name), make('dd', {}, ...shown)]));
    }

    function carried(parts) {
        const units = [...new Set(parts.map((part) => part.unit).filter((unit) => unit !== null))];
        if (units.length === 0) return 'A reading gives no value back.';
        return `A reading gives ${Words.listed(units.map((unit) => Words.units[unit]))}.`;
    }

    // The verdict by its kind, its word, its sentence, a line more and its limits.
    function said(look) {
        const { refusal, parts, failing } = look;
        if (refusal) return ['refused', `Refused ${refusal.number}.`, `${Words.capitalised(refusal.message)}.`, '', ''];
        if (look.unchecked) return ['unchecked', 'No verdict.', NO_CHECK, '', ''];
        if (failing === undefined) return ['yes', 'Yes.', 'Every day comes back as it was written.', carried(parts), LIMITS];
        return ['no', 'No.', `Part ${failing}, \`${parts[failing].text}\`, does not come back on every day.`, '', ''];
    }

    function show(sheet, state, look) {
        const [kind, word, words, more, limits] = said(look);
        byId('verdict').dataset.kind = kind;
        byId('verdict-sentence').replaceChildren(make('strong', {}, word), ' ', ...sentence(words));
        byId('verdict-more').textContent = more;
        byId('verdict-limits').textContent = limits;
        showFailing(kind === 'no' ? failingRows(sheet, state, look) : []);
    }

    return { show };
})();

import { agreed, asked, own, preparedRow, refusedRow, rowOfBook, sheet } from './lent.mjs';

/** No line of the protocol has a text with more lines. */
const MOST_ROWS = 20000;
const SHORT_ROW = 'refused 24 0';
/** Of the pattern or of the current year, and not of a line's own bytes. */
const OF_ALL_LINES = [1, 2, 3, 14];

/** A list is read into lent rows, by the function that makes its rows, and line by line, which no prepared pattern is. */
export function answerList(words, withBook, isPrepared) {
    const [pattern, ...given] = [words.bytes(), words.bytes(), words.signed()];
    const rows = words.unsigned(MOST_ROWS);
    const choices = { strict: words.takes('strict'), edition: words.edition() };
    const bytes = words.book();
    words.end();
    return withBook(bytes, (book) => {
        const [name, lent] = isPrepared ? ['sheet_prepared_read_list', preparedRow(pattern, false)] : ['sheet_read_list', pattern];
        const listed = () => {
            const all = { ...choices, book };
            return isPrepared ? sheet.prepare(pattern).readList(...given, all) : sheet.readList(pattern, ...given, all);
        };
        const answers = [
            laidList(name, [lent, ...given], rows, choices, book),
            own(() => shownOrShort(rowsOf(listed()), rows)),
            isPrepared ? null : byLines([pattern, ...given], rows, { ...choices, book }),
        ];
        return agreed(...answers.filter((answer) => answer !== null));
    });
}

function mark(place) {
    return -1000000000 - place;
}

function laidList(name, given, rows, { strict, edition }, book) {
    const number = (strict ? 2 : 0) + (edition === 2 ? 4 : 0);
    const marks = Int32Array.from({ length: rows }, (_, place) => mark(place));
    const columns = { codes: Uint32Array.from(marks), days: marks.slice(), months: marks.slice(), years: marks.slice() };
    const { days, months, years, codes } = columns;
    const lent = [number, rowOfBook(book), ...given, days, months, years, codes];
    const answer = asked(name, 2, ...lent);
    const lines = answer.number === 0 ? Number(answer.row[0]) : 0;
    for (let place = lines; place < rows; place += 1) {
        if ([days, months, years, codes].some((row) => (row[place] | 0) !== mark(place))) {
            return `altered ${place}`;
        }
    }
    const isListed = answer.number === 0 && answer.row[1] === 0n;
    return isListed ? shownList(rowsOf(columns).slice(0, lines)) : refusedRow(answer);
}

function rowsOf({ days, months, years, codes }) {
    return Array.from(codes, (code, k) => [code, days[k], months[k], years[k]]);
}

function shownList(lines) {
    return [`list ${lines.length}`, ...lines.map((line) => line.join(':'))].join(' ');
}

function shownOrShort(lines, rows) {
    return lines.length <= rows ? shownList(lines) : SHORT_ROW;
}

/** A pattern or a year that is refused is refused for each line, of which there may be none. */
function byLines(given, rows, choices) {
    const lines = [];
    for (const { reading, refusal } of sheet.lines(...given, choices)) {
        if (OF_ALL_LINES.includes(refusal?.number)) {
            return own(() => { throw refusal; });
        }
        const { dayOfMonth = 0, month = 0, year = 0 } = reading?.values ?? {};
        lines.push([refusal?.number ?? 0, dayOfMonth, month, year]);
    }
    return lines.length === 0 ? null : shownOrShort(lines, rows);
}

'use strict';

// What parts and values are, in words.
const Words = (() => {
    const UNITS = {
        year: 'year',
        month: 'month',
        dayOfMonth: 'day',
        dayOfYear: 'day of the year',
        hour: 'hour',
        period: 'half of the day',
        periodHour: 'hour of the half',
        minute: 'minute',
        second: 'second',
        decis: 'tenths of a second',
        centis: 'hundredths of a second',
        millis: 'thousandths of a second',
        micros: 'millionths of a second',
        nanos: 'billionths of a second',
        offset: 'offset',
    };

    const HALF_DAY = { 1: 'AM or PM', 3: 'am or pm', 4: 'a.m. or p.m.', 5: 'a or p', 6: 'am or pm' };
    const clock = (what) => ({ 1: `${what}, one or two digits`, 2: `${what}, two digits` });
    const offset = (zero) => ({
        1: `offset, as +05 or +0530${zero}`,
        2: `offset, as +0530${zero}`,
        3: `offset, as +05:30${zero}`,
        4: `offset, as +0530 or +053009${zero}`,
        5: `offset, as +05:30 or +05:30:09${zero}`,
        6: `offset, as +05:30${zero}`,
    });

    // By symbol and count; a count that is not there is as the one below it.
    const SYMBOLS = {
        G: { 1: 'era, AD or BC', 4: 'era, in words', 5: 'era, one letter', 6: 'era, in words' },
        y: { 1: 'year, all its digits', 2: 'year, its last two digits' },
        q: { 1: 'quarter, one digit', 2: 'quarter, two digits', 3: 'quarter, as Q4', 4: 'quarter, in words', 5: 'quarter, one digit' },
        M: {
            1: 'month, one or two digits',
            2: 'month, two digits',
            3: 'month, short name',
            4: 'month, name',
            5: 'month, one letter',
            6: 'month, name',
        },
        w: clock('week'),
        d: clock('day'),
        D: {
            1: 'day of the year, one to three digits',
            2: 'day of the year, two or three digits',
            3: 'day of the year, three digits',
            4: 'day of the year, one to three digits',
        },
        e: {
            1: 'weekday, Sunday is 1',
            2: 'weekday, Sunday is 01',
            3: 'weekday, short name',
            4: 'weekday, name',
            5: 'weekday, one letter',
            6: 'weekday, two letters',
            7: 'weekday, Monday is 1',
            8: 'weekday, Monday is 01',
            9: 'weekday, Sunday is 1',
        },
        a: HALF_DAY,
        b: {
            1: 'AM, PM, noon or midnight',
            3: 'am, pm, noon or midnight',
            4: 'a.m., p.m., noon or midnight',
            5: 'a, p, n or mi',
            6: 'am, pm, noon or midnight',
        },
        h: clock('hour 1 to 12'),
        K: clock('hour 0 to 11'),
        H: clock('hour 0 to 23'),
        k: clock('hour 1 to 24'),
        m: clock('minute'),
        s: clock('second'),
        n: {
            1: 'tenths of a second',
            2: 'hundredths of a second',
            3: 'thousandths of a second',
            4: 'millionths of a second',
            5: 'billionths of a second',
            6: 'thousandths of a second',
        },
        X: offset(', or Z'),
        x: offset(''),
    };

    const LONE_BYTES = { ' ': 'a space', '\t': 'a tab', '\n': 'a new line' };

    function ofSymbol(symbol, count) {
        if (symbol === 'y' && count > 2) return `year, at least ${count} digits`;
        const counts = Object.keys(SYMBOLS[symbol]).map(Number);
        return SYMBOLS[symbol][Math.max(...counts.filter((known) => known <= count))];
    }

    function ofLiteral(part) {
        if (part.kind === 'quotes') return part.literal.length === 1 ? 'a quote' : `${part.literal.length} quotes`;
        if (part.kind === 'quoted') return 'text in quotes';
        if (part.kind === 'open') return part.length === 1 ? 'a quote that opens nothing' : 'text that no quote closes';
        if (part.literal in LONE_BYTES) return LONE_BYTES[part.literal];
        if (part.literal[0] in SYMBOLS) return 'a time symbol, here itself';
        if (/^[A-Za-z]/.test(part.literal)) return 'no symbol: itself';
        return 'itself';
    }

    function ofPart(part) {
        return part.literal === null ? ofSymbol(part.text[0], part.length) : ofLiteral(part);
    }

    // Which colour a part has: that of its unit, of symbols that carry nothing, or of literals.
    function colourOf(part) {
        if (part.literal !== null) return 'literal';
        return part.unit ?? 'nothing';
    }

    const twoDigits = (number) => String(number).padStart(2, '0');

    function ofOffset(seconds) {
        const size = Math.abs(seconds);
        const groups = [Math.floor(size / 3600), Math.floor(size / 60) % 60];
        if (size % 60 !== 0) groups.push(size % 60);
        return (seconds < 0 ? '-' : '+') + groups.map(twoDigits).join(':');
    }

    function ofValue(unit, value) {
        if (unit === 'offset') return ofOffset(value);
        if (unit === 'period' && value < 2) return ['before noon', 'from noon on'][value];
        return String(value);
    }

    // The units of a reading in the order in which they stand in the text.
    const inOrder = (spans) => Object.keys(spans).sort((some, other) => spans[some].start - spans[other].start);

    // As in `year, month and day`.
    function listed(words) {
        if (words.length < 2) return words.join('');
        return `${words.slice(0, -1).join(', ')} and ${words.at(-1)}`;
    }

    const counted = (number, what) => `${number.toLocaleString('en')} ${what}${number === 1 ? '' : 's'}`;

    const capitalised = (text) => text.charAt(0).toUpperCase() + text.slice(1);

    return { units: UNITS, ofPart, colourOf, ofValue, inOrder, listed, counted, capitalised };
})();

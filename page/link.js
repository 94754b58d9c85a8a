'use strict';

// The state as the part of the address behind #, so that a pattern can be sent. What is malformed there is left as it is by default.
const Link = (() => {
    // A longer column stays out of the link.
    const LONGEST_COLUMN = 1000;

    // Each entry: its name in the link, and what it has to look like.
    const ENTRIES = {
        pattern: /^[^\n\r]{0,2000}$/su,
        date: /^\d{4}-\d\d-\d\d$/,
        time: /^([01]\d|2[0-3]):[0-5]\d(:[0-5]\d)?$/,
        nanos: /^\d{1,9}$/,
        offset: /^(Z|[+-]\d\d:\d\d)$/,
        year: /^\d{1,5}$/,
        strict: /^[01]$/,
        edition: /^[12]$/,
        pair: /^(full|date)$/,
        book: /^(english|dutch|spanish)$/,
        names: /^[A-Za-z0-9_-]{200,1400}$/,
        column: new RegExp(`^.{0,${LONGEST_COLUMN}}$`, 'su'),
    };

    function written(state) {
        const entries = Object.keys(ENTRIES).filter((name) => state[name] !== undefined && ENTRIES[name].test(state[name]));
        return `#${new URLSearchParams(entries.map((name) => [name, state[name]]))}`;
    }

    // Of each entry that is well formed, its text.
    function read(hash) {
        const state = {};
        for (const [name, text] of new URLSearchParams(hash.replace(/^#/, ''))) {
            if (Object.hasOwn(ENTRIES, name) && ENTRIES[name].test(text)) state[name] = text;
        }
        return state;
    }

    return { written, read };
})();

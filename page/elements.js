'use strict';

// Elements of the page. Text is only ever set as text, so that nothing typed or pasted is taken for markup.
const Elements = (() => {
    const byId = (id) => document.getElementById(id);

    // An element with properties, data and children; a string among the children is text.
    function make(tag, properties = {}, ...children) {
        const { data = {}, aria = {}, ...own } = properties;
        const element = Object.assign(document.createElement(tag), own);
        Object.assign(element.dataset, data);
        for (const [name, value] of Object.entries(aria)) element.setAttribute(`aria-${name}`, value);
        element.append(...children);
        return element;
    }

    function commonStart(some, others) {
        const most = Math.min(some.length, others.length);
        let count = 0;
        while (count < most && some[count] === others[count]) count += 1;
        return count;
    }

    // Holds the children of an element to a list of keys: those that stand before and behind what has changed stay as they are, so that a
    // key typed into a long pattern makes few elements anew.
    function hold(parent, keys, makeChild) {
        const old = parent.heldKeys ?? [];
        const start = commonStart(old, keys);
        const end = commonStart(old.slice(start).reverse(), keys.slice(start).reverse());
        for (let left = old.length - start - end; left > 0; left -= 1) parent.children[start].remove();
        const fresh = document.createDocumentFragment();
        for (let place = start; place < keys.length - end; place += 1) fresh.append(makeChild(place));
        parent.insertBefore(fresh, parent.children[start] ?? null);
        parent.heldKeys = keys;
    }

    // A sentence in which what stands between backquotes is shown as code.
    function sentence(text) {
        const pieces = text.split('`');
        if (pieces.length % 2 === 0) return [text];
        return pieces.map((piece, place) => (place % 2 === 0 ? piece : make('code', {}, piece)));
    }

    return { byId, make, hold, sentence };
})();

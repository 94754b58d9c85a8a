// What a check holds the page to: where it does not hold, the error says what was found.
import { isDeepStrictEqual } from 'node:util';

export function holds(condition, what) {
    if (!condition) throw new Error(what);
}

export function same(found, wanted, what) {
    holds(isDeepStrictEqual(found, wanted), `${what}: found ${JSON.stringify(found)}, not ${JSON.stringify(wanted)}`);
}

export function within(found, pattern, what) {
    holds(pattern.test(found), `${what}: found ${JSON.stringify(found)}, not ${pattern}`);
}

import { MOST_ROOM, NO_ROOM, agreed, asked, filled, firstAltered, marked, own, refusedRow, sheet } from './lent.mjs';
import { encoded } from './words.mjs';

const CHANGES_ROW = 512;
const CHANGE = 4;

/** A pattern is mended into lent rows, and by the module; of that the changes are undone, and the check is asked. */
export function answerMend(words) {
    const [pattern, year] = [words.bytes(), words.signed()];
    const room = words.unsigned(MOST_ROOM);
    const edition = words.edition();
    words.end();
    return agreed(laidMending(pattern, year, room, edition), own(() => ownMending(pattern, year, room, edition)));
}

/** With an entry behind those that are asked for. */
function laidMending(pattern, year, room, edition) {
    const out = filled(room);
    const changes = marked(CHANGES_ROW + 1);
    const { number, row } = asked('sheet_mend', 2, edition === 2 ? 4 : 0, pattern, year, out, changes);
    const [length, count] = number === 0 ? Array.from(row, Number) : [0, 0];
    const place = firstAltered(out, length) ?? firstMarkLost(changes, number === 0 ? CHANGES_ROW : 0);
    if (place !== null) {
        return `altered ${place}`;
    }
    if (number !== 0) {
        return refusedRow({ number, row });
    }
    if (changes.subarray(CHANGE * count, CHANGES_ROW).some((entry) => entry !== 0n)) {
        return ['changes', ...row, ...changes].join(' ');
    }
    const listed = Array.from({ length: count }, (_, k) => {
        const [at, byte, before, after] = Array.from(changes.subarray(CHANGE * k, CHANGE * (k + 1)), Number);
        return { place: at, byte: String.fromCharCode(byte), before, after };
    });
    return mended(out.subarray(0, length), listed);
}

function firstMarkLost(row, from) {
    const place = row.findIndex((entry, k) => k >= from && entry !== marked(1)[0]);
    return place < 0 ? null : place;
}

function ownMending(pattern, year, room, edition) {
    const mending = sheet.mend(pattern, year, { edition });
    const bytes = Buffer.from(mending.pattern);
    if (bytes.length > room) {
        return `refused ${NO_ROOM} ${bytes.length}`;
    }
    const undone = Buffer.from(sheet.undo(bytes, mending.changes));
    if (undone.compare(pattern) !== 0) {
        return `undone ${encoded(undone)}`;
    }
    return sheet.check(bytes, year, { edition }).trusted ? mended(bytes, mending.changes) : 'not trusted';
}

function mended(pattern, changes) {
    const listed = changes.map(({ place, byte, before, after }) => {
        const [old, now] = [before, after].map((times) => encoded(Buffer.from(byte.repeat(times), 'latin1')));
        return `${place}:${old}:${now}`;
    });
    return [`mended ${pattern.length} ${encoded(pattern)} ${changes.length}`, ...listed].join(' ');
}

'use strict';

// The pattern as coloured parts: in its field, as cards with what each part is and writes, and in the text that is written.
const Parts = (() => {
    const { byId, make, hold } = Elements;

    // A piece of a line: its text, its colour and what marks it. As a key it tells whether an element can stay.
    const piece = (text, colour, mark = '') => ({ text, colour, mark });
    const keyOf = ({ text, colour, mark }) => `${colour} ${mark} ${text}`;

    function showPieces(parent, pieces) {
        const makePiece = (place) => {
            const { text, colour, mark } = pieces[place];
            return make('span', { className: mark, data: { colour } }, text);
        };
        hold(parent, pieces.map(keyOf), makePiece);
    }

    // Where a refused pattern is at fault: from a byte to the one behind, as places of its characters.
    function faultOf(pattern, refusal) {
        const longest = 256;
        if (refusal.number === 1) return [openSheet.charPlace(pattern, longest), pattern.length];
        const start = openSheet.charPlace(pattern, refusal.details[0]);
        return [start, start + String.fromCodePoint(pattern.codePointAt(start) ?? 32).length];
    }

    function piecesOfRefused(pattern, refusal) {
        const [start, end] = faultOf(pattern, refusal);
        return [
            piece(pattern.slice(0, start), 'literal'),
            piece(pattern.slice(start, end), 'literal', 'refused'),
            piece(pattern.slice(end), 'literal'),
        ];
    }

    // In the field a last piece of no width keeps a line high where the pattern is empty.
    function showField(pattern, { parts, refusal, failing }) {
        const ofParts = () =>
            parts.map((part, number) => {
                const refused = refusal?.number === 3 && part.start === refusal.details[0];
                return piece(part.text, Words.colourOf(part), refused ? 'refused' : number === failing ? 'failing' : '');
            });
        const pieces = parts ? ofParts() : piecesOfRefused(pattern, refusal);
        showPieces(byId('pattern-shown'), [...pieces, piece('\u200b', 'literal')]);
    }

    function cardOf(part, text, isFailing) {
        const className = ['part', part.literal === null ? 'symbol' : 'literal', isFailing ? 'failing' : ''].join(' ').trim();
        return make(
            'li',
            { className, data: { colour: Words.colourOf(part) } },
            make('code', { className: 'bytes' }, part.text.replaceAll(' ', '␣')),
            make('span', { className: 'words' }, Words.ofPart(part)),
            make('code', { className: 'text' }, text === part.text ? '' : text)
        );
    }

    function showCards({ parts, texts, failing }) {
        const keys = parts.map((part, number) => `${number === failing} ${Words.colourOf(part)} ${part.text}\n${texts[number]}`);
        hold(byId('parts'), keys, (number) => cardOf(parts[number], texts[number], number === failing));
    }

    function showWritten({ parts, texts, failing }) {
        const pieces = parts.map((part, number) => piece(texts[number], Words.colourOf(part), number === failing ? 'failing' : ''));
        showPieces(byId('written'), pieces);
    }

    // `look` has the parts with the text of each, or the refusal of the pattern; `failing` is the part that the check names.
    function show(pattern, look) {
        const nothing = { parts: [], texts: [] };
        showField(pattern, look);
        showCards(look.parts ? look : nothing);
        showWritten(look.isWritten ? look : nothing);
    }

    return { show };
})();

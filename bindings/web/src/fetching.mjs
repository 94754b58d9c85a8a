/** The bytes at a place: of a file in node, which does not fetch those, else fetched. */
export async function bytesFrom(place) {
    if (isFile(place)) {
        const { readFile } = await import('node:fs/promises');
        return readFile(/^file:/.test(place) ? new URL(place) : place);
    }
    const response = await fetch(place);
    if (!response.ok) {
        throw new Error(`${place} can't be fetched: ${response.status}`);
    }
    return response.arrayBuffer();
}

function isFile(place) {
    return typeof process !== 'undefined' && process.versions?.node && !/^https?:/.test(place);
}

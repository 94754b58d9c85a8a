import { charPlace, units } from './answers.mjs';
import { bytesBeside } from './beside.mjs';
import { bytesFrom } from './fetching.mjs';
import { Memory } from './memory.mjs';
import { Refusal } from './refusal.mjs';
import { Sheet } from './sheet.mjs';

async function open(source) {
    const { instance } = await WebAssembly.instantiate(await bytesOfModule(source));
    return new Sheet(new Memory(instance.exports));
}

function bytesOfModule(source) {
    if (source === undefined) {
        return bytesBeside();
    }
    return typeof source === 'string' || source instanceof URL ? bytesFrom(source) : source;
}

export { Refusal, charPlace, open, units };

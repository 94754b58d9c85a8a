import { bytesFrom } from './fetching.mjs';

/** The bytes of sheet.wasm, which stands beside the module. */
export function bytesBeside() {
    return bytesFrom(new URL('sheet.wasm', import.meta.url));
}

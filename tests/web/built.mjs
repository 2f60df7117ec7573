// What the tests here load: the build in target/wasm, its bytes and the script beside it.
import { readFileSync } from 'node:fs';

export const file = new URL('../../target/wasm/qashmelvit.wasm', import.meta.url);
export const bytes = readFileSync(file);
export * as script from '../../target/wasm/qashmelvit.js';

// host.mjs: a host of the kernel cube. Makes an instance, the closure once, and one call. Takes the path of cube.wasm.
import { readFileSync } from 'node:fs';

const bytes = readFileSync(process.argv[2] ?? 'cube.wasm');
const { exports } = await WebAssembly.instantiate(bytes).then(({ instance }) => instance);
const closure = exports.init();
console.log(String(exports.call(closure, 5n)));

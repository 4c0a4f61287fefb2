#!/usr/bin/env node
// call.mjs [--type TYPE] FILE.wasm [LEAF ..]: makes an instance of a kernel's module and prints the value of one call. The
// leaves of the argument stand from left to right: an integer in decimal, a truth value as 0, 1, false or true. A kernel
// that is no function takes none. Without TYPE the value is a number of 64 bits with sign: a truth value is 0 or 1, a pair
// its address. TYPE is the kernel's type, as its line says it: 'int * int -> int * int'. Then the value is written as the
// program writes answers, a pair by its parts, which are read in the memory.
// Exit codes: 0; 1 where the kernel trapped or a bound was met; 2 where the words don't fit; 5 where there is no module.
import { readFileSync } from 'node:fs';
import { leaf } from './leaves.mjs';
import { kernelType, leafCount, shown, withMemory } from './types.mjs';

const USAGE = 'usage: call.mjs [--type TYPE] FILE.wasm [LEAF ..]';

function fail(code, text) {
  process.stderr.write(`call.mjs: ${text}\n`);
  process.exit(code);
}

/** What this function gives, or a failure with this code where it throws. */
function attempt(code, act) {
  try {
    return act();
  } catch (error) {
    return fail(code, error.message);
  }
}

/** The words without the option, and the type that it names, if it is there. */
function options(words) {
  const at = words.indexOf('--type');
  if (at < 0) return { words, type: undefined };
  if (at + 1 === words.length) fail(2, USAGE);
  const type = attempt(2, () => kernelType(words[at + 1]));
  return { words: [...words.slice(0, at), ...words.slice(at + 2)], type };
}

/** Ends where the module isn't one of a kernel of this type. */
function compare(type, isFunction, wanted) {
  const leaves = type.argument === undefined ? 0 : leafCount(type.argument);
  if (isFunction !== (type.argument !== undefined) || leaves !== wanted) fail(2, 'the kernel is of another type');
}

const { words: [file, ...words], type } = options(process.argv.slice(2));
if (file === '--help') {
  console.log(USAGE);
  process.exit(0);
}
if (file === undefined) fail(2, USAGE);
const leaves = attempt(2, () => words.map(leaf));
const module = attempt(5, () => {
  const bytes = readFileSync(file);
  return new WebAssembly.Module(type === undefined ? bytes : withMemory(bytes));
});
const { init, call, memory } = attempt(5, () => new WebAssembly.Instance(module).exports);
if (init === undefined) fail(5, `${file}: this is no module of one kernel; hosts/linked.mjs calls linked ones`);
const wanted = call === undefined ? 0 : call.length - 1;
if (type !== undefined) compare(type, call !== undefined, wanted);
if (leaves.length !== wanted) fail(2, `leaves: ${wanted} are needed, and here are ${leaves.length}`);
const value = attempt(1, () => (call === undefined ? init() : call(init(), ...leaves)));
console.log(type === undefined ? String(value) : shown(type.result, value, new DataView(memory.buffer)));

#!/usr/bin/env node
// linked.mjs FILE.wasm [CALL ..]: a host of all kernels of a linked module. It makes the calls in their order on one
// instance, and prints a line for each, its value. A call is the kernel's name and, behind a colon, the leaves of the
// argument with commas between: cube:5 or gcd:1071,462; or the name alone of a kernel that is no function. Leaves and
// values are those of tools/call.mjs. A call that traps or meets a bound has a line on standard error in place of its
// own, and the calls after it a new instance. Without calls it prints the form of each kernel's call.
// Exit codes: 0; 1 where a call had no value; 2 where the words don't fit; 5 where there is no linked module.
import { readFileSync } from 'node:fs';
import { leaf } from '../leaves.mjs';

/** The kernels of a linked module, on one instance as long as no call fails. */
class Kernels {
  constructor(bytes) {
    this.module = new WebAssembly.Module(bytes);
    this.renew();
    if (!Object.keys(this.exports).every((name) => name.includes('.'))) throw new Error('this is no linked module');
  }

  /** Makes a new instance, on which no kernel has begun. */
  renew() {
    this.exports = new WebAssembly.Instance(this.module).exports;
    this.last = undefined;
  }

  /** The names of the kernels, in the order of the source. */
  names() {
    const inits = Object.keys(this.exports).filter((name) => name.endsWith('.init'));
    return inits.map((name) => name.slice(0, -'.init'.length));
  }

  /** How many leaves a call of this kernel takes. */
  leaves(name) {
    const call = this.exports[`${name}.call`];
    return call === undefined ? 0 : call.length - 1;
  }

  /** The result of this kernel's `init`. It is good until the `init` of another kernel, and kept until then. */
  begun(name) {
    if (this.last !== name) {
      this.result = this.exports[`${name}.init`]();
      this.last = name;
    }
    return this.result;
  }

  /** The value of a call of this kernel. */
  call(name, leaves) {
    try {
      const result = this.begun(name);
      const call = this.exports[`${name}.call`];
      return call === undefined ? result : call(result, ...leaves);
    } catch (error) {
      this.renew();
      throw error;
    }
  }
}

/** The form of a call of this kernel. */
function form(kernels, name) {
  const leaves = Array(kernels.leaves(name)).fill('LEAF').join(',');
  return leaves === '' ? name : `${name}:${leaves}`;
}

/** The call that a word is. */
function read(kernels, word) {
  const [, name, list] = word.match(/^([^:]*):?(.*)$/s);
  if (!kernels.names().includes(name)) throw new Error(`no kernel has this name: ${name}`);
  const leaves = list === '' ? [] : list.split(',').map(leaf);
  const wanted = kernels.leaves(name);
  if (leaves.length === wanted) return { word, name, leaves };
  throw new Error(`leaves of ${name}: ${wanted} are needed, and here are ${leaves.length}`);
}

function say(text) {
  process.stderr.write(`linked.mjs: ${text}\n`);
}

/** What this function gives; where it throws, the end with this code. */
function attempt(code, act) {
  try {
    return act();
  } catch (error) {
    say(error.message);
    return process.exit(code);
  }
}

/** Makes a call and prints its line. */
function make(kernels, { word, name, leaves }) {
  try {
    console.log(String(kernels.call(name, leaves)));
  } catch (error) {
    say(`${word}: ${error.message}`);
    process.exitCode = 1;
  }
}

const [file, ...words] = process.argv.slice(2);
if (file === undefined) {
  say('usage: linked.mjs FILE.wasm [CALL ..]');
  process.exit(2);
}
const kernels = attempt(5, () => new Kernels(readFileSync(file)));
const calls = attempt(2, () => words.map((word) => read(kernels, word)));
if (calls.length === 0) kernels.names().forEach((name) => console.log(form(kernels, name)));
calls.forEach((call) => make(kernels, call));

// check_linked.mjs FOLDER: what scripts/stress/check_linked asks of node.
//
// The file `linked` in FOLDER names the sources that were linked, without their ending. For each, FOLDER/SOURCE has
// the output of `run`, as `run`, and linked.wasm. On one instance node invokes the `init` of every kernel and then
// makes the calls of the source in order, backwards, and with the kernels taking turns; where another kernel's `init`
// came between, it invokes the kernel's own again. Each gives what it gives with the module of its kernel alone. Where
// that is an error, there is a new instance then. The calls are those of tests/calls, and where it has none of a
// kernel, two with equal leaves.
import { readFileSync } from 'node:fs';
import { join } from 'node:path';
import { kernelsIn, listedCalls } from './kernels.mjs';

const folder = process.argv[2];
const listed = listedCalls();
let failed = false;
let made = 0;

function differs(text) {
  console.log(`check_linked: ${text}`);
  failed = true;
}

/** The exports of a new instance. */
function begin(module) {
  return new WebAssembly.Instance(module).exports;
}

/** What this function gives, or the error that it throws, as text. */
function outcome(act) {
  try {
    return String(act());
  } catch (error) {
    return `${error}`;
  }
}

/** What `init` gives with the kernel's own module, or a call with these leaves. */
function alone(module, leaves) {
  return outcome(() => {
    const { init, call } = begin(module);
    const result = init();
    return leaves && call ? call(result, ...leaves) : result;
  });
}

/** The leaves of a kernel's calls. */
function leavesOf(path, name, count) {
  const known = listed.filter((call) => call.path === path && call.name === name);
  return known.length > 0 ? known.map(({ leaves }) => leaves) : [1n, 3n].map((leaf) => Array(count).fill(leaf));
}

/** The `init` of a kernel, without leaves, and its calls, with what they must give. */
function stepsOf(path, name, bytes) {
  const module = new WebAssembly.Module(bytes);
  const count = (begin(module).call?.length ?? 1) - 1;
  const lists = [undefined, ...leavesOf(path, name, count)];
  return lists.map((leaves) => ({ name, leaves, wanted: alone(module, leaves) }));
}

/** The calls of these lists, one of each in turn. */
function inTurn(lists) {
  const longest = Math.max(0, ...lists.map((list) => list.length));
  return Array.from({ length: longest }, (_, at) => lists.flatMap((list) => list.slice(at, at + 1))).flat();
}

/** Invokes `init` and makes calls of the kernels in a linked module. */
function make(path, module, steps) {
  let exports = begin(module);
  let last;
  let result;
  for (const { name, leaves, wanted } of steps) {
    const given = outcome(() => {
      if (!leaves || last !== name) result = exports[`${name}.init`]();
      last = name;
      const call = leaves && exports[`${name}.call`];
      return call ? call(result, ...leaves) : result;
    });
    made += 1;
    if (given !== wanted) differs(`${path}: ${[name, ...(leaves ?? ['init'])].join(' ')}: ${given}, not ${wanted}`);
    if (/Error/.test(given)) {
      exports = begin(module);
      last = undefined;
    }
  }
}

/** The names under which a linked module exports this kernel. */
function exportsOf([name, { type }]) {
  return type.includes('->') ? [`${name}.init`, `${name}.call`] : [`${name}.init`];
}

/** Compares the exports of a source's linked module, and makes its calls. */
function check(path) {
  const kernels = kernelsIn(join(folder, path, 'run'));
  const module = new WebAssembly.Module(readFileSync(join(folder, path, 'linked.wasm')));
  const given = WebAssembly.Module.exports(module).map(({ name }) => name).join(' ');
  const wanted = [...kernels].flatMap(exportsOf).join(' ');
  if (given !== wanted) differs(`${path}: the exports are ${given}, not ${wanted}`);
  const steps = [...kernels].map(([name, { bytes }]) => stepsOf(path, name, bytes));
  const calls = steps.map((list) => list.slice(1));
  const inits = steps.map(([init]) => init);
  make(path, module, [...inits, ...calls.flat(), ...calls.flat().reverse(), ...inTurn(calls)]);
}

/** Once another kernel has begun, a result of `init` may be that kernel's function. */
function checkLate() {
  const path = 'examples/cube_and_down';
  const exports = begin(new WebAssembly.Module(readFileSync(join(folder, path, 'linked.wasm'))));
  const down = exports['down.init']();
  const before = exports['down.call'](down, 3n);
  exports['cube.init']();
  const after = exports['down.call'](down, 3n);
  if (before !== 0n || after !== 27n) differs(`${path}: down of 3 gives ${before}, and once cube began ${after}`);
}

const paths = readFileSync(join(folder, 'linked'), 'utf8').split('\n').filter((line) => line);
paths.forEach(check);
checkLate();
if (!failed) console.log(`check_linked: node invoked ${made} times in ${paths.length} modules, and got what it must`);
process.exitCode = failed ? 1 : 0;

// What scripts/stress/check_kernels does, where node is installed.
//
// node makes each call of tests/calls with the module that stands in the example's output. The program is run on the
// example with another main, which makes the same call.
import { execFileSync } from 'node:child_process';
import { mkdtempSync, readFileSync, readdirSync, rmSync, writeFileSync } from 'node:fs';
import { tmpdir } from 'node:os';
import { join } from 'node:path';
import { kernelType, shown, withMemory } from '../../tools/types.mjs';
import { kernelsIn, listedCalls } from './kernels.mjs';

const program = process.env.METAML || 'crates/metaml/out/metaml';

/** The ground type that a text spells: 'int', 'bool', or a list of two such types. */
function groundType(text) {
  const words = text.match(/int|bool|[*()]/g);
  const atom = () => {
    const word = words.shift();
    if (word !== '(') return word;
    const inner = ground();
    words.shift();
    return inner;
  };
  const ground = () => {
    const left = atom();
    if (words[0] !== '*') return left;
    words.shift();
    return [left, ground()];
  };
  return ground();
}

/** An integer or a truth value as the language writes it. */
function spelled(type, leaf) {
  if (type === 'bool') return leaf === 0n ? 'false' : 'true';
  return leaf < 0n ? `(${leaf})` : `${leaf}`;
}

/** The expression of a ground type whose leaves are the first ones of the list, which are taken from it. */
function expression(type, leaves) {
  if (typeof type === 'string') return spelled(type, leaves.shift());
  const left = expression(type[0], leaves);
  return `(${left}, ${expression(type[1], leaves)})`;
}

/** What node gives, as the program writes answers: the result of `init`, or of a call of the function that it gives. */
function givenByNode(kernel, leaves) {
  const { init, call, memory } = new WebAssembly.Instance(new WebAssembly.Module(withMemory(kernel.bytes))).exports;
  const made = init();
  const value = call ? call(made, ...leaves) : made;
  return `answer ${shown(kernelType(kernel.type).result, value, new DataView(memory.buffer))}`;
}

/** What the program gives: the last line of its run on the example with a main that makes this call. */
function givenByProgram(path, name, type, leaves, folder) {
  const source = readFileSync(`${path}.metaml`, 'utf8');
  const [argument, result] = type.includes('->') ? type.split(' -> ') : [undefined, type];
  const applied = argument ? ` ${expression(groundType(argument), [...leaves])}` : '';
  const file = join(folder, 'call.metaml');
  writeFileSync(file, `${source.slice(0, source.search(/^main :/m))}main : ${result} = run[${type}] ${name}${applied}\n`);
  return execFileSync(program, ['run', file], { encoding: 'utf8' }).trimEnd().split('\n').pop();
}

/** The paths, without ending, of the examples whose kernels are called. */
function examples() {
  return readdirSync('examples', { recursive: true })
    .filter((file) => file.endsWith('.out') && !/^(ends|refused)\//.test(file))
    .map((file) => `examples/${file.slice(0, -'.out'.length)}`)
    .sort();
}

const folder = mkdtempSync(join(tmpdir(), 'check_kernels'));
let failed = false;
const differs = (text) => {
  console.log(`check_kernels: ${text}`);
  failed = true;
};

const called = new Set();
const calls = listedCalls();
for (const { line, path, name, leaves } of calls) {
  const kernel = kernelsIn(`${path}.out`).get(name);
  if (!kernel) {
    differs(`${line}: no kernel of this name`);
    continue;
  }
  called.add(`${path} ${name}`);
  const given = givenByNode(kernel, leaves);
  const wanted = givenByProgram(path, name, kernel.type, leaves, folder);
  if (given !== wanted) differs(`${line}: node gives "${given}", the program "${wanted}"`);
}
for (const path of examples()) {
  for (const name of kernelsIn(`${path}.out`).keys()) {
    if (!called.has(`${path} ${name}`)) differs(`${path} ${name}: no line of tests/calls calls it`);
  }
}
rmSync(folder, { recursive: true });
if (!failed) console.log(`check_kernels: each of the ${calls.length} calls gave in node what the program gives`);
process.exitCode = failed ? 1 : 0;

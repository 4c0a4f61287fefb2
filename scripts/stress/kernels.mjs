// What scripts/stress/check_kernels.mjs and scripts/stress/check_linked.mjs both read.
import { readFileSync } from 'node:fs';

/** The kernels in the output of `run` that a file has: by name, in their order, the type and the module's bytes. */
export function kernelsIn(file) {
  const kernels = new Map();
  let name;
  let type;
  for (const line of readFileSync(file, 'utf8').split('\n')) {
    const head = line.match(/^kernel (\w+) : (.*)$/);
    if (head) [, name, type] = head;
    if (line.startsWith('module ')) kernels.set(name, { type, bytes: Buffer.from(line.slice(7), 'hex') });
  }
  return kernels;
}

/**
 * The lines of tests/calls, one for each call: the path of an example without its ending, the kernel's name, and the
 * leaves of the argument from left to right, with truth values as 0 and 1.
 */
export function listedCalls() {
  const lines = readFileSync('tests/calls', 'utf8').split('\n').filter((line) => line && !line.startsWith('#'));
  return lines.map((line) => {
    const [path, name, ...words] = line.split(' ');
    return { line, path, name, leaves: words.map(BigInt) };
  });
}

// leaves.mjs: the leaves of an argument as words, for call.mjs and hosts/linked.mjs.

/** The leaf that a word is: an integer in decimal, or a truth value as 0, 1, false or true. */
export function leaf(word) {
  if (word === 'true') return 1n;
  if (word === 'false') return 0n;
  if (!/^-?[0-9]+$/.test(word)) throw new Error(`this is no leaf: ${word}`);
  const value = BigInt(word);
  if (BigInt.asIntN(64, value) !== value) throw new Error(`this has no 64 bits: ${word}`);
  return value;
}

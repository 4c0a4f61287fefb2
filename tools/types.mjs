// types.mjs: the type of a kernel as the program writes it, and the value of a result by its type.

/** A type as a list of its words, or an error. */
function words(text) {
  const found = text.match(/int|bool|->|[*()]|\S/g) ?? [];
  const other = found.find((word) => !/^(int|bool|->|[*()])$/.test(word));
  if (other !== undefined) throw new Error(`no type has this: ${other}`);
  return found;
}

/** The ground type that words begin with, which are taken: 'int', 'bool', or a list of two such types. */
function ground(list) {
  const part = () => {
    const word = list.shift();
    if (word === 'int' || word === 'bool') return word;
    if (word !== '(') throw new Error('this is no type of a kernel');
    const inner = ground(list);
    if (list.shift() !== ')') throw new Error('a parenthesis of the type is missing');
    return inner;
  };
  const left = part();
  if (list[0] !== '*') return left;
  list.shift();
  return [left, ground(list)];
}

/** A kernel's type: its argument, which is none where it is no function, and its result. */
export function kernelType(text) {
  const list = words(text);
  const types = [ground(list)];
  if (list[0] === '->') {
    list.shift();
    types.push(ground(list));
  }
  if (list.length > 0) throw new Error('this is no type of a kernel');
  return { argument: types.length === 2 ? types[0] : undefined, result: types.at(-1) };
}

/** How many leaves a ground type has. */
export function leafCount(type) {
  return typeof type === 'string' ? 1 : leafCount(type[0]) + leafCount(type[1]);
}

/** A value as the language writes it: a result of this type, whose pairs stand in the memory that the view shows. */
export function shown(type, value, view) {
  if (type === 'bool') return value === 1n ? 'true' : 'false';
  if (type === 'int') return String(value);
  const at = Number(BigInt.asUintN(32, value));
  const [left, right] = [0, 8].map((offset, part) => shown(type[part], view.getBigInt64(at + offset, true), view));
  return `(${left}, ${right})`;
}

/** The number in LEB128 at a place, and the place behind it. */
function numberAt(bytes, at) {
  let [value, factor] = [0, 1];
  for (; bytes[at] >= 0x80; at += 1, factor *= 0x80) value += (bytes[at] - 0x80) * factor;
  return [value + bytes[at] * factor, at + 1];
}

/** A number as LEB128. */
function leb(value) {
  return value < 0x80 ? [value] : [0x80 + (value % 0x80), ...leb(Math.floor(value / 0x80))];
}

/** A kernel's module with one export more, `memory`, by which a host reads pairs. */
export function withMemory(bytes) {
  let at = 8;
  while (at < bytes.length) {
    const [size, begin] = numberAt(bytes, at + 1);
    if (bytes[at] === 7) {
      const [count, first] = numberAt(bytes, begin);
      const entry = [6, ...Buffer.from('memory'), 2, 0];
      const section = [...leb(count + 1), ...bytes.subarray(first, begin + size), ...entry];
      return Buffer.from([...bytes.subarray(0, at), 7, ...leb(section.length), ...section, ...bytes.subarray(begin + size)]);
    }
    at = begin + size;
  }
  throw new Error('the module has no exports');
}

"""The bytes of the module of a canonical text, and the text of a module's bytes: by a table of the standard's
instructions and by its sections, with each number as short as can be. No program is asked."""
import re

from encoded import section, signed, unsigned, vector

COMPARE = 'eqz eq ne lt_s lt_u gt_s gt_u le_s le_u ge_s ge_u'
BINARY = 'clz ctz popcnt add sub mul div_s div_u rem_s rem_u and or xor shl shr_s shr_u rotl rotr'
TYPES = {'i32': 0x7F, 'i64': 0x7E}
KINDS = {'func': 0, 'table': 1, 'memory': 2, 'global': 3}


def in_turn(first, names, before=''):
    """Names with rising opcodes."""
    return {before + name: first + at for at, name in enumerate(names.split())}


PLAIN = in_turn(0x00, 'unreachable nop') | in_turn(0x1A, 'drop select') | {'return': 0x0F, 'else': 0x05, 'end': 0x0B}
PLAIN |= in_turn(0x45, COMPARE, 'i32.') | in_turn(0x50, COMPARE, 'i64.')
PLAIN |= in_turn(0x67, BINARY, 'i32.') | in_turn(0x79, BINARY, 'i64.')
PLAIN |= {'i32.wrap_i64': 0xA7} | in_turn(0xAC, 'i64.extend_i32_s i64.extend_i32_u')
BLOCKS = in_turn(0x02, 'block loop if')
INDEXED = in_turn(0x0C, 'br br_if') | {'call': 0x10}
INDEXED |= in_turn(0x20, 'local.get local.set local.tee global.get global.set')
MEMORY = in_turn(0x28, 'i32.load i64.load') | in_turn(0x2C, 'i32.load8_s i32.load8_u i32.load16_s i32.load16_u')
MEMORY |= in_turn(0x30, 'load8_s load8_u load16_s load16_u load32_s load32_u', 'i64.')
MEMORY |= in_turn(0x36, 'i32.store i64.store')
MEMORY |= in_turn(0x3A, 'i32.store8 i32.store16 i64.store8 i64.store16 i64.store32')
SIZES = in_turn(0x3F, 'memory.size memory.grow')
CONSTANTS = in_turn(0x41, 'i32.const i64.const')


def nested(text):
    """Words, strings and lists, as the parentheses of a text say."""
    stack = [[]]
    for token in re.findall(r'[()]|"[^"]*"|[^\s()"]+', text):
        if token == '(':
            stack.append([])
        elif token == ')':
            last = stack.pop()
            stack[-1].append(last)
        else:
            stack[-1].append(token)
    return stack[0]


def string(token):
    """The bytes of a string."""
    return re.sub(rb'\\(..)', lambda found: bytes([int(found[1], 16)]), token[1:-1].encode('ascii'))


def code(words):
    """The bytes of instructions."""
    made, words = b'', list(words)
    while words:
        word = words.pop(0)
        if word in BLOCKS:
            kind = TYPES[words.pop(0)[1]] if words and isinstance(words[0], list) else 0x40
            made += bytes([BLOCKS[word], kind])
        elif word == 'br_table':
            labels = []
            while words and isinstance(words[0], str) and words[0].isdigit():
                labels.append(unsigned(int(words.pop(0))))
            made += b'\x0e' + vector(labels[:-1]) + labels[-1]
        elif word == 'call_indirect':
            made += b'\x11' + unsigned(int(words.pop(0)[1])) + b'\0'
        elif word in MEMORY:
            offset, exponent = (int(words.pop(0).split('=')[1]) for _ in range(2))
            made += bytes([MEMORY[word]]) + unsigned(exponent) + unsigned(offset)
        elif word in SIZES:
            made += bytes([SIZES[word], 0])
        elif word in CONSTANTS:
            made += bytes([CONSTANTS[word]]) + signed(int(words.pop(0)))
        elif word in INDEXED:
            made += bytes([INDEXED[word]]) + unsigned(int(words.pop(0)))
        else:
            made += bytes([PLAIN[word]])
    return made


def types(words):
    return vector([bytes([TYPES[word]]) for word in words])


def body(words):
    """The locals and the code of a function."""
    local = words.pop(0)[1:] if words and isinstance(words[0], list) else []
    runs = []
    for word in local:
        if runs and runs[-1][0] == word:
            runs[-1][1] += 1
        else:
            runs.append([word, 1])
    made = vector([unsigned(times) + bytes([TYPES[word]]) for word, times in runs]) + code(words) + b'\x0b'
    return unsigned(len(made)) + made


def limits(words):
    return bytes([len(words) - 1]) + b''.join(unsigned(int(word)) for word in words)


def item(field):
    """The bytes of a field, but for a function's body."""
    kind, rest = field[0], field[1:]
    if kind == 'type':
        parts = {part[0]: part[1:] for part in rest[0][1:]}
        return b'\x60' + types(parts.get('param', [])) + types(parts.get('result', []))
    if kind == 'func':
        return unsigned(int(rest[0][1]))
    if kind == 'table':
        return b'\x70' + limits(rest[:-1])
    if kind == 'memory':
        return limits(rest)
    if kind == 'global':
        name, variable = (rest[0][1], 1) if isinstance(rest[0], list) else (rest[0], 0)
        return bytes([TYPES[name], variable]) + code(rest[1:]) + b'\x0b'
    if kind == 'export':
        name = string(rest[0])
        return unsigned(len(name)) + name + bytes([KINDS[rest[1][0]]]) + unsigned(int(rest[1][1]))
    place = b'\0' + code(rest[0][1:]) + b'\x0b'
    if kind == 'elem':
        return place + vector([unsigned(int(word)) for word in rest[1:]])
    data = string(rest[1])
    return place + unsigned(len(data)) + data


SECTIONS = (('type', 1), ('func', 3), ('table', 4), ('memory', 5), ('global', 6), ('export', 7), ('elem', 9))


def assembled(text):
    """The bytes of the module of a canonical text, with each number as short as can be."""
    fields = nested(text)[0][1:]
    made = b'\0asm\1\0\0\0'
    for kind, number in SECTIONS:
        items = [item(field) for field in fields if field[0] == kind]
        made += section(number, vector(items)) if items else b''
    bodies = [body(field[2:]) for field in fields if field[0] == 'func']
    made += section(10, vector(bodies)) if bodies else b''
    data = [item(field) for field in fields if field[0] == 'data']
    return made + (section(11, vector(data)) if data else b'')


class Bytes:
    """What is left of bytes."""

    def __init__(self, data):
        self.data, self.at = data, 0

    def is_left(self):
        return self.at < len(self.data)

    def taken(self, count):
        self.at += count
        assert self.at <= len(self.data)
        return self.data[self.at - count:self.at]

    def byte(self):
        return self.taken(1)[0]

    def number(self, signed_too=False):
        value = shift = 0
        while True:
            byte = self.byte()
            value |= (byte & 127) << shift
            shift += 7
            if byte < 128:
                return value - (1 << shift) if signed_too and byte & 64 else value

    def items(self, read):
        return [read() for _ in range(self.number())]


NAMES = {code: name for table in (PLAIN, BLOCKS, INDEXED, MEMORY, SIZES, CONSTANTS) for name, code in table.items()}
TYPE_NAMES = {code: name for name, code in TYPES.items()}


def instruction(left):
    """The text of the next instruction."""
    byte = left.byte()
    if byte == 0x0E:
        labels = left.items(left.number) + [left.number()]
        return 'br_table ' + ' '.join(map(str, labels))
    if byte == 0x11:
        index = left.number()
        assert left.byte() == 0
        return f'call_indirect (type {index})'
    name = NAMES[byte]
    if name in BLOCKS:
        kind = left.byte()
        return name if kind == 0x40 else f'{name} (result {TYPE_NAMES[kind]})'
    if name in MEMORY:
        exponent, offset = left.number(), left.number()
        return f'{name} offset={offset} exp={exponent}'
    if name in INDEXED or name in CONSTANTS:
        return f'{name} {left.number(name in CONSTANTS)}'
    assert name not in SIZES or left.byte() == 0
    return name


def code_text(left):
    """The text of the code up to its end, each instruction with a blank before it."""
    made, depth = '', 0
    while True:
        one = instruction(left)
        depth += (one.split()[0] in BLOCKS) - (one == 'end')
        if depth < 0:
            return made
        made += ' ' + one


def typed(word, kinds):
    """A list of types, with a blank before it, or nothing for none."""
    return ''.join([f' ({word}'] + [f' {TYPE_NAMES[kind]}' for kind in kinds] + [')']) if kinds else ''


def limits_text(left):
    return ' '.join(str(left.number()) for _ in range(1 + left.byte()))


def function_text(kind, left):
    left.number()
    local = [one for times, one in left.items(lambda: (left.number(), left.byte())) for _ in range(times)]
    return f'(func (type {kind}){typed("local", local)}{code_text(left)})'


def name_text(name):
    return '"' + ''.join(f'\\{byte:02x}' if byte in b'"\\' else chr(byte) for byte in name) + '"'


def field_texts(number, left, kinds):
    """The lines of a section's fields; the types of functions go to a list."""
    def type_text():
        assert left.byte() == 0x60
        return f'(type (func{typed("param", left.items(left.byte))}{typed("result", left.items(left.byte))}))'

    def global_text():
        kind, variable = TYPE_NAMES[left.byte()], left.byte()
        return f'(global {f"(mut {kind})" if variable else kind}{code_text(left)})'

    def export_text():
        name = name_text(left.taken(left.number()))
        kind = {code: word for word, code in KINDS.items()}[left.byte()]
        return f'(export {name} ({kind} {left.number()}))'

    def place_text(word):
        assert left.byte() == 0
        return f'({word} (offset{code_text(left)})'

    def table_text():
        assert left.byte() == 0x70
        return f'(table {limits_text(left)} funcref)'

    if number == 3:
        kinds += left.items(left.number)
        return []
    return left.items({
        1: type_text, 4: table_text, 5: lambda: f'(memory {limits_text(left)})', 6: global_text, 7: export_text,
        9: lambda: place_text('elem') + ''.join(f' {index}' for index in left.items(left.number)) + ')',
        10: lambda: function_text(kinds.pop(0), left),
        11: lambda: place_text('data') + ' "' + ''.join(f'\\{byte:02x}' for byte in left.taken(left.number())) + '")',
    }[number])


def text_of(data):
    """The canonical text of the module that bytes spell, which `assembled` makes the same bytes of."""
    left, lines, kinds = Bytes(data), {}, []
    assert left.taken(8) == b'\0asm\1\0\0\0'
    while left.is_left():
        number = left.byte()
        lines[number] = field_texts(number, Bytes(left.taken(left.number())), kinds)
    made = ''.join(line + '\n' for number in (1, 10, 4, 5, 6, 7, 9, 11) for line in lines.get(number, []))
    made = f'(module\n{made})\n'
    assert assembled(made) == data, made
    return made

"""Kernels, and their modules, alone and linked: by the rules below, and by no program.

A kernel has a name, a type and closed code, both spelled by words as in a canonical text: a type by `int`, `bool`,
`pair` and two types, `to` and two types; code by `i` and a number, `true`, `false`, `v` and a number of binders between
it and its own, `fun` and a body, `rec` and a body (variable 0 is the argument, 1 the function itself), `app`, `let`,
`if`, `pair`, `fst`, `snd` and the arithmetic with their parts. A truth value is the number 1 or 0.

The functions of the kernels, one kernel after the other and each before those in its body, are numbered from 0 on. They
stand first. Behind them stand for each kernel in turn its `init`, and where its type is `to` its `call`. Every value is
a word: a number, or the address of a pair or a closure. Global 0 is where the heap ends.

- A function has its closure in local 0 and its argument in local 1. A let has the local behind these and behind the
  lets of the same function that it stands in. `init` has lets alone. Where code has an application or a pair, inner
  functions aside, two spare locals follow, t and t + 1.
- A closure has a word with its function's number and one for each variable of the function that stands outside, the
  outermost first. It is written word by word at the heap's end, which then moves; so is a pair with its two words.
- An application puts its argument into t + 1 and its closure into t and calls, by the table, the function of type 0
  whose number is the closure's first word.
- Where a function calls itself last, its body is a loop: such a call writes the argument's local and goes on at the
  loop's begin. The last place of a body is itself, the second part of a let there, and both branches of an `if` there.
  Where such calls are its only applications, and it has no pair, the function has no spare locals.
- `init` writes 0 to the heap's end, which a kernel alone doesn't, and then is the kernel's code. `call` has a
  parameter for the closure and one for each leaf of the argument; it makes pairs of the leaves, applies the closure,
  and gives the heap's end back.
- Type 0 is that of two words to one, type 1 that of none to one, and each `call` has the next type for itself. The
  table has as many places as there are functions, and one segment fills it where there are any. The memory has 64
  pages. `init` and `call` are exported in order, with NAME. before them where kernels are linked."""
from collections import namedtuple

from encoded import section, signed, unsigned, vector

PARTS = {'fun': 1, 'rec': 1, 'fst': 1, 'snd': 1, 'if': 3, 'i': 0, 'v': 0, 'int': 0, 'bool': 0}
ARITHMETIC = {'add': '7c', 'sub': '7d', 'mul': '7e', 'div': '7f', 'mod': '81', 'eq': '51ad', 'lt': '53ad', 'le': '57ad'}
BOUND = {'fun': (1,), 'rec': (2,), 'let': (0, 1)}

Kernel = namedtuple('Kernel', 'name kind code')
# An intermediate form: a kind as of a term, or `get` and `closure`; its parts; and its number, place or places.
Form = namedtuple('Form', 'kind parts what')
ARGUMENT, OWN = ('argument', 0), ('own', 0)


def trees(text):
    """What words spell, one after the other: a tuple of a kind, and its number, its word or its parts."""
    words = iter(text.split())

    def beginning(word):
        if word in ('true', 'false'):
            return ('b', word)
        if word in ('i', 'v'):
            return (word, int(next(words)))
        return (word, *(beginning(next(words)) for _ in range(PARTS.get(word, 2))))

    return [beginning(word) for word in words]


def tree(text):
    made, = trees(text)
    return made


def words_of(made):
    """The words that spell a tree."""
    if made[0] == 'b':
        return made[1]
    return ' '.join([made[0], *(words_of(part) if isinstance(part, tuple) else str(part) for part in made[1:])])


def kernel(name, kind, code):
    return Kernel(name, tree(kind), tree(code) if isinstance(code, str) else code)


def text(one):
    """The canonical text of a kernel."""
    return f'emit2 {words_of(one.kind)} {words_of(one.code)}'


def parts_of(term):
    return () if term[0] in 'ibv' else term[1:]


def free(term, inside=0):
    """The variables of a term that stand outside it and outside so many binders more."""
    if term[0] == 'v':
        return {term[1] - inside} if term[1] >= inside else set()
    bound = BOUND.get(term[0], (0, 0, 0))
    return set().union(*(free(part, inside + more) for part, more in zip(parts_of(term), bound)))


def captured(function):
    """The variables that a function's closure holds, the outermost first."""
    return sorted(free(function), reverse=True)


def slots(term):
    """How many locals the lets of a term need."""
    if term[0] in ('fun', 'rec', 'i', 'b', 'v'):
        return 0
    needed = [slots(part) for part in term[1:]]
    return max(needed) if term[0] != 'let' else max(needed[0], needed[1] + 1)


def converted(term, places, slot, functions):
    """The form of a term, whose functions are added. `places` says where its variables are, the innermost first."""
    if term[0] == 'v':
        return Form('get', (), places[term[1]])
    if term[0] in ('fun', 'rec'):
        outside = captured(term)
        inner = [None] * len(places)
        for rank, variable in enumerate(outside):
            inner[variable] = ('free', rank)
        number = len(functions)
        functions.append(None)
        own = [OWN] if term[0] == 'rec' else []
        functions[number] = slots(term[1]), converted(term[1], [ARGUMENT] + own + inner, 0, functions)
        return Form('closure', (), (number, [places[variable] for variable in outside]))
    if term[0] == 'let':
        given = converted(term[1], places, slot, functions)
        rest = converted(term[2], [('slot', slot)] + places, slot + 1, functions)
        return Form('let', (given, rest), slot)
    if term[0] in 'ib':
        return Form('i', (), term[1] if term[0] == 'i' else int(term[1] == 'true'))
    return Form(term[0], tuple(converted(part, places, slot, functions) for part in parts_of(term)), None)


def last_parts(form):
    """The parts of a form at a last place that stand at one themselves."""
    return {'let': form.parts[1:], 'if': form.parts[1:]}.get(form.kind, ())


def calls_itself(form):
    """Whether a form at a last place is a call of the function round it."""
    return form.kind == 'app' and form.parts[0].what == OWN


def is_loop(form):
    return calls_itself(form) or any(is_loop(part) for part in last_parts(form))


def needs_spare(form):
    return form.kind in ('app', 'pair') or any(needs_spare(part) for part in form.parts)


def loop_needs_spare(form):
    """The same of a loop's form at a last place."""
    if calls_itself(form):
        return needs_spare(form.parts[1])
    last = last_parts(form)
    if not last:
        return needs_spare(form)
    first = form.parts[:len(form.parts) - len(last)]
    return any(needs_spare(part) for part in first) or any(loop_needs_spare(part) for part in last)


LOCAL_GET, LOCAL_SET, LOCAL_TEE, HEAP, SET_HEAP = b'\x20', b'\x21', b'\x22', b'\x23\0', b'\x24\0'
WRAP, EXTEND, END = b'\xa7', b'\xad', b'\x0b'


def moved(count):
    """The heap's end as a word, which then moves past so many words."""
    return HEAP + EXTEND + HEAP + b'\x41' + signed(8 * count) + b'\x6a' + SET_HEAP


def stored(index):
    return b'\x37\x03' + unsigned(8 * index)


def loaded(index):
    return WRAP + b'\x29\x03' + unsigned(8 * index)


def place_code(place, lets):
    kind, number = place
    if kind == 'free':
        return LOCAL_GET + b'\0' + loaded(1 + number)
    return LOCAL_GET + unsigned({'own': 0, 'argument': 1, 'slot': lets + number}[kind])


def closure_code(number, places, lets):
    made = HEAP + b'\x42' + signed(number) + stored(0)
    for index, place in enumerate(places):
        made += HEAP + place_code(place, lets) + stored(1 + index)
    return made + moved(1 + len(places))


def apply_code(spare):
    first, second = unsigned(spare), unsigned(spare + 1)
    call = WRAP + b'\x28\x02\0' + b'\x11\0\0'
    return LOCAL_SET + second + LOCAL_TEE + first + LOCAL_GET + second + LOCAL_GET + first + call


def pair_code(spare):
    first, second = unsigned(spare), unsigned(spare + 1)
    made = LOCAL_SET + second + LOCAL_SET + first
    return made + HEAP + LOCAL_GET + first + stored(0) + HEAP + LOCAL_GET + second + stored(1) + moved(2)


def branches_code(first, second):
    return WRAP + b'\x04\x7e' + first + b'\x05' + second + END


def code(form, lets, spare):
    """The code of a form, where the lets' locals begin at `lets` and the spare ones at `spare`."""
    if form.kind == 'i':
        return b'\x42' + signed(form.what)
    if form.kind == 'get':
        return place_code(form.what, lets)
    if form.kind == 'closure':
        return closure_code(*form.what, lets)
    parts = [code(part, lets, spare) for part in form.parts]
    if form.kind == 'let':
        return parts[0] + LOCAL_SET + unsigned(lets + form.what) + parts[1]
    if form.kind == 'if':
        return parts[0] + branches_code(parts[1], parts[2])
    behind = {'app': apply_code(spare), 'pair': pair_code(spare), 'fst': loaded(0), 'snd': loaded(1)}
    if form.kind in ARITHMETIC:
        return b''.join(parts) + bytes.fromhex(ARITHMETIC[form.kind])
    return b''.join(parts) + behind[form.kind]


def loop_code(form, spare, depth):
    """The code of a loop's form at a last place, inside so many branches."""
    if calls_itself(form):
        return code(form.parts[1], 2, spare) + LOCAL_SET + b'\1' + b'\x0c' + unsigned(depth)
    if form.kind == 'let':
        rest = loop_code(form.parts[1], spare, depth)
        return code(form.parts[0], 2, spare) + LOCAL_SET + unsigned(2 + form.what) + rest
    if form.kind == 'if':
        branches = [loop_code(part, spare, depth + 1) for part in form.parts[1:]]
        return code(form.parts[0], 2, spare) + branches_code(*branches)
    return code(form, 2, spare)


def entry(local, body):
    """A function of the code section, with its locals as counts and types."""
    made = vector([unsigned(count) + bytes([kind]) for count, kind in local if count]) + body + END
    return unsigned(len(made)) + made


def function_entry(count, form):
    spare = 2 + count
    if is_loop(form):
        return entry([(count + 2 * loop_needs_spare(form), 0x7E)], b'\x03\x7e' + loop_code(form, spare, 0) + END)
    return entry([(count + 2 * needs_spare(form), 0x7E)], code(form, 2, spare))


def init_entry(front, count, form):
    return entry([(count + 2 * needs_spare(form), 0x7E)], front + code(form, 0, count))


def leaf_count(kind):
    return sum(leaf_count(part) for part in kind[1:]) if kind[0] == 'pair' else 1


def argument(kind, slot):
    """The form of an argument whose leaves stand in the slots from this one on."""
    if kind[0] != 'pair':
        return Form('get', (), ('slot', slot))
    return Form('pair', (argument(kind[1], slot), argument(kind[2], slot + leaf_count(kind[1]))), None)


def call_entry(kind):
    count = leaf_count(kind)
    kept = unsigned(count + 3)
    call = Form('app', (Form('get', (), ('slot', 0)), argument(kind, 1)), None)
    body = HEAP + LOCAL_SET + kept + code(call, 0, count + 1) + LOCAL_GET + kept + SET_HEAP
    return entry([(2, 0x7E), (1, 0x7F)], body)


def export(name, number):
    return unsigned(len(name)) + name.encode() + b'\0' + unsigned(number)


def assembled(types, kinds, exports, entries, count):
    """The bytes of a module whose first `count` functions stand in the table."""
    made = b'\0asm\1\0\0\0' + section(1, vector(types))
    made += section(3, vector([unsigned(kind) for kind in kinds])) if kinds else b''
    made += section(4, b'\1\x70\1' + unsigned(count) * 2) + section(5, b'\1\1\x40\x40')
    made += section(6, b'\1\x7f\1\x41\0' + END)
    made += section(7, vector(exports)) if exports else b''
    numbers = vector([unsigned(number) for number in range(count)])
    made += section(9, b'\1\0\x41\0' + END + numbers) if count else b''
    return made + (section(10, vector(entries)) if entries else b'')


def words_type(count):
    return b'\x60' + vector([b'\x7e'] * count) + vector([b'\x7e'])


def module(kernels, front, name):
    """The module of kernels, whose `init` begin with `front`, where `name` gives the exports their names."""
    functions, inits = [], []
    for one in kernels:
        inits.append((slots(one.code), converted(one.code, [], 0, functions)))
    types, kinds, exports, outer = [words_type(2), words_type(0)], [0] * len(functions), [], []
    for one, (count, form) in zip(kernels, inits):
        exports.append(export(name(one, 'init'), len(kinds)))
        kinds.append(1)
        outer.append(init_entry(front, count, form))
        if one.kind[0] == 'to':
            exports.append(export(name(one, 'call'), len(kinds)))
            kinds.append(len(types))
            types.append(words_type(1 + leaf_count(one.kind[1])))
            outer.append(call_entry(one.kind[1]))
    entries = [function_entry(*function) for function in functions]
    return assembled(types, kinds, exports, entries + outer, len(functions))


def linked(kernels):
    """The one module of these kernels."""
    return module(kernels, b'\x41\0' + SET_HEAP, lambda one, what: f'{one.name}.{what}')


def alone(one):
    """The module of a kernel alone."""
    return module([one], b'', lambda _, what: what)

"""The code that a canonical text says, as source.

A tree is a tuple of a word of the text and its parts: `i` with a number, `v` with the number of binders between a
variable and its own, `true` and `false` with nothing, and all others with trees. Of a `rec` variable 0 is the argument,
and 1 the function itself. It stands nowhere but as what a `let` binds, since a source has no other way to write it."""
from collections import namedtuple

from layout import CUT, FILL, LINE, Group, Nest, lines

PARTS = {'fun': 1, 'rec': 1, 'fst': 1, 'snd': 1, 'if': 3, 'true': 0, 'false': 0}
TYPE_PARTS = {'int': 0, 'bool': 0, 'pair': 2, 'to': 2}
FALSE, TRUE = ('false',), ('true',)
# How tight a form binds; an operand that binds less than its place asks for stands in parentheses.
WHOLE, EITHER, BOTH, COMPARISON, SUM, PRODUCT, APPLICATION, ATOM = range(8)
SIGNS = {'eq': ('=', COMPARISON), 'lt': ('<', COMPARISON), 'le': ('<=', COMPARISON), 'add': ('+', SUM),
    'sub': ('-', SUM), 'mul': ('*', PRODUCT), 'div': ('/', PRODUCT), 'mod': ('mod', PRODUCT)}
LETTERS = {'function': 'fghk', 'argument': 'xyzuvw', 'value': 'abcdepq'}

Shown = namedtuple('Shown', 'level layout')


def read(words, parts):
    """The tree whose words come next."""
    word = next(words)
    if word in ('i', 'v'):
        return (word, int(next(words)))
    return (word, *[read(words, parts) for _ in range(parts.get(word, 2))])


def code_of(text):
    """The code in a canonical text, behind its version and its type."""
    words = iter(text.split(' '))
    next(words)
    read(words, TYPE_PARTS)
    return read(words, PARTS)


def nodes(tree):
    """How many forms a tree has."""
    return 1 + sum(nodes(part) for part in tree[1:] if isinstance(part, tuple))


class Scope:
    """The names in scope, the innermost first, and how many names of each kind are taken."""

    def __init__(self, names=(), taken=None):
        self.names, self.taken = names, taken or dict.fromkeys(LETTERS, 0)

    def with_new(self, kind):
        """The scope with a new name before the others, and that name."""
        letters, count = LETTERS[kind], self.taken[kind]
        name = letters[count] if count < len(letters) else f'{letters[0]}{count - len(letters) + 1}'
        return Scope((name, *self.names), {**self.taken, kind: count + 1}), name


def parameters(tree, scope):
    """The names of the parameters of the functions in one another that a tree begins with, the body, and its scope."""
    names = []
    while tree[0] == 'fun':
        scope, name = scope.with_new('argument')
        names.append(name)
        tree = tree[1]
    return names, tree, scope


def head_of_let(given, scope):
    """What stands up to the `in` of a let, and the scope behind it."""
    after, name = scope.with_new('function' if given[0] in ('fun', 'rec') else 'value')
    scope = Scope(scope.names, after.taken)
    words = ['let', name]
    if given[0] == 'rec':
        scope, argument = after.with_new('argument')
        words = ['let', 'rec', name, argument]
        given = given[1]
    names, given, scope = parameters(given, scope)
    front = ' '.join(words + names + ['='])
    return [Group([front, Nest([LINE, operand(given, scope, WHOLE)])]), ' in'], after


def lets(tree, scope):
    """A let, with those that its body begins with below it."""
    made, count = [], 0
    while tree[0] == 'let':
        head, scope = head_of_let(tree[1], scope)
        made += [head, LINE]
        count += 1
        tree = tree[2]
    return Group(made + [operand(tree, scope, WHOLE)], count > 1)


def choices(tree, scope):
    """An `if`, with those that its last part is below it. One that decides what is given first is broken into lines."""
    made, front, is_broken = [], 'if ', False
    while form_of(tree) == 'if':
        _, condition, first, tree = tree
        is_nested = form_of(first) == 'if'
        question = [front, Nest(operand(condition, scope, WHOLE)), ' then']
        made += [Group([question, Nest([LINE, operand(first, scope, WHOLE)])], is_nested), LINE]
        front, is_broken = 'else if ', is_broken or is_nested
    return Group(made + [Group(['else', Nest([LINE, operand(tree, scope, WHOLE)])])], is_broken)


def pairs(tree, scope):
    """A pair, with those that its last part is beside it."""
    made, count = [], 0
    while tree[0] == 'pair':
        made += ['(', operand(tree[1], scope, WHOLE), ',', LINE]
        count += 1
        tree = tree[2]
    return Group([Nest([made, operand(tree, scope, WHOLE)]), [CUT, ')'] * count])


def form_of(tree):
    """The word of a tree, where an `if` that is written shortly has a word of its own."""
    if tree[0] == 'if':
        _, _, first, second = tree
        if (first, second) == (FALSE, TRUE):
            return 'not'
        if second == FALSE and first not in (FALSE, TRUE):
            return '&&'
        if first == TRUE and second not in (FALSE, TRUE):
            return '||'
    return tree[0]


def short_choice(form, tree, scope):
    """A choice that is written with `not`, `&&` or `||`."""
    _, condition, first, second = tree
    if form == 'not':
        return Shown(APPLICATION, ['not ', operand(condition, scope, ATOM)])
    level, other = (BOTH, first) if form == '&&' else (EITHER, second)
    return Shown(level, [operand(condition, scope, level + 1), FILL, form + ' ', operand(other, scope, level)])


def operation(tree, scope):
    """An operation of two numbers. What is compared is no comparison, and the others join to the left."""
    word, left, right = tree
    sign, level = SIGNS[word]
    first = operand(left, scope, level + (level == COMPARISON))
    return Shown(level, [first, FILL, sign + ' ', operand(right, scope, level + 1)])


def shown(tree, scope):
    """A tree as source, and how tight it binds."""
    form = form_of(tree)
    if form in ('i', 'true', 'false'):
        number = tree[1] if form == 'i' else form
        return Shown(ATOM, f'({number})' if form == 'i' and number < 0 else str(number))
    if form == 'v':
        return Shown(ATOM, scope.names[tree[1]])
    if form == 'fun':
        names, body, inner = parameters(tree, scope)
        return Shown(WHOLE, Group([f'fun {" ".join(names)} ->', Nest([LINE, operand(body, inner, WHOLE)])]))
    if form == 'let':
        return Shown(WHOLE, lets(tree, scope))
    if form == 'if':
        return Shown(WHOLE, choices(tree, scope))
    if form in ('not', '&&', '||'):
        return short_choice(form, tree, scope)
    if form in SIGNS:
        return operation(tree, scope)
    if form == 'pair':
        return Shown(ATOM, pairs(tree, scope))
    if form in ('fst', 'snd'):
        return Shown(APPLICATION, [form + ' ', operand(tree[1], scope, ATOM)])
    assert form == 'app', f'a {form} that no let binds'
    return Shown(APPLICATION, [operand(tree[1], scope, APPLICATION), FILL, operand(tree[2], scope, ATOM)])


def operand(tree, scope, level):
    """The layout of a tree at a place for what binds at least so tight."""
    made = shown(tree, scope)
    if made.level >= level:
        return made.layout
    return ['(', Nest(made.layout) if made.level == WHOLE else made.layout, CUT, ')']


def source_lines(tree, width):
    """Closed code as source, in lines of at most so many characters where they can be broken so."""
    return lines(operand(tree, Scope(), WHOLE), width)

"""Well-typed code of the second stage, drawn at random, as kernels.py has trees; and how it is written where
each operand stands in parentheses, so that nothing depends on how tight a form binds."""
from collections import namedtuple

import kernels

GROUNDS = ('int', 'bool', 'pair int int', 'pair bool int', 'pair int pair int int', 'pair pair int bool int')
NUMBERS = (0, 1, 2, 7, 10, -1, -5, -128, 2**31, -2**31, 2**63 - 1, -2**63)
SIGNS = {'add': '+', 'sub': '-', 'mul': '*', 'div': '/', 'mod': 'mod', 'eq': '=', 'lt': '<', 'le': '<='}
SHAPES = {'if': '(if {} then {} else {})', 'pair': '({}, {})', 'app': '({} {})', 'fst': '(fst {})', 'snd': '(snd {})'}
COMPARISONS = ('eq', 'lt', 'le')
INT, BOOL, FALSE, TRUE = ('int',), ('bool',), ('b', 'false'), ('b', 'true')
FORMS = {'i', 'b', 'v', 'fun', 'rec', 'app', 'let', 'if', 'pair', 'fst', 'snd', *SIGNS}

Kernel = namedtuple('Kernel', 'kind code')


class Code:
    """Draws code. `chance` is a random.Random."""

    def __init__(self, chance):
        self.chance = chance

    def ground(self):
        return kernels.tree(self.chance.choice(GROUNDS))

    def kind(self, depth):
        """A type: mostly a ground type, at times a function or a pair with one in it."""
        if depth == 0 or self.chance.random() < 0.6:
            return self.ground()
        return (self.chance.choice(('to', 'to', 'pair')), self.kind(depth - 1), self.kind(depth - 1))

    def kernel(self):
        """A kernel's type and code."""
        kind = ('to', self.ground(), self.ground()) if self.chance.random() < 0.7 else self.ground()
        return Kernel(kind, self.tree(kind, [], self.chance.choice((1, 2, 3, 4, 6, 8))))

    def tree(self, kind, scope, depth):
        """Code of a type, where `scope` has the types of the variables, the innermost first."""
        places = [place for place, other in enumerate(scope) if other == kind]
        if places and self.chance.random() < (0.3 if depth > 0 else 0.8):
            return ('v', self.chance.choice(places))
        if depth <= 0:
            return self.plain(kind, scope)
        made = self.chance.choice((self.plain, self.plain, self.plain, self.application, self.let, self.recursion,
            self.choice, self.part))
        return made(kind, scope, depth - 1)

    def plain(self, kind, scope, depth=0):
        """What makes a value of the type itself."""
        if kind == INT:
            return self.number(scope, depth)
        if kind == BOOL:
            return self.truth(scope, depth)
        if kind[0] == 'pair':
            return ('pair', self.tree(kind[1], scope, depth), self.tree(kind[2], scope, depth))
        return ('fun', self.tree(kind[2], [kind[1], *scope], depth))

    def number(self, scope, depth):
        if depth == 0 or self.chance.random() < 0.2:
            return ('i', self.chance.choice(NUMBERS))
        sign = self.chance.choice(('add', 'sub', 'mul', 'div', 'mod'))
        return (sign, self.tree(INT, scope, depth), self.tree(INT, scope, depth))

    def truth(self, scope, depth):
        form = self.chance.choice(('literal', 'not', 'and', 'or', *COMPARISONS)) if depth else 'literal'
        if form == 'literal':
            return self.chance.choice((FALSE, TRUE))
        if form in COMPARISONS:
            return (form, self.tree(INT, scope, depth), self.tree(INT, scope, depth))
        first, second = self.tree(BOOL, scope, depth), self.tree(BOOL, scope, depth)
        return ('if', first, *{'not': (FALSE, TRUE), 'and': (second, FALSE), 'or': (TRUE, second)}[form])

    def application(self, kind, scope, depth):
        given = self.kind(1)
        return ('app', self.tree(('to', given, kind), scope, depth), self.tree(given, scope, depth))

    def let(self, kind, scope, depth):
        given = self.kind(2)
        return ('let', self.tree(given, scope, depth), self.tree(kind, [given, *scope], depth))

    def recursion(self, kind, scope, depth):
        own = ('to', self.kind(1), self.kind(1))
        body = self.tree(own[2], [own[1], own, *scope], depth)
        return ('let', ('rec', body), self.tree(kind, [own, *scope], depth))

    def choice(self, kind, scope, depth):
        return ('if', self.tree(BOOL, scope, depth), self.tree(kind, scope, depth), self.tree(kind, scope, depth))

    def part(self, kind, scope, depth):
        other = self.kind(1)
        if self.chance.random() < 0.5:
            return ('fst', self.tree(('pair', kind, other), scope, depth))
        return ('snd', self.tree(('pair', other, kind), scope, depth))


def parts(tree):
    return [part for part in tree[1:] if isinstance(part, tuple)]


def forms(tree):
    """The words of a tree's forms, each as often as it is there."""
    return [tree[0]] + [word for part in parts(tree) for word in forms(part)]


def written(tree, depth=0):
    """A tree inside so many binders as source, whose variables are named by their depth."""
    form = tree[0]
    if form == 'i':
        return f'({tree[1]})' if tree[1] < 0 else str(tree[1])
    if form in 'bv':
        return f'n{depth - 1 - tree[1]}' if form == 'v' else tree[1]
    if form == 'fun':
        return f'(fun n{depth} -> {written(tree[1], depth + 1)})'
    if form == 'let' and tree[1][0] == 'rec':
        body = written(tree[1][1], depth + 2)
        return f'(let rec n{depth} n{depth + 1} = {body} in {written(tree[2], depth + 1)})'
    if form == 'let':
        return f'(let n{depth} = {written(tree[1], depth)} in {written(tree[2], depth + 1)})'
    given = [written(part, depth) for part in parts(tree)]
    return SHAPES.get(form, f'({{}} {SIGNS.get(form)} {{}})').format(*given)

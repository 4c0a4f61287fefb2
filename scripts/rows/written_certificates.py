"""The certificate that is written for a program, for the scripts that write rows: types are inferred by unification,
over terms as make_certificate_rows has them, and lines are made of them by the rules of written certificates.

In each section unknowns, and apart from them classifiers, are numbered from 0 in the order in which the node lines are
read, a type from left to right with its classifier before its content. Types stand in the order in which that reading
first completes them, parts first."""

INT, BOOL = ('int',), ('bool',)


class Open:
    """An unknown type or classifier, and what it is once that is known."""

    def __init__(self):
        self.known = None


def seen(kind):
    """A type or a classifier, as far as it is known at its front."""
    while True:
        place = kind[1] if isinstance(kind, tuple) and kind[0] == 'u' else kind
        if not isinstance(place, Open) or place.known is None:
            return kind
        kind = place.known


def unknown():
    return ('u', Open())


def contains(kind, place):
    kind = seen(kind)
    return kind[0] == 'u' and kind[1] is place or any(contains(part, place) for part in parts(kind))


def parts(kind):
    """The types that a type is made of."""
    return kind[2:] if kind[0] == 'code' else kind[1:] if kind[0] != 'u' else ()


def one(left, right):
    """Makes two types one."""
    left, right = seen(left), seen(right)
    if left[0] == 'u' == right[0] and left[1] is right[1]:
        return
    if left[0] != 'u' and right[0] == 'u':
        left, right = right, left
    if left[0] == 'u':
        assert not contains(right, left[1]), 'a type that contains itself'
        left[1].known = right
        return
    assert left[0] == right[0], f'{left[0]} and {right[0]}'
    if left[0] == 'code':
        one_name(left[1], right[1])
    for a, b in zip(parts(left), parts(right)):
        one(a, b)


def one_name(left, right):
    """Makes two classifiers one."""
    left, right = seen(left), seen(right)
    if left is not right:
        left.known = right


def fresh(kind, places):
    """A root's type at a use: with unknowns and classifiers of its own."""
    kind = seen(kind)
    if kind[0] == 'u':
        return ('u', places.setdefault(kind[1], Open()))
    names = (places.setdefault(seen(kind[1]), Open()),) if kind[0] == 'code' else ()
    return (kind[0],) + names + tuple(fresh(part, places) for part in parts(kind))


class Walk:
    """The types of a term's nodes, each line as its types and a classifier or None, in pre-order."""

    def __init__(self, term, tops):
        self.tops, self.lines = tops, []
        self.root = self.of(term, None, [])

    def of(self, term, level, scope):
        """The type of a term at level 0, which is None, or under a classifier, in its binders' types."""
        own, line = unknown(), []
        self.lines.append(line)
        further, name = self.fitted(term, own, level, scope)
        line.append(([own] + further, name))
        return own

    def fitted(self, term, own, level, scope):
        """Makes a term's type fit, and gives the further types of its line and its classifier."""
        form = term[0]
        part = lambda at, *binders, under=level: self.of(term[at], under, [(level, b) for b in binders] + scope)
        if form in ('num', 'truth'):
            one(own, INT if form == 'num' else BOOL)
        elif form == 'var':
            where, kind = scope[term[1]]
            one(own, kind)
            if level is not None:
                one_name(where, level)
        elif form == 'glob':
            one(own, fresh(self.tops[term[1]], {}))
        elif form == 'fun':
            argument = unknown()
            one(own, ('arrow', argument, part(1, argument)))
            return [argument], None
        elif form == 'rec':
            argument = unknown()
            one(own, ('arrow', argument, part(1, argument, own)))
            return [own, argument], None
        elif form == 'app':
            function = part(1)
            one(function, ('arrow', part(2), own))
        elif form == 'let':
            bound = part(1)
            one(own, part(2, bound))
            return [bound], None
        elif form == 'if':
            one(part(1), BOOL)
            one(part(2), own)
            one(part(3), own)
        elif form == 'pair':
            left = part(1)
            one(own, ('pair', left, part(2)))
        elif form in ('fst', 'snd'):
            other = unknown()
            one(part(1), ('pair', own, other) if form == 'fst' else ('pair', other, own))
            return [other], None
        elif form == 'prim':
            one(own, term[1])
            one(part(2), INT)
            one(part(3), INT)
        else:
            return self.staged(term, own, level, part)
        return [], None

    def staged(self, term, own, level, part):
        """The same of the forms of staging."""
        form, name = term[0], Open()
        if form == 'bracket':
            one(own, ('code', name, part(1, under=name)))
            return [], name
        if form == 'escape':
            one(part(1, under=None), ('code', level, own))
            return [], None
        if form == 'run':
            one(own, term[1])
            one(part(2), ('closed', own))
            return [], None
        if form in ('lift', 'liftb'):
            base = INT if form == 'lift' else BOOL
            one(part(1), base)
            one(own, ('code', name, base))
            return [], name
        content = unknown()
        closed, code = ('closed', content), ('code', name, content)
        one(own, closed if form == 'close' else code)
        one(part(1), code if form == 'close' else closed)
        return [content], name


class Lines:
    """A section as it is written."""

    def __init__(self, walk):
        self.types, self.unknowns, self.names = {}, {}, {}
        nodes = [self.node(*line[0]) for line in walk.lines]
        self.text = f'types {len(self.types)}\n' + ''.join(line + '\n' for line in self.types)
        self.text += f'nodes {len(nodes)}\n' + ''.join(line + '\n' for line in nodes)

    def node(self, kinds, name):
        numbers = [self.place(kind) for kind in kinds]
        return ' '.join(map(str, numbers + ([] if name is None else [self.name(name)])))

    def name(self, name):
        return self.names.setdefault(seen(name), len(self.names))

    def place(self, kind):
        kind = seen(kind)
        if kind[0] == 'u':
            said = [self.unknowns.setdefault(kind[1], len(self.unknowns))]
        else:
            said = [self.name(kind[1])] if kind[0] == 'code' else []
            said += [self.place(part) for part in parts(kind)]
        return self.types.setdefault(' '.join(map(str, [kind[0]] + said)), len(self.types))


def written(items, main):
    """The certificate that is written: items are (None, term) or a kernel's (type, term), main (type, term)."""
    text, roots = 'cert1\n', []
    for kind, term in list(items) + [main]:
        walk = Walk(term, roots)
        if len(roots) == len(items):
            one(walk.root, kind)
        elif kind is not None:
            one(walk.root, ('closed', kind))
        roots.append(walk.root)
        text += Lines(walk).text
    return text

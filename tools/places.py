"""Places: where a program's types fail, as the program `metaml_explain` tells it, for people."""
import os
import re
import subprocess
import tempfile

TOP = os.path.dirname(os.path.dirname(os.path.abspath(__file__)))
PROGRAM = os.environ.get("METAML_EXPLAIN")
EXPLAINER = [PROGRAM] if PROGRAM else [os.path.join(TOP, "scripts", "check", "run_program"), "metaml_explain"]
ATOMS = (b"int", b"bool")
ONE_PART = (b"closed",)
TWO_PARTS = (b"pair", b"arrow")


class Facts:
    """What `metaml_explain` says of a source: of each word the numbers or the type behind it."""

    def __init__(self, output):
        self.lines = [line.partition(b" ")[::2] for line in output.splitlines()]

    def all(self, word):
        """What stands behind the word, line by line."""
        return [rest for first, rest in self.lines if first == word]

    def span(self, word):
        """The two offsets behind the word, if there are any."""
        found = self.all(word)
        return tuple(map(int, found[0].split())) if found else None

    def spans(self, word):
        """Those of each line."""
        return [tuple(map(int, rest.split())) for rest in self.all(word)]

    def type(self, word):
        """The type behind the word, if there is one."""
        found = self.all(word)
        return read_type(iter(found[0].split())) if found else None


def read_type(words):
    """A type from its words, each constructor before its parts, as nested tuples."""
    word = next(words)
    if word in ATOMS:
        return (word,)
    if word == b"u":
        return (word, int(next(words)))
    if word == b"code":
        return (word, int(next(words)), read_type(words))
    if word in ONE_PART:
        return (word, read_type(words))
    assert word in TWO_PARTS, word
    return (word, read_type(words), read_type(words))


def parts(ty):
    """The types that a type is made of."""
    return [part for part in ty[1:] if isinstance(part, tuple)]


class Names:
    """Names of unknowns, in the order in which they are written."""

    def __init__(self):
        self.unknowns = {}

    def unknown(self, number):
        """The name of an unknown."""
        place = self.unknowns.setdefault(number, len(self.unknowns))
        return b"'" + (b"%c" % (97 + place) if place < 26 else b"t%d" % place)


def written(ty, names, tight=0):
    """A type as people write it, in parentheses where what stands round it binds more tightly. Classifiers aren't named:
    they are never why two types can't be one."""
    kind = ty[0]
    if kind in ATOMS:
        return kind
    if kind == b"u":
        return names.unknown(ty[1])
    if kind == b"arrow":
        text, own = written(ty[1], names, 1) + b" -> " + written(ty[2], names, 0), 0
    elif kind == b"pair":
        text, own = written(ty[1], names, 2) + b" * " + written(ty[2], names, 2), 1
    elif kind == b"code":
        text, own = b"code of " + written(ty[2], names, 3), 2
    else:
        text, own = b"closed code of " + written(ty[1], names, 3), 2
    return b"(" + text + b")" if own < tight else text


def clash(left, right):
    """The first parts of two types, from outside, that no unknown could make one; nothing where there are none."""
    if b"u" in (left[0], right[0]):
        return None
    if left[0] != right[0]:
        return left, right
    return next(filter(None, map(clash, parts(left), parts(right))), None)


KINDS = {b"arrow": b"function", b"closed": b"closed code"}


def kinds(wanted, found):
    """What is wanted and what there is where they differ, in the words of the table of hints. Types that nothing but a
    type that holds itself could make one are `itself`."""
    differing = clash(wanted, found)
    if differing is None:
        return b"itself", b"itself"
    return tuple(KINDS.get(ty[0], ty[0]) for ty in differing)


def marks(source, first, end):
    """What of a place the table of hints may ask for: its first word, `main` for main's whole expression, and
    `an inner let` for a name that a `let` inside the item binds and that was used before."""
    found = {source[first:end].split(maxsplit=1)[0]}
    item = source[source.rfind(b";;", 0, first) + 2 if b";;" in source[:first] else 0:first]
    if re.search(rb"\bmain\s*:[^=]*=[\s(]*\Z", item) and not source[end:].strip(b") \t\r\n"):
        found.add(b"main")
    name = source[first:end]
    used = rb"\b" + re.escape(name) + rb"\b"
    if re.fullmatch(rb"[A-Za-z_]\w*", name) and re.search(rb"(?s)\S.*\blet\s+(rec\s+)?" + used + b".*" + used, item):
        found.add(b"an inner let")
    return found


def is_row(cell, wanted, found, marked):
    """Whether a row's first cell, `wanted` and `found` with a comma between, and behind `at` what is marked, is of
    these."""
    types, _, mark = cell.replace(b"`", b"").partition(b" at ")
    one, _, other = types.partition(b", ")
    return one in (wanted, b"any") and other in (found, b"any") and (not mark or mark in marked)


def facts_of(path):
    """What `metaml_explain` says of the source; nothing where it can't be run or has nothing to say. That it is being
    built is passed on."""
    try:
        with tempfile.TemporaryFile() as output:
            with subprocess.Popen([*EXPLAINER, path], stdout=output, stderr=subprocess.PIPE) as running:
                for line in running.stderr:
                    if b"building" in line:
                        os.write(2, line)
            output.seek(0)
            said = output.read()
    except OSError:
        return None
    return Facts(said) if running.returncode == 0 and re.match(rb"refusal \d+\n", said) else None

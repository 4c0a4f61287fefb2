"""The types of a source's items and of main, in the certificate that the program writes of it.

They are written as on the page docs/TYPES.md: `<t>'a` is code of t under the classifier 'a, and `<t>` closed code of t.
The letters of a type, one for each unknown and each classifier, go from the left on."""
from itertools import count

ARROW, PAIR, PART = range(3)
# The sign of a type of two types, how tight it binds, and how tight its left and its right part must at least.
SIGNS = {'arrow': ('->', ARROW, PAIR, ARROW), 'pair': ('*', PAIR, PART, PAIR)}


def letter(number):
    """The name of an unknown or a classifier, by its number from 0."""
    name = chr(ord('a') + number % 26)
    return f"'{name}{number // 26}" if number >= 26 else f"'{name}"


class Section:
    """The type lines of an item."""

    def __init__(self, lines):
        self.lines, self.letters, self.fresh = [line.split() for line in lines], {}, count()

    def letter(self, kind, number):
        if (kind, number) not in self.letters:
            self.letters[kind, number] = letter(next(self.fresh))
        return self.letters[kind, number]

    def written(self, place, level=ARROW):
        """The type of a line, in parentheses where it binds less than the level."""
        word, *numbers = self.lines[place]
        numbers = [int(number) for number in numbers]
        if word in ('int', 'bool'):
            return word
        if word == 'u':
            return self.letter(word, numbers[0])
        if word in ('code', 'closed'):
            content = f'<{self.written(numbers[-1])}>'
            return content + self.letter(word, numbers[0]) if word == 'code' else content
        sign, own, left, right = SIGNS[word]
        made = f'{self.written(numbers[0], left)} {sign} {self.written(numbers[1], right)}'
        return made if own >= level else f'({made})'


def types_of(certificate):
    """The root types in a certificate, in order."""
    lines, at, made = certificate.splitlines(), 1, []
    while at < len(lines):
        nodes = at + 1 + int(lines[at].split()[1])
        root = int(lines[nodes + 1].split()[0])
        made.append(Section(lines[at + 1:nodes]).written(root))
        at = nodes + 1 + int(lines[nodes].split()[1])
    return made

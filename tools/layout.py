"""Text broken into lines.

A layout is a word, which stands as it is, a list of layouts one behind the other, LINE, FILL or CUT, or a Nest or a
Group of a layout. LINE is a line's end where the group around it doesn't fit on one line, and else a blank. FILL is one
where what follows, up to the next blank outside groups, doesn't fit. CUT is one where the line is full, and else
nothing."""
from collections import namedtuple

LINE, FILL, CUT = object(), object(), object()
STEP, DEEPEST = 2, 60

# What a line's end in it is indented by STEP more.
Nest = namedtuple('Nest', 'layout')
# What stands on one line if it fits, unless it is always broken.
Group = namedtuple('Group', 'layout is_broken', defaults=(False,))
# A part of what is still to be written: how far its lines are indented, and whether it stands on one line.
Part = namedtuple('Part', 'indent is_flat layout')


def fits(room, parts, is_flat, layout):
    """Whether a layout, and of the parts after it what stands up to the next blank outside groups, has room."""
    ahead, after = [(is_flat, layout)], len(parts)
    while room >= 0:
        if not ahead:
            if after == 0:
                return True
            after -= 1
            ahead = [parts[after][1:]]
        is_flat, layout = ahead.pop()
        if isinstance(layout, str):
            room -= len(layout)
        elif isinstance(layout, list):
            ahead += [(is_flat, part) for part in reversed(layout)]
        elif layout is LINE or layout is FILL:
            if not is_flat:
                return True
            room -= 1
        elif isinstance(layout, Group):
            if layout.is_broken:
                return False
            ahead.append((True, layout.layout))
        elif layout is not CUT:
            ahead.append((is_flat, layout.layout))
    return False


def lines(layout, width):
    """The lines of a layout; they are longer than the width only where there is no place to break them."""
    made, parts = [''], [Part(0, False, layout)]
    while parts:
        indent, is_flat, layout = parts.pop()
        room = width - len(made[-1])
        if isinstance(layout, str):
            made[-1] += layout
        elif isinstance(layout, list):
            parts += [Part(indent, is_flat, part) for part in reversed(layout)]
        elif isinstance(layout, Nest):
            parts.append(Part(min(indent + STEP, DEEPEST), is_flat, layout.layout))
        elif isinstance(layout, Group):
            is_flat = is_flat or not layout.is_broken and fits(room, parts, True, layout.layout)
            parts.append(Part(indent, is_flat, layout.layout))
        elif layout is not CUT and (is_flat or layout is FILL and fits(room - 1, parts, False, '')):
            made[-1] += ' '
        elif layout is not CUT or room <= 0:
            made.append(' ' * indent)
    return made

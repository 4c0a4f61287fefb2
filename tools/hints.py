"""Hints: the rows of the tables in docs/REFUSALS.md, by what stands at a place or by two types that don't meet."""
import os
import re

import places

PAGE = os.path.join(places.TOP, "docs", "REFUSALS.md")


def read_file(path):
    """The bytes of a file."""
    with open(path, "rb") as file:
        return file.read()


def begins(text, mark):
    """Whether the text begins with the mark: a word with this word alone."""
    if not text.startswith(mark):
        return False
    return not (re.search(rb"[A-Za-z0-9_]\Z", mark) and re.match(rb"[A-Za-z0-9_]", text[len(mark):]))


def ends(text, mark):
    """Whether the text ends with the mark: a word with this word alone, NAME with any name, a blank with blanks."""
    if b"NAME" in mark or b" " in mark:
        form = rb"\s+".join(map(re.escape, mark.split(b" "))).replace(b"NAME", rb"[A-Za-z_][A-Za-z0-9_]*")
        return re.search(rb"(?<![A-Za-z0-9_])" + form + rb"\Z", text) is not None
    if not text.endswith(mark):
        return False
    return not (re.match(rb"[A-Za-z_]", mark) and re.search(rb"[A-Za-z0-9_]\Z", text[:len(text) - len(mark)]))


def fits(cell, before, after, at_end):
    """Whether a row's first cell is about the place: `here`, `last` before `here`, `last` before, the end, a byte order
    mark, a control byte, a byte in a comment, another byte, any."""
    if cell == b"any":
        return True
    if cell == b"the end":
        return at_end
    if cell == b"a byte order mark":
        return after.startswith(b"\xef\xbb\xbf")
    if cell == b"a control byte":
        return re.match(rb"[\0-\x1f\x7f]", after) is not None
    if cell == b"a byte in a comment":
        return b"#" in before.rpartition(b"\n")[2]
    if cell == b"another byte":
        return re.match(rb"[^\t-~]", after) is not None
    last, found, here = (cell + b" ").partition(b" before ")
    if not found:
        last, here = b"", cell
    return ends(before, last.replace(b"`", b"")) and begins(after, here.strip().replace(b"`", b""))


def rows(page, number):
    """The first and the second cell of each row in the section of the number."""
    inside = False
    for line in page.split(b"\n"):
        if line.startswith(b"## "):
            inside = line.startswith(b"## " + number + b" ")
        elif inside and line.startswith(b"| "):
            cell, _, text = line.replace(rb"\|", b"\1")[2:].partition(b" | ")
            yield cell.replace(b"\1", b"|"), text.removesuffix(b" |").replace(b"\1", b"|")


def first_row(number, is_wanted):
    """The text of the first row in the section of the number whose first cell is wanted; empty where none is."""
    return next((text for cell, text in rows(read_file(PAGE), number) if is_wanted(cell)), b"")


def at_place(number, before, after, at_end):
    """The hint for what stands before a place and behind it."""
    return first_row(number, lambda cell: fits(cell, before, after, at_end))


def for_types(number, wanted, found, marked):
    """The hint for two types that don't meet, at a place of which this is marked."""
    words = places.kinds(wanted, found)
    return first_row(number, lambda cell: places.is_row(cell, *words, marked))

"""Findings: where a source is refused, and what is said of it, for people and as data."""
import json
import re
from dataclasses import dataclass, field

import hints
import places


@dataclass
class Finding:
    """A refusal: its number and its reason, the source and the place in it, if there is one; how much of the line is
    marked; what more is known; a hint; and further places with their reasons."""

    number: bytes
    reason: bytes
    source: bytes = b""
    at: int | None = None
    carets: int = 0
    known: dict = field(default_factory=dict)
    hint: bytes = b""
    others: list = field(default_factory=list)


def line_and_column(source, at):
    """The line and the column of an offset, both from 1 on."""
    return source.count(b"\n", 0, at) + 1, at - source.rfind(b"\n", 0, at)


def show(file, source, at, reason, carets):
    """File, line, column and reason, and the line itself, with so many carets below the place."""
    left = source[source.rfind(b"\n", 0, at) + 1:at]
    right = source[at:].partition(b"\n")[0].replace(b"\0", b"\1")
    said = b"%s:%d:%d: %s\n" % (file, *line_and_column(source, at), reason)
    if len(left) > 60:
        left = b"..." + left[-57:]
    if len(right) > 80:
        right = right[:77] + b"..."
    said += b"  " + re.sub(rb"[^\t -~]", b"?", left + right.removesuffix(b"\r")) + b"\n"
    if carets:
        said += b"  " + re.sub(rb"[^\t]", b" ", left) + b"^" * max(1, min(carets, len(right))) + b"\n"
    return said


def without_comments(source):
    """The source with blanks in the place of its comments."""
    return re.sub(rb"#[^\n]*", lambda comment: b" " * len(comment[0]), source) + b"\n"


def item_names(source):
    """The names of the items, in order."""
    items = without_comments(source).split(b";;")[:-1]
    return [re.match(rb"\s*(?:let\s+(?:rec\s+)?|kernel\s+)(\w+)", item)[1] for item in items]


def item_at(source, name):
    """The offset of the item of this name: of the first token at the start of the text, or after a `;;`, that binds it."""
    text = without_comments(source)
    binds = rb"(let|let[ \t\r\n]+rec|kernel)[ \t\r\n]+" + re.escape(name) + rb"[^A-Za-z0-9_]"
    if name == b"main":
        binds += rb"|main[ \t\r\n]*:"
    at = 0
    while token := re.compile(rb"[^ \t\r\n]").search(text, at):
        at = token.start()
        stop = text.find(b";;", at)
        if re.compile(binds).match(text, at) or stop < 0:
            break
        at = stop + 2
    return at


def told_types(facts):
    """The type that is wanted and the one that is there, as people write them, by their names in JSON."""
    wanted, found = facts.type(b"left"), facts.type(b"right")
    names = places.Names()
    return {"wanted": places.written(wanted, names), "found": places.written(found, names)}


def placed(path, source, number, reason):
    """The finding of a refusal for types, at the place where they fail; nothing where that isn't known."""
    facts = places.facts_of(path)
    span = facts and facts.span(b"close" if number == b"14" else b"span")
    if not span:
        return None
    finding = Finding(number, reason, source, span[0], span[1] - span[0])
    if number == b"12":
        finding.known = told_types(facts)
        finding.hint = hints.for_types(number, facts.type(b"left"), facts.type(b"right"), places.marks(source, *span))
    binder = facts.span(b"binder")
    if binder:
        line, column = line_and_column(source, binder[0])
        finding.known = {"binder": source[slice(*binder)], "binder_line": line, "binder_column": column}
    before, after = source[:span[0]].rstrip(), source[span[0]:]
    finding.hint = finding.hint or hints.at_place(number, before, after, False)
    finding.others = [(first, end - first) for first, end in facts.spans(b"repair") if (first, end) != span]
    return finding


def found(path, source, number, reason):
    """The finding of the refusal of this number and reason."""
    kind, is_placed, place = reason.rpartition(b" at ")
    finding = placed(path, source, number, kind or reason) if number in (b"12", b"13", b"14") else None
    if finding:
        return finding
    if is_placed:
        at = int(place)
        at_end = at >= len(source)
        if at_end:
            source = source.rstrip()
            at = len(source)
        hint = hints.at_place(number, source[:at].rstrip(), source[at:], at_end)
        return Finding(number, kind, source, at, 1, hint=hint)
    _, is_of_item, name = reason.rpartition(b" in ")
    if is_of_item:
        at = item_at(source, name)
        hint = hints.at_place(number, source[:at].rstrip(), source[at:], False)
        return Finding(number, reason, source, at, 0, hint=hint)
    return Finding(number, reason, hint=hints.at_place(number, b"", b"", False))


def short(text):
    """A type's text, without its end if it is long."""
    return text if len(text) <= 100 else text[:97] + b"..."


def further(known):
    """What is said behind the reason of what more is known."""
    if "binder" in known:
        return b": `%s`, bound at %d:%d, may stand in this code" % tuple(known.values())
    if "found" in known:
        return b": here is `%s`, and wanted is `%s`" % (short(known["found"]), short(known["wanted"]))
    return b""


def as_text(file, finding):
    """The lines for people."""
    reason = b"refused " + finding.number + b" " + finding.reason + further(finding.known)
    if finding.at is None:
        said = file + b": " + reason + b"\n"
    else:
        said = show(file, finding.source, finding.at, reason, finding.carets)
    if finding.hint:
        said += b"hint: " + finding.hint + b"\n"
    for at, carets in finding.others:
        said += show(file, finding.source, at, b"or here, where another expression would do", carets)
    return said


def place(source, at, length):
    """A place as data: its line and column, from 1 on, its offset and how many bytes it has."""
    line, column = line_and_column(source, at)
    return {"line": line, "column": column, "offset": at, "length": length}


def as_json(file, finding):
    """The same as one line of JSON."""
    text = lambda value: value.decode("utf-8", "replace") if isinstance(value, bytes) else value
    said = {"file": text(file), "number": int(finding.number), "reason": text(finding.reason)}
    if finding.at is not None:
        said |= place(finding.source, finding.at, finding.carets)
    said |= {name: text(value) for name, value in finding.known.items()}
    if finding.hint:
        said["hint"] = text(finding.hint)
    if finding.others:
        said["others"] = [place(finding.source, *other) for other in finding.others]
    return json.dumps(said).encode() + b"\n"

"""What the scripts share that measure sources: the files of crates with their lines, and which lines are too wide."""
import re
import subprocess

WIDEST, WIDEST_CLAUSE = 120, 100
MAY_BE_WIDE = re.compile(r'\s*((ghost )?(pub )?use |#!?\[|")')
CLAUSE = re.compile(r'\s*(requires|ensures)\b')


def listed(*patterns):
    """The tracked files that fit one of these patterns of git's."""
    said = subprocess.run(['git', 'ls-files', '--', *patterns], capture_output=True, text=True, check=True)
    return said.stdout.splitlines()


def lines_of(path):
    with open(path, encoding='utf-8') as file:
        return file.read().splitlines()


def sources():
    """The files of code, contracts, definitions and proofs: the path, its crate and folder, and the lines."""
    for path in listed('crates'):
        found = re.fullmatch(r'crates/(\w+)/(src|specs|proofs)/.*\.(rt|antt)', path)
        if found:
            yield path, found[1], found[2], lines_of(path)


def limit_of(line):
    """How wide a line may be."""
    return WIDEST_CLAUSE if CLAUSE.match(line) else WIDEST


def too_wide(lines):
    """The lines that are too wide: the number and the columns of each."""
    for number, line in enumerate(lines, 1):
        if len(line.rstrip(' ([{')) > limit_of(line) and not MAY_BE_WIDE.match(line):
            yield number, len(line)

"""What the scripts share that write rows of mw_rows: how bytes are spelled, and where the stored output stands."""
import os
import re

CRATE = os.path.abspath(os.path.join(__file__, '../../../crates/mw_rows'))
COUNT = re.compile(r'(\d+) ([a-z]+)\n')


def spelled(data):
    """Bytes as the text of a field, with no blank at its ends."""
    made = ''.join(chr(byte) if 0x20 <= byte <= 0x7E and byte != 0x5C else f'\\x{byte:02x}' for byte in data)
    return re.sub('^ | $', r'\\x20', made)


def shown(text):
    """Written bytes as they are printed: `> ` stands before a line, and `: ` before a last one without a line feed."""
    lines = text.decode('ascii').replace('\\', '\\\\').split('\n')
    last = lines.pop()
    return ['> ' + line for line in lines] + ([': ' + last] if last else [])


def lines_of(path):
    """The lines of a file, or none where it isn't there."""
    if not os.path.exists(path):
        return []
    with open(path) as file:
        return file.readlines()


def heads(lines, kinds):
    """Where rows of these kinds begin."""
    return [at for at, line in enumerate(lines) if re.match(r'\[([a-z]+)\] ', line) and line[1:].split(']')[0] in kinds]


class Rows:
    """The rows of a file of data, and what they print."""

    def __init__(self, file, *about):
        self.file, self.lines, self.printed, self.names = file, [], [], set()
        for text in about:
            self.comment(text)
        self.lines.append('\n')

    def comment(self, text):
        self.lines.append(f'# {text}\n')

    def row(self, kind, name, fields, printed):
        """Adds a row with these pairs of a field and its text, which prints these lines."""
        head = f'[{kind}] {name}\n'
        assert head not in self.names, head
        self.names.add(head)
        self.lines.append(head + ''.join(f'{field}: {text}'.rstrip() + '\n' for field, text in fields) + '\n')
        self.printed.append(head)
        self.printed.extend(line + '\n' for line in printed)

    def write(self):
        """Writes the file, and puts what its rows print in the place of what they printed before."""
        path = os.path.join(CRATE, 'stdout')
        stored = lines_of(path)
        counts = []
        while COUNT.fullmatch(stored[-1]):
            counts.insert(0, COUNT.fullmatch(stored.pop()).group(2))
        begin, end = self.place(stored, counts)
        stored[begin:end] = self.printed
        kinds = [stored[at][1:].split(']')[0] for at in heads(stored, counts)]
        with open(path, 'w') as out:
            out.writelines(stored + [f'{kinds.count(kind)} {kind}\n' for kind in counts])
        with open(os.path.join(CRATE, 'data', self.file), 'w') as out:
            out.write(''.join(self.lines).rstrip('\n') + '\n')

    def place(self, stored, kinds):
        """Where what the file's rows printed before begins and ends in the stored output."""
        files = [line.strip() for line in lines_of(os.path.join(CRATE, 'args'))]
        sizes = [len(heads(lines_of(os.path.join(CRATE, 'data', file)), kinds)) for file in files]
        begins = heads(stored, kinds) + [len(stored)]
        assert sum(sizes) == len(begins) - 1, 'the stored output has other rows than the files'
        first = sum(sizes[:files.index(self.file)])
        return begins[first], begins[first + sizes[files.index(self.file)]]

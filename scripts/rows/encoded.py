"""What the scripts share that put modules together: numbers, each as short as can be, vectors and sections."""


def unsigned(value):
    made = bytearray()
    while value >= 128:
        made.append(value & 127 | 128)
        value >>= 7
    return bytes(made) + bytes([value])


def signed(value):
    made = bytearray()
    while not -64 <= value <= 63:
        made.append(value & 127 | 128)
        value >>= 7
    return bytes(made) + bytes([value & 127])


def vector(items):
    return unsigned(len(items)) + b''.join(items)


def section(number, content):
    return bytes([number]) + unsigned(len(content)) + content

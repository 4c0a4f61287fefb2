#!/bin/sh
# wat.sh [BYTES ..]: times `check` of texts that it makes, `check` and `wat` of binary modules, and `check` of what
# `wat` wrote, at these sizes: a tenth of 67,108,864 bytes, and all of them, where none is given. A text is to take 5
# seconds at most, and 67,108,864 bytes of loads 20 seconds, as what is written of them is eight times as long. Beside
# them wabt's wat2wasm and wasm2wat, where they are installed. Then blocks 500 deep in a stack of 512 KB, and files
# under limits of memory, at the first of the sizes: what is said or status 8, and no other end. Each time is real, in
# seconds, the least of some runs; memory is the most that a run took, by GNU time as /usr/bin/time, where it is
# there. MB are of 1,048,576 bytes.
set -u
here=$(cd "$(dirname "$0")" && pwd)
program="$here/../crates/metaml/out/metaml"
[ -x "$program" ] || { echo "wat.sh: metaml isn't built: rt run in crates/metaml builds it"; exit 70; }
exec python3 - "$program" "$@" <<'END'
import os, resource, shutil, subprocess, sys, tempfile, time

program, sizes = sys.argv[1], [int(word) for word in sys.argv[2:]]
LIMIT = 67_108_864
sizes = sizes or [LIMIT // 10, LIMIT]
MB = 1_048_576
work = tempfile.mkdtemp()
TIME = "/usr/bin/time"
failed = False

def filled(front, part, behind, size):
    """So many times a part as have room between front and behind."""
    return front + part * ((size - len(front) - len(behind)) // len(part)) + behind

BODY = b"(module(type(func))(func(type 0)"
DEEP = b"block " * 500 + b"end " * 500
STRING = b"(module(memory 0)(data(offset i32.const 0)\""

def many_types(size):
    """Half a million types in 67,108,864 bytes."""
    return filled(b"(module", b"(type(func(param" + b" i64" * 28 + b")))", b")", size)

def many_labels(size):
    """A br_table of ten million labels, where the size is the whole one."""
    return BODY + b"unreachable br_table" + b" 0" * (10_000_000 * size // LIMIT) + b"))"

# what each text is, and what is said of it
TEXTS = (
    ("nop", lambda size: (filled(BODY, b"nop ", b"))", size), "valid")),
    ("block end", lambda size: (filled(BODY, b"block end ", b"))", size), "valid")),
    ("nests of 500", lambda size: (filled(BODY, DEEP, b"))", size), "valid")),
    ("constants", lambda size: (filled(BODY, b"i64.const -9223372036854775808 drop ", b"))", size), "valid")),
    ("loads", lambda size: (
        filled(BODY + b"i32.const 0", b" i32.load offset=0 exp=2", b" drop)(memory 0))", size), "valid")),
    ("one word", lambda size: (filled(BODY, b"a", b"", size), f"bad text at {len(BODY)}")),
    ("one number", lambda size: (filled(BODY + b"i32.const ", b"9", b"", size), f"bad text at {len(BODY) + 10}")),
    ("one string", lambda size: (filled(STRING, b"a", b'"))', size), "valid")),
    ("one string, all escapes", lambda size: (filled(STRING, b"\\61", b'"))', size), "valid")),
    ("parentheses", lambda size: (b"(" * size, "bad text at 1")),
    ("blanks", lambda size: (b" " * size, f"bad text at {size}")),
    ("an open string", lambda size: (filled(STRING, b"a", b"", size), f"bad text at {len(STRING) - 1}")),
    ("many types", lambda size: (many_types(size), "valid")),
    ("many labels", lambda size: (many_labels(size), "valid")),
)

def number(value):
    made = bytearray()
    while value >= 128:
        made.append(value & 127 | 128)
        value >>= 7
    return bytes(made) + bytes([value])

def section(identity, content):
    return bytes([identity]) + number(len(content)) + content

def module(front, part, behind, size, memory=b""):
    """A module of one function, whose code is a part over and over between front and behind."""
    made = b"\0asm\1\0\0\0" + section(1, b"\1\x60\0\0") + section(3, b"\1\0") + memory
    body = filled(b"\0" + front, part, behind + b"\x0b", size - len(made) - 12)
    return made + section(10, b"\1" + number(len(body)) + body)

MEMORY = section(5, b"\1\0\0")
BINARIES = (
    ("nop", lambda size: module(b"", b"\1", b"", size)),
    ("loads", lambda size: module(b"\x41\0", b"\x28\2\0", b"\x1a", size, MEMORY)),
    ("block end", lambda size: module(b"", b"\2\x40\x0b", b"", size)),
    ("nests of 500", lambda size: module(b"", b"\2\x40" * 500 + b"\x0b" * 500, b"", size)),
    ("constants", lambda size: module(b"", b"\x42" + b"\x80" * 9 + b"\x7f\x1a", b"", size)),
    ("data", lambda size: b"\0asm\1\0\0\0" + MEMORY
        + section(11, b"\1\0\x41\0\x0b" + number(size - 32) + b"a" * (size - 32))),
)

def limited(stack=None, memory=None):
    """Lets a process take so many bytes of stack and of addresses."""
    def prepare():
        if stack:
            resource.setrlimit(resource.RLIMIT_STACK, (stack, stack))
        if memory:
            resource.setrlimit(resource.RLIMIT_AS, (memory, memory))
    return prepare

def measured(words, output, times):
    """The least time and the most memory of some runs, whose output goes to a file; the last one's status."""
    best = most = 0
    timed = [TIME, "-f", "%M", "-o", f"{work}/memory"] if os.access(TIME, os.X_OK) else []
    for turn in range(times):
        with open(output, "wb") as out:
            start = time.monotonic()
            run = subprocess.run(timed + words, stdout=out, stderr=subprocess.DEVNULL)
            spent = time.monotonic() - start
        best = spent if turn == 0 else min(best, spent)
        if timed:
            with open(f"{work}/memory") as told:
                most = max(most, int(told.read().split()[-1]) * 1024)
    return best, most, run.returncode

def wrong(what):
    global failed
    failed = True
    print(f"wat.sh: {what}", flush=True)

def line(name, size, spent, memory, most, said):
    print(f"  {name:34} {size / MB:7.2f} MB {spent:7.3f} s{most} {memory // MB:6} MB  {said}", flush=True)

def checked(name, path, wanted, most=5, times=2):
    """Times `check` of a file, and compares what is said."""
    output = f"{work}/said"
    spent, memory, status = measured([program, "check", path], output, times)
    with open(output) as told:
        said = told.read().strip()
    size = os.path.getsize(path)
    line(f"check: {name}", size, spent, memory, f" ({most} at most)" if size > LIMIT // 2 else "", f"{said}, {status}")
    may_be = [wanted] if isinstance(wanted, str) else wanted
    if said not in may_be or status != {"valid": 0, "invalid": 11}.get(said, 10):
        wrong(f"{name}: {said}, {status}, and not {wanted}")

def places_of_a_front(path):
    """What may be said of a text past the limit: the limit, or where the token begins in which what is read ends."""
    with open(path, "rb") as text:
        front = text.read(LIMIT + 1)
    quote = front.rfind(b'"')
    in_a_string = quote >= 0 and front.find(b")", quote) < 0
    start = quote if in_a_string else 1 + max(front.rfind(mark) for mark in (b" ", b"(", b")", b"\n"))
    return [f"bad text at {place}" for place in (LIMIT, start)]

def beside(name, words):
    """Times a tool of wabt, where it is installed."""
    if shutil.which(words[0]):
        spent, memory, status = measured(words, os.devnull, 2)
        line(f"{words[0]}: {name}", os.path.getsize(words[1]), spent, memory, "", f"status {status}")

def texts(size):
    print(f"texts of {size} bytes", flush=True)
    for name, make in TEXTS:
        path = f"{work}/module.wat"
        data, wanted = make(size)
        with open(path, "wb") as out:
            out.write(data)
        del data
        checked(name, path, wanted)
        if wanted == "valid":
            beside(name, ["wat2wasm", path, "-o", os.devnull])

def binaries(size):
    print(f"binary modules of {size} bytes", flush=True)
    for name, make in BINARIES:
        path, output = f"{work}/module.wasm", f"{work}/written.wat"
        with open(path, "wb") as out:
            out.write(make(size))
        checked(name, path, "valid")
        spent, memory, status = measured([program, "wat", path], output, 2)
        grown = os.path.getsize(output)
        line(f"wat: {name}", size, spent, memory, " (20 at most)" if size > LIMIT // 2 else "",
            f"writes {grown / MB:.1f} MB, {status}")
        if status != 0:
            wrong(f"wat of {name}: status {status}")
        beside(name, ["wasm2wat", path, "-o", os.devnull])
        checked(f"{name}, as written", output, "valid" if grown <= LIMIT else places_of_a_front(output))
        os.unlink(output)

def ends(name, words, prepare, wanted):
    """Compares how a run under limits ends: with one of these statuses, or with 8."""
    run = subprocess.run(words, stdout=subprocess.DEVNULL, stderr=subprocess.DEVNULL, preexec_fn=prepare)
    print(f"  {name:60} status {run.returncode}", flush=True)
    if run.returncode not in wanted + (8,):
        wrong(f"{name}: status {run.returncode}")

def under_limits(size):
    print("a stack of 512 KB", flush=True)
    for depth, wanted in ((500, (0,)), (501, (10,))):
        for word in (b"block ", b"loop ", b"i32.const 0 if ", b"i32.const 0 if else "):
            inner = b"" if b"else" not in word else b"nop "
            path = f"{work}/deep.wat"
            with open(path, "wb") as out:
                out.write(BODY + word * depth + inner + b"end " * depth + b"))")
            ends(f"check: {depth} times {word.decode().strip()}", [program, "check", path],
                limited(stack=512 * 1024), wanted)
        path = f"{work}/deep.wasm"
        with open(path, "wb") as out:
            out.write(module(b"", b"\2\x40" * depth + b"\x0b" * depth, b"", 80 + 3 * depth))
        for command in ("check", "wat"):
            ends(f"{command}: {depth} blocks in bytes", [program, command, path], limited(stack=512 * 1024), wanted)
    print(f"files of {size} bytes under limits of memory", flush=True)
    for name, data, commands in (("text of nop", TEXTS[0][1](size)[0], ("check",)),
            ("one string", TEXTS[7][1](size)[0], ("check",)), ("bytes of nop", BINARIES[0][1](size), ("check", "wat")),
            ("bytes of loads", BINARIES[1][1](size), ("check", "wat"))):
        path = f"{work}/limited"
        with open(path, "wb") as out:
            out.write(data)
        for memory in (1, 2, 4, 8, 16, 32, 64, 128):
            for command in commands:
                ends(f"{command}: {name}, in {memory} times its size and 16 MB", [program, command, path],
                    limited(memory=memory * size + 16 * MB), (0,))

try:
    for size in sizes:
        texts(size)
        binaries(size)
    under_limits(sizes[0])
finally:
    shutil.rmtree(work)
sys.exit(1 if failed else 0)
END

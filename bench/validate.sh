#!/bin/sh
# validate.sh: times decoding and validating together on modules that would be slow to validate without care, each at a size and at
# twice that size, beside wabt's wasm-validate, where that is installed: a br_table of many labels, calls of a function of a million
# parameters behind unreachable, many functions of such a type, 50,000 locals from 8 bytes of each function, many exports, and
# exports whose names differ late. wasm-validate is given up after 20 seconds, or past
# 4 GB of memory.
set -u
here=$(cd "$(dirname "$0")" && pwd)
program="$here/../crates/mw_modules/out/mw_modules"
[ -x "$program" ] || (cd "$here/../crates/mw_modules" && rt run -- rows >/dev/null)
work=$(mktemp -d) || exit 70
trap 'rm -rf "$work"' EXIT

python3 - "$work" <<'END'
import sys
work = sys.argv[1]

def number(value):
    out = bytearray()
    while value >= 128:
        out.append(value & 127 | 128)
        value >>= 7
    out.append(value)
    return bytes(out)

def section(identity, content):
    return bytes([identity]) + number(len(content)) + content

def module(parameters, bodies, exports=()):
    kind = b"\x01\x60" + number(parameters) + b"\x7f" * parameters + b"\x00"
    made = b"\0asm\1\0\0\0" + section(1, kind) + section(3, number(len(bodies)) + b"\x00" * len(bodies))
    if exports:
        made += section(7, number(len(exports)) + b"".join(number(len(name)) + name + b"\x00\x00" for name in exports))
    return made + section(10, number(len(bodies)) + b"".join(number(len(body)) + body for body in bodies))

def write(name, *parts):
    with open(f"{work}/{name}.wasm", "wb") as out:
        out.write(module(*parts))

def names(count, prefix):
    return [prefix + b"%08d" % (at * 7919 % count) for at in range(count)]

million = 1_000_000
for size in (1, 2):
    labels = 5 * million * size
    write(f"labels_{size}", 0, [b"\x00\x41\x00\x0e" + number(labels) + b"\x00" * (labels + 1) + b"\x0b"])
    write(f"calls_{size}", million, [b"\x00\x00" + b"\x10\x00" * (million * size) + b"\x0b"])
    write(f"functions_{size}", million, [b"\x00\x0b"] * (million * size))
    write(f"locals_{size}", 0, [b"\x01\xd0\x86\x03\x7f\x01\x01\x0b"] * (2_000 * size))
    write(f"exports_{size}", 0, [b"\x00\x0b"], names(million // 2 * size, b""))
    write(f"long_names_{size}", 0, [b"\x00\x0b"], names(50_000 * size, b"a" * 500))
END

# user time and greatest memory of a command
timed() {
  command -v "$1" >/dev/null || return 0
  python3 - "$@" <<'END'
import os, resource, subprocess, sys
words = sys.argv[1:]
few = lambda: resource.setrlimit(resource.RLIMIT_AS, (4 << 30, 4 << 30))
try:
    said = subprocess.run(words, capture_output=True, text=True, timeout=20, preexec_fn=few)
except subprocess.TimeoutExpired:
    sys.exit(print(f"  {os.path.basename(words[0]):14} more than 20 s"))
used = resource.getrusage(resource.RUSAGE_CHILDREN)
print(f"  {os.path.basename(words[0]):14} {used.ru_utime:7.3f} s user {used.ru_maxrss // 1024:6} MB  {said.stdout.strip() or 'status %d' % said.returncode}")
END
}

for shape in labels calls functions locals exports long_names; do
  for size in 1 2; do
    echo "$shape, size $size: $(wc -c < "$work/${shape}_$size.wasm") bytes"
    timed "$program" verdict "$work/${shape}_$size.wasm"
    timed wasm-validate "$work/${shape}_$size.wasm"
  done
done

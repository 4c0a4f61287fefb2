#!/bin/sh
# decode.sh: times decoding beside wabt's wasm-validate and wasm2wat, where they are installed: on a module of 10 MB,
# and on the 100 modules of `sample 100`. Then the stack and the memory that decoding takes: 500 blocks one in another in
# a stack of 512 KB, modules of 67,108,864 bytes, and a count of 4,294,967,295 items with none there.
set -u
here=$(cd "$(dirname "$0")" && pwd)
program="$here/../crates/mw_modules/out/mw_modules"
[ -x "$program" ] || (cd "$here/../crates/mw_modules" && rt run -- rows >/dev/null)
work=$(mktemp -d) || exit 70
trap 'rm -rf "$work"' EXIT

python3 - "$work" <<'END'
import os, sys
work = sys.argv[1]
header, kind = bytes.fromhex("0061736d01000000"), bytes.fromhex("01050160017e00")

def number(value):
    out = bytearray()
    while value >= 128:
        out.append(value & 127 | 128)
        value >>= 7
    out.append(value)
    return bytes(out)

def padded(value):
    return bytes([value >> shift & 127 | (128 if shift < 28 else 0) for shift in range(0, 35, 7)])

def section(identity, content):
    return bytes([identity]) + number(len(content)) + content

def module(bodies):
    functions = number(len(bodies)) + b"\x00" * len(bodies)
    code = number(len(bodies)) + b"".join(number(len(body)) + body for body in bodies)
    return header + kind + section(3, functions) + section(10, code)

# a local, and its value changed in a block, a loop and an if
step = bytes.fromhex("2001" "42ffffff00" "7c" "2000" "42c5bbf288cdfa57" "85" "7c" "2101")
turn = bytes.fromhex("0240" "2001" "50" "0d00") + step + bytes.fromhex("0340" "2001" "a7" "0d00") + step + b"\x0b\x0b"
body = bytes.fromhex("01017e") + step + turn + bytes.fromhex("2001" "a7" "0440") + step + bytes.fromhex("0b0b")
bodies = [body] * (10_000_000 // (len(body) + 2))
open(work + "/large.wasm", "wb").write(module(bodies))
deep = bytes.fromhex("00") + bytes.fromhex("0240") * 500 + b"\x0b" * 501
open(work + "/deep.wasm", "wb").write(module([deep]))
limit = 67_108_864
for name, fill in (("bodies", None), ("nops", b"\x01"), ("data", b"\xee")):
    if fill is None:
        bodies = [body] * ((limit - 200) // (len(body) + 2))
        made = module(bodies)
    elif name == "nops":
        made = module([b"\x00" + fill * (limit - 40) + b"\x0b"])
    else:
        made = header + section(11, b"\x01\x00\x41\x00\x0b" + number(limit - 40) + fill * (limit - 40))
    rest = limit - len(made) - 6
    made += b"\x00" + padded(rest) + b"\x00" * rest
    assert len(made) == limit
    open(f"{work}/{name}.wasm", "wb").write(made)
open(work + "/past.wasm", "wb").write(made + b"\x00")
open(work + "/empty.wasm", "wb").write(header + section(1, number(2**32 - 1)))

# the modules of `sample 100`: that of the cube, with the body of `x * (1 + .. + 1)`, of 90 i ones added in halves
cube = bytes.fromhex(
    "0061736d0100000001110360027e7e017e6000017e60027e7e017e030403000102040501700101010504010140400606017f0141000b"
    "070f0204696e697400010463616c6c00020907010041000b01000a45030d0020012001200142017e7e7e0b1300230042003703002300ad"
    "230041086a24000b2102027e017f23002104200020012103220220032002a7280200110000200424000b")
front, behind = cube[:cube.index(bytes.fromhex("0a45030d"))], cube[cube.index(bytes.fromhex("13002300")):]

def ones(count):
    return b"\x42\x01" if count == 1 else ones(count // 2) + ones(count - count // 2) + b"\x7c"

for i in range(1, 101):
    body = bytes.fromhex("002001") + ones(90 * i) + bytes.fromhex("7e0b")
    made = front + section(10, b"\x03" + number(len(body)) + body + behind)
    assert len(made) == 270 * i + (144 if i <= 60 else 146)
    open(f"{work}/sample{i}.wasm", "wb").write(made)
END

# user time and greatest memory of a command
timed() {
  command -v "$1" >/dev/null || return 0
  python3 - "$@" <<'END'
import os, resource, subprocess, sys
words = sys.argv[1:]
with open(os.devnull, "w") as nowhere:
    out = subprocess.PIPE if "verdict" in words else nowhere
    said = subprocess.run(words, stdout=out, stderr=subprocess.STDOUT, text=True)
used = resource.getrusage(resource.RUSAGE_CHILDREN)
name, memory, printed = os.path.basename(words[0]), used.ru_maxrss // 1024, (said.stdout or "").strip()
print(f"  {name:14} {used.ru_utime:7.3f} s user {memory:6} MB  status {said.returncode} {printed}")
END
}

echo "a module of 10 MB"
for _ in 1 2 3; do
  timed "$program" verdict "$work/large.wasm"
  timed wasm-validate "$work/large.wasm"
  timed wasm2wat "$work/large.wasm" -o /dev/null
done

echo "the 100 modules of sample 100, each in a run of its own"
for _ in 1 2 3; do
  for tool in "$program verdict" wasm-validate; do
    command -v "${tool%% *}" >/dev/null || continue
    echo "  ${tool##*/}"
    timed sh -c 'for module in "$2"/sample*.wasm; do $1 "$module" >/dev/null || exit 1; done' sh "$tool" "$work"
  done
done

echo "500 blocks one in another, in a stack of 512 KB"
(ulimit -s 512 && "$program" verdict "$work/deep.wasm")
echo "4,294,967,295 items that are declared and not there"
timed "$program" verdict "$work/empty.wasm"
for name in bodies nops data; do
  echo "67,108,864 bytes: $name"
  timed "$program" verdict "$work/$name.wasm"
done
echo "67,108,865 bytes"
timed "$program" verdict "$work/past.wasm"

#!/bin/sh
# cache.sh: times `run --cache` over files that it makes: 32 MB and 64 MB of records of small kernels, and of few large
# ones, each with a source of one small kernel, so that nearly all time is that of loading; then the source of
# `sample 100`, all loaded, beside the same without a cache file. Beside each file stands what summing, decoding and
# validating its records alone takes, by `mw_modules records`. Each number is the least of some runs, of real time in
# seconds; memory is the most that a run took, by GNU time as /usr/bin/time. MB are of 1,048,576 bytes.
set -u
here=$(cd "$(dirname "$0")" && pwd)
program="$here/../crates/metaml/out/metaml"
[ -x "$program" ] || (cd "$here/../crates/metaml" && rt run >/dev/null)
modules="$here/../crates/mw_modules/out/mw_modules"
[ -x "$modules" ] || (cd "$here/../crates/mw_modules" && rt run -- rows >/dev/null)
exec python3 - "$program" "$modules" <<'END'
import hashlib, os, shutil, subprocess, sys, tempfile, time

program, modules = sys.argv[1:]
work = tempfile.mkdtemp()
MB = 1_048_576
FRONT = bytes.fromhex(
    "0061736d01000000010b0260027e7e017e6000017e03020101040501700100000504010140400606017f0141000b07080104696e69740000")

def unsigned(number):
    made = bytearray()
    while number >= 128:
        made.append(number & 127 | 128)
        number >>= 7
    return bytes(made) + bytes([number])

def signed(number):
    made = bytearray()
    while not -64 <= number <= 63:
        made.append(number & 127 | 128)
        number >>= 7
    return bytes(made) + bytes([number & 127])

def constant(expression):
    """The module of an int kernel whose body is this expression."""
    code = b"\x00" + expression + b"\x0b"
    content = b"\x01" + unsigned(len(code)) + code
    return FRONT + b"\x0a" + unsigned(len(content)) + content

def record(text, module):
    front = len(text).to_bytes(4, "little") + len(module).to_bytes(4, "little") + text + module
    return front + hashlib.sha256(front).digest()

def small(number):
    return record(b"emit2 int i %d" % number, constant(b"\x42" + signed(number)))

def added(count):
    """Text and expression of so many ones, added in halves."""
    if count == 1:
        return b"i 1", b"\x42\x01"
    left, right = added(count // 2), added(count - count // 2)
    return b"add " + left[0] + b" " + right[0], left[1] + right[1] + b"\x7c"

ONES = added(9_999)

def large(number):
    """A code of 19,999 nodes."""
    text, expression = ONES
    return record(b"emit2 int add i %d %s" % (number, text), constant(b"\x42" + signed(number) + expression + b"\x7c"))

def file_of(make, size):
    path = f"{work}/{make.__name__}{size}"
    with open(path, "wb") as out:
        number, left = 0, size * MB
        while len(made := make(number)) <= left:
            out.write(made)
            left -= len(made)
            number += 1
    return path, number

def measured(words, times=3):
    """The least time and the most memory, in bytes, of some runs; what the last one wrote."""
    best = most = 0
    for turn in range(times):
        start = time.monotonic()
        run = subprocess.run(["/usr/bin/time", "-v"] + words, capture_output=True)
        spent = time.monotonic() - start
        best = spent if turn == 0 else min(best, spent)
        lines = [line for line in run.stderr.decode().split("\n") if "Maximum resident set size" in line]
        most = max(most, int(lines[0].split()[-1]) * 1024)
    return best, most, run.stdout

def over_files(make, source):
    """Times the source over 32 MB and 64 MB of these records."""
    times = []
    for size in (32, 64):
        path, count = file_of(make, size)
        before = os.path.getsize(path)
        least, _, counted = measured([modules, "records", path])
        spent, memory, written = measured([program, "run", "--cache", path, source])
        grown = os.path.getsize(path) - before
        print(f"{size} MB, {count} records of {make.__name__} kernels: {spent:.3f} s, "
            f"{memory / before:.2f} bytes of memory for each of the file (6 at most); "
            f"{written.decode().split(chr(10))[-2]}; grew by {grown}; {least:.3f} s for summing, decoding and validating "
            f"{counted.decode().strip()} alone, {spent / least:.2f} times as long as that (2 at most)", flush=True)
        times.append(spent)
        os.unlink(path)
    print(f"  64 MB took {times[1] / times[0]:.2f} times as long as 32 MB (2.2 at most)", flush=True)

def written(name, text):
    path = f"{work}/{name}.metaml"
    with open(path, "w") as out:
        out.write(text)
    return path

def sampled(number):
    lines = ["let rec ones n = if n = 1 then .<1>. else .<.~(ones (n / 2)) + .~(ones (n - n / 2))>. ;;"]
    lines += [f"kernel k{i} : int -> int = close .<fun x -> x * .~(ones {90 * i})>. ;;" for i in range(1, number + 1)]
    runs = " + ".join(f"run[int -> int] k{i} 2" for i in range(1, number + 1))
    return "\n".join(lines + [f"main : int = {runs}", ""])

def over_sample():
    """Times the source of `sample 100` with all of its modules loaded, and without a cache file."""
    source, file = written("sample", sampled(100)), f"{work}/sample"
    for workers in ("1", "4"):
        words = [program, "run", "--workers", workers]
        subprocess.run(words + ["--cache", file, source], stdout=subprocess.DEVNULL)
        size = os.path.getsize(file)
        plain, plain_memory, said = measured(words + [source], 5)
        loaded, memory, same = measured(words + ["--cache", file, source], 5)
        print(f"the source of sample 100, {workers} worker{'s' * (workers != '1')}: {plain:.3f} s without, "
            f"{loaded:.3f} s loaded, {loaded / plain:.2f} times as long (0.6 at most); "
            f"{plain_memory // MB} and {memory // MB} MB of memory; "
            f"{'the same output' if said == same else 'ANOTHER OUTPUT'}; a file of {size} bytes, "
            f"{'kept as it was' if os.path.getsize(file) == size else 'CHANGED'}", flush=True)

try:
    seven = written("seven", "kernel k : int = close .<7>. ;; main : int = run[int] k\n")
    alone, _, _ = measured([program, "run", seven])
    print(f"the small source without a cache file: {alone:.3f} s", flush=True)
    over_files(small, seven)
    over_files(large, seven)
    over_sample()
finally:
    shutil.rmtree(work)
END

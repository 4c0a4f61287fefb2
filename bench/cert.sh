#!/bin/sh
# cert.sh [PROGRAM [OLDER]]: times certificates. `run` of a source of about 1 MB that is checked, and of an older
# program beside it where one is named; `cert` of it, in at most twice the time of `run`, and `recheck` of that, in at
# most the time of `run`. `recheck` of a source of one number with 1,000,000 lines `pair k k`, whose type has
# 2^1,000,000 nodes, in at most 5 seconds, used and not; with 67,108,864 bytes of unknowns, in at most 700 MB. And
# pairs of files made to be slow: many uses of a let below whose root many lines stand, many closes under a name whose
# type is code and has many lines below it, and many uses of a let whose root has many classifiers. With files of 1 MB
# each there is room for 65,536 uses, where a use costs as much as here. Each time is of the user, in seconds, the
# least of three runs, or of one where it takes more than 10; memory is the most that a run took. MB are of 1,048,576
# bytes.
set -u
here=$(cd "$(dirname "$0")" && pwd)
program=${1:-$here/../crates/metaml/out/metaml}
[ -x "$program" ] || { echo "cert.sh: metaml isn't built: rt run in crates/metaml builds it"; exit 70; }
exec python3 - "$program" "${2:-}" <<'END'
import os, resource, shutil, sys, tempfile

program, older = sys.argv[1:3]
MB = 1_048_576
LIMIT = 67_108_864
work = tempfile.mkdtemp()
failed = False

def wrong(what):
    global failed
    failed = True
    print(f"cert.sh: {what}", flush=True)

def once(words, output):
    """The user's time of a run whose output goes to a file, its memory, and its status."""
    child = os.fork()
    if child == 0:
        out = os.open(output, os.O_WRONLY | os.O_CREAT | os.O_TRUNC)
        os.dup2(out, 1)
        resource.setrlimit(resource.RLIMIT_CPU, (600, 600))
        os.execv(words[0], words)
    _, status, used = os.wait4(child, 0)
    return used.ru_utime, used.ru_maxrss * 1024, os.waitstatus_to_exitcode(status)

def timed(name, words, status, said=None, most=None, room=None):
    """Times runs, compares status and output, and gives the least time of the user."""
    output = f"{work}/output"
    times, memory = [], 0
    while len(times) < 3 and (not times or times[0] <= 10):
        spent, taken, ended = once(words, output)
        times.append(spent)
        memory = max(memory, taken)
    bound = f" ({most:.2f} at most)" if most else ""
    wrote = os.path.getsize(output)
    print(f"  {name:44} {min(times):8.2f} s{bound} {memory // MB:5} MB  {wrote} bytes, status {ended}", flush=True)
    if ended != status or said is not None and bytes_of(output) != said:
        wrong(f"{name}: status {ended}")
    if most and min(times) > most:
        wrong(f"{name}: {min(times):.2f} s, and not {most:.2f}")
    if room and memory > room:
        wrong(f"{name}: {memory // MB} MB")
    return min(times)

def bytes_of(path):
    with open(path, "rb") as file:
        return file.read()

def put(name, text):
    path = f"{work}/{name}"
    with open(path, "w") as out:
        out.write(text)
    return path

def section(types, nodes):
    return f"types {len(types)}\n" + "".join(f"{line}\n" for line in types) + f"nodes {len(nodes)}\n" + "".join(
        f"{line}\n" for line in nodes)

def large_source():
    """900 functions of every form, each used by the next ones at several types."""
    items = []
    for at in range(900):
        f, g = f"f{max(at - 1, 0)}", f"f{max(at - 2, 0)}"
        one = f"let p = (x, ({at}, true)) in let rec r n = if n = 0 then fst (snd p) else r (n - 1) + n * {at} in "
        one += f"if snd (snd p) then fst (r 3, {f}) else (fun y -> y - r y) (r 5)" if at > 1 else "r 3"
        lets = (f"let a{k} = {f} (fun z -> (z, x)) + {g} (x, {k}) * {k} in " for k in range(17 * (at > 1)))
        used = "".join(lets)
        items.append(f"let f{at} x = {used}{one} ;;\n")
    return "".join(items) + "main : int = 1\n"

def tree(leaf, depth):
    """A balanced tree of pairs of a leaf, as a source."""
    text = leaf
    for _ in range(depth):
        text = f"({text},{text})"
    return text

def tree_nodes(leaf, depth, kind):
    """Its node lines, where a pair so many levels above the leaves has this kind of type."""
    lines = leaf
    for level in range(1, depth + 1):
        lines = [str(kind(level))] + lines + lines
    return lines

def many_uses(lines, depth):
    """Uses of a let, 2^depth of them, with so many lines below the let's root."""
    source = f"let f = fun x -> x ;; let g = fun z -> {tree('f', depth)} ;; main : int = 1"
    first = section([f"u {at}" for at in range(lines)] + ["arrow 0 0"], [f"{lines} 0", "0"])
    types = ["int", "arrow 0 0"] + [f"pair {at} {at}" for at in range(1, depth + 1)] + [f"arrow 0 {depth + 1}"]
    nodes = [f"{depth + 2} 0"] + tree_nodes(["1"], depth, lambda level: level + 1)
    return source, "cert1\n" + first + section(types, nodes) + section(["int"], ["0"])

def many_classifiers(height, depth):
    """Uses, 2^depth of them, of a let whose root has 2^height classifiers, which all become one at each use."""
    source = f"let f = fun x -> x ;; let g = fun z -> {tree('f', depth)} ;; main : int = 1"
    types, level = ["int"] + [f"code {at} 0" for at in range(2**height)], list(range(1, 2**height + 1))
    while len(level) > 1:
        above = range(len(types), len(types) + len(level) // 2)
        types += [f"pair {left} {right}" for left, right in zip(level[::2], level[1::2])]
        level = list(above)
    first = section(types + [f"arrow {level[0]} {level[0]}"], [f"{len(types)} {level[0]}", f"{level[0]}"])
    types = ["int", "code 0 0"] + [f"pair {at} {at}" for at in range(1, height + 1)]
    types += [f"arrow {height + 1} {height + 1}"]
    types += [f"pair {at} {at}" for at in range(height + 2, height + 2 + depth)]
    nodes = [f"{len(types)} 0"] + tree_nodes([f"{height + 2}"], depth, lambda level: height + 2 + level)
    return source, "cert1\n" + first + section(types + [f"arrow 0 {len(types) - 1}"], nodes) + section(["int"], ["0"])

def many_closes(lines, depth):
    """Closes, 2^depth of them, under a name whose type is code and has so many lines below it."""
    source = f"let g = fun c -> {tree('close.<1>.', depth)} ;; main : int = 1"
    types = ["int", "closed 0", "code 0 0"] + [f"pair {at} {at}" for at in [1] + list(range(3, depth + 2))]
    types += [f"u {at}" for at in range(lines)]
    types += [f"code 1 {len(types) - 1}"]
    types += [f"arrow {len(types) - 1} {depth + 2}"]
    nodes = [f"{len(types) - 1} {len(types) - 2}"]
    nodes += tree_nodes(["1 0 0", "2 0", "0"], depth, lambda level: level + 2)
    return source, "cert1\n" + section(types, nodes) + section(["int"], ["0"])

def main():
    source = put("large.metaml", large_source())
    print(f"a source of {os.path.getsize(source)} bytes", flush=True)
    checking = timed("run", [program, "run", source], 0, b"answer 1\n")
    if older:
        timed("run of the older program", [older, "run", source], 0, b"answer 1\n")
    timed("cert", [program, "cert", source], 0, most=2 * checking)
    shutil.copy(f"{work}/output", f"{work}/large.cert")
    timed("recheck", [program, "recheck", f"{work}/large.cert", source], 0, b"typed\n", most=checking)
    print("a source of one number", flush=True)
    one = put("one.metaml", "main : int = 1")
    chain = ["int"] + [f"pair {at} {at}" for at in range(1_000_000)]
    cert = put("chain.cert", "cert1\n" + section(chain, ["0"]))
    timed("recheck: 1,000,000 lines, not used", [program, "recheck", cert, one], 0, b"typed\n", most=5)
    pair = put("pair.metaml", "let f = fun x -> x ;; main : int = 1")
    chain += ["arrow 1000000 1000000"]
    cert = put("chain.cert", "cert1\n" + section(chain, ["1000001 1000000", "1000000"]) + section(["int"], ["0"]))
    timed("recheck: 1,000,000 lines, used", [program, "recheck", cert, pair], 0, b"typed\n", most=5)
    room = LIMIT - len("cert1\ntypes 1234567\nint\nnodes 1\n0\n")
    lines, at = [], 0
    while room >= len(f"u {at}\n") + 14:
        lines.append(f"u {at}")
        room -= len(f"u {at}\n")
        at += 1
    lines.append("u " + "9" * (room - 3))
    cert = put("long.cert", "cert1\n" + section(["int"] + lines, ["0"]))
    del lines, chain
    timed(f"recheck: {os.path.getsize(cert)} bytes", [program, "recheck", cert, one], 0, b"typed\n", room=700 * MB)
    print("pairs of files made to be slow", flush=True)
    for name, (text, cert) in (("60,000 lines, 4,096 uses", many_uses(60_000, 12)),
            ("60,000 lines, 32,768 closes", many_closes(60_000, 15)),
            ("16,384 classifiers, 256 uses", many_classifiers(14, 8))):
        text, cert = put("slow.metaml", text), put("slow.cert", cert)
        sizes = f"{os.path.getsize(text) / MB:.2f} and {os.path.getsize(cert) / MB:.2f} MB"
        timed(f"recheck: {name}, {sizes}", [program, "recheck", cert, text], 0, b"typed\n")

try:
    main()
finally:
    shutil.rmtree(work)
sys.exit(1 if failed else 0)
END

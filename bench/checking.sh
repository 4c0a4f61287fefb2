#!/bin/sh
# checking.sh [PROGRAM [OLDER]]: times the check of types. Three sources: uses of a name with a big type, 50 items of 190
# `let a = big in`, with `big` a pair of 2^11 leaves, in at most 0.5 seconds; a megabyte of closes under 100 binders whose
# types have 8,191 nodes, in at most 3; and 0.95 MB of items, in at most a twelfth of what `ocamlc -w -a -i` takes for the
# same text, where there is an ocamlc. An older program is timed beside it where one is named, on the first and the
# third. Each time is of the user, in seconds, the least of three runs, or of one where it takes more than 10; memory is
# the most that a run took. MB are of 1,048,576 bytes.
set -u
here=$(cd "$(dirname "$0")" && pwd)
program=${1:-$here/../crates/metaml/out/metaml}
[ -x "$program" ] || { echo "checking.sh: metaml isn't built: rt run in crates/metaml builds it"; exit 70; }
exec python3 - "$program" "${2:-}" <<'END'
import os, resource, shutil, sys, tempfile

program, older = sys.argv[1:3]
MB = 1_048_576
work = tempfile.mkdtemp()
failed = False

def wrong(what):
    global failed
    failed = True
    print(f"checking.sh: {what}", flush=True)

def once(words, output):
    """The user's time of a run whose output goes to a file, its memory, and its status."""
    child = os.fork()
    if child == 0:
        out = os.open(output, os.O_WRONLY | os.O_CREAT | os.O_TRUNC)
        os.dup2(out, 1)
        resource.setrlimit(resource.RLIMIT_CPU, (600, 600))
        os.execv(words[0], words)
    _, status, used = os.wait4(child, 0)
    return used.ru_utime, used.ru_maxrss * 1024, os.waitstatus_to_exitcode(status)

def timed(name, words, said=None, most=None):
    """Times runs, compares the output, and gives the least time of the user."""
    output = f"{work}/output"
    times, memory = [], 0
    while len(times) < 3 and (not times or times[0] <= 10):
        spent, taken, ended = once(words, output)
        times.append(spent)
        memory = max(memory, taken)
    bound = f" ({most:.2f} at most)" if most else ""
    print(f"  {name:36} {min(times):8.2f} s{bound} {memory // MB:5} MB", flush=True)
    with open(output, "rb") as file:
        if ended != 0 or said is not None and file.read() != said:
            wrong(f"{name}: status {ended}")
    if most and min(times) > most:
        wrong(f"{name}: {min(times):.2f} s, and not {most:.2f}")
    return min(times)

def put(name, text):
    path = f"{work}/{name}"
    with open(path, "w") as out:
        out.write(text)
    print(f"{name}, {len(text)} bytes", flush=True)
    return path

def tree(leaf, depth):
    """A balanced tree of pairs of a leaf."""
    text = leaf
    for _ in range(depth):
        text = f"({text},{text})"
    return text

def uses():
    """Uses of a name whose type has no unknowns, and 4,095 nodes."""
    item = "let a = big in " * 190
    return f"let big = {tree('1', 11)} ;;\n" + "".join(f"let f{at} x = {item}1 ;;\n" for at in range(50))

def closes():
    """Closes under 100 binders, a thousand in each item's pairs."""
    binders = "".join(f"let a{at} = big in " for at in range(100))
    row = ["close .<1>."] * 1_000
    while len(row) > 1:
        last = row[-1:] if len(row) % 2 else []
        row = [f"({left},{right})" for left, right in zip(row[::2], row[1::2])] + last
    return f"let big = {tree('1', 12)} ;;\n" + "".join(f"let f{at} x = {binders}{row[0]} ;;\n" for at in range(65))

def items():
    """900 functions of every form, each used by the next ones at several types."""
    text = []
    for at in range(900):
        f, g = f"f{max(at - 1, 0)}", f"f{max(at - 2, 0)}"
        one = f"let p = (x, ({at}, true)) in let rec r n = if n = 0 then fst (snd p) else r (n - 1) + n * {at} in "
        one += f"if snd (snd p) then fst (r 3, {f}) else (fun y -> y - r y) (r 5)" if at > 1 else "r 3"
        lets = (f"let a{k} = {f} (fun z -> (z, x)) + {g} (x, {k}) * {k} in " for k in range(17 * (at > 1)))
        used = "".join(lets)
        text.append(f"let f{at} x = {used}{one} ;;\n")
    return "".join(text)

def run(name, source, most, with_older):
    path = put(f"{name}.metaml", source + "main : int = 1\n")
    if older and with_older:
        timed("run of the older program", [older, "run", path], b"answer 1\n")
    return timed("run", [program, "run", path], b"answer 1\n", most)

def main():
    run("uses", uses(), 0.5, True)
    run("closes", closes(), 3, False)
    source, compiler = items(), shutil.which("ocamlc")
    most = None
    if compiler:
        most = timed("ocamlc -w -a -i", [compiler, "-w", "-a", "-i", put("items.ml", source)]) / 12
    run("items", source, most, True)

try:
    main()
finally:
    shutil.rmtree(work)
sys.exit(1 if failed else 0)
END

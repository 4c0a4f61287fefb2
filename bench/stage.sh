#!/bin/sh
# stage.sh [PROGRAM [OLDER]]: times the first stage beside OCaml's bytecode, where there is an ocamlc. Four sources,
# each as text of both languages: 9,999,991 applications of a recursive function; the 30th of Fibonacci's numbers; a
# filter by closures up to 10,000, which keeps each number n for which no number kept before divides n - 2, and each
# number kept wraps the test in one more function; and an interpreter that runs a program of 200 instructions 2,500
# times, as what generates a specialised program does. Then the items of `sample 100`, by one worker. An older program
# is timed beside it where one is named. Times are of the user, in seconds, the least of three runs; memory is the most
# that a run took, in MB of 1,048,576 bytes.
set -u
here=$(cd "$(dirname "$0")" && pwd)
program=${1:-$here/../crates/metaml/out/metaml}
[ -x "$program" ] || { echo "stage.sh: metaml isn't built: rt run in crates/metaml builds it"; exit 70; }
exec python3 - "$program" "${2:-}" <<'END'
import os, shutil, sys, tempfile

program, older = sys.argv[1:3]
MB = 1_048_576
work = tempfile.mkdtemp()

def once(words, output):
    """The user's time of a run whose output goes to a file, its memory, and its status."""
    child = os.fork()
    if child == 0:
        out = os.open(output, os.O_WRONLY | os.O_CREAT | os.O_TRUNC)
        os.dup2(out, 1)
        os.execv(words[0], words)
    _, status, used = os.wait4(child, 0)
    return used.ru_utime, used.ru_maxrss * 1024, os.waitstatus_to_exitcode(status)

def timed(words):
    """The least time of the user, the most memory, and the last word that was printed."""
    output = f"{work}/output"
    runs = [once(words, output) for _ in range(3)]
    if any(ended != 0 for _, _, ended in runs):
        sys.exit(f"stage.sh: {' '.join(words)}: status {[ended for _, _, ended in runs]}")
    with open(output) as file:
        return min(run[0] for run in runs), max(run[1] for run in runs), file.read().split()[-1]

def put(name, text):
    path = f"{work}/{name}"
    with open(path, "w") as out:
        out.write(text)
    return path

PROGRAM = [(1, 3), (2, 7), (3, 0), (1, -5), (2, -1)] * 39 + [(1, 1), (1, 1), (1, 1), (1, 1), (0, 0)]

def table(low, high):
    """The instruction of a number, by halves."""
    if low == high:
        return "(%d, (%d))" % PROGRAM[low]
    middle = (low + high) // 2
    return f"(if at <= {middle} then {table(low, middle)} else {table(middle + 1, high)})"

INTERPRETER = [
    f"let program at = {table(0, len(PROGRAM) - 1)}",
    """let rec interpret at input register =
  let instruction = program at in
  let operation = fst instruction in
  let n = snd instruction in
  if operation = 0 then register
  else if operation = 1 then interpret (at + 1) input (register + n)
  else if operation = 2 then interpret (at + 1) input (register * n mod 1000003)
  else interpret (at + 1) input (register + input)""",
    "let rec times n sum = if n = 0 then sum else times (n - 1) ((sum + interpret 0 n n) mod 1000003)",
]
FILTER = [
    """let rec search test n last =
  if last < n then 0
  else if test (n - 2) then 1 + search (fun m -> if m mod n = 0 then false else test m) (n + 1) last
  else search test (n + 1) last""",
]
SHAPES = [
    ("9,999,991 applications", ["let rec down n = if n = 0 then 0 else down (n - 1)"], "down 9999990"),
    ("fib 30", ["let rec fib n = if n < 2 then n else fib (n - 1) + fib (n - 2)"], "fib 30"),
    ("a filter by closures", FILTER, "search (fun m -> true) 2 10000"),
    ("an interpreter, 2,500 times", INTERPRETER, "times 2500 0"),
]
ocamlc = shutil.which("ocamlc")
for name, items, main in SHAPES:
    metaml = put("source.metaml", "".join(f"{item} ;;\n" for item in items) + f"main : int = {main}\n")
    spent, memory, said = timed([program, "run", "--fuel", "10000000", metaml])
    line = f"{name:28} {spent:6.2f} s {memory // MB:4} MB"
    if older:
        before, room, answer = timed([older, "run", "--fuel", "10000000", metaml])
        line += f", before {before:6.2f} s {room // MB:4} MB"
        if answer != said:
            sys.exit(f"stage.sh: {name}: {said}, and before {answer}")
    if ocamlc:
        ml = put("source.ml", "\n".join(items) + f"\nlet () = print_int ({main}); print_newline ()\n")
        if os.spawnv(os.P_WAIT, ocamlc, [ocamlc, "-w", "-a", "-o", f"{work}/bytecode", ml]) != 0:
            sys.exit("stage.sh: ocamlc failed")
        theirs, _, answer = timed([f"{work}/bytecode"])
        if answer != said:
            sys.exit(f"stage.sh: {name}: {said}, and by ocamlc {answer}")
        line += f", ocamlc {theirs:5.2f} s: {spent / max(theirs, 0.01):4.1f} times"
    print(line, flush=True)
spent, memory, _ = timed([program, "sample", "100"])
line = f"{'sample 100':28} {spent:6.2f} s {memory // MB:4} MB"
if older:
    before, room, _ = timed([older, "sample", "100"])
    line += f", before {before:6.2f} s {room // MB:4} MB"
print(line)
shutil.rmtree(work)
END

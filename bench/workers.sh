#!/bin/sh
# workers.sh: times `run --workers` with 1, 2, 4 and 8 workers, on sources that it makes: 100 kernel items of equal cost, the
# source of `sample 100`, 100 items of one text, written out or made by doubling, and one item that runs one kernel 20,000 times. With the path of another
# `metaml` as its argument, that one is timed beside it. Each number is the least of five runs, of real time in seconds. The last
# of a line is the source's erased program with one unit: reading and checking, which no worker shares.
set -u
here=$(cd "$(dirname "$0")" && pwd)
program="$here/../crates/metaml/out/metaml"
[ -x "$program" ] || (cd "$here/../crates/metaml" && rt run >/dev/null)
exec python3 - "$program" "$@" <<'END'
import os, subprocess, sys, tempfile, time

program, others = sys.argv[1], sys.argv[2:]
work = tempfile.mkdtemp()
COUNTS = (1, 2, 4, 8)

def spinning(turns):
    lines = ["let rec spin n = if n = 0 then 0 else spin (n - 1) ;;"]
    lines += [f"kernel k{i} : int = close (let x = spin {turns} in .<{i}>.) ;;" for i in range(1, 101)]
    return "\n".join(lines + ["main : int = 0", ""])

def sampled(number):
    lines = ["let rec ones n = if n = 1 then .<1>. else .<.~(ones (n / 2)) + .~(ones (n - n / 2))>. ;;"]
    lines += [f"kernel k{i} : int -> int = close .<fun x -> x * .~(ones {90 * i})>. ;;" for i in range(1, number + 1)]
    runs = " + ".join(f"run[int -> int] k{i} 2" for i in range(1, number + 1))
    return "\n".join(lines + [f"main : int = {runs}", ""])

def doubled():
    lines = ["let rec doubled n c = if n = 0 then c else doubled (n - 1) .<.~c + .~c>. ;;"]
    lines += [f"kernel k{i} : int -> int = close .<fun x -> .~(doubled 12 .<x>.)>. ;;" for i in range(1, 101)]
    return "\n".join(lines + ["main : int = run[int -> int] k1 1", ""])

def alike():
    body = "x" + " * x" * 150
    lines = [f"kernel k{i} : int -> int = close .<fun x -> {body}>. ;;" for i in range(1, 101)]
    return "\n".join(lines + ["main : int = run[int -> int] k1 1", ""])

def running(times):
    return (
        "kernel k : int = close .<1 + 2>. ;;\n"
        f"main : int = let rec go n = if n = 0 then 0 else go (n - 1 + 0 * run[int] k) in go {times}\n"
    )

def least(words, times=5):
    best = None
    for _ in range(times):
        start = time.monotonic()
        subprocess.run(words, stdout=subprocess.DEVNULL, check=False)
        spent = time.monotonic() - start
        best = spent if best is None else min(best, spent)
    return best

def row(name, source):
    path = f"{work}/{name.replace(' ', '_')}.metaml"
    with open(path, "w") as out:
        out.write(source)
    times = [least([program, "run", "--workers", str(count), path]) for count in COUNTS]
    print(f"{name}: " + ", ".join(f"{count} worker{'s' * (count > 1)} {spent:.3f}" for count, spent in zip(COUNTS, times)), end="")
    print(f"; {times[0] / times[2]:.2f} times as fast with 4 as with 1", end="")
    for other in others:
        print(f"; the other {least([other, 'run', path]):.3f}", end="")
    print(f"; erased {least([program, 'erased', '--fuel', '1', path]):.3f}", flush=True)

row("100 items of equal cost", spinning(400000))
row("the source of sample 100", sampled(100))
row("100 items of one text, written out", alike())
row("100 items of one text, made by doubling", doubled())
row("one kernel run 20000 times", running(20000))
END

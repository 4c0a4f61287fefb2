#!/bin/sh
# Times the machine of the first stage over its pools, and shows the memory that whole runs take: five runs each of `mw_bench`,
# which applies a recursive function 9,999,991 times, or makes 100,001 closures one over the other, or doubles code; then the
# most that `metaml` takes on any of the examples. It wants GNU time as /usr/bin/time.
here=$(cd "$(dirname "$0")" && pwd)
bench="$here/../crates/mw_bench/out/mw_bench"
metaml="$here/../crates/metaml/out/metaml"
[ -x "$bench" ] || (cd "$here/../crates/mw_bench" && rt run >/dev/null)
[ -x "$metaml" ] || (cd "$here/../crates/metaml" && rt run >/dev/null)
for words in "down 9999990" "closures 100000" "doubled 40"; do
    echo "$words"
    for _ in 1 2 3 4 5; do
        # shellcheck disable=SC2086
        /usr/bin/time -f '%e s, %U s of user time, %M kB' "$bench" $words 2>&1 >/dev/null
    done
done
echo "the examples, the one that takes most"
for source in "$here"/../examples/*.metaml; do
    /usr/bin/time -f "%M kB $(basename "$source")" "$metaml" run "$source" 2>&1 >/dev/null | tail -n 1
done | sort -n | tail -n 1

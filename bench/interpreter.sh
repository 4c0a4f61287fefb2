#!/bin/sh
# Times this project's interpreter and wabt's, where it is installed, on the same three modules.
here=$(cd "$(dirname "$0")" && pwd)
program="$here/../crates/mw_bench/out/mw_bench"
[ -x "$program" ] || (cd "$here/../crates/mw_bench" && rt run >/dev/null)
for pair in "loop 20000000" "calls 33" "memory 10000000"; do
    name=${pair% *}
    echo "$pair"
    # shellcheck disable=SC2086
    ( time -p "$program" $pair ) 2>&1 | grep -v sys
    if command -v wat2wasm >/dev/null && command -v wasm-interp >/dev/null; then
        wat2wasm "$here/$name.wat" -o "/tmp/$name.wasm"
        echo "wasm-interp"
        ( time -p wasm-interp --run-all-exports "/tmp/$name.wasm" ) 2>&1 | grep -v sys
    fi
done

#!/usr/bin/env bash
# Times a call of the kernel to which a program is compiled away (examples/interpreter), beside its interpreter as a kernel
# (examples/interpreted) and one that is tuned by hand (examples/tuned), with wasm2c and cc -O2, and in node, each where
# it is installed. Prints nanoseconds a call, the least of seven runs of 1,000,000 calls on the numbers from -50 to 49.
set -u
top=$(cd "$(dirname "$0")/.." && pwd) || exit 70
work=$(mktemp -d) || exit 70
trap 'rm -rf "$work"' EXIT
runtime=/usr/share/wabt/wasm2c
for name in interpreter interpreted tuned; do
  "$top/tools/kernels" "$work" <"$top/examples/$name.out" >/dev/null 2>&1
done
cd "$work" || exit 70

cat >time.c <<'C'
#include <inttypes.h>
#include <stdio.h>
#include <time.h>
#include "wasm-rt.h"
#define QUOTED(word) #word
#define HEADER(name) QUOTED(name.h)
#define JOINED(begin, name, end) begin##name##end
#define NAMED(begin, name, end) JOINED(begin, name, end)
#include HEADER(KERNEL)
static NAMED(Z_, KERNEL, _instance_t) instance;
static double now(void) {
  struct timespec at;
  clock_gettime(CLOCK_MONOTONIC, &at);
  return at.tv_sec * 1e9 + at.tv_nsec;
}
int main(void) {
  wasm_rt_init();
  NAMED(Z_, KERNEL, _init_module)();
  NAMED(Z_, KERNEL, _instantiate)(&instance);
  u64 closure = NAMED(Z_, KERNEL, Z_init)(&instance), sum = 0;
  double least = 1e18;
  for (int run = 0; run < 7; run++) {
    double begin = now();
    for (int turn = 0; turn < 1000000; turn++)
      sum += NAMED(Z_, KERNEL, Z_call)(&instance, closure, (u64)(s64)(turn % 100 - 50));
    double taken = (now() - begin) / 1e6;
    if (taken < least) least = taken;
  }
  printf("in C: %s %.1f (sum %" PRId64 ")\n", NAME, least, (s64)sum);
  return 0;
}
C
cat >time.mjs <<'NODE'
import { readFileSync } from 'node:fs';
const name = process.argv[2];
const { init, call } = new WebAssembly.Instance(new WebAssembly.Module(readFileSync(`${name}.wasm`))).exports;
const closure = init();
const words = Array.from({ length: 100 }, (_, index) => BigInt(index - 50));
let [least, sum] = [Infinity, 0n];
for (let run = 0; run < 7; run += 1) {
  const begin = performance.now();
  for (let turn = 0; turn < 1_000_000; turn += 1) sum += call(closure, words[turn % 100]);
  least = Math.min(least, performance.now() - begin);
}
console.log(`in node: ${name} ${least.toFixed(1)} (sum ${sum})`);
NODE

for kernel in compiled interpreted tuned; do
  if command -v wasm2c >/dev/null && command -v cc >/dev/null && [ -f "$runtime/wasm-rt-impl.c" ]; then
    wasm2c "$kernel.wasm" -o "$kernel.c" &&
      cc -w -O2 -DKERNEL="$kernel" -DNAME="\"$kernel\"" -I. -I"$runtime" -o timed time.c "$kernel.c" "$runtime/wasm-rt-impl.c" -lm &&
      ./timed
  fi
  command -v node >/dev/null && node time.mjs "$kernel"
done

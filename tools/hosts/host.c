/* host.c: a host of a kernel of the type int -> int over wasm2c of wabt 1.0.32. KERNEL is its name, and cube if none is
   defined. It makes an instance, the closure once, and a call of each number among the words, or of 5. A call that traps
   has a line on standard error in place of its value; then the instance is freed, and the calls after it have another. */
#include <inttypes.h>
#include <stdio.h>
#include <stdlib.h>
#include "wasm-rt-impl.h"

#ifndef KERNEL
#define KERNEL cube
#endif
#define QUOTED(word) #word
#define HEADER(name) QUOTED(name.h)
#define JOINED(begin, name, end) begin##name##end
#define NAMED(begin, name, end) JOINED(begin, name, end)
#include HEADER(KERNEL)

static NAMED(Z_, KERNEL, _instance_t) instance;
static u64 closure;

static void begin(void) {
  NAMED(Z_, KERNEL, _instantiate)(&instance);
  closure = NAMED(Z_, KERNEL, Z_init)(&instance);
}

/* Prints the value of a call, or why it has none; gives 1 then. */
static int call(s64 argument) {
  wasm_rt_trap_t trap = wasm_rt_impl_try();
  if (trap != WASM_RT_TRAP_NONE) {
    fprintf(stderr, "host: %s\n", wasm_rt_strerror(trap));
    NAMED(Z_, KERNEL, _free)(&instance);
    begin();
    return 1;
  }
  printf("%" PRId64 "\n", (s64)NAMED(Z_, KERNEL, Z_call)(&instance, closure, (u64)argument));
  return 0;
}

int main(int count, char** words) {
  int failed = 0;
  wasm_rt_init();
  NAMED(Z_, KERNEL, _init_module)();
  begin();
  if (count == 1) failed = call(5);
  for (int word = 1; word < count; word++) failed |= call(strtoll(words[word], NULL, 10));
  NAMED(Z_, KERNEL, _free)(&instance);
  wasm_rt_free();
  return failed;
}

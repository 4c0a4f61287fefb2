/* pair.c: a host of the kernel egcd of examples/egcd.metaml over wasm2c of wabt 1.0.32. Its result is a pair in a pair: the
   address of two words in the instance's memory, and the second word is an address again. */
#include <inttypes.h>
#include <stdio.h>
#include <string.h>
#include "egcd.h"
#include "wasm-rt-impl.h"

static Z_egcd_instance_t instance;

/* A part of the pair at an address, 0 or 1: 8 bytes, the least first. */
static s64 part(u64 pair, int which) {
  s64 word;
  memcpy(&word, instance.w2c_M0.data + (u32)pair + 8 * which, sizeof word);
  return word;
}

int main(void) {
  wasm_rt_init();
  Z_egcd_init_module();
  Z_egcd_instantiate(&instance);
  u64 closure = Z_egcdZ_init(&instance);
  if (wasm_rt_impl_try() != WASM_RT_TRAP_NONE) return 1;
  u64 made = Z_egcdZ_call(&instance, closure, 240, 46);
  u64 factors = (u64)part(made, 1);
  printf("(%" PRId64 ", (%" PRId64 ", %" PRId64 "))\n", part(made, 0), part(factors, 0), part(factors, 1));
  Z_egcd_free(&instance);
  wasm_rt_free();
  return 0;
}

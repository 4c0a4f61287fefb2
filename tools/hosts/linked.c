/* linked.c: a host of the linked kernels cube and down over wasm2c of wabt 1.0.32. Makes an instance, and calls of one
   kernel after the other. */
#include <inttypes.h>
#include <stdio.h>
#include "linked.h"

static void show(u64 value) {
  printf("%" PRId64 "\n", (int64_t)value);
}

int main(void) {
  Z_linked_instance_t instance;
  wasm_rt_init();
  Z_linked_init_module();
  Z_linked_instantiate(&instance);
  u64 cube = Z_linkedZ_cubeZ2Einit(&instance);
  show(Z_linkedZ_cubeZ2Ecall(&instance, cube, 5));
  show(Z_linkedZ_cubeZ2Ecall(&instance, cube, (u64)-2));
  u64 down = Z_linkedZ_downZ2Einit(&instance);
  show(Z_linkedZ_downZ2Ecall(&instance, down, 3));
  Z_linked_free(&instance);
  wasm_rt_free();
  return 0;
}

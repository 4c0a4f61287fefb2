/* A malloc and a realloc that are put before those of the C library by LD_PRELOAD. The call whose number REFUSED says,
   from 1 on, answers NULL. Where COUNTED is set, the number of calls is printed on standard error at the end. */
#define _GNU_SOURCE
#include <dlfcn.h>
#include <stdio.h>
#include <stdlib.h>
#include <sys/syscall.h>
#include <unistd.h>

static long count, refused;

__attribute__((constructor)) static void begin(void) {
    char *said = getenv("REFUSED");
    refused = said ? atol(said) : 0;
}

static int is_refused(void) {
    return __atomic_add_fetch(&count, 1, __ATOMIC_RELAXED) == refused;
}

/* A program with threads ends by _exit, at which no destructor is called. */
void _exit(int status) {
    if (getenv("COUNTED")) fprintf(stderr, "%ld\n", count);
    for (;;) syscall(SYS_exit_group, status);
}

void *malloc(size_t size) {
    static void *(*real)(size_t);
    if (!real) real = dlsym(RTLD_NEXT, "malloc");
    return is_refused() ? NULL : real(size);
}

void *realloc(void *at, size_t size) {
    static void *(*real)(void *, size_t);
    if (!real) real = dlsym(RTLD_NEXT, "realloc");
    return is_refused() ? NULL : real(at, size);
}

// Refuses one allocation: the call that FAIL_AT counts to, from 1; with FAIL_ON every later one too. It tells that it did by making
// the file FAIL_MARK. Into the file CALLS it writes at the end how many there were.
// Loaded before the C library (LD_PRELOAD), it stands outside every crate and is no part of the program.
#define _GNU_SOURCE
#include <dlfcn.h>
#include <fcntl.h>
#include <stdio.h>
#include <stdlib.h>
#include <unistd.h>

static long calls;

static int refused(void) {
    const char *at = getenv("FAIL_AT");
    calls++;
    if (!at || calls < atol(at) || (calls > atol(at) && !getenv("FAIL_ON"))) return 0;
    const char *mark = getenv("FAIL_MARK");
    if (mark) close(open(mark, O_CREAT | O_WRONLY, 0600));
    return 1;
}

#define REAL(name) __typeof__(name) *real = (__typeof__(name) *)dlsym(RTLD_NEXT, #name)

void *malloc(size_t size) { REAL(malloc); return refused() ? NULL : real(size); }
void *realloc(void *old, size_t size) { REAL(realloc); return refused() ? NULL : real(old, size); }
void *calloc(size_t count, size_t size) { REAL(calloc); return refused() ? NULL : real(count, size); }
void *aligned_alloc(size_t align, size_t size) { REAL(aligned_alloc); return refused() ? NULL : real(align, size); }
int posix_memalign(void **out, size_t align, size_t size) { REAL(posix_memalign); return refused() ? 12 : real(out, align, size); }

__attribute__((destructor)) static void tell_calls(void) {
    const char *name = getenv("CALLS");
    if (name) dprintf(open(name, O_CREAT | O_WRONLY | O_TRUNC, 0600), "%ld\n", calls);
}

// Counts a program's allocations: a library to be preloaded, which writes their number to the descriptor that ALLOCATIONS names when the program ends. The one whose
// number, from 1, is REFUSED is refused.
#include <errno.h>
#include <stdatomic.h>
#include <stddef.h>
#include <stdio.h>
#include <stdlib.h>
#include <sys/syscall.h>
#include <unistd.h>

extern void *__libc_malloc(size_t size);
extern void *__libc_calloc(size_t count, size_t size);
extern void *__libc_realloc(void *place, size_t size);
extern void *__libc_memalign(size_t alignment, size_t size);

static atomic_ulong allocations;
static unsigned long refused;
static int descriptor = -1;

// What the environment says is for this program alone, and not for those that it starts.
__attribute__((constructor)) static void read_environment(void) {
    const char *number = getenv("REFUSED"), *told = getenv("ALLOCATIONS");
    refused = number ? strtoul(number, NULL, 10) : 0;
    descriptor = told ? atoi(told) : -1;
    unsetenv("LD_PRELOAD");
    unsetenv("REFUSED");
    unsetenv("ALLOCATIONS");
}

// Counts one more. Whether it is given.
static int given(void) {
    if (++allocations != refused)
        return 1;
    errno = ENOMEM;
    return 0;
}

void *malloc(size_t size) {
    return given() ? __libc_malloc(size) : NULL;
}

void *calloc(size_t count, size_t size) {
    return given() ? __libc_calloc(count, size) : NULL;
}

void *realloc(void *place, size_t size) {
    return given() ? __libc_realloc(place, size) : NULL;
}

void *aligned_alloc(size_t alignment, size_t size) {
    return given() ? __libc_memalign(alignment, size) : NULL;
}

int posix_memalign(void **place, size_t alignment, size_t size) {
    void *found = aligned_alloc(alignment, size);
    if (!found)
        return ENOMEM;
    *place = found;
    return 0;
}

// How Rattle's programs end, and also those whose main returns.
void _exit(int status) {
    if (descriptor >= 0)
        dprintf(descriptor, "%lu\n", (unsigned long)allocations);
    syscall(SYS_exit_group, status);
    __builtin_unreachable();
}

// Refuses one allocation of a program, by its number from 1: LD_PRELOAD it with REFUSE=number. With COUNT=file it
// writes there how many allocations the program asked for.
#define _GNU_SOURCE
#include <dlfcn.h>
#include <errno.h>
#include <fcntl.h>
#include <stdatomic.h>
#include <stdio.h>
#include <stdlib.h>
#include <sys/syscall.h>
#include <unistd.h>

static atomic_ulong asked;
static unsigned long refused;
static const char *count_file;

__attribute__((constructor)) static void begin(void) {
    const char *number = getenv("REFUSE");
    refused = number ? strtoul(number, NULL, 10) : 0;
    count_file = getenv("COUNT");
    atomic_store(&asked, 0);
}

__attribute__((destructor)) static void end(void) {
    unsigned long all = atomic_load(&asked);
    if (count_file) {
        int file = open(count_file, O_WRONLY | O_CREAT | O_TRUNC, 0600);
        if (file >= 0) {
            dprintf(file, "%lu\n", all);
            close(file);
        }
    }
}

// A program that ends by _exit runs no destructor.
void _exit(int status) {
    end();
    syscall(SYS_exit_group, status);
    __builtin_unreachable();
}

static int is_refused(void) {
    return atomic_fetch_add(&asked, 1) + 1 == refused;
}

extern void *__libc_malloc(size_t);
extern void *__libc_calloc(size_t, size_t);
extern void *__libc_realloc(void *, size_t);
extern void *__libc_memalign(size_t, size_t);

void *malloc(size_t size) {
    if (is_refused()) {
        errno = ENOMEM;
        return NULL;
    }
    return __libc_malloc(size);
}

void *calloc(size_t count, size_t size) {
    if (is_refused()) {
        errno = ENOMEM;
        return NULL;
    }
    return __libc_calloc(count, size);
}

void *realloc(void *old, size_t size) {
    if (is_refused()) {
        errno = ENOMEM;
        return NULL;
    }
    return __libc_realloc(old, size);
}

void *aligned_alloc(size_t alignment, size_t size) {
    if (is_refused()) {
        errno = ENOMEM;
        return NULL;
    }
    return __libc_memalign(alignment, size);
}

int posix_memalign(void **into, size_t alignment, size_t size) {
    if (is_refused()) {
        return ENOMEM;
    }
    *into = __libc_memalign(alignment, size);
    return *into ? 0 : ENOMEM;
}

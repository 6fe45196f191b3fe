// Loaded into a program by LD_PRELOAD: refuses the request for memory whose number, from 1, stands in the variable REFUSED. At the end it
// writes on descriptor 9 how many requests there were. So it counts also what a program's libraries ask for.
#define _GNU_SOURCE
#include <errno.h>
#include <stddef.h>
#include <stdio.h>
#include <stdlib.h>
#include <unistd.h>

void *__libc_malloc(size_t);
void *__libc_realloc(void *, size_t);
void *__libc_calloc(size_t, size_t);

static long requests;
static long refused;

__attribute__((constructor)) static void start(void) {
    const char *number = getenv("REFUSED");
    refused = number ? atol(number) : 0;
    requests = 0;
}

static int is_refused(void) {
    requests++;
    if (requests != refused) {
        return 0;
    }
    errno = ENOMEM;
    return 1;
}

void *malloc(size_t size) {
    return is_refused() ? NULL : __libc_malloc(size);
}

void *realloc(void *old, size_t size) {
    return is_refused() ? NULL : __libc_realloc(old, size);
}

void *calloc(size_t count, size_t size) {
    return is_refused() ? NULL : __libc_calloc(count, size);
}

__attribute__((destructor)) static void stop(void) {
    char line[32];
    int length = snprintf(line, sizeof line, "%ld\n", requests);
    if (write(9, line, (size_t)length) != length) {
        _exit(99);
    }
}

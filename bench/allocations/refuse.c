// Refuses one request for memory: preloaded into a program, it answers the request numbered by the
// variable REFUSE, counted from 1, with nothing, and leaves every other as it is. At the end it writes
// the number of requests into the file named by REQUESTS.
#define _GNU_SOURCE
#include <dlfcn.h>
#include <errno.h>
#include <stdio.h>
#include <stdlib.h>
#include <sys/syscall.h>
#include <unistd.h>

static long requests;
static long refused;

__attribute__((constructor)) static void start(void) {
    const char *word = getenv("REFUSE");
    requests = 0;
    refused = word == NULL ? 0 : atol(word);
}

__attribute__((destructor)) static void finish(void) {
    long counted = requests;
    const char *name = getenv("REQUESTS");
    FILE *file;
    refused = 0;
    file = name == NULL ? NULL : fopen(name, "w");
    if (file != NULL) {
        fprintf(file, "%ld\n", counted);
        fclose(file);
    }
}

// A program that has threads may end so, past the destructors.
void _exit(int status) {
    finish();
    syscall(SYS_exit_group, status);
    __builtin_unreachable();
}

// Threads may ask at once; a number goes to one of them. The C library's own threads look at errno.
static int is_refused(void) {
    if (__atomic_add_fetch(&requests, 1, __ATOMIC_SEQ_CST) != refused) {
        return 0;
    }
    errno = ENOMEM;
    return 1;
}

extern void *__libc_malloc(size_t size);
extern void *__libc_calloc(size_t count, size_t size);
extern void *__libc_realloc(void *old, size_t size);
extern void *__libc_memalign(size_t alignment, size_t size);

void *malloc(size_t size) {
    return is_refused() ? NULL : __libc_malloc(size);
}

void *calloc(size_t count, size_t size) {
    return is_refused() ? NULL : __libc_calloc(count, size);
}

void *realloc(void *old, size_t size) {
    return is_refused() ? NULL : __libc_realloc(old, size);
}

void *aligned_alloc(size_t alignment, size_t size) {
    return is_refused() ? NULL : __libc_memalign(alignment, size);
}

int posix_memalign(void **place, size_t alignment, size_t size) {
    if (is_refused()) {
        return ENOMEM;
    }
    *place = __libc_memalign(alignment, size);
    return *place == NULL ? ENOMEM : 0;
}

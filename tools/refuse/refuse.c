// Loaded before a program (LD_PRELOAD), it refuses one allocation: the one whose number, from 1 on, stands in REFUSE.
// At the end it writes how many were asked for to the file that ASKED names.
#define _GNU_SOURCE
#include <errno.h>
#include <stddef.h>
#include <stdio.h>
#include <stdlib.h>

extern void *__libc_malloc(size_t size);
extern void *__libc_calloc(size_t count, size_t size);
extern void *__libc_realloc(void *block, size_t size);
extern void *__libc_memalign(size_t align, size_t size);

static long asked, refused = -1;

static int refuses(void) {
    if (refused < 0) {
        const char *number = getenv("REFUSE");
        refused = number == NULL ? 0 : atol(number);
    }
    if (++asked != refused) return 0;
    errno = ENOMEM;
    return 1;
}

void *malloc(size_t size) { return refuses() ? NULL : __libc_malloc(size); }

void *calloc(size_t count, size_t size) { return refuses() ? NULL : __libc_calloc(count, size); }

void *realloc(void *block, size_t size) { return refuses() ? NULL : __libc_realloc(block, size); }

void *aligned_alloc(size_t align, size_t size) { return refuses() ? NULL : __libc_memalign(align, size); }

int posix_memalign(void **block, size_t align, size_t size) {
    void *found = refuses() ? NULL : __libc_memalign(align, size);
    if (found == NULL) return ENOMEM;
    *block = found;
    return 0;
}

__attribute__((destructor)) static void tell(void) {
    const char *path = getenv("ASKED");
    long count = asked;
    FILE *file = path == NULL ? NULL : fopen(path, "w");
    if (file != NULL && fprintf(file, "%ld\n", count) > 0) fclose(file);
}

// Refuses one allocation of the program that it is loaded into: the one whose number REFUSE is, from 1 on.
// With REFUSE at 0 it refuses none. Where COUNTED names a file, the number of allocations is written there.
#include <stdio.h>
#include <stdlib.h>

extern void *__libc_malloc(size_t size);
extern void *__libc_calloc(size_t count, size_t size);
extern void *__libc_realloc(void *old, size_t size);

static long to_refuse = -1;
static long count = 0;

static int is_refused(void) {
    if (to_refuse < 0) {
        const char *text = getenv("REFUSE");
        to_refuse = text ? atol(text) : 0;
    }
    count++;
    return count == to_refuse;
}

void *malloc(size_t size) {
    return is_refused() ? NULL : __libc_malloc(size);
}

void *calloc(size_t count_of, size_t size) {
    return is_refused() ? NULL : __libc_calloc(count_of, size);
}

void *realloc(void *old, size_t size) {
    return is_refused() ? NULL : __libc_realloc(old, size);
}

__attribute__((destructor)) static void tell(void) {
    const char *path = getenv("COUNTED");
    FILE *file = path ? fopen(path, "w") : NULL;
    if (file) {
        fprintf(file, "%ld\n", count);
        fclose(file);
    }
}

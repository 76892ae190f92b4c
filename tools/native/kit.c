/* The kit's C functions that the library and the program call, for a processor for which the kit has no compiled ones. Not proved. */
typedef __SIZE_TYPE__ size_t;
typedef __PTRDIFF_TYPE__ ptrdiff_t;

void *malloc(size_t size);
void *realloc(void *block, size_t size);
void free(void *block);

static char nothing[16];

/* Whether memory was given, and where it is. */
struct given {
    size_t is_given;
    void *block;
};

static struct given given(void *block) {
    return (struct given){block != 0, block ? block : nothing};
}

struct given rattle_alloc(size_t size, size_t align) {
    return given(malloc(size ? size : align));
}

struct given rattle_realloc(void *block, size_t kept, size_t size, size_t align) {
    (void)kept;
    return given(realloc(block, size ? size : align));
}

void rattle_dealloc(void *block) {
    free(block);
}

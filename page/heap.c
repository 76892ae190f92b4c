// The heap and the memory functions that the kernel needs in WebAssembly, in place of the C library's. Not proved.
//
// A block has 2^k bytes. Its first 16 are its header: k, and the next block of its size that is free. A freed block
// is kept for the next request of its size.

typedef __SIZE_TYPE__ size_t;
typedef unsigned char byte;

enum { HEADER = 16, LEAST = 5, SIZES = 48, PAGE_BITS = 16 };

struct block {
    size_t k;
    struct block *next;
};

extern byte __heap_base;
static byte *top, *end;
static struct block *idle[SIZES];

static int grow(size_t missing) {
    size_t pages = (missing + ((size_t)1 << PAGE_BITS) - 1) >> PAGE_BITS;
    if (__builtin_wasm_memory_grow(0, pages) == (size_t)-1) return 0;
    end += pages << PAGE_BITS;
    return 1;
}

// A block at the end of the heap, or null if memory ran out.
static struct block *fresh(size_t k) {
    size_t size = (size_t)1 << k;
    if (!top) {
        top = (byte *)(((size_t)&__heap_base + HEADER - 1) & ~(size_t)(HEADER - 1));
        end = (byte *)(__builtin_wasm_memory_size(0) << PAGE_BITS);
    }
    if ((size_t)(end - top) < size && !grow(size - (size_t)(end - top))) return 0;
    struct block *it = (struct block *)top;
    top += size;
    it->k = k;
    return it;
}

static struct block *block_of(void *p) { return (struct block *)((byte *)p - HEADER); }

__attribute__((export_name("malloc"))) void *malloc(size_t size) {
    size_t k = LEAST;
    // The lowered module has addresses of 32 bits.
    if (size >= (size_t)1 << 31) return 0;
    while (((size_t)1 << k) < size + HEADER) k++;
    struct block *it = idle[k];
    if (it) idle[k] = it->next;
    else if (!(it = fresh(k))) return 0;
    return (byte *)it + HEADER;
}

__attribute__((export_name("free"))) void free(void *p) {
    if (!p) return;
    struct block *it = block_of(p);
    it->next = idle[it->k];
    idle[it->k] = it;
}

void *realloc(void *p, size_t size) {
    if (!p) return malloc(size);
    size_t room = ((size_t)1 << block_of(p)->k) - HEADER;
    if (size <= room) return p;
    byte *to = malloc(size);
    if (!to) return 0;
    __builtin_memcpy(to, p, room);
    free(p);
    return to;
}

void *memcpy(void *to, const void *from, size_t size) {
    byte *a = to;
    const byte *b = from;
    // Without this the compiler may make a call of memcpy from the loop.
    __asm__("" ::: "memory");
    while (size--) *a++ = *b++;
    return to;
}

void *memmove(void *to, const void *from, size_t size) {
    byte *a = to;
    const byte *b = from;
    if (a < b)
        while (size--) *a++ = *b++;
    else
        while (size--) a[size] = b[size];
    return to;
}

void *memset(void *to, int value, size_t size) {
    byte *a = to;
    while (size--) *a++ = (byte)value;
    return to;
}

int memcmp(const void *x, const void *y, size_t size) {
    const byte *a = x, *b = y;
    for (; size--; a++, b++)
        if (*a != *b) return *a - *b;
    return 0;
}

// The kit's allocations. A request of no bytes gets an address that is aligned.
struct tried {
    size_t ok;
    void *p;
};

static byte nothing[HEADER];

static struct tried tried(void *p) { return (struct tried){p != 0, p ? p : nothing}; }

struct tried rattle_alloc(size_t size, size_t align) { return tried(malloc(size ? size : align)); }

struct tried rattle_realloc(void *p, size_t kept, size_t size, size_t align) {
    (void)kept;
    return tried(realloc(p, size ? size : align));
}

void rattle_dealloc(void *p) { free(p); }

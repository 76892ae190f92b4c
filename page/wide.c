// Products and shifts of 128 bits, which the compiler calls in WebAssembly. Not proved.

typedef unsigned long long u64;
typedef __int128 i128;

typedef union {
    i128 all;
    struct {
        u64 low, high;
    } half;
} wide;

i128 __multi3(i128 a, i128 b) {
    wide x = {.all = a}, y = {.all = b}, r;
    u64 x0 = x.half.low & 0xffffffff, x1 = x.half.low >> 32, y0 = y.half.low & 0xffffffff, y1 = y.half.low >> 32;
    u64 least = x0 * y0, first = x1 * y0 + (least >> 32), second = x0 * y1 + (first & 0xffffffff);
    r.half.low = (second << 32) | (least & 0xffffffff);
    r.half.high = x1 * y1 + (first >> 32) + (second >> 32) + x.half.high * y.half.low + x.half.low * y.half.high;
    return r.all;
}

i128 __ashlti3(i128 a, int n) {
    wide x = {.all = a}, r;
    if (n == 0) return a;
    if (n & 64) r.half.low = 0, r.half.high = x.half.low << (n & 63);
    else r.half.low = x.half.low << n, r.half.high = x.half.high << n | x.half.low >> (64 - n);
    return r.all;
}

i128 __lshrti3(i128 a, int n) {
    wide x = {.all = a}, r;
    if (n == 0) return a;
    if (n & 64) r.half.high = 0, r.half.low = x.half.high >> (n & 63);
    else r.half.high = x.half.high >> n, r.half.low = x.half.low >> n | x.half.high << (64 - n);
    return r.all;
}

/* Where the program begins, and two functions that old C libraries lack: so it runs with any glibc since 2.17. Not proved. */
typedef __SIZE_TYPE__ size_t;

int main(int argc, char **argv, char **environment);
int __libc_start_main(int (*run)(int, char **, char **), int argc, char **argv, void (*before)(int, char **, char **),
                      void (*after)(void), void (*unload)(void), void *stack);
long syscall(long number, ...);

typedef void constructor(int, char **, char **);
extern constructor *__init_array_start[] __attribute__((visibility("hidden")));
extern constructor *__init_array_end[] __attribute__((visibility("hidden")));

/* Runs the constructors, as C libraries before 2.34 leave to the program. */
static void construct(int argc, char **argv, char **environment) {
    for (constructor **it = __init_array_start; it != __init_array_end; it++) (*it)(argc, argv, environment);
}

__attribute__((used, noreturn)) static void begin(long *stack, void (*unload)(void)) {
    __libc_start_main(main, (int)stack[0], (char **)(stack + 1), construct, 0, unload, stack);
    __builtin_trap();
}

#if defined(__x86_64__)
__asm__(".globl _start\n.type _start,@function\n_start: xorl %ebp, %ebp\nmovq %rsp, %rdi\nmovq %rdx, %rsi\nandq $-16, %rsp\ncall begin\nhlt\n");
enum { STATX = 332, STAT_AT = 262 };
/* What the kernel fills in for STAT_AT. */
struct about {
    unsigned long device, inode, links;
    unsigned mode, user, group, unused;
    unsigned long special;
    long size, block_size, blocks;
    long accessed[2], modified[2], changed[2], more[3];
};
#else
__asm__(".globl _start\n.type _start,%function\n_start: mov x29, #0\nmov x30, #0\nmov x1, x0\nmov x0, sp\nb begin\n");
enum { STATX = 291, STAT_AT = 79 };
struct about {
    unsigned long device, inode;
    unsigned mode, links, user, group;
    unsigned long special, unused;
    long size;
    int block_size, more;
    long blocks;
    long accessed[2], modified[2], changed[2];
    unsigned rest[2];
};
#endif

struct time {
    long seconds;
    unsigned nanoseconds;
    int unused;
};

struct statx {
    unsigned mask, block_size;
    unsigned long attributes;
    unsigned links, user, group;
    unsigned short mode, unused;
    unsigned long inode, size, blocks, attributes_mask;
    struct time accessed, created, changed, modified;
    unsigned special_major, special_minor, device_major, device_minor;
    unsigned long more[14];
};

static unsigned major_of(unsigned long device) {
    return (unsigned)(device >> 8 & 0xfff) | (unsigned)(device >> 32 & ~0xffful);
}

static unsigned minor_of(unsigned long device) {
    return (unsigned)(device & 0xff) | (unsigned)(device >> 12 & ~0xffu);
}

static struct time time_of(const long *time) {
    return (struct time){time[0], (unsigned)time[1], 0};
}

/* Asks the kernel about a file, by the older call if it has no `statx`: then the time of creation is unknown. */
int statx(int folder, const char *path, int flags, unsigned mask, struct statx *to) {
    enum { NO_SUCH_CALL = 38, BASIC = 0x7ff };
    struct about it;
    int *__errno_location(void);
    long done = syscall(STATX, folder, path, flags, mask, to);
    if (done == 0 || *__errno_location() != NO_SUCH_CALL) return (int)done;
    if (syscall(STAT_AT, folder, path, &it, flags)) return -1;
    *to = (struct statx){
        .mask = BASIC, .block_size = (unsigned)it.block_size, .links = (unsigned)it.links, .user = it.user, .group = it.group,
        .mode = (unsigned short)it.mode, .inode = it.inode, .size = (unsigned long)it.size, .blocks = (unsigned long)it.blocks,
        .accessed = time_of(it.accessed), .changed = time_of(it.changed), .modified = time_of(it.modified),
        .special_major = major_of(it.special), .special_minor = minor_of(it.special),
        .device_major = major_of(it.device), .device_minor = minor_of(it.device),
    };
    return 0;
}

#if defined(__x86_64__)
/* What the processor has, and what the system lets programs use of it: the flags of some number. The program reads numbers 0 and 2,
 * for instructions that need no leave of the system. */
const unsigned *__x86_get_cpuid_feature_leaf(unsigned number) {
    static const unsigned leaves[] = {1, 7, 0x80000001};
    static unsigned found[3][8];
    unsigned most, *it = found[number < 3 ? number : 1];
    __asm__("cpuid" : "=a"(most) : "a"(leaves[number < 3 ? number : 1] & 0x80000000) : "ebx", "ecx", "edx");
    if (number > 2 || number == 1 || most < leaves[number]) return it;
    __asm__("cpuid" : "=a"(it[0]), "=b"(it[1]), "=c"(it[2]), "=d"(it[3]) : "a"(leaves[number]), "c"(0));
    for (int i = 0; i < 4; i++) it[4 + i] = it[i];
    return it;
}
#endif

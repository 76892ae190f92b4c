/* The kit's C functions that only the program calls, for a processor for which the kit has no compiled ones. Not proved. */
typedef __SIZE_TYPE__ size_t;
typedef __PTRDIFF_TYPE__ ptrdiff_t;

int *__errno_location(void);

static int count;
static char **words;

__attribute__((constructor)) static void keep(int argc, char **argv) {
    count = argc;
    words = argv;
}

size_t rattle_arg_count(void) {
    return (size_t)count;
}

/* Copies an argument, and returns its length: -1 if there is none, -2 if the room is too small. */
ptrdiff_t rattle_arg(size_t index, char *to, size_t room) {
    size_t length = 0;
    if (index >= (size_t)count) return -1;
    for (; words[index][length]; length++) {
        if (length == room) return -2;
        to[length] = words[index][length];
    }
    return (ptrdiff_t)length;
}

int rattle_errno(void) {
    return *__errno_location();
}

void rattle_set_errno(int number) {
    *__errno_location() = number;
}

// The words of the command line, no environment, and errno: what `eros` needs of the kit's C functions in WebAssembly. Not proved.

typedef __SIZE_TYPE__ size_t;

enum { MOST_WORDS = 64 };

// The name that the program has in its module; clang has another for a `main` in C.
extern int program(int, char **) __asm__("main");

static char *word[MOST_WORDS];
static long count;
static int error;

long rattle_arg_count(void) { return count; }

// Copies word `at`, and returns its length: -1 without such a word, -2 if it doesn't fit.
long rattle_arg(size_t at, char *to, size_t room) {
    if (at >= (size_t)count) return -1;
    size_t size = 0;
    for (; word[at][size]; size++) {
        if (size == room) return -2;
        to[size] = word[at][size];
    }
    return (long)size;
}

// There are no variables of the environment.
long rattle_env(const char *name, char *to, size_t room) {
    (void)name, (void)to, (void)room;
    return -1;
}

long rattle_env_at(size_t at, char *to, size_t room) {
    (void)at, (void)to, (void)room;
    return -1;
}

int rattle_errno(void) { return error; }

__attribute__((export_name("set_errno"))) void rattle_set_errno(int e) { error = e; }

// Runs the program. Its words lie at `text`, each with a 0 at its end.
__attribute__((export_name("start"))) int start(long words, char *text) {
    if (words > MOST_WORDS) return 2;
    count = words;
    for (long i = 0; i < words; i++) {
        word[i] = text;
        while (*text++) {}
    }
    return program((int)words, word);
}

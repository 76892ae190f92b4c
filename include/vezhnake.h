/* Vezhnake in a C program: a persistent machine of objects over your storage.
 *
 * The library never touches your storage. vezhnake_build makes an image of a description. vezhnake_open copies an image
 * that you pass as bytes. vezhnake_step runs lines of a script and returns their answers; vezhnake_serve takes commands
 * and returns answers as numbers. vezhnake_calls then returns the device calls that these made: writes and syncs. Carry
 * them out on your storage, in this order, before you trust the answers. If your storage fails, close the handle, and
 * open it again from what the storage holds.
 *
 * You must keep these rules. Nothing checks them:
 *   - Each pointer points to as many bytes as its size says. The arguments of one call don't overlap.
 *   - A handle begins as VEZHNAKE_CLOSED. Don't copy it or change its fields. Use it in one call at a time.
 *   - malloc, realloc and free are those of the C library. Make no call in a signal handler, or in a child that was
 *     forked from a process with threads.
 * docs/LIBRARY.md has an example.
 */
#ifndef VEZHNAKE_H
#define VEZHNAKE_H

#include <stdbool.h>
#include <stddef.h>
#include <stdint.h>

/* The version of this header. vezhnake_version returns that of the library. */
#define VEZHNAKE_VERSION "1.0.0"

#ifdef __cplusplus
extern "C" {
#endif

/* What a call returns. 1 to 10 refuse an image, as `bad image` 1 to 10 of `eros check`. */
enum vezhnake_status {
    VEZHNAKE_OK = 0,
    VEZHNAKE_SMALL = 1,             /* fewer sectors than the superblock says */
    VEZHNAKE_NOT_A_SUPERBLOCK = 2,  /* another magic number or version */
    VEZHNAKE_BAD_GEOMETRY = 3,      /* a number of the superblock is out of range */
    VEZHNAKE_NO_HEADER = 4,         /* no checkpoint is committed */
    VEZHNAKE_BAD_HEADER = 5,        /* the header of the checkpoint is damaged */
    VEZHNAKE_BAD_DIRECTORY = 6,     /* the directory of the checkpoint is damaged */
    VEZHNAKE_BAD_FRAME = 7,         /* a frame is damaged */
    VEZHNAKE_BAD_CAPABILITY = 8,    /* a capability names an object that it can't name */
    VEZHNAKE_BAD_PROCESS = 9,       /* a process doesn't have one root and one annex */
    VEZHNAKE_BAD_BANK = 10,         /* an object has no owner, or an owner is over its limit */
    VEZHNAKE_NO_MEMORY = 11,        /* memory ran out */
    VEZHNAKE_BAD_SIZE = 12,         /* the image isn't a whole number of 512-byte sectors, or is over 64 MiB */
    VEZHNAKE_BAD_CACHE = 13,        /* the cache is neither 0 nor 8 to 8192 */
    VEZHNAKE_ALREADY_OPEN = 14,     /* the handle is open already */
    VEZHNAKE_NOT_OPEN = 15,         /* the handle is not open */
    VEZHNAKE_SMALL_BUFFER = 16,     /* the buffer is too small: *size is the size that fits */
    VEZHNAKE_CALLS_LOST = 17,       /* the device lost calls that it made: close the handle. Tests never see it */
    VEZHNAKE_FAILED = 18,           /* memory ran out in opening */
    VEZHNAKE_BAD_COMMAND = 19,      /* a command's kind or register is out of range */
    /* A description is refused. 21 to 26 are `bad description` 1 to 6 of `eros build`. */
    VEZHNAKE_NOT_TOML = 20,         /* the text is no UTF-8, or no TOML */
    VEZHNAKE_BAD_SHAPE = 21,        /* the table isn't that of a description */
    VEZHNAKE_BAD_LIMITS = 22,       /* no image has these sizes, ranges, age or layout */
    VEZHNAKE_BAD_OBJECT = 23,       /* a number isn't one of its kind, or is named twice */
    VEZHNAKE_BAD_FIELD = 24,        /* a field of a process, node or page is bad */
    VEZHNAKE_BAD_TARGET = 25,       /* a capability names an object that it can't name */
    VEZHNAKE_BAD_OWNER = 26         /* an object has no owner within its limit */
};

/* A handle. Only the library uses its fields. */
typedef struct vezhnake_machine {
    void *session;
    bool is_open;
} vezhnake_machine;

#define VEZHNAKE_CLOSED {NULL, false}

/* Copies the image in these bytes, and opens it. If `cache` is 0, all objects are in memory. Otherwise at most `cache`
 * objects are, 8 to 8192. The handle is open after VEZHNAKE_OK, and unchanged after any other status. */
uint32_t vezhnake_open(const uint8_t *image, size_t image_size, uint64_t cache, vezhnake_machine *handle);

/* Each call that runs commands keeps their device calls in the handle, until vezhnake_calls has copied them. If memory
 * for them runs out, its status is VEZHNAKE_NO_MEMORY: close the handle. */

/* Runs the lines of a text, as `eros run` runs a script. The last line needs no newline. Copies the answers to the
 * buffer, and sets *size to their length. After VEZHNAKE_SMALL_BUFFER the lines were run: vezhnake_answer returns the
 * answers. After VEZHNAKE_NO_MEMORY perhaps only the first lines were run: close the handle. */
uint32_t vezhnake_step(vezhnake_machine *handle, const uint8_t *text, size_t text_size, uint8_t *buffer,
                       size_t buffer_size, size_t *size);

/* Copies the answers of the last vezhnake_step to the buffer again. */
uint32_t vezhnake_answer(vezhnake_machine *handle, uint8_t *buffer, size_t buffer_size, size_t *size);

/* Copies the device calls that it has not returned yet to the buffer, in order. A call is a header and the bytes to
 * write. The header is two little-endian numbers of 8 bytes: the offset in the image, in bytes, and the length of the
 * write. A sync has the header UINT64_MAX, 0 and no bytes. After VEZHNAKE_SMALL_BUFFER no call was returned. */
uint32_t vezhnake_calls(vezhnake_machine *handle, uint8_t *buffer, size_t buffer_size, size_t *size);

/* ---- Commands and answers as numbers. Each command does what its line does, and its answer has the same meaning. */

/* What a command does. docs/SCRIPTS.md says what each means. */
enum vezhnake_command_kind {
    VEZHNAKE_CALL = 0,
    VEZHNAKE_RETURN = 1,
    VEZHNAKE_SEND = 2,
    VEZHNAKE_LOAD = 3,
    VEZHNAKE_STORE = 4,
    VEZHNAKE_EVICT = 5,
    VEZHNAKE_CHECKPOINT = 6,
    VEZHNAKE_STABILIZE = 7,
    VEZHNAKE_COMMIT = 8,
    VEZHNAKE_MIGRATE = 9,
    VEZHNAKE_JOURNAL = 10,
    VEZHNAKE_RESTART = 11,
    VEZHNAKE_CUT = 12
};

/* A command. A field that its kind doesn't use is ignored. */
typedef struct vezhnake_command {
    uint32_t kind;     /* enum vezhnake_command_kind */
    uint8_t reg;       /* an invocation: the register of the capability, below 32 */
    uint8_t sent[4];   /* an invocation: the registers whose capabilities are sent, below 32; 0 is void */
    uint64_t number;   /* the process; EVICT, JOURNAL: the object; STABILIZE, MIGRATE: how many objects at most */
    uint64_t words[4]; /* an invocation: the words sent, the first is the order; LOAD: the address; STORE: address, value */
} vezhnake_command;

/* Which answer. From 32 on the command was refused. */
enum vezhnake_reply_kind {
    VEZHNAKE_DONE = 0,
    VEZHNAKE_VALUE = 1,        /* first: the word */
    VEZHNAKE_MEMORY_FAULT = 2, /* first: the reason, 1 to 5 */
    VEZHNAKE_FROZEN = 3,       /* first: how many objects */
    VEZHNAKE_LEFT = 4,         /* first: how many objects */
    VEZHNAKE_COMMITTED = 5,    /* first: the generation */
    VEZHNAKE_JOURNALED = 6,    /* first: the generation */
    VEZHNAKE_AT = 7,           /* first: the generation, second: the age */
    VEZHNAKE_SHOWN = 8,        /* first: the object, second: its kind */
    VEZHNAKE_DOWN = 32,
    VEZHNAKE_NO_PROCESS = 33,
    VEZHNAKE_NOT_RUNNING = 34,
    VEZHNAKE_WORN = 35,
    VEZHNAKE_STALLED = 36,
    VEZHNAKE_LOG_FULL = 37,
    VEZHNAKE_CHECKPOINT_RUNNING = 38,
    VEZHNAKE_MIGRATION_PENDING = 39,
    VEZHNAKE_NOT_STABLE = 40, /* first: how many objects */
    VEZHNAKE_NO_CHECKPOINT = 41,
    VEZHNAKE_COMMAND_NO_MEMORY = 42,
    VEZHNAKE_FAULT = 43,
    VEZHNAKE_BAD_NUMBER = 44,
    VEZHNAKE_NOT_JOURNALED = 45 /* first: the reason, 1 or 2 */
};

/* `code` of an answer without a result code. */
#define VEZHNAKE_NO_CODE UINT32_MAX

/* An answer. Numbers that its kind doesn't have are 0. */
typedef struct vezhnake_reply {
    uint32_t kind; /* enum vezhnake_reply_kind */
    uint32_t code; /* the result code of an order that a kernel object carried out, or VEZHNAKE_NO_CODE */
    uint64_t first;
    uint64_t second;
} vezhnake_reply;

/* Serves commands one after another, and sets *served to how many it served. replies[i] answers commands[i], also if
 * the machine refuses the command. After VEZHNAKE_BAD_COMMAND commands[*served] is invalid, and only the commands before
 * it were served. After VEZHNAKE_SMALL_BUFFER there are fewer replies than commands, and none was served. */
uint32_t vezhnake_serve(vezhnake_machine *handle, const vezhnake_command *commands, size_t commands_count,
                        vezhnake_reply *replies, size_t replies_count, size_t *served);

/* Saves the state in five stages: migrates what an earlier save left, checkpoints, stabilizes, commits and migrates.
 * Sets *served to how many stages it served. replies[i] answers stage i; the fourth has the new generation. The first
 * stage that is refused is the last. After VEZHNAKE_SMALL_BUFFER there are fewer than five replies, and none was served. */
#define VEZHNAKE_SAVE_STAGES 5
uint32_t vezhnake_save(vezhnake_machine *handle, vezhnake_reply *replies, size_t replies_count, size_t *served);

/* The words of a page. */
typedef struct vezhnake_page_words {
    uint64_t words[512];
} vezhnake_page_words;

/* Shows an object. If it is a page, copies its words; otherwise *page is unchanged. The reply is VEZHNAKE_SHOWN with
 * the object's kind, or a refusal. */
uint32_t vezhnake_page(vezhnake_machine *handle, uint64_t number, vezhnake_page_words *page, vezhnake_reply *reply);

/* A capability. Fields that its kind doesn't have are 0. */
typedef struct vezhnake_capability {
    uint8_t kind;    /* 0 void, 1 number, 2 page, 3 node, 4 space, 5 process, 6 start, 7 resume, 8 bank, 9 discrim */
    uint8_t access;  /* 0 full, 1 read-only, 3 weak */
    uint8_t height;  /* a space: how many levels of nodes it has */
    uint16_t key;    /* start: the key that the started process sees */
    uint64_t object; /* the object that it names; a number: its value */
} vezhnake_capability;

/* An object. Fields that its kind doesn't have are 0, and capabilities void. */
typedef struct vezhnake_object {
    uint32_t kind;             /* 0 free, 1 page, 2 node, 3 process, 4 annex, 5 bank */
    uint16_t state;            /* a process: 0 available, 1 running, 2 waiting */
    uint16_t key;              /* a process: the key that it was sent last */
    uint64_t owner;            /* the bank that owns it */
    uint64_t annex;            /* a process: the object with its registers */
    uint64_t words[4];         /* a process: the words that it was sent last */
    uint64_t limit;            /* a bank: how many objects it may own */
    uint64_t used;             /* a bank: how many it and its banks own */
    vezhnake_capability space; /* a process: its address space */
    vezhnake_capability slots[32]; /* a node's slots; a process's or an annex's registers */
} vezhnake_object;

/* Shows an object. If there is one, sets *object; otherwise *object is unchanged. The reply is as for vezhnake_page. */
uint32_t vezhnake_show(vezhnake_machine *handle, uint64_t number, vezhnake_object *object, vezhnake_reply *reply);

/* Serves one command. After VEZHNAKE_BAD_COMMAND it was not served, and *reply is unchanged. */
uint32_t vezhnake_serve_one(vezhnake_machine *handle, const vezhnake_command *command, vezhnake_reply *reply);

static inline uint32_t vezhnake_one(vezhnake_machine *handle, vezhnake_command command, vezhnake_reply *reply) {
    return vezhnake_serve_one(handle, &command, reply);
}

/* One command, by its kind and the numbers that it has. */
static inline uint32_t vezhnake_numbered(vezhnake_machine *handle, uint32_t kind, uint64_t number, uint64_t first,
                                         uint64_t second, vezhnake_reply *reply) {
    vezhnake_command command = {kind, 0, {0, 0, 0, 0}, number, {first, second, 0, 0}};
    return vezhnake_serve_one(handle, &command, reply);
}

uint32_t vezhnake_load(vezhnake_machine *handle, uint64_t process, uint64_t address, vezhnake_reply *reply);
uint32_t vezhnake_store(vezhnake_machine *handle, uint64_t process, uint64_t address, uint64_t value, vezhnake_reply *reply);
static inline uint32_t vezhnake_evict(vezhnake_machine *handle, uint64_t object, vezhnake_reply *reply) {
    return vezhnake_numbered(handle, VEZHNAKE_EVICT, object, 0, 0, reply);
}
static inline uint32_t vezhnake_checkpoint(vezhnake_machine *handle, vezhnake_reply *reply) {
    return vezhnake_numbered(handle, VEZHNAKE_CHECKPOINT, 0, 0, 0, reply);
}
static inline uint32_t vezhnake_stabilize(vezhnake_machine *handle, uint64_t count, vezhnake_reply *reply) {
    return vezhnake_numbered(handle, VEZHNAKE_STABILIZE, count, 0, 0, reply);
}
static inline uint32_t vezhnake_commit(vezhnake_machine *handle, vezhnake_reply *reply) {
    return vezhnake_numbered(handle, VEZHNAKE_COMMIT, 0, 0, 0, reply);
}
static inline uint32_t vezhnake_migrate(vezhnake_machine *handle, uint64_t count, vezhnake_reply *reply) {
    return vezhnake_numbered(handle, VEZHNAKE_MIGRATE, count, 0, 0, reply);
}
static inline uint32_t vezhnake_journal(vezhnake_machine *handle, uint64_t page, vezhnake_reply *reply) {
    return vezhnake_numbered(handle, VEZHNAKE_JOURNAL, page, 0, 0, reply);
}
static inline uint32_t vezhnake_restart(vezhnake_machine *handle, vezhnake_reply *reply) {
    return vezhnake_numbered(handle, VEZHNAKE_RESTART, 0, 0, 0, reply);
}

/* Closes the handle. It frees its memory, which is tested and not proved. */
uint32_t vezhnake_close(vezhnake_machine *handle);

/* How many bytes the answers and the calls of a batch have. */
typedef struct vezhnake_batch {
    size_t answers;
    size_t calls;
} vezhnake_batch;

/* Opens the image in these bytes, runs a script, copies the answers and the device calls, and closes. It keeps
 * nothing. After VEZHNAKE_SMALL_BUFFER call it again with buffers of the sizes in the batch. */
uint32_t vezhnake_run(const uint8_t *image, size_t image_size, uint64_t cache, const uint8_t *script, size_t script_size,
                      uint8_t *answers, size_t answers_size, uint8_t *calls, size_t calls_size, vezhnake_batch *batch);

/* ---- Images as bytes. These need no handle, and keep nothing. */

/* Builds the image of a description's text, as `eros build` does, copies it to the buffer, and sets *size to its length.
 * After VEZHNAKE_SMALL_BUFFER *size is the size that fits; the image was not built, so a rule may still be broken. After
 * another status the buffer and *size are unchanged. */
uint32_t vezhnake_build(const uint8_t *text, size_t text_size, uint8_t *image, size_t image_size, size_t *size);

/* A home range: its first number, and how many numbers it has. */
typedef struct vezhnake_range {
    uint64_t first;
    uint64_t count;
} vezhnake_range;

/* What an image has, as `eros info` prints it. */
typedef struct vezhnake_info {
    uint64_t layout; /* the version of the layout */
    uint64_t nodes;  /* how many numbers are of nodes, and of pages */
    uint64_t pages;
    uint64_t log; /* how many slots each half of the log has */
    uint64_t sectors;
    uint64_t generation; /* the checkpoint that it saves: how many were committed */
    uint64_t age;
    uint64_t entries;      /* how many of its objects are still in the log */
    uint64_t free;         /* how many numbers are free */
    uint64_t page_objects; /* how many objects there are of each kind; a process has two */
    uint64_t node_objects;
    uint64_t processes;
    uint64_t banks;
    uint64_t ranges_count;
    vezhnake_range ranges[8]; /* the home ranges; the others are 0 */
} vezhnake_info;

/* Opens the image in these bytes as vezhnake_open does, and sets *info. Any status other than VEZHNAKE_OK says why the
 * image is refused; then *info is unchanged. */
uint32_t vezhnake_check(const uint8_t *image, size_t image_size, vezhnake_info *info);

/* Copies the description of all that an image saves to the buffer, as `eros describe` prints it, and sets *size to its
 * length. After VEZHNAKE_SMALL_BUFFER *size is the size that fits. After another status the buffer and *size are unchanged. */
uint32_t vezhnake_describe(const uint8_t *image, size_t image_size, uint8_t *text, size_t text_size, size_t *size);

/* Copies the line that `eros explain` prints about an image to the buffer, without its newline: "ok", or the place that
 * breaks a rule and what is wrong there. Buffer and *size are as for vezhnake_describe. No line is longer than 300 bytes. */
uint32_t vezhnake_explain(const uint8_t *image, size_t image_size, uint8_t *line, size_t line_size, size_t *size);

/* Does the same for a description's text. Its line may be longer. Returns VEZHNAKE_NOT_TOML if the text isn't UTF-8. */
uint32_t vezhnake_explain_text(const uint8_t *text, size_t text_size, uint8_t *line, size_t line_size, size_t *size);

/* The version of the library, as in VEZHNAKE_VERSION. The text is never freed. */
const char *vezhnake_version(void);

#ifdef __cplusplus
}
#endif

#endif

/* Counts in a page of a persistent machine, and prints each count once it is committed. Kill it at any moment and start
 * it again: it continues after the last count that it printed, or after the next one.
 *
 *     ./eros build examples/embed/counter.toml counter.image
 *     gcc -Iinclude examples/embed/counter.c out/libvezhnake.a -o counter
 *     ./counter counter.image 1000
 */
#define _DEFAULT_SOURCE

#include "vezhnake.h"

#include <errno.h>
#include <fcntl.h>
#include <inttypes.h>
#include <stdio.h>
#include <stdlib.h>
#include <string.h>
#include <sys/file.h>
#include <unistd.h>

static uint8_t answer[1 << 16], calls[1 << 20];

static void fail(const char *what) {
    fprintf(stderr, "counter: %s\n", what);
    exit(1);
}

static void check(uint32_t status, const char *what) {
    if (status != VEZHNAKE_OK) {
        fprintf(stderr, "counter: %s: status %" PRIu32 "\n", what, status);
        exit(1);
    }
}

/* A number of 8 bytes, the lowest first. */
static uint64_t number_at(const uint8_t *bytes) {
    uint64_t number = 0;
    for (int i = 7; i >= 0; i--) number = number << 8 | bytes[i];
    return number;
}

/* Carries out the device calls on the file, in order. */
static void carry_out(int file, vezhnake_machine *machine) {
    size_t size;
    check(vezhnake_calls(machine, calls, sizeof calls, &size), "calls");
    for (size_t place = 0; place < size;) {
        uint64_t byte = number_at(calls + place), length = number_at(calls + place + 8);
        place += 16;
        if (byte == UINT64_MAX) {
            if (fdatasync(file)) fail("the image can't be synced");
        } else if (pwrite(file, calls + place, length, (off_t)byte) != (ssize_t)length) {
            fail("the image can't be written");
        }
        place += length;
    }
}

/* Runs the lines of a text and carries out their device calls. Returns the answers, which end with a 0. */
static const char *step(int file, vezhnake_machine *machine, const char *text) {
    size_t size;
    check(vezhnake_step(machine, (const uint8_t *)text, strlen(text), answer, sizeof answer - 1, &size), text);
    carry_out(file, machine);
    answer[size] = 0;
    return (const char *)answer;
}

/* The count in the page. `show` leaves out a word that is 0. */
static uint64_t read_count(int file, vezhnake_machine *machine) {
    uint64_t count = 0;
    const char *word = strstr(step(file, machine, "show 16\n"), "\nword 0 ");
    if (word) sscanf(word, "\nword 0 %" SCNu64, &count);
    return count;
}

/* Opens the image and locks it, so that no two programs write it. The lock lasts until the file is closed. */
static int open_image(const char *path) {
    int file = open(path, O_RDWR);
    if (file < 0) fail("the image can't be opened");
    if (flock(file, LOCK_EX | LOCK_NB)) fail(errno == EWOULDBLOCK ? "another program uses the image" : "the image can't be locked");
    if (fsync(file)) fail("the image can't be synced");
    return file;
}

/* Opens the machine in the image at the start of the file: at most 64 MiB, in whole sectors. A block device has a size
 * that lseek finds and fstat doesn't. */
static void open_machine(int file, vezhnake_machine *machine) {
    off_t end = lseek(file, 0, SEEK_END);
    size_t size = end > 64 << 20 ? 64 << 20 : (size_t)end / 512 * 512;
    uint8_t *image = malloc(size);
    if (end < 0 || !image || pread(file, image, size, 0) != (ssize_t)size) fail("the image can't be read");
    check(vezhnake_open(image, size, 0, machine), "open");
    free(image);
}

/* How many times to count, from the command line. */
static uint64_t times_of(int words, char **word) {
    char *end = NULL;
    uint64_t times = words == 3 ? strtoull(word[2], &end, 10) : 0;
    if (!end || end == word[2] || *end) fail("usage: counter IMAGE TIMES");
    return times;
}

int main(int words, char **word) {
    vezhnake_machine machine = VEZHNAKE_CLOSED;
    uint64_t times = times_of(words, word);
    int file = open_image(word[1]);
    open_machine(file, &machine);
    uint64_t count = read_count(file, &machine), last = count + times;
    step(file, &machine, "migrate 9\n");
    while (count < last) {
        char text[128];
        snprintf(text, sizeof text, "send 1 6 2 0 %" PRIu64 " 0 0 0 0 0\ncheckpoint\nstabilize 9\ncommit\n", ++count);
        if (!strstr(step(file, &machine, text), "committed")) fail(text);
        printf("%" PRIu64 "\n", count);
        fflush(stdout);
        step(file, &machine, "migrate 9\n");
    }
    check(vezhnake_close(&machine), "close");
    return close(file);
}

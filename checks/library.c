/* Opens, steps and closes machines of the library many times, for checks/library, which compiles this under sanitizers: each
 * status, buffers of exactly the size that fits, a handle that is closed twice, images as bytes.
 * usage: PROGRAM IMAGE TIMES, with an image of examples/embed/counter.toml */
#include "vezhnake.h"

#include <stdio.h>
#include <stdlib.h>
#include <string.h>

#define NEED(holds)                                                  \
    do {                                                             \
        if (!(holds)) {                                              \
            fprintf(stderr, "library.c:%d: %s\n", __LINE__, #holds); \
            exit(1);                                                 \
        }                                                            \
    } while (0)

static const char *text = "send 1 6 2 0 5 0 0 0 0 0\ncheckpoint\nstabilize 9\ncommit\nnonsense\n";
static uint8_t image[1 << 20], buffer[1 << 20], calls[1 << 20];
static size_t image_size;

static uint32_t step(vezhnake_machine *machine, uint8_t *into, size_t into_size, size_t *size) {
    return vezhnake_step(machine, (const uint8_t *)text, strlen(text), into, into_size, size);
}

/* Copies the answers and calls of one step: first to buffers that are too small, and then to buffers of exactly the right size. */
static void try_step(vezhnake_machine *machine) {
    static const char *first = "done\nfrozen ", *last = "left 0\ncommitted 1\nbad line\n";
    size_t wanted, size;
    NEED(step(machine, buffer, 3, &wanted) == VEZHNAKE_SMALL_BUFFER && wanted > 3);
    uint8_t *exact = malloc(wanted);
    NEED(vezhnake_answer(machine, exact, wanted, &size) == VEZHNAKE_OK && size == wanted);
    NEED(wanted > strlen(first) + strlen(last) && !memcmp(exact, first, strlen(first)));
    NEED(!memcmp(exact + wanted - strlen(last), last, strlen(last)));
    free(exact);
    NEED(vezhnake_calls(machine, calls, 16, &wanted) == VEZHNAKE_SMALL_BUFFER && wanted > 16);
    exact = malloc(wanted);
    NEED(vezhnake_calls(machine, exact, wanted, &size) == VEZHNAKE_OK && size == wanted);
    free(exact);
    NEED(vezhnake_calls(machine, calls, sizeof calls, &size) == VEZHNAKE_OK && size == 0);
}

/* A closed handle is refused, and each argument stays as it was. */
static void try_closed(vezhnake_machine *machine) {
    static const vezhnake_reply none = {7, 7, 7, 7};
    vezhnake_command command = {VEZHNAKE_LOAD, 0, {0, 0, 0, 0}, 1, {0, 0, 0, 0}};
    vezhnake_reply replies[VEZHNAKE_SAVE_STAGES] = {none, none, none, none, none};
    vezhnake_page_words page;
    vezhnake_object object;
    size_t size = 7;
    memset(buffer, 7, 64), memset(calls, 7, 64), memset(&page, 7, sizeof page), memset(&object, 7, sizeof object);
    NEED(vezhnake_close(machine) == VEZHNAKE_NOT_OPEN);
    NEED(step(machine, buffer, sizeof buffer, &size) == VEZHNAKE_NOT_OPEN);
    NEED(vezhnake_answer(machine, buffer, sizeof buffer, &size) == VEZHNAKE_NOT_OPEN);
    NEED(vezhnake_calls(machine, calls, sizeof calls, &size) == VEZHNAKE_NOT_OPEN);
    NEED(vezhnake_serve(machine, &command, 1, replies, 1, &size) == VEZHNAKE_NOT_OPEN);
    NEED(vezhnake_serve_one(machine, &command, replies) == VEZHNAKE_NOT_OPEN);
    NEED(vezhnake_load(machine, 1, 0, replies) == VEZHNAKE_NOT_OPEN);
    NEED(vezhnake_store(machine, 1, 0, 5, replies) == VEZHNAKE_NOT_OPEN);
    NEED(vezhnake_save(machine, replies, VEZHNAKE_SAVE_STAGES, &size) == VEZHNAKE_NOT_OPEN);
    NEED(vezhnake_page(machine, 16, &page, replies) == VEZHNAKE_NOT_OPEN);
    NEED(vezhnake_show(machine, 16, &object, replies) == VEZHNAKE_NOT_OPEN);
    NEED(size == 7 && !machine->is_open && !machine->session);
    for (int i = 0; i < 64; i++) NEED(buffer[i] == 7 && calls[i] == 7);
    for (size_t i = 0; i < VEZHNAKE_SAVE_STAGES; i++) NEED(!memcmp(&replies[i], &none, sizeof none));
    for (size_t i = 0; i < sizeof page; i++) NEED(((uint8_t *)&page)[i] == 7);
    for (size_t i = 0; i < sizeof object; i++) NEED(((uint8_t *)&object)[i] == 7);
}

static void try_refusals(vezhnake_machine *machine) {
    NEED(vezhnake_open(image, image_size - 1, 0, machine) == VEZHNAKE_BAD_SIZE && !machine->is_open);
    NEED(vezhnake_open(image, image_size, 7, machine) == VEZHNAKE_BAD_CACHE);
    NEED(vezhnake_open(image, image_size, 8193, machine) == VEZHNAKE_BAD_CACHE);
    NEED(vezhnake_open(image, image_size - 512, 0, machine) == VEZHNAKE_SMALL);
    NEED(vezhnake_open(image + 512, image_size - 512, 0, machine) == VEZHNAKE_NOT_A_SUPERBLOCK && !machine->is_open);
}

/* Returns what a call makes of bytes, after two calls with a buffer that is too small. The last buffer has exactly the right size. */
static uint8_t *copied(uint32_t (*call)(const uint8_t *, size_t, uint8_t *, size_t, size_t *), const uint8_t *from, size_t from_size, size_t *size) {
    size_t wanted = 0;
    NEED(call(from, from_size, NULL, 0, &wanted) == VEZHNAKE_SMALL_BUFFER && wanted > 0);
    NEED(call(from, from_size, buffer, wanted - 1, size) == VEZHNAKE_SMALL_BUFFER && *size == wanted);
    uint8_t *exact = malloc(wanted);
    NEED(call(from, from_size, exact, wanted, size) == VEZHNAKE_OK && *size == wanted);
    return exact;
}

/* Describes the image, and builds an image from the description. The first one was just built, so both are the same. */
static void try_images(void) {
    static const uint8_t no_table[] = "nodes = ", no_utf8[] = {255}, no_shape[] = "nodes = 16";
    static const char *ok = "ok";
    vezhnake_info info;
    size_t size, text_size;
    uint8_t *description = copied(vezhnake_describe, image, image_size, &text_size);
    uint8_t *built = copied(vezhnake_build, description, text_size, &size);
    NEED(size == image_size && !memcmp(built, image, size));
    free(built);
    free(description);
    uint8_t *line = copied(vezhnake_explain, image, image_size, &size);
    NEED(size == strlen(ok) && !memcmp(line, ok, size));
    free(line);
    free(copied(vezhnake_explain_text, no_shape, sizeof no_shape - 1, &size));
    NEED(vezhnake_check(image, image_size, &info) == VEZHNAKE_OK && 512 * info.sectors == image_size && info.ranges_count == 2);
    size = 7;
    NEED(vezhnake_build(no_table, sizeof no_table - 1, buffer, sizeof buffer, &size) == VEZHNAKE_NOT_TOML);
    NEED(vezhnake_build(no_utf8, 1, buffer, sizeof buffer, &size) == VEZHNAKE_NOT_TOML);
    NEED(vezhnake_build(no_shape, sizeof no_shape - 1, buffer, sizeof buffer, &size) == VEZHNAKE_BAD_SHAPE);
    NEED(vezhnake_explain_text(no_utf8, 1, buffer, sizeof buffer, &size) == VEZHNAKE_NOT_TOML);
    NEED(vezhnake_check(image, 511, &info) == VEZHNAKE_BAD_SIZE);
    NEED(vezhnake_describe(image, image_size - 512, buffer, sizeof buffer, &size) == VEZHNAKE_SMALL);
    NEED(vezhnake_explain(image, 1, buffer, sizeof buffer, &size) == VEZHNAKE_BAD_SIZE && size == 7);
}

static uint32_t run(size_t answers, size_t room, vezhnake_batch *batch) {
    return vezhnake_run(image, image_size, 0, (const uint8_t *)text, strlen(text), buffer, answers, calls, room, batch);
}

int main(int words, char **word) {
    NEED(words == 3);
    FILE *file = fopen(word[1], "rb");
    NEED(file);
    image_size = fread(image, 1, sizeof image, file);
    fclose(file);
    for (int i = 0; i < atoi(word[2]); i++) {
        vezhnake_machine machine = VEZHNAKE_CLOSED;
        vezhnake_batch batch;
        NEED(vezhnake_open(image, image_size, i % 2 ? 8 : 0, &machine) == VEZHNAKE_OK && machine.is_open);
        NEED(vezhnake_open(image, image_size, 0, &machine) == VEZHNAKE_ALREADY_OPEN);
        try_step(&machine);
        NEED(vezhnake_close(&machine) == VEZHNAKE_OK && !machine.is_open);
        try_closed(&machine);
        try_refusals(&machine);
        if (i % 10 == 0) try_images();
        NEED(run(sizeof buffer, sizeof calls, &batch) == VEZHNAKE_OK);
        NEED(run(1, 1, &batch) == VEZHNAKE_SMALL_BUFFER && batch.answers > 1 && batch.calls > 1);
    }
    return 0;
}

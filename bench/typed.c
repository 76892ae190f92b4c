/* Makes typed calls of one kind, one by one or in batches, over an image in memory. For bench/typed.
 *
 * usage: typed IMAGE load|store|call COUNT BATCH */
#include <stdio.h>
#include <stdlib.h>
#include <string.h>
#include "vezhnake.h"

static uint8_t image[64 << 20];

static int fail(const char *why) {
    fprintf(stderr, "typed: %s\n", why);
    return 1;
}

/* One typed call, as a program makes it. */
static uint32_t one(vezhnake_machine *machine, char kind, vezhnake_reply *reply) {
    if (kind == 'l') return vezhnake_load(machine, 1, 0, reply);
    if (kind == 's') return vezhnake_store(machine, 1, 8, 5, reply);
    vezhnake_command call = {VEZHNAKE_CALL, 6, {0, 0, 0, 0}, 1, {2, 0, 1, 0}};
    return vezhnake_serve_one(machine, &call, reply);
}

/* The same commands as bench/typed has lines. */
static vezhnake_command command_of(const char *kind) {
    vezhnake_command call = {VEZHNAKE_CALL, 6, {0, 0, 0, 0}, 1, {2, 0, 1, 0}};
    vezhnake_command load = {VEZHNAKE_LOAD, 0, {0, 0, 0, 0}, 1, {0, 0, 0, 0}};
    vezhnake_command store = {VEZHNAKE_STORE, 0, {0, 0, 0, 0}, 1, {8, 5, 0, 0}};
    return *kind == 'c' ? call : *kind == 'l' ? load : store;
}

int main(int words, char **word) {
    if (words != 5) return fail("usage: typed IMAGE load|store|call COUNT BATCH");
    FILE *file = fopen(word[1], "rb");
    if (!file) return fail("the image can't be opened");
    size_t image_size = fread(image, 1, sizeof image, file), served = 0;
    fclose(file);
    vezhnake_machine machine = VEZHNAKE_CLOSED;
    if (vezhnake_open(image, image_size, 0, &machine)) return fail("the image is refused");
    long count = atol(word[3]), batch = atol(word[4]), refused = 0;
    vezhnake_command command = command_of(word[2]), *commands = malloc(batch * sizeof *commands);
    vezhnake_reply reply = {0, 0, 0, 0}, *replies = malloc(batch * sizeof *replies);
    for (long i = 0; i < batch; i++) commands[i] = command;
    for (long i = 0; batch == 1 && i < count; i++) {
        if (one(&machine, *word[2], &reply)) return fail("a call fails");
        refused += reply.kind > VEZHNAKE_VALUE;
    }
    for (long i = 0; batch > 1 && i < count; i += batch) {
        if (vezhnake_serve(&machine, commands, batch, replies, batch, &served)) return fail("a batch fails");
        for (long k = 0; k < batch; k++) refused += replies[k].kind > VEZHNAKE_VALUE;
    }
    if (refused || vezhnake_close(&machine)) return fail("a command is refused");
    free(commands);
    free(replies);
    return 0;
}

/* Runs the lines of a script by typed calls, for checks/library: prints their answers as `eros run` does, and leaves the image as it does.
 * Commands that follow one another are one batch, but each third line is a call of its own. A line that is no command is a text.
 * usage: PROGRAM IMAGE CACHE < SCRIPT */
#include "vezhnake.h"

#include <inttypes.h>
#include <stdio.h>
#include <stdlib.h>
#include <string.h>

#define NEED(holds)                                                \
    do {                                                           \
        if (!(holds)) {                                            \
            fprintf(stderr, "typed.c:%d: %s\n", __LINE__, #holds); \
            exit(1);                                               \
        }                                                          \
    } while (0)
#define MOST 7

static const char *kinds[] = {"call", "return", "send", "load", "store", "evict", "checkpoint", "stabilize", "commit", "migrate", "journal", "restart", "cut"};
static const int counts[] = {10, 10, 10, 2, 3, 1, 0, 1, 0, 1, 1, 0, 0};
static const char *answers[] = {"done", "value", "memory fault", "frozen", "left", "committed", "journaled", "at", "shown"};
static const char *refusals[] = {"down", "no process", "not running", "worn", "stalled", "log full", "checkpoint running", "migration pending", "not stable",
                                 "no checkpoint", "no memory", "fault", "bad number", "not journaled"};
static uint8_t image[1 << 22], buffer[1 << 22];
static vezhnake_machine machine = VEZHNAKE_CLOSED;

static uint64_t number_at(const uint8_t *from) {
    uint64_t number = 0;
    for (int i = 7; i >= 0; i--) number = number << 8 | from[i];
    return number;
}

/* Carries out the device calls. */
static void carry_out(void) {
    size_t size;
    NEED(vezhnake_calls(&machine, buffer, sizeof buffer, &size) == VEZHNAKE_OK);
    for (size_t place = 0; place < size;) {
        uint64_t byte = number_at(buffer + place), length = number_at(buffer + place + 8);
        place += 16;
        if (byte != UINT64_MAX) memcpy(image + byte, buffer + place, length);
        place += length;
    }
}

/* The command of a line, if it is one that has a struct, and is spelt as a command. */
static int is_command(const char *line, vezhnake_command *command) {
    char name[16], spelt[300];
    unsigned long long n[10] = {0};
    int found = sscanf(line, "%15s %llu %llu %llu %llu %llu %llu %llu %llu %llu %llu", name, n, n + 1, n + 2, n + 3, n + 4, n + 5, n + 6, n + 7, n + 8, n + 9);
    memset(command, 0, sizeof *command);
    for (uint32_t kind = 0; found > 0 && kind < 13; kind++) {
        if (strcmp(name, kinds[kind])) continue;
        size_t length = (size_t)sprintf(spelt, "%s", name);
        for (int i = 0; i < counts[kind]; i++) length += (size_t)sprintf(spelt + length, " %llu", n[i]);
        if (found != 1 + counts[kind] || strcmp(spelt, line)) return 0;
        command->kind = kind;
        command->number = n[0];
        if (kind <= VEZHNAKE_SEND) {
            command->reg = (uint8_t)n[1];
            for (int i = 0; i < 4; i++) command->words[i] = n[2 + i], command->sent[i] = (uint8_t)n[6 + i];
        } else {
            command->words[0] = n[1], command->words[1] = n[2];
        }
        return 1;
    }
    return 0;
}

static void print_reply(const vezhnake_reply *reply) {
    NEED(reply->kind < 9 || (reply->kind >= 32 && reply->kind < 46));
    printf("%s", reply->kind < 32 ? answers[reply->kind] : refusals[reply->kind - 32]);
    if ((reply->kind > 0 && reply->kind < 8) || reply->kind == VEZHNAKE_NOT_STABLE || reply->kind == VEZHNAKE_NOT_JOURNALED) printf(" %" PRIu64, reply->first);
    if (reply->kind == VEZHNAKE_AT) printf(" %" PRIu64, reply->second);
    putchar('\n');
    NEED(reply->code == VEZHNAKE_NO_CODE || (reply->kind == VEZHNAKE_DONE && reply->code <= 10));
}

/* Serves a batch, and prints its answers. The command after it is invalid, so serving stops there. */
static void serve(vezhnake_command *commands, size_t count) {
    vezhnake_reply replies[MOST + 1];
    size_t served;
    if (!count) return;
    commands[count] = commands[0];
    commands[count].kind = VEZHNAKE_CALL;
    commands[count].sent[3] = 32;
    NEED(vezhnake_serve(&machine, commands, count + 1, replies, count, &served) == VEZHNAKE_SMALL_BUFFER && served == 0);
    NEED(vezhnake_serve(&machine, commands, count + 1, replies, count + 1, &served) == VEZHNAKE_BAD_COMMAND && served == count);
    carry_out();
    for (size_t i = 0; i < count; i++) print_reply(replies + i);
}

static uint32_t serve_by_name(const vezhnake_command *it, vezhnake_reply *reply) {
    switch (it->kind) {
    case VEZHNAKE_LOAD: return vezhnake_load(&machine, it->number, it->words[0], reply);
    case VEZHNAKE_STORE: return vezhnake_store(&machine, it->number, it->words[0], it->words[1], reply);
    case VEZHNAKE_EVICT: return vezhnake_evict(&machine, it->number, reply);
    case VEZHNAKE_CHECKPOINT: return vezhnake_checkpoint(&machine, reply);
    case VEZHNAKE_STABILIZE: return vezhnake_stabilize(&machine, it->number, reply);
    case VEZHNAKE_COMMIT: return vezhnake_commit(&machine, reply);
    case VEZHNAKE_MIGRATE: return vezhnake_migrate(&machine, it->number, reply);
    case VEZHNAKE_JOURNAL: return vezhnake_journal(&machine, it->number, reply);
    case VEZHNAKE_RESTART: return vezhnake_restart(&machine, reply);
    case VEZHNAKE_CUT: return vezhnake_one(&machine, *it, reply);
    default: return vezhnake_serve_one(&machine, it, reply);
    }
}

/* Serves one command, and prints its answer. Then serves what is no command: that changes nothing. */
static void serve_one(const vezhnake_command *command) {
    vezhnake_command none = *command;
    vezhnake_reply reply, last;
    NEED(serve_by_name(command, &reply) == VEZHNAKE_OK);
    carry_out();
    print_reply(&reply);
    none.kind = command->words[0] % 2 ? 13 : VEZHNAKE_SEND;
    none.reg = 32;
    last = reply;
    NEED(vezhnake_serve_one(&machine, &none, &reply) == VEZHNAKE_BAD_COMMAND && !memcmp(&reply, &last, sizeof reply));
    carry_out();
}

/* Runs a line as a text, and checks a `show` of an object against its struct. */
static void step(const char *line) {
    static char text[1 << 20];
    uint64_t number;
    size_t size;
    NEED(vezhnake_step(&machine, (const uint8_t *)line, strlen(line), (uint8_t *)text, sizeof text, &size) == VEZHNAKE_OK);
    carry_out();
    fwrite(text, 1, size, stdout);
    if (sscanf(line, "show %" SCNu64, &number) == 1 && size > 4 && !memcmp(text + size - 4, "end\n", 4)) {
        static const char *names[] = {"free", "page", "node", "process", "annex", "bank"};
        vezhnake_object object;
        vezhnake_reply reply;
        NEED(vezhnake_show(&machine, number, &object, &reply) == VEZHNAKE_OK && reply.kind == VEZHNAKE_SHOWN && reply.first == number);
        NEED(object.kind == reply.second && object.kind < 6 && !strncmp(text, names[object.kind], strlen(names[object.kind])));
    }
}

int main(int words, char **word) {
    NEED(words == 3);
    FILE *file = fopen(word[1], "rb");
    NEED(file);
    size_t size = fread(image, 1, sizeof image, file);
    fclose(file);
    NEED(vezhnake_open(image, size, strtoull(word[2], NULL, 10), &machine) == VEZHNAKE_OK);
    vezhnake_command commands[MOST + 1];
    size_t count = 0;
    char line[300];
    for (int number = 0; fgets(line, sizeof line, stdin); number++) {
        line[strcspn(line, "\n")] = 0;
        if (is_command(line, commands + count) && number % 3) {
            if (++count == MOST) serve(commands, count), count = 0;
            continue;
        }
        if (is_command(line, commands + count)) {
            vezhnake_command single = commands[count];
            serve(commands, count), count = 0;
            serve_one(&single);
            continue;
        }
        serve(commands, count), count = 0;
        step(line);
    }
    serve(commands, count);
    NEED(vezhnake_close(&machine) == VEZHNAKE_OK);
    NEED((file = fopen(word[1], "wb")) && fwrite(image, 1, size, file) == size && !fclose(file));
    return 0;
}

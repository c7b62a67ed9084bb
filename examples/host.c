/* A host in C: reads the rule file that its argument names, asks three questions, replays the leak and runs it by the monitor. The lines that it
   prints are about examples/counter.rules; docs/HOST.md goes through them. */
#include <inttypes.h>
#include <stdio.h>
#include <string.h>

#include "rights.h"

#define CELLS 64

static uint8_t file[4096], again[4096];
static size_t length;
static uint64_t rows[RIGHTS_ROWS], sessions[CELLS], items[CELLS], next_session, next_item;

/* prints the answer to a question and the rows of a leak; returns how many these are, 0 where it is safe or refused */
static size_t ask(const char *what, const uint8_t question[3]) {
    uint64_t verdict, pairs, values, count;
    uint32_t number = rights_analyse(file, length, question, 3, rows, RIGHTS_ROWS, &verdict, &pairs, &values, &count);
    const char *word = verdict == RIGHTS_SAFE ? "safe" : verdict == RIGHTS_LEAK ? "leak" : NULL;
    if (!word) {
        printf("%s: refused, %" PRIu32 "\n", what, number);
        return 0;
    }
    printf("%s: %s, %" PRIu64 " pairs of user and session value, %" PRIu64 " values of an item\n", what, word, pairs, values);
    for (size_t i = 0; i < count; i++)
        printf("    %" PRIu64 " %" PRIu64 " %" PRIu64 " %" PRIu64 "\n", rights_kind(rows[i]), rights_actor(rows[i]), rights_target(rows[i]),
               rights_value(rows[i]));
    return count;
}

static uint32_t start(void) { return rights_start(file, length, sessions, CELLS, items, CELLS, &next_session, &next_item); }

static uint32_t step(uint64_t row) { return rights_step(file, length, sessions, CELLS, items, CELLS, &next_session, &next_item, row); }

static uint32_t replay(const uint8_t question[3], size_t count) {
    return rights_replay(file, length, question, 3, rows, count, sessions, CELLS, items, CELLS);
}

int main(int argc, char **argv) {
    /* any item, permission 0; who: user 2, whom the counter file does not have, user 1, user 0 */
    static const uint8_t user_2[3] = {0x42, 0x80, 0x00}, user_1[3] = {0x41, 0x80, 0x00}, user_0[3] = {0x40, 0x80, 0x00};
    FILE *in = argc == 2 ? fopen(argv[1], "rb") : NULL;
    if (!in) return 2;
    length = fread(file, 1, sizeof file, in);
    fclose(in);

    size_t written;
    uint64_t bits;
    uint32_t number = rights_read(file, length);
    printf("reading: %" PRIu32 "\n", number);
    number = rights_read_bits(file, length, &bits);
    printf("counting the bits: %" PRIu32 ", %" PRIu64 " bits\n", number, bits);
    number = rights_write_back(file, length, again, sizeof again, &written);
    printf("writing back: %" PRIu32 ", %s bytes\n", number, written == length && memcmp(file, again, length) == 0 ? "the same" : "other");

    ask("user 2", user_2);
    ask("user 1", user_1);
    size_t count = ask("user 0", user_0);
    printf("replaying the leak: %" PRIu32 "\n", replay(user_0, count));
    printf("replaying it for user 1: %" PRIu32 "\n", replay(user_1, count));

    number = start();
    for (size_t i = 0; i < count && number == 0; i++) number = step(rows[i]);
    printf("step by step: %" PRIu32 "\n", number);
    uint64_t done;
    start();
    number = rights_steps(file, length, sessions, CELLS, items, CELLS, &next_session, &next_item, rows, count, &done);
    printf("all steps at once: %" PRIu32 ", %s\n", number, done == count ? "all done" : "not all done");
    printf("user 1 opens with member 0: %" PRIu32 "\n", step(rights_row(RIGHTS_OPEN, 1, next_session, 1)));
    return 0;
}

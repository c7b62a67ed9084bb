/* Runs the step lists that records.py makes of tests/vectors/steps.txt, read from standard input, over the library: each call's answer, and
   after a case the next numbers and every cell, must be what the table says. A call that gives a number must change nothing, and a step that
   is carried out no cell but one. The rows of a case are then run once more, by rights_steps, which must come to the same. The last line has the
   number of rows; the exit status is 1 where anything differs. */
#include <inttypes.h>
#include <stdint.h>
#include <stdio.h>
#include <stdlib.h>
#include <string.h>

#include "rights.h"

#define MOST (1048576 + 16)

/* a live state: 0 sessions, 1 items. `used` cells of each are looked at: eight more than are lent, which must keep what they hold */
struct state { uint64_t cells[2][MOST], next[2]; };
static struct state now, before, want, again;
static size_t lent[2], used;
static uint8_t file[4096];
static size_t file_length;
static int rows, cases, wrong, ended = 1;

/* the steps of the case since its start, with what rights_step gave; `again` is the state before them */
static uint64_t listed[4096];
static uint32_t given[4096];
static size_t steps;

static void differs(int line, const char *what, uint64_t expected, uint64_t found) {
    printf("line %d: %s: expected %" PRIu64 ", found %" PRIu64 "\n", line, what, expected, found);
    wrong++;
}

static void bad(const char *line) {
    printf("this line can't be read: %s", line);
    exit(2);
}

/* what a cell holds before it is written: no session and no item, and no two alike */
static uint64_t filling(int slice, uint64_t index) { return UINT64_C(0xA5C3000000000000) + ((uint64_t)slice << 32) + index; }

static void copy(struct state *to, const struct state *from) {
    for (int s = 0; s < 2; s++) {
        memcpy(to->cells[s], from->cells[s], used * sizeof(uint64_t));
        to->next[s] = from->next[s];
    }
}

/* tells the differences of two states, of cells the first four */
static void compare(int line, const struct state *expected, const struct state *found) {
    int cells = 0;
    for (int s = 0; s < 2; s++) {
        if (expected->next[s] != found->next[s]) differs(line, s ? "next item number" : "next session number", expected->next[s], found->next[s]);
        for (size_t i = 0; i < used && cells < 4; i++)
            if (expected->cells[s][i] != found->cells[s][i]) {
                char what[64];
                snprintf(what, sizeof what, "%s cell %zu", s ? "item" : "session", i);
                differs(line, what, expected->cells[s][i], found->cells[s][i]);
                cells++;
            }
    }
}

/* how many cells the last call wrote */
static uint64_t written(void) {
    uint64_t n = 0;
    for (int s = 0; s < 2; s++)
        for (size_t i = 0; i < used; i++) n += before.cells[s][i] != now.cells[s][i];
    return n;
}

static void answered(int line, uint32_t expected, uint32_t found) {
    rows++;
    if (expected != found) differs(line, "answer", expected, found);
    if (found != 0) compare(line, &before, &now);
}

/* runs the steps of the case once more, many rows a call, past each that gives a number */
static void run_again(int line) {
    for (size_t k = 0; k < steps; k++) {
        uint64_t done = 0;
        uint32_t number = rights_steps(file, file_length, again.cells[0], lent[0], again.cells[1], lent[1], &again.next[0], &again.next[1], listed + k,
                                       steps - k, &done);
        for (size_t i = 0; i < done; i++)
            if (given[k + i] != 0) differs(line, "rows at once", given[k + i], 0);
        k += done;
        if (number != (k < steps ? given[k] : 0)) differs(line, "rows at once", k < steps ? given[k] : 0, number);
        if (number == 0) break;
    }
    compare(line, &now, &again);
}

int main(void) {
    static char text[16384];
    int line, slice;
    uint32_t answer;
    uint64_t a, b;
    while (fgets(text, sizeof text, stdin)) {
        char hex[8192];
        if (sscanf(text, "case %d %zu %8191s", &line, &file_length, hex) == 3) {
            if (file_length > sizeof file || !ended) bad(text);
            ended = 0;
            for (size_t i = 0; i < file_length; i++) {
                unsigned byte;
                if (sscanf(hex + 2 * i, "%2x", &byte) != 1) bad(text);
                file[i] = (uint8_t)byte;
            }
            cases++;
        } else if (sscanf(text, "lend %zu %zu %" SCNu64 " %" SCNu64, &lent[0], &lent[1], &a, &b) == 4) {
            used = (lent[0] > lent[1] ? lent[0] : lent[1]) + 8;
            if (used > MOST) bad(text);
            for (int s = 0; s < 2; s++)
                for (size_t i = 0; i < used; i++) now.cells[s][i] = filling(s, i);
            now.next[0] = a;
            now.next[1] = b;
            copy(&want, &now);
            steps = 0;
        } else if (sscanf(text, "put %d %" SCNu64 " %" SCNu64, &slice, &a, &b) == 3) {
            if (a >= lent[slice]) bad(text);
            now.cells[slice][a] = want.cells[slice][a] = b;
        } else if (sscanf(text, "start %d %" SCNu32, &line, &answer) == 2) {
            copy(&before, &now);
            answered(line, answer, rights_start(file, file_length, now.cells[0], lent[0], now.cells[1], lent[1], &now.next[0], &now.next[1]));
            steps = 0;
        } else if (sscanf(text, "step %d %" SCNu32 " %" SCNu64, &line, &answer, &a) == 3) {
            copy(&before, &now);
            if (steps == 0) copy(&again, &now);
            if (steps == sizeof listed / sizeof listed[0]) bad(text);
            listed[steps] = a;
            given[steps] = rights_step(file, file_length, now.cells[0], lent[0], now.cells[1], lent[1], &now.next[0], &now.next[1], a);
            answered(line, answer, given[steps++]);
            if (written() > 1) differs(line, "cells written", 1, written());
        } else if (sscanf(text, "is %d %" SCNu64 " %" SCNu64, &slice, &a, &b) == 3) {
            if (a >= lent[slice]) bad(text);
            want.cells[slice][a] = b;
        } else if (sscanf(text, "end %d %" SCNu64 " %" SCNu64, &line, &a, &b) == 3) {
            want.next[0] = a;
            want.next[1] = b;
            compare(line, &want, &now);
            if (steps > 0) run_again(line);
            ended = 1;
        } else {
            bad(text);
        }
    }
    if (!ended) bad("the last case has no end\n");
    printf("%d rows in %d lists of steps, %d wrong\n", rows, cases, wrong);
    return wrong != 0 || rows == 0;
}

/* For each line of standard input, a rule file in hex, a session cell, an item cell and a row: rights_read on the file, then rights_step of the
   row on these two cells. callgrind counts both. The exit status is 1 where a call gives a number. */
#include <inttypes.h>
#include <stdint.h>
#include <stdio.h>

#include "rights.h"

int main(void) {
    static char hex[8192];
    static uint8_t file[4096];
    uint64_t held, thing, row;
    for (int line = 1; scanf("%8191s %" SCNu64 " %" SCNu64 " %" SCNu64, hex, &held, &thing, &row) == 4; line++) {
        size_t n = 0;
        for (unsigned byte; sscanf(hex + 2 * n, "%2x", &byte) == 1; n++) file[n] = (uint8_t)byte;
        uint64_t sessions[2] = {held, 0}, items[2] = {thing, 0}, session = 1, item = 1;
        uint32_t read = rights_read(file, n);
        uint32_t step = rights_step(file, n, sessions, 2, items, 2, &session, &item, row);
        if (read || step) {
            fprintf(stderr, "line %d: read %" PRIu32 ", step %" PRIu32 "\n", line, read, step);
            return 1;
        }
    }
    return 0;
}

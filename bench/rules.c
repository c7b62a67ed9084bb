/* Runs rights_read, or with the first argument `write` rights_write_back, once on each of the files named after it: what callgrind counts. */
#include <stdint.h>
#include <stdio.h>
#include <string.h>

#include "rights.h"

int main(int argc, char **argv) {
    static uint8_t file[1 << 16], out[1 << 16];
    for (int k = 2; k < argc; k++) {
        size_t length = 0;
        FILE *in = fopen(argv[k], "rb");
        if (!in) return 2;
        size_t n = fread(file, 1, sizeof file, in);
        fclose(in);
        uint32_t number = strcmp(argv[1], "read") == 0 ? rights_read(file, n) : rights_write_back(file, n, out, sizeof out, &length);
        printf("%u %zu\n", number, length);
    }
    return argc < 3 ? 2 : 0;
}

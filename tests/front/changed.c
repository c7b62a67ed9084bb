/* The library with one thing changed, named by the environment's RULES_CHANGED; linked with --wrap for tests/front/changed.py. Without a name nothing
   is changed. */
#include "rights.h"

#include <stdlib.h>
#include <string.h>

typedef const uint8_t *bytes;
typedef uint64_t *cells;

static int changed(const char *name) {
    const char *wanted = getenv("RULES_CHANGED");
    return wanted && strcmp(wanted, name) == 0;
}

uint32_t __real_rights_read(bytes file, size_t len);
uint32_t __wrap_rights_read(bytes file, size_t len) {
    if (changed("read_accepts_all")) return 0;
    if (changed("read_refuses_all")) return 3;
    return __real_rights_read(file, len);
}

uint32_t __real_rights_read_bits(bytes file, size_t len, uint64_t *bits);
uint32_t __wrap_rights_read_bits(bytes file, size_t len, uint64_t *bits) {
    uint32_t number = __real_rights_read_bits(file, len, bits);
    if (changed("read_accepts_all")) return 0;
    if (changed("read_refuses_all")) return 3;
    if (changed("bits_one_more")) *bits += 1;
    if (changed("bits_of_all_bytes")) *bits = 8 * len;
    if (changed("bits_not_written")) *bits = 0;
    return number;
}

uint32_t __real_rights_write_back(bytes file, size_t len, uint8_t *out, size_t out_len, size_t *length);
uint32_t __wrap_rights_write_back(bytes file, size_t len, uint8_t *out, size_t out_len, size_t *length) {
    uint32_t number = __real_rights_write_back(file, len, out, out_len, length);
    if (number == 0 && changed("write_back_byte")) out[*length - 1] ^= 0x80;
    if (number == 0 && changed("write_back_short")) *length -= 1;
    return number;
}

uint32_t __real_rights_step(bytes file, size_t len, cells sessions, size_t n, cells items, size_t m, cells next_s, cells next_i, uint64_t row);
uint32_t __wrap_rights_step(bytes file, size_t len, cells sessions, size_t n, cells items, size_t m, cells next_s, cells next_i, uint64_t row) {
    uint32_t number = __real_rights_step(file, len, sessions, n, items, m, next_s, next_i, row);
    if (changed("step_does_all")) return 0;
    if (changed("step_refuses_all")) return 16;
    return number;
}

uint32_t __real_rights_replay(bytes file, size_t len, bytes question, size_t qlen, const uint64_t *rows, size_t r, cells sessions, size_t n,
                              cells items, size_t m);
uint32_t __wrap_rights_replay(bytes file, size_t len, bytes question, size_t qlen, const uint64_t *rows, size_t r, cells sessions, size_t n,
                              cells items, size_t m) {
    uint32_t number = __real_rights_replay(file, len, question, qlen, rows, r, sessions, n, items, m);
    if (changed("replay_believes_all") || changed("row_changed_and_believed") || changed("row_dropped_and_believed")) return 0;
    if (changed("replay_refuses_all")) return 17;
    return number;
}

uint32_t __real_rights_analyse(bytes file, size_t len, bytes question, size_t qlen, cells rows, size_t r, uint64_t *verdict, uint64_t *pairs,
                               uint64_t *values, uint64_t *row_count);
uint32_t __wrap_rights_analyse(bytes file, size_t len, bytes question, size_t qlen, cells rows, size_t r, uint64_t *verdict, uint64_t *pairs,
                               uint64_t *values, uint64_t *row_count) {
    uint32_t number = __real_rights_analyse(file, len, question, qlen, rows, r, verdict, pairs, values, row_count);
    if (number == 9 && changed("nine_forgotten")) return *verdict = RIGHTS_SAFE, 0;
    if (number != 0) return number;
    int leak = *verdict == RIGHTS_LEAK;
    if (leak && changed("leak_told_safe")) *verdict = RIGHTS_SAFE, *row_count = 0;
    if (leak && changed("leak_told_safe_with_rows")) *verdict = RIGHTS_SAFE;
    if (leak && changed("leak_told_none")) *verdict = RIGHTS_NONE;
    if (!leak && changed("safe_told_leak")) *verdict = RIGHTS_LEAK;
    if (!leak && changed("safe_told_stock_leak")) *verdict = RIGHTS_LEAK, *row_count = 1, rows[0] = rights_row(RIGHTS_ACCESS, 0, 0, 0);
    if (leak && (changed("row_changed") || changed("row_changed_and_believed"))) rows[0] ^= 1 << 8;
    if (leak && changed("row_spare_bit")) rows[0] ^= 1;
    if (leak && (changed("row_dropped") || changed("row_dropped_and_believed"))) *row_count -= 1;
    if (leak && changed("rows_too_many")) *row_count = RIGHTS_ROWS + 1;
    if (changed("one_pair_more")) *pairs += 1;
    if (changed("one_value_less")) *values -= 1;
    return number;
}

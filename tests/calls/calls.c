/* The library's calls on the counter file and on a few others, with answers worked out by hand from the paper (P1 to P5 among them): the numbers that
   are given, and what every lent part holds afterwards. Lent parts hold no two numbers alike before. The exit status is 1 where anything differs. */
#include <inttypes.h>
#include <stdio.h>
#include <string.h>

#include "rights.h"

/* the paper's counter file; a file of one user and one starting session, with no attribute, whose rule for opening is false and all others true */
static const uint8_t counter[33] = {0x11, 0x11, 0x00, 0x00, 0x80, 0x84, 0x08, 0x40, 0x08, 0x08, 0x06, 0x50, 0x00, 0x00, 0x65, 0x00, 0x00,
                                    0x05, 0x60, 0x28, 0x00, 0x62, 0x80, 0x80, 0x0E, 0x28, 0x08, 0x15, 0x82, 0x84, 0xC0, 0x00, 0x40};
static const uint8_t shut[23] = {0x00, 0x00, 0x82, 0x00, 0x80, 0x00, 0x10, 0x00, 0x00, 0x01, 0x10, 0x00,
                                 0x00, 0x11, 0x00, 0x00, 0x01, 0x10, 0x00, 0x00, 0x11, 0x00, 0x00};
/* two session sets of size 5; a user's code 3 of an atomic list of 3, with 3 attributes in all; atomic lists of 3 and 4 values in list 1 */
static const uint8_t wide[8] = {0x02, 0x00, 0x80, 0x00, 0x80, 0x94, 0x09, 0x40};
static const uint8_t code[10] = {0x21, 0x00, 0x80, 0x00, 0x80, 0x0C, 0x09, 0x80, 0x08, 0x0C};
static const uint8_t sizes[8] = {0x20, 0x00, 0x80, 0x00, 0x80, 0x0C, 0x21, 0x02};
static const uint8_t user_1[3] = {0x41, 0x80, 0x00}, user_0[3] = {0x40, 0x80, 0x00};

enum { SESSIONS, ITEMS, ROWS, PARTS, MOST = 16 };
static uint64_t lent[PARTS][MOST], next_session, next_item, verdict, pairs, values, count, done;
static int calls, wrong;

static uint64_t filling(int part, int i) { return UINT64_C(0xA5C3000000000000) + (uint64_t)(part * MOST + i); }

static void fill(void) {
    for (int p = 0; p < PARTS; p++)
        for (int i = 0; i < MOST; i++) lent[p][i] = filling(p, i);
    next_session = next_item = verdict = pairs = values = count = done = 99;
}

static void is(const char *what, uint64_t expected, uint64_t found) {
    if (expected != found) {
        printf("call %d, %s: expected %" PRIu64 ", found %" PRIu64 "\n", calls, what, expected, found);
        wrong++;
    }
}

/* from place `from` on a lent part is as it was */
static void kept(int part, size_t from) {
    for (int i = (int)from; i < MOST; i++) is("a place that no call may write", filling(part, i), lent[part][i]);
}

static void analyse(const uint8_t *file, size_t len, const uint8_t *question, size_t qlen, size_t room, uint32_t number, uint64_t v, uint64_t p,
                    uint64_t o) {
    calls++;
    fill();
    is("number", number, rights_analyse(file, len, question, qlen, lent[ROWS], room, &verdict, &pairs, &values, &count));
    is("the verdict, which held 99", v, verdict);
    is("pairs", p, pairs);
    is("values", o, values);
    if (v != RIGHTS_LEAK) is("rows", 0, count);
    kept(ROWS, count);
}

/* a number is given: there is no verdict */
static void refused(const uint8_t *file, size_t len, const uint8_t *question, size_t qlen, size_t room, uint32_t number) {
    analyse(file, len, question, qlen, room, number, RIGHTS_NONE, 0, 0);
}

static void replay(const uint8_t *file, size_t len, const uint8_t *question, size_t qlen, const uint64_t *rows, size_t r, size_t n, size_t m,
                   uint32_t number, size_t sessions, size_t items) {
    calls++;
    fill();
    is("number", number, rights_replay(file, len, question, qlen, rows, r, lent[SESSIONS], n, lent[ITEMS], m));
    kept(SESSIONS, sessions);
    kept(ITEMS, items);
}

static void steps(const uint8_t *file, size_t len, const uint64_t *rows, size_t r, uint32_t number, uint64_t carried) {
    calls++;
    is("number", number, rights_steps(file, len, lent[SESSIONS], MOST, lent[ITEMS], MOST, &next_session, &next_item, rows, r, &done));
    is("done", carried, done);
    kept(SESSIONS, 1);
    kept(ITEMS, 1);
}

/* reading, and how many bits it takes; a count that held another number */
static void read_bits(const uint8_t *file, size_t len, uint32_t number, uint64_t expected) {
    uint64_t bits = UINT64_MAX;
    calls += 2;
    is("number", number, rights_read(file, len));
    is("number beside the bits", number, rights_read_bits(file, len, &bits));
    is("bits", expected, bits);
}

/* the same of the counter file with one bit changed */
static void changed_bit(int bit, uint32_t number, uint64_t expected) {
    uint8_t file[sizeof counter];
    memcpy(file, counter, sizeof file);
    file[bit / 8] ^= (uint8_t)(128 >> bit % 8);
    read_bits(file, sizeof file, number, expected);
}

static void write_back(size_t room, uint32_t number, size_t expected) {
    static uint8_t out[64];
    size_t length = 99;
    calls++;
    memset(out, 0xAA, sizeof out);
    is("number", number, rights_write_back(counter, sizeof counter, out, room, &length));
    is("length", expected, length);
    for (size_t i = 0; i < sizeof out; i++) is("a byte", i < expected ? counter[i] : 0xAA, out[i]);
}

int main(void) {
    static const uint8_t others[4][3] = {{0x41, 0x80, 0x10}, {0x42, 0x80, 0x00}, {0x00, 0x80, 0x00}, {0x41, 0x80, 0x01}};
    const uint64_t leak[4] = {rights_row(RIGHTS_OPEN, 0, 0, 1), rights_row(RIGHTS_MAKE, 0, 0, 0), rights_row(RIGHTS_CHANGE_ITEM, 0, 0, 1),
                              rights_row(RIGHTS_ACCESS, 0, 0, 0)};
    const uint64_t unchanged[3] = {leak[0], leak[1], leak[3]};
    uint64_t found[MOST];
    uint8_t longer[36] = {0}, absent[sizeof shut];

    memcpy(longer, counter, sizeof counter);
    memcpy(absent, shut, sizeof absent);
    absent[5] = 0x10;

    /* the verdicts, by number: a host is built with these */
    is("the verdict none", 0, RIGHTS_NONE);
    is("the verdict safe", 1, RIGHTS_SAFE);
    is("the verdict leak", 2, RIGHTS_LEAK);

    /* the question; 9 rows are enough for widths 1 and 1, 8 are not, safe or leak */
    analyse(counter, 33, user_1, 3, 9, 0, RIGHTS_SAFE, 3, 2);
    refused(counter, 33, user_1, 3, 8, 11);
    refused(counter, 33, user_0, 3, 8, 11);
    refused(counter, 33, user_1, 2, 9, 10);
    for (int i = 0; i < 4; i++) refused(counter, 33, others[i], 3, 8, 10);
    refused(counter, 0, user_0, 3, 9, 1);
    refused(counter, 32, user_0, 3, 9, 1);
    refused(shut, sizeof shut, user_0, 2, 0, 9); /* 9 before 10 and 11 */
    analyse(counter, 33, user_0, 3, 9, 0, RIGHTS_LEAK, 3, 2);
    is("a leak has 1 to 9 rows", 1, count >= 1 && count <= 9);
    memcpy(found, lent[ROWS], sizeof found);
    replay(counter, 33, user_0, 3, found, count, MOST, MOST, 0, count, count);

    /* replay: P2, P3, P4; no rows; 10 before the start's 15, and never 9 */
    replay(counter, 33, user_0, 3, leak, 4, MOST, MOST, 0, 1, 1);
    is("the session's cell", 65537, lent[SESSIONS][0]);
    is("the item's cell", 65537, lent[ITEMS][0]);
    replay(counter, 33, user_0, 3, leak, 4, 1, 1, 0, 1, 1); /* cells that are just enough */
    replay(counter, 33, user_0, 3, unchanged, 3, MOST, MOST, 16, 1, 1);
    is("the item's cell", 65536, lent[ITEMS][0]);
    replay(counter, 33, user_1, 3, leak, 4, MOST, MOST, 17, 1, 1);
    replay(counter, 33, user_0, 3, leak, 0, 0, 0, 17, 0, 0);
    replay(counter, 33, user_0, 3, leak, 4, 0, MOST, 15, 0, 0);
    replay(counter, 33, user_0, 3, leak, 4, 1, 0, 15, 1, 0);
    replay(counter, 33, user_0, 2, leak, 4, MOST, MOST, 10, 0, 0);
    replay(shut, sizeof shut, others[2], 3, leak, 0, 0, 0, 15, 0, 0);
    replay(shut, sizeof shut, others[1], 3, leak, 0, 0, 0, 10, 0, 0);
    replay(shut, sizeof shut, others[2], 3, leak, 0, 1, 0, 17, 1, 0);
    is("the starting session's cell", 65536, lent[SESSIONS][0]);
    replay(counter, 32, user_0, 3, leak, 4, MOST, MOST, 1, 0, 0);

    /* many rows: the first two of three are carried out */
    fill();
    next_session = next_item = 0;
    steps(counter, 33, unchanged, 3, 16, 2);
    is("the next session number", 1, next_session);
    is("the next item number", 1, next_item);
    is("the session's cell", 65537, lent[SESSIONS][0]);
    is("the item's cell", 65536, lent[ITEMS][0]);
    steps(counter, 33, leak + 2, 2, 0, 2);
    is("the item's cell", 65537, lent[ITEMS][0]);
    steps(counter, 33, leak, 0, 0, 0);
    steps(counter, 32, leak, 4, 1, 0);
    steps(counter, 32, leak, 0, 1, 0);
    is("the next session number", 1, next_session);

    /* how many bits reading takes: with rules and with 1 all of them, else those up to the end of the field that was judged. The counter file has 40
       of head, 36 of attributes, 2 of users, then open session's count of 8 and its node of 20; 258 in all, and 6 of filling */
    for (size_t len = 0; len < 33; len++) read_bits(counter, len, 1, 8 * len);
    read_bits(counter, 33, 0, 264);
    changed_bit(0, 2, 4); /* 9 user attributes */
    changed_bit(12, 2, 17); /* 18 users */
    changed_bit(29, 2, 33); /* 9 permissions */
    for (int bit = 33; bit < 40; bit++) changed_bit(bit, 3, 40); /* the head's spare, one field */
    changed_bit(41, 4, 46); /* a set of 17 */
    changed_bit(46, 19, 106); /* list 16, which open session compares with list 0 */
    changed_bit(51, 3, 52); /* an attribute's last bit */
    changed_bit(74, 0, 264); /* list 1 of items alone */
    changed_bit(77, 0, 264); /* user 1 has {0} too */
    changed_bit(78, 8, 86); /* 129 nodes */
    changed_bit(87, 8, 106); /* operator 13 */
    for (int bit = 258; bit < 264; bit++) changed_bit(bit, 3, 264); /* the filling bits, one field */
    for (size_t len = 34; len <= 36; len++) read_bits(longer, len, 3, 264); /* bytes that follow are not taken */
    read_bits(wide, 8, 5, 64); /* after the class's two attributes */
    read_bits(wide, 7, 1, 56);
    read_bits(code, 10, 6, 78); /* after the first attribute's value, 2 bits */
    read_bits(code, 9, 1, 72);
    read_bits(sizes, 8, 18, 63); /* after the second attribute's list number */
    read_bits(sizes, 7, 1, 56);
    read_bits(shut, sizeof shut, 0, 184);
    read_bits(absent, sizeof absent, 7, 44); /* user 1 of 1: 40 of head and 4 */

    write_back(33, 0, 33);
    write_back(64, 0, 33);
    write_back(32, 11, 0);

    printf("%d calls, %d wrong\n", calls, wrong);
    return wrong != 0;
}

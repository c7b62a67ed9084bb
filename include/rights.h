/* The rights analyser as a library (librights_c.a, x86-64 Linux). Each call returns 0, or the number of what is wrong:

    1  a field of the file runs past its end         10  the question names what is absent or breaks its layout
    2  a head count out of range                     11  the rows, or the bytes to write to, are too few
    3  spare or filling bit set, or bytes follow     12  row kind unknown, spare bit set, or close with a value
    4  attribute size out of range                   13  actor, target or permission absent, closed, not the next number,
    5  a holder class wider than 8 bits                  or not its opener
    6  a value code not in its list                  14  new value not in the lists
    7  starting session of an absent user            15  no cell for the next number
    8  a formula that the rules don't allow          16  the formula is false
    9  a starting session its user could not         17  leak empty, or its last row is not a grant that fits the question
       open and then change into                     18  size differs from an earlier attribute of that list
                                                     19  compared attributes have different list numbers

   1 to 8, 18 and 19 are a file's numbers: the first in reading order is given, before all other numbers.
   A lent part is a pointer and then how many elements it has. No pointer is null, also where that number is 0, and no two lent parts overlap; all
   else may hold anything. The calls keep nothing between them and allocate nothing: two threads may call at the same time with parts of their own.
   A question is 3 bytes; a rule file is bytes; rows and cells are laid out below and in docs/CELLS.md. docs/HOST.md has more, with examples. */
#ifndef RIGHTS_H
#define RIGHTS_H

/* raised where the layout of a rule file, numbers, rows, cells or codes change: 2 has list numbers in rule files, with 18 and 19. What had no
   RIGHTS_VERSION was 1; files that it accepted read as they did. No call returns it. */
#define RIGHTS_VERSION 2

#include <stddef.h>
#include <stdint.h>

#ifdef __cplusplus
extern "C" {
#endif

/* the kinds of a row, with what actor, target and value are */
#define RIGHTS_OPEN 1           /* user, next session number, new value */
#define RIGHTS_CLOSE 2          /* user, session, 0 */
#define RIGHTS_CHANGE_SESSION 3 /* user, session, new value */
#define RIGHTS_MAKE 4           /* session, next item number, new value */
#define RIGHTS_CHANGE_ITEM 5    /* session, item, new value */
#define RIGHTS_ACCESS 6         /* session, item, permission */

/* the verdict of rights_analyse; a host says safe for RIGHTS_SAFE and for no other value, since what is no leak may also be refused */
#define RIGHTS_NONE 0 /* a number was given */
#define RIGHTS_SAFE 1 /* no run of any length grants what is asked */
#define RIGHTS_LEAK 2 /* some run does */

/* a row: kind in bits 63 to 60, actor in 59 to 40, target in 39 to 20, value in 19 to 8, zero below; each part is cut to its bits */
static inline uint64_t rights_row(uint64_t kind, uint64_t actor, uint64_t target, uint64_t value) {
    return (kind & 0xF) << 60 | (actor & 0xFFFFF) << 40 | (target & 0xFFFFF) << 20 | (value & 0xFFF) << 8;
}

/* the parts of a row */
static inline uint64_t rights_kind(uint64_t row) { return row >> 60; }
static inline uint64_t rights_actor(uint64_t row) { return row >> 40 & 0xFFFFF; }
static inline uint64_t rights_target(uint64_t row) { return row >> 20 & 0xFFFFF; }
static inline uint64_t rights_value(uint64_t row) { return row >> 8 & 0xFFF; }

/* Reads a rule file. 0: it is one. Else the file's number. Nothing is written. */
uint32_t rights_read(const uint8_t *file, size_t len);

/* Reads a rule file as rights_read does, and tells how many of its bits were taken.
   0: it is one, and `*bits` is 8 * len. Else the file's number: with 1 `*bits` is 8 * len; with another number the bits of all fields up to and
   including the one that was judged. The filling bits are one field; bytes after them give 3 and are not counted. */
uint32_t rights_read_bits(const uint8_t *file, size_t len, uint64_t *bits);

/* Reads a rule file and writes its rules back.
   0: the front of `out` holds the file's bytes, the rest of `out` is as it was, and `*length` is how many were written.
   Else the file's number, or 11 where `out` is shorter than the file: `out` is as it was, and `*length` is 0. */
uint32_t rights_write_back(const uint8_t *file, size_t len, uint8_t *out, size_t out_len, size_t *length);

/* Starts a live state: the cells of `n` sessions and of `m` items, and the next number of each.
   0: the front of `sessions` and of `items` holds the file's starting ones, all other cells are as they were, and the next numbers are how many
   there are of each. Else the file's number, or 15 where there are more of them than cells: nothing changes. */
uint32_t rights_start(const uint8_t *file, size_t len, uint64_t *sessions, size_t n, uint64_t *items, size_t m, uint64_t *next_session,
                      uint64_t *next_item);

/* Carries out one step on a live state, whatever it holds: a number is there if it is below the next number and its cell codes it within the rules.
   0: the step was carried out. Its target's cell holds what the step made of it, no other cell changes, and kinds 1 and 4 raise their next number
   by one. Else the file's number, then the first of 12 to 16 of the row: nothing changes. */
uint32_t rights_step(const uint8_t *file, size_t len, uint64_t *sessions, size_t n, uint64_t *items, size_t m, uint64_t *next_session,
                     uint64_t *next_item, uint64_t row);

/* Carries out `r` rows one after another, each as rights_step would, but reads the file once.
   0: all were carried out, and `*done` is r. Else it stopped: with the file's number, with rows or without, and `*done` is 0; or at the
   first row that gives a number, with that number, and `*done` is how many rows came before it. The cells and the next numbers are as those rows
   left them; the refused one changes nothing. */
uint32_t rights_steps(const uint8_t *file, size_t len, uint64_t *sessions, size_t n, uint64_t *items, size_t m, uint64_t *next_session,
                      uint64_t *next_item, const uint64_t *rows, size_t r, uint64_t *done);

/* Replays the rows of a leak from the file's start, in lent cells.
   0: each row was carried out, and the last is a grant that fits the question. Else the first of the file's number, 10, 15 where the starting ones
   outnumber the cells, 12 to 16 of the first row that is refused, or 17. With the file's number, 10 and the start's 15 the cells are as they were;
   otherwise they hold what ran: the start and all rows before the refused one. */
uint32_t rights_replay(const uint8_t *file, size_t len, const uint8_t *question, size_t qlen, const uint64_t *rows, size_t r, uint64_t *sessions,
                       size_t n, uint64_t *items, size_t m);

/* Answers a question of a file.
   0: `*verdict` is RIGHTS_SAFE where no run of any length grants what is asked, or RIGHTS_LEAK where some run does; `*pairs` is how many pairs of
   user and session value can be open after some run, `*values` how many values the asked item (or some item) can have. A leak has `*row_count` rows,
   which stand at the front of `rows` and replay in any cells that are enough; the rest of `rows` is as it was. Safe: `*row_count` is 0, and `rows` is
   as it was. Else the first of the file's number, 9, 10, or 11 where r is below 2^s + 2^o * (2^s + 1) + 1 (s and o the widths of a session's and an
   item's value, RIGHTS_ROWS at most): `*verdict` is RIGHTS_NONE, the other three are 0, whatever they held, and `rows` is as it was. */
uint32_t rights_analyse(const uint8_t *file, size_t len, const uint8_t *question, size_t qlen, uint64_t *rows, size_t r, uint64_t *verdict,
                        uint64_t *pairs, uint64_t *values, uint64_t *row_count);

/* so many rows are enough for rights_analyse, whatever the file */
#define RIGHTS_ROWS 66049

#ifdef __cplusplus
}
#endif

#endif

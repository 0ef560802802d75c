/* The check of a table a second time: the table's own smallest form beside the book's compiled one. */
#ifndef CANONICAL_H
#define CANONICAL_H

#include <stddef.h>
#include <stdint.h>

#include "generate.h"

enum { LONGEST_SHOWN = 1024 };

struct tags {
    uint8_t length, tag[MOST_HELD + 2];
};

/* A table whose states can be changed one by one. */
struct states {
    size_t tags, count;
    struct tags held[MOST_STATES], out[MOST_STATES][MOST_TAGS];
    uint16_t next[MOST_STATES][MOST_TAGS];
};

/* The bytes are those of a well-formed table. */
void read_states(const uint8_t *table, struct states *states);
size_t write_states(const struct states *states, uint8_t *table);
/* The smallest table that does the same: each state as early as can be, those that do the same as one, numbered as first reached. It is
   the only one of its kind, so two tables do the same exactly if theirs are equal. */
void make_canonical(struct states *states);
/* What the check answers, 256 for every no, and the work slice as it is left. */
uint64_t reference_check(const uint8_t *book, size_t book_len, uint8_t end, const uint8_t *table, size_t table_len, uint16_t *work,
                         size_t work_len, size_t out_len);

#endif

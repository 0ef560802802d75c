/* Slices lent to a call: guard bytes around each, or an inaccessible page right before or after it. */
#ifndef SLICES_H
#define SLICES_H

#include <stddef.h>
#include <stdint.h>

enum seat { AT_THE_END, AT_THE_START, IN_THE_MIDDLE, SEATS };

struct slice {
    uint8_t *low, *high; /* the accessible bytes */
    uint8_t *at;         /* the lent ones, NULL for a null pointer */
    size_t length;
    uint8_t salt;
};

void random_seed(uint64_t seed);
uint64_t random_bits(void);
/* A number below the limit. */
size_t random_below(size_t limit);
/* True once in so many calls. */
int one_in(size_t times);
void fill_random(void *bytes, size_t length);

/* Room for slices of at most this many bytes. */
struct slice make_slice(size_t most);
/* Lends so many bytes, at an address that 2, 4 or 8 divides where it divides the length; their content is left as it is. */
void lend(struct slice *slice, size_t length);
/* The guard bytes are as lending left them. */
int guards_kept(const struct slice *slice);

#endif

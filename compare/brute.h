/* The smallest table of a small book by trying: words told apart by what all tails up to a depth make of them. */
#ifndef BRUTE_H
#define BRUTE_H

#include "generate.h"

enum { BRUTE_STATES = 96, BRUTE_BYTES = 1 << 16 };

/* What the book's rules leave of the word, cut after each end tag (255 for none). */
void brute_rewrite(const struct made_book *book, unsigned end, uint8_t *word, size_t length);
/* Whether the translation transducer of the book (002, section 3.1), found by trying, is this table; a length of 0 stands for any table of
   more than BRUTE_STATES states. */
int brute_finds(const struct made_book *book, unsigned end, const uint8_t *table, size_t table_len);

#endif

/* Rules that fire everywhere: after a match, matching begins again behind its last tag. */
#ifndef EVERYWHERE_H
#define EVERYWHERE_H

#include <stddef.h>
#include <stdint.h>

#include "generate.h"

/* Sentences, results and numbers of states that were worked out by hand. */
void compare_everywhere_cases(void);
/* Every rule with a pattern out of 0 and 1, of both kinds, without an end tag, with one, and with a pattern that ends with it: the states
   of its table, and sentences in which the pattern meets itself, by the book, by the table and by trying. */
void compare_one_rules(void);
/* The longest sentences, full of matches. */
void compare_full_sentences(void);
/* Where the book has one rule, its table has as many states as the papers say. */
void check_one_rule(const struct made_book *book, unsigned end, const uint8_t *table);

#endif

/* The run of a book that tells each tag's rule. */
#ifndef RULES_H
#define RULES_H

#include <stddef.h>
#include <stdint.h>

/* The run with rule numbers and the run without: both answer the same, but for 11 where only the rules slice is short, and make the same
   of the sentence. Where a tag differs there is a number. The answer of the first. */
uint64_t compare_numbered(const uint8_t *book, size_t book_len, unsigned end, const uint8_t *sentence, size_t length, size_t out_len,
                          size_t rules_len);
/* Every book of two rules with at most two tags in a pattern, and every short sentence with an end tag that the rules don't use. */
void compare_two_rules(void);
/* Random books, both kinds of rules, valid and damaged; rules that meet at one place and undo one another. */
void compare_rules_books(size_t times);

#endif

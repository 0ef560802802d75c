/* End tags: compile and the run of a book with each of them. */
#ifndef ENDING_H
#define ENDING_H

#include <stddef.h>

/* Paragraphs, results and numbers of states that were worked out by hand. */
void compare_ending_cases(void);
/* Some books with each of the 256 numbers that an end tag may be given as. */
void compare_every_end(void);
/* All books of at most two rules with at most two tags in a pattern, over three tags, with each end tag: two get the same bytes exactly
   if they do the same. How many pairs do. */
size_t compare_ending_pairs(void);
/* Against tables found by trying words: how many were found. */
size_t compare_ending_tried(size_t times);
void compare_ending_books(size_t times);

#endif

/* Sets of tags in patterns (document 02, W9). */
#ifndef SETS_H
#define SETS_H

#include <stddef.h>

/* Cases worked out by hand, every byte of a set, and the largest work slice. */
void compare_set_cases(void);
/* Drawn books with sets, with end tags and limits, and damage to them. */
void compare_set_books(size_t times);

#endif

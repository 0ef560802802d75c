/* Calls with limits (document 02, W8). */
#ifndef LIMITS_H
#define LIMITS_H

#include <stddef.h>

/* Cases worked out by hand, and every number in place of a limit. */
void compare_limits_cases(void);
/* The header's helpers against document 02's formula. */
void compare_limits_helpers(void);
/* Books, tables and limits that are drawn; limits that do not fit are among them. */
void compare_limited_books(size_t times);
void compare_limited_tables(size_t times);

#endif

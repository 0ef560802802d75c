/* Tables that another has built, beside a book (document 02, W10). */
#ifndef CHECKING_H
#define CHECKING_H

#include <stddef.h>

/* Refusals in their order, all 256 states, and tables that differ on long sentences alone. */
void compare_check_cases(void);
/* Drawn books beside their own table, the same put together otherwise, tables with one fault, and others. */
void compare_checked_books(size_t times);

#endif

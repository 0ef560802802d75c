/* Sentences that are still typed: open, give, look and close, with any numbers and from an opening on. */
#ifndef TYPING_H
#define TYPING_H

#include <stddef.h>
#include <stdint.h>

/* The table, which may be damaged, with any three numbers, so many times. */
void compare_any_typed(const uint8_t *table, size_t table_len, size_t times);
/* The same, and so many sentences typed over a table that is well formed: what is put out is what the table's run makes of the tags taken,
   whatever lies between. */
void compare_typed_table(const uint8_t *table, size_t table_len, size_t times);
/* Sentences typed up to their last tag, and one tag more. */
void compare_longest_typed(size_t times);

#endif

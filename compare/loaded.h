/* Loaded tables: what was loaded from tables, the same damaged, and slices of numbers that no table gives. */
#ifndef LOADED_H
#define LOADED_H

#include <stddef.h>
#include <stdint.h>

/* Reads and loads the table into slices that are long enough and too short, and runs what was loaded so many times, whole, cut, with
   anything behind it and damaged. */
void compare_loaded_table(const uint8_t *table, size_t table_len, size_t times);
/* The loaded table and the table do the same of the sentence. */
void compare_loaded_sentence(const uint8_t *table, size_t table_len, const uint8_t *sentence, size_t length);
/* Each number of a small loaded table, replaced by what lies at some bound. */
void compare_every_number(void);
/* States that hold up to 254 tags, more than a table's can, so that words have up to 255. */
void compare_hoards(void);
void compare_random_numbers(size_t times);

#endif

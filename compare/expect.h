/* What was worked out by hand for a book with an end tag, 255 for none. The program ends where it isn't so. */
#ifndef EXPECT_H
#define EXPECT_H

#include <stddef.h>
#include <stdint.h>

/* What the book makes of a sentence and how many tags change, by its own run and by its table's. */
void expect_result(const char *book, size_t book_len, unsigned end, const char *from, const char *to, size_t length, size_t changed);
/* The states of its table: as many are enough, and one fewer are refused with 10 for the last rule. */
void expect_fewest(const char *book, size_t book_len, unsigned end, size_t states);
/* 14 from compile and from the run, before what comes after it. */
void expect_14(const char *book, size_t book_len, unsigned end);

/* The book with the end tag and its compiled table do the same of the sentence. */
void compare_with_table(const uint8_t *book, size_t book_len, unsigned end, const uint8_t *table, size_t table_len,
                        const uint8_t *sentence, size_t length);

#endif

#include "expect.h"

#include <string.h>

#include "calls.h"
#include "generate.h"

static uint8_t table[TABLE_ROOM], result[LONGEST_TRIED_SENTENCE];

void compare_with_table(const uint8_t *book, size_t book_len, unsigned end, const uint8_t *bytes, size_t table_len,
                        const uint8_t *sentence, size_t length)
{
    uint64_t by_book = compare_run_ending(book, book_len, end, sentence, length, length);

    if (by_book % 256 == 0 && length > 0)
        memcpy(result, last_out, length);
    if (compare_run(RUN_TABLE, bytes, table_len, sentence, length, length) != by_book)
        fail("the compiled table answers otherwise than its book with the end tag");
    if (by_book % 256 == 0 && length > 0 && memcmp(result, last_out, length) != 0)
        fail("the compiled table makes something else of the sentence than its book with the end tag");
}

/* The compiled table goes to table. */
static size_t compile_to_table(const uint8_t *book, size_t book_len, unsigned end)
{
    uint64_t answer = compare_compile_ending(book, book_len, end, 256, MOST_WORK, LONGEST_TABLE);

    if (answer % 256 != 0)
        fail("no table for a case that was worked out by hand");
    memcpy(table, last_out, answer / 256);
    return (size_t)(answer / 256);
}

void expect_result(const char *book, size_t book_len, unsigned end, const char *from, const char *to, size_t length, size_t changed)
{
    const uint8_t *bytes = (const uint8_t *)book, *sentence = (const uint8_t *)from;
    uint64_t answer = compare_run_ending(bytes, book_len, end, sentence, length, length);

    if (answer != changed * 256 || (length > 0 && memcmp(last_out, to, length) != 0))
        fail("not what the book makes of the sentence by hand");
    compare_with_table(bytes, book_len, end, table, compile_to_table(bytes, book_len, end), sentence, length);
}

void expect_fewest(const char *book, size_t book_len, unsigned end, size_t states)
{
    const uint8_t *bytes = (const uint8_t *)book;
    uint64_t rules = compare_read(READ_BOOK, bytes, book_len) / 256 % 256;

    if (compare_compile_ending(bytes, book_len, end, states, MOST_WORK, LONGEST_TABLE) % 256 != 0 || states_of(last_out) != states)
        fail("not the number of states of a case that was worked out by hand");
    if (states > 1 && compare_compile_ending(bytes, book_len, end, states - 1, MOST_WORK, 4096) != rules * 256 + 10)
        fail("a table with fewer states than by hand, or another rule with 10");
}

void expect_14(const char *book, size_t book_len, unsigned end)
{
    if (compare_compile_ending((const uint8_t *)book, book_len, end, 256, 0, 0) != 14 ||
        compare_compile_ending((const uint8_t *)book, book_len, end, 256, MOST_WORK, 4096) != 14 ||
        compare_run_ending((const uint8_t *)book, book_len, end, (const uint8_t *)"\xff", 1, 0) != 14)
        fail("not 14");
}

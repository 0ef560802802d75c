#include "starter.h"

#include <string.h>

#include "calls.h"
#include "expect.h"
#include "generate.h"
#include "slices.h"

enum { STARTER_TAGS = 48, LEAST_CEILING = 3, DRAWN_SENTENCES = 3000 };

static const struct made_book book = {STARTER_TAGS, 1, {{{0, 1}, 2, 1, 2, 0}}};
static uint8_t bytes[LONGEST_BOOK], table[NEDZSUKA_STARTER_BYTES], sentence[LONGEST_TRIED_SENTENCE];

static void compare_every_length(void)
{
    for (size_t length = 0; length < 2 * sizeof table; length++)
        if (compare_starter(length) != (length < sizeof table ? 11 : 256 * sizeof table))
            fail("another answer than document 02 says");
}

static void compare_every_ceiling(size_t book_len)
{
    for (size_t ceiling = LEAST_CEILING; ceiling <= MOST_STATES; ceiling++) {
        size_t entries = work_entries(ceiling, STARTER_TAGS, 1);
        if (compare_compile(bytes, book_len, ceiling, entries, sizeof table) != 256 * sizeof table ||
            memcmp(table, last_out, sizeof table) != 0)
            fail("the starter book's table isn't the starter table");
    }
    if (compare_compile(bytes, book_len, LEAST_CEILING - 1, work_entries(LEAST_CEILING, STARTER_TAGS, 1), sizeof table) != 256 + 10)
        fail("the starter book compiles at ceiling 2");
}

void compare_starter_table(void)
{
    size_t book_len = write_book(&book, bytes);

    compare_every_length();
    compare_starter(sizeof table);
    memcpy(table, last_out, sizeof table);
    compare_every_ceiling(book_len);
    for (size_t i = 0; i < DRAWN_SENTENCES; i++) {
        size_t length = some_length();
        sentence_for(sentence, length, &book);
        compare_with_table(bytes, book_len, NO_END, table, sizeof table, sentence, length);
    }
}

#include "ending.h"

#include <string.h>

#include "brute.h"
#include "calls.h"
#include "everywhere.h"
#include "expect.h"
#include "generate.h"
#include "rules.h"
#include "slices.h"

enum { PAIR_TAGS = 3, PAIR_RULES = 84, PAIR_BOOKS = 4 * (1 + PAIR_RULES + PAIR_RULES * PAIR_RULES), PAIR_LENGTH = 8 };

static uint8_t sentence[LONGEST_TRIED_SENTENCE], table[TABLE_ROOM];

/* ---- Cases ---- */

/* 0 1 -> 0 2, 0 3 -> 1 3 and 3 1 -> 3 2, each over four tags. */
static const char noun[] = "\x20\x04\x21\x01\x02\x22\x00\x22\x01", closing[] = "\x20\x04\x21\x00\x01\x22\x00\x22\x03";
static const char opening[] = "\x20\x04\x21\x01\x02\x22\x03\x22\x01", made[] = "\x20\x04\x21\x00\x03\x22\x01";
static const char noun_everywhere[] = "\x20\x04\x24\x01\x02\x22\x00\x22\x01";
static const char closing_everywhere[] = "\x20\x04\x24\x00\x01\x22\x00\x22\x03";

void compare_ending_cases(void)
{
    expect_result(noun, sizeof noun, 3, "\0\1\0\1\3\0\1\3\1\0\1\3", "\0\2\0\1\3\0\2\3\1\0\2\3", 12, 3); /* ends with the end tag */
    expect_result(noun, sizeof noun, 3, "\0\1\0\1\3\0\1\3\1\0\1", "\0\2\0\1\3\0\2\3\1\0\2", 11, 3);     /* and without it */
    expect_result(noun, sizeof noun, 3, "\0\1\0\1\0\1", "\0\2\0\1\0\1", 6, 1);                          /* none in the sentence */
    expect_result(noun, sizeof noun, 3, "\3\3\0\1\3\3\0\1", "\3\3\0\2\3\3\0\2", 8, 2);                  /* pieces of the end tag alone */
    expect_result(noun, sizeof noun, 3, "\0\3\1\0\1", "\0\3\1\0\2", 5, 1);                              /* no match across a full stop */
    expect_result(noun, sizeof noun, 3, "", "", 0, 0);
    expect_result(noun, sizeof noun, 3, "\3", "\3", 1, 0);
    expect_result(noun, sizeof noun, NO_END, "\0\1\0\1\3\0\1\3", "\0\2\0\1\3\0\1\3", 8, 1);
    expect_result(closing, sizeof closing, 3, "\0\0\3\0\3\1\0", "\0\1\3\1\3\1\0", 7, 2);
    expect_result("\x20\x04\x21\x01\x02\x22\x03\x22\x01", 10, 0, "\3\1\3\1\0\3\1", "\3\2\3\1\0\3\2", 7, 2); /* end tag 0 */
    expect_fewest(noun, sizeof noun, 3, 3);
    expect_fewest(noun, sizeof noun, NO_END, 3);
    expect_fewest(closing, sizeof closing, 3, 2);
    expect_fewest(closing, sizeof closing, 2, 3);
    expect_fewest(closing, sizeof closing, NO_END, 3);
    expect_fewest("\x20\x04", 3, 3, 1);
    expect_14(noun, sizeof noun, 4);
    expect_14(noun, sizeof noun, 254);
    expect_14(noun, sizeof noun, 1);       /* the tag that is changed */
    expect_14(noun, sizeof noun, 2);       /* the new one */
    expect_14(made, sizeof made, 3);       /* made, and nowhere else */
    expect_14(opening, sizeof opening, 3); /* before the last place, and nowhere else */
    expect_14("\x20\x02", 3, 2);
    if (compare_compile_ending((const uint8_t *)noun, sizeof noun, 4, 0, 0, 0) != 8 ||
        compare_compile_ending((const uint8_t *)noun, 4, 4, 1, 0, 0) != 1 ||
        compare_compile_ending((const uint8_t *)noun, sizeof noun, 3, 1, 0, 0) != 9 ||
        compare_run_ending((const uint8_t *)noun, sizeof noun, 3, (const uint8_t *)"\4", 1, 0) != 4)
        fail("refusals in another order");
}

void compare_every_end(void)
{
    static const uint8_t tags[] = {0, 1, 3, 0, 1, 2, 2, 0, 3, 3, 0, 1};
    static const char *const books[] = {noun, closing, opening, noun_everywhere, closing_everywhere};

    for (size_t i = 0; i < sizeof books / sizeof *books; i++)
        for (unsigned end = 0; end < 256; end++) {
            const uint8_t *book = (const uint8_t *)books[i];
            uint64_t answer = compare_compile_ending(book, sizeof noun, end, 3, work_entries(3, 4, 1), 400);
            if ((answer % 256 == 14) != (compare_numbered(book, sizeof noun, end, tags, sizeof tags, sizeof tags, sizeof tags) == 14))
                fail("14 from one of compile and run alone");
        }
}

/* ---- Books that do the same ---- */

struct pair_book {
    uint64_t behavior;
    size_t table_len;
    uint8_t table[400];
};

static size_t pair_rules(struct made_rule *rules)
{
    size_t count = 0;

    for (uint8_t length = 1; length <= 2; length++)
        for (uint8_t pattern = 0; pattern < (length == 1 ? PAIR_TAGS : PAIR_TAGS * PAIR_TAGS); pattern++)
            for (uint8_t place = 0; place < length; place++)
                for (uint8_t step = 1; step < PAIR_TAGS; step++) {
                    struct made_rule rule = {{(uint8_t)(pattern % PAIR_TAGS), (uint8_t)(pattern / PAIR_TAGS)}, length, place, 0, 0};
                    rule.new_tag = (uint8_t)((rule.pattern[place] + step) % PAIR_TAGS);
                    rules[count++] = rule;
                    rule.everywhere = 1;
                    rules[count++] = rule;
                }
    return count;
}

/* What a book with the end tag makes of every sentence of at most PAIR_LENGTH tags, as one number. */
static uint64_t behavior_mark(const struct made_book *book, unsigned end)
{
    uint64_t mark = 14695981039346656037u;
    uint8_t word[PAIR_LENGTH];

    for (size_t length = 0, words = 1; length <= PAIR_LENGTH; length++, words *= PAIR_TAGS)
        for (size_t number = 0; number < words; number++) {
            for (size_t i = 0, rest = number; i < length; i++, rest /= PAIR_TAGS)
                word[i] = (uint8_t)(rest % PAIR_TAGS);
            brute_rewrite(book, end, word, length);
            for (size_t i = 0; i < length; i++)
                mark = (mark ^ word[i]) * 1099511628211u;
        }
    return mark;
}

static size_t add_pair_book(const struct made_book *book, unsigned end, struct pair_book *made_so_far, size_t count)
{
    uint8_t bytes[LONGEST_BOOK];
    size_t length = write_book(book, bytes);
    uint64_t answer = compare_compile_ending(bytes, length, end, 40, work_entries(40, PAIR_TAGS, 2), sizeof made_so_far->table);

    if (answer % 256 == 14)
        return count;
    if (answer % 256 != 0)
        fail("no table for a book of two short rules");
    made_so_far[count].behavior = behavior_mark(book, end);
    made_so_far[count].table_len = answer / 256;
    memcpy(made_so_far[count].table, last_out, answer / 256);
    return count + 1;
}

static size_t compare_each_pair(const struct pair_book *books, size_t count)
{
    size_t alike = 0;

    for (size_t i = 0; i < count; i++)
        for (size_t j = 0; j < i; j++) {
            int same_bytes = books[i].table_len == books[j].table_len &&
                             memcmp(books[i].table, books[j].table, books[i].table_len) == 0;
            if (same_bytes != (books[i].behavior == books[j].behavior))
                fail(same_bytes ? "two books that differ with their end tags get the same bytes"
                                : "two books that do the same with their end tags get different bytes");
            alike += (size_t)same_bytes;
        }
    return alike;
}

size_t compare_ending_pairs(void)
{
    static struct pair_book books[PAIR_BOOKS];
    static const unsigned ends[] = {NO_END, 0, 1, 2};
    struct made_rule rules[PAIR_RULES];
    size_t all = pair_rules(rules), count = 0;

    for (size_t i = 0; i <= all; i++)
        for (size_t j = 0; j <= (i == 0 ? 0 : all); j++) {
            struct made_book book = {PAIR_TAGS, (uint8_t)((i > 0) + (j > 0)), {{{0}, 0, 0, 0, 0}}};
            if (i > 0)
                book.rule[0] = rules[i - 1];
            if (j > 0)
                book.rule[1] = rules[j - 1];
            for (size_t end = 0; end < sizeof ends / sizeof *ends; end++)
                count = add_pair_book(&book, ends[end], books, count);
        }
    return compare_each_pair(books, count);
}

/* ---- Random books ---- */

static size_t some_work(size_t needed)
{
    return one_in(4) ? needed - 1 - random_below(2) : needed + (one_in(4) ? random_below(900) : 0);
}

static struct made_book some_book(void)
{
    switch (random_below(4)) {
    case 0:
        return random_book(3 + random_below(2), random_below(4), 5);
    case 1:
        return random_book(3 + random_below(4), random_below(7), 2);
    case 2:
        return holding_book(3 + random_below(8), 2 + random_below(3), 2 + random_below(4));
    default:
        return random_book(3 + random_below(one_in(20) ? 46 : 8), random_below(5), 3);
    }
}

static void compare_around_states(const uint8_t *bytes, size_t length, unsigned end, const struct made_book *book, size_t table_len)
{
    size_t states = states_of(table), needed = work_entries(states, book->tags, book->rules);

    compare_compile_ending(bytes, length, end, states, needed, table_len);
    compare_compile_ending(bytes, length, end, states, some_work(needed), some_room(table_len));
    if (states > 1 && compare_compile_ending(bytes, length, end, states - 1, needed, table_len) % 256 != 10)
        fail("a table with fewer states than the smallest");
}

static void compare_ending_book(struct made_book *book)
{
    uint8_t bytes[LONGEST_BOOK];
    unsigned end = some_end(book);
    size_t length = write_book(book, bytes);
    uint64_t answer = compare_compile_ending(bytes, length, end, 256, work_entries(256, book->tags, book->rules), 60000);

    if (answer % 256 == 0) {
        memcpy(table, last_out, answer / 256);
        check_one_rule(book, end, table);
        compare_around_states(bytes, length, end, book, answer / 256);
    }
    for (int times = 0; times < 6; times++) {
        size_t count = some_length();
        paragraph_for(sentence, count, book, end);
        if (answer % 256 == 0)
            compare_with_table(bytes, length, end, table, answer / 256, sentence, count);
        compare_run_ending(bytes, length, end, sentence, count, some_room(count));
    }
    if (end == NO_END && compare_compile(bytes, length, 256, work_entries(256, book->tags, book->rules), 60000) != answer)
        fail("another answer without an end tag than with 255");
}

static void compare_damaged_ending(struct made_book *book)
{
    uint8_t bytes[LONGEST_BOOK + DAMAGED_ROOM];
    unsigned end = some_end(book);
    size_t length = damage(bytes, write_book(book, bytes)), count = random_below(20);

    compare_compile_ending(bytes, length, end, random_below(5), work_entries(4, 48, 3), 600);
    paragraph_for(sentence, count, book, end);
    compare_run_ending(bytes, length, end, sentence, count, some_room(count));
}

static void compare_long_paragraph(struct made_book *book)
{
    uint8_t bytes[LONGEST_BOOK];
    unsigned end = some_end(book);
    size_t length = write_book(book, bytes), count = some_great_length();

    long_paragraph(sentence, count, book, end);
    compare_run_ending(bytes, length, end, sentence, count, count - random_below(2));
}

void compare_ending_books(size_t times)
{
    while (times-- > 0) {
        struct made_book book = some_book(), damaged = some_book();
        compare_ending_book(&book);
        for (int i = 0; i < 4; i++)
            compare_damaged_ending(&damaged);
        if (one_in(40))
            compare_long_paragraph(&book);
    }
}

size_t compare_ending_tried(size_t times)
{
    size_t found = 0;

    while (times-- > 0) {
        struct made_book book = random_book(3, 1 + random_below(2), 3);
        uint8_t bytes[LONGEST_BOOK];
        unsigned end = some_end(&book);
        size_t length = write_book(&book, bytes), needed = work_entries(BRUTE_STATES, 3, book.rules);
        uint64_t answer = compare_compile_ending(bytes, length, end, BRUTE_STATES, needed, BRUTE_BYTES);
        if (answer % 256 == 14)
            continue;
        if (answer % 256 != 0 || !brute_finds(&book, end, last_out, answer / 256))
            fail("another table than trying words with an end tag gives");
        found++;
    }
    return found;
}

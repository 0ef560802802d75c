#include "everywhere.h"

#include <string.h>

#include "brute.h"
#include "calls.h"
#include "expect.h"
#include "loaded.h"
#include "slices.h"

enum { LONGEST_SENTENCE = 65535, ROW = 40, ONE_RULE_BYTES = 1200, ALL_RULES = 1284 };

static uint8_t sentence[LONGEST_SENTENCE], table[ONE_RULE_BYTES];

/* ---- The states of one rule's table ---- */

/* One for each tag of the pattern; once: one more, where the pattern doesn't end with the end tag. */
static size_t one_rule_states(const struct made_rule *rule, unsigned end)
{
    if (rule->everywhere || rule->pattern[rule->length - 1] == end)
        return rule->length;
    return rule->length + 1u;
}

void check_one_rule(const struct made_book *book, unsigned end, const uint8_t *bytes)
{
    if (book->rules == 1 && states_of(bytes) != one_rule_states(&book->rule[0], end))
        fail("the table of one rule hasn't the states that the papers say");
}

/* ---- Cases ---- */

/* 0 0 -> 1 0, everywhere and once, 0 1 0 -> 0 2 0 and 0 -> 1. */
static const char twice[] = "\x20\x02\x24\x00\x01\x22\x00\x22\x00", once[] = "\x20\x02\x21\x00\x01\x22\x00\x22\x00";
static const char bordered[] = "\x20\x03\x24\x01\x02\x22\x00\x22\x01\x22\x00", single[] = "\x20\x02\x24\x00\x01\x22\x00";
/* 0 -> 1 everywhere and 1 -> 0 once, in both orders. */
static const char all_then_once[] = "\x20\x02\x24\x00\x01\x22\x00\x21\x00\x00\x22\x01";
static const char once_then_all[] = "\x20\x02\x21\x00\x00\x22\x01\x24\x00\x01\x22\x00";
/* Over three tags, 2 being the full stop: 0 0 -> 1 0, 0 2 -> 1 2, and what gives 14. */
static const char inside[] = "\x20\x03\x24\x00\x01\x22\x00\x22\x00", closing[] = "\x20\x03\x24\x00\x01\x22\x00\x22\x02";
static const char opening[] = "\x20\x03\x24\x01\x01\x22\x02\x22\x00", making[] = "\x20\x03\x24\x00\x02\x22\x00";

static void compare_cases_of_one(void)
{
    expect_result(twice, sizeof twice, NO_END, "\0\0\0", "\1\0\0", 3, 1);
    expect_result(twice, sizeof twice, NO_END, "\0\0\0\0", "\1\0\1\0", 4, 2);
    expect_result(twice, sizeof twice, NO_END, "\0\0\0\0\0", "\1\0\1\0\0", 5, 2);
    expect_result(twice, sizeof twice, NO_END, "\0\0\0\1\0\0", "\1\0\0\1\1\0", 6, 2);
    expect_result(twice, sizeof twice, NO_END, "\0", "\0", 1, 0);
    expect_result(twice, sizeof twice, NO_END, "", "", 0, 0);
    expect_result(once, sizeof once, NO_END, "\0\0\0\0", "\1\0\0\0", 4, 1);
    expect_result(bordered, sizeof bordered, NO_END, "\0\1\0\1\0", "\0\2\0\1\0", 5, 1);
    expect_result(bordered, sizeof bordered, NO_END, "\0\1\0\1\0\1\0", "\0\2\0\1\0\2\0", 7, 2);
    expect_result(bordered, sizeof bordered, NO_END, "\0\1\0\0\1\0", "\0\2\0\0\2\0", 6, 2);
    expect_result(single, sizeof single, NO_END, "\0\1\0\0", "\1\1\1\1", 4, 3);
    expect_fewest(twice, sizeof twice, NO_END, 2);
    expect_fewest(once, sizeof once, NO_END, 3);
    expect_fewest(bordered, sizeof bordered, NO_END, 3);
    expect_fewest(single, sizeof single, NO_END, 1);
}

static void compare_cases_with_end(void)
{
    expect_result(inside, sizeof inside, 2, "\0\2\0\0\0\2\0\0", "\0\2\1\0\0\2\1\0", 8, 2);
    expect_result(inside, sizeof inside, 2, "\0\0\0\0\2\0\0\0", "\1\0\1\0\2\1\0\0", 8, 3);
    expect_result(closing, sizeof closing, 2, "\0\2\0\2\0", "\1\2\1\2\0", 5, 2);
    expect_result(closing, sizeof closing, NO_END, "\0\2\0\2\0", "\1\2\1\2\0", 5, 2);
    expect_fewest(inside, sizeof inside, 2, 2);
    expect_fewest(closing, sizeof closing, 2, 2);
    expect_fewest(closing, sizeof closing, NO_END, 2);
    expect_14(opening, sizeof opening, 2);
    expect_14(making, sizeof making, 2);
    expect_14(inside, sizeof inside, 0); /* changed */
    expect_14(inside, sizeof inside, 3);
}

void compare_everywhere_cases(void)
{
    compare_cases_of_one();
    compare_cases_with_end();
    expect_result(all_then_once, sizeof all_then_once, NO_END, "\0\1\0", "\0\1\1", 3, 1);
    expect_result(once_then_all, sizeof once_then_all, NO_END, "\0\1\0", "\1\1\1", 3, 2);
    expect_fewest(all_then_once, sizeof all_then_once, NO_END, 2);
    expect_fewest("\x20\x02\x24\x00\x01\x22\x00\x24\x00\x00\x22\x01", 13, NO_END, 1);
}

/* ---- Every rule ---- */

/* The first tags of the pattern again and again; with an end tag, it stands behind every so many. */
static void fill_row(const struct made_rule *rule, size_t period, unsigned end, size_t every)
{
    for (size_t i = 0; i < ROW; i++)
        sentence[i] = end != NO_END && i % every == every - 1 ? (uint8_t)end : rule->pattern[i % period];
}

static void compare_rows(const struct made_book *book, unsigned end, const uint8_t *bytes, size_t length, size_t table_len)
{
    uint8_t tried[ROW];

    for (size_t period = 1; period <= book->rule[0].length; period++) {
        fill_row(&book->rule[0], period, end, 2 + random_below(12));
        memcpy(tried, sentence, ROW);
        brute_rewrite(book, end, tried, ROW);
        compare_with_table(bytes, length, end, table, table_len, sentence, ROW);
        if (memcmp(tried, last_out, ROW) != 0)
            fail("not what trying every place makes of a row");
        for (int times = 0; times < 2; times++)
            compare_with_table(bytes, length, end, table, table_len, sentence, random_below(ROW));
    }
}

static void compare_one_rule(const struct made_book *book, unsigned end)
{
    uint8_t bytes[LONGEST_BOOK];
    size_t length = write_book(book, bytes), states = one_rule_states(&book->rule[0], end);
    uint64_t answer = compare_compile_ending(bytes, length, end, states, work_entries(states, book->tags, 1), ONE_RULE_BYTES);

    if (answer % 256 != 0)
        fail("no table of one rule with as many states as the papers say");
    memcpy(table, last_out, answer / 256);
    check_one_rule(book, end, table);
    if (states > 1 &&
        compare_compile_ending(bytes, length, end, states - 1, work_entries(states - 1, book->tags, 1), ONE_RULE_BYTES) != 256 + 10)
        fail("a table of one rule with fewer states than the papers say");
    compare_rows(book, end, bytes, length, (size_t)(answer / 256));
}

/* Without an end tag and with one; then with this tag at the end of the pattern, as the end tag and as any other. */
static void compare_uses(struct made_rule rule)
{
    struct made_book book = {2, 1, {rule}};

    compare_one_rule(&book, NO_END);
    book.tags = 3;
    compare_one_rule(&book, 2);
    if (rule.length == LONGEST_PATTERN)
        return;
    book.rule[0].pattern[book.rule[0].length++] = 2;
    compare_one_rule(&book, 2);
    compare_one_rule(&book, NO_END);
}

void compare_one_rules(void)
{
    static struct made_rule rules[ALL_RULES];

    for (size_t i = 0, all = all_rules(rules, LONGEST_PATTERN); i < all; i++)
        compare_uses(rules[i]);
}

/* ---- The longest sentences ---- */

/* A pattern of zeros over zeros: as many changes as there is room for. */
void compare_full_sentences(void)
{
    memset(sentence, 0, sizeof sentence);
    for (uint8_t length = 1; length <= LONGEST_PATTERN; length++) {
        struct made_book book = {2, 1, {{{0}, length, (uint8_t)random_below(length), 1, 1}}};
        uint8_t bytes[LONGEST_BOOK];
        size_t count = write_book(&book, bytes), tags = LONGEST_SENTENCE - random_below(7), table_len;
        table_len = (size_t)(compare_compile(bytes, count, length, work_entries(length, 2, 1), ONE_RULE_BYTES) / 256);
        memcpy(table, last_out, table_len);
        if (compare_run(RUN_BOOK, bytes, count, sentence, LONGEST_SENTENCE, LONGEST_SENTENCE) != LONGEST_SENTENCE / length * 256u)
            fail("not every match of the longest sentence is rewritten");
        compare_with_table(bytes, count, NO_END, table, table_len, sentence, tags);
        compare_loaded_sentence(table, table_len, sentence, tags);
    }
}

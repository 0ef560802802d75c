#include "limits.h"

#include <string.h>

#include "calls.h"
#include "generate.h"
#include "nedzsuka.h"
#include "slices.h"

/* Of drawn books: work and output slices are filled anew for each call. */
enum { MOST_CEILING = 48, MOST_BYTES = 60000 };

static const struct limits standard = {6, 16, 48}, widest = {8, 16, 48};

static uint8_t sentence[LONGEST_TRIED_SENTENCE], result[LONGEST_TRIED_SENTENCE], table[TABLE_ROOM], bytes[TABLE_ROOM];

static int in_range(struct limits limits)
{
    return limits.pattern >= 1 && limits.pattern <= 8 && limits.rules >= 1 && limits.rules <= 16 && limits.tags >= 2 &&
           limits.tags <= 48;
}

/* The entries that the limits ask for; 1 where they are out of range. */
static size_t work_for(struct limits limits, size_t ceiling, const struct made_book *book)
{
    return in_range(limits) ? work_entries_within((size_t)limits.pattern, ceiling, book->tags, book->rules) : 1;
}

/* ---- Cases worked out by hand ---- */

static void expect_compiled(struct limits limits, const struct made_book *book, size_t ceiling, uint64_t refusal)
{
    uint8_t written[LONGEST_BOOK];
    size_t length = write_book(book, written);

    if (compare_compile_within(limits, written, length, NO_END, ceiling, work_for(limits, ceiling, book), 4096) % 256 != refusal)
        fail("not the refusal that document 02 gives for these limits");
    compare_run_within(RUN_BOOK_WITHIN, limits, written, length, NO_END, (const uint8_t *)"\0\0\1", 3, 3);
}

/* 0 .. 0 to 1 0 .. 0, so many tags: as many states and one more. */
static struct made_book zeros(uint8_t length)
{
    struct made_book book = {2, 1, {{{0}, 0, 0, 1, 0}}};

    book.rule[0].length = length;
    return book;
}

static void compare_pattern_limits(void)
{
    uint8_t nine[] = {0x20, 2, 0x21, 0, 1, 0x22, 0, 0x22, 0, 0x22, 0, 0x22, 0, 0x22, 0, 0x22, 0, 0x22, 0, 0x22, 0, 0x22, 0, 0x00};

    for (uint8_t most = 1; most <= WIDEST_PATTERN; most++)
        for (uint8_t length = 1; length <= WIDEST_PATTERN; length++) {
            struct made_book book = zeros(length);
            struct limits limits = {most, 1, 2};
            expect_compiled(limits, &book, length + 1u, length <= most ? 0 : 3);
            if (length <= most)
                expect_compiled(limits, &book, length, 10);
        }
    if (compare_compile_within(widest, nine, sizeof nine, NO_END, 16, 60000, 4096) != 3)
        fail("a ninth tag of a pattern is taken");
}

static void compare_rule_limits(void)
{
    for (uint8_t most = 1; most <= MOST_RULES; most++)
        for (uint8_t rules = 0; rules <= MOST_RULES; rules++) {
            struct made_book book = random_book(2, rules, 1);
            struct limits limits = {1, most, 2};
            expect_compiled(limits, &book, 256, rules <= most ? 0 : 7);
        }
}

static void compare_tag_limits(void)
{
    for (uint8_t most = 2; most <= MOST_TAGS; most++)
        for (uint8_t tags = 2; tags <= MOST_TAGS; tags++) {
            struct made_book book = random_book(tags, 1, 2);
            struct limits limits = {2, 1, most};
            expect_compiled(limits, &book, 3, tags <= most ? 0 : 2);
        }
}

/* 17 comes before 8, the book's refusals, 14, 9 and 11, and before 12, 13 and 4. */
static void expect_17(struct limits limits)
{
    static uint8_t longer[LONGEST_TRIED_SENTENCE];

    if (compare_compile_within(limits, (const uint8_t *)"", 0, 77, 0, 0, 0) != 17 ||
        compare_compile_within(limits, (const uint8_t *)"\x20\x02", 3, NO_END, 1, 4096, 4096) != 17 ||
        compare_run_within(RUN_BOOK_WITHIN, limits, (const uint8_t *)"", 0, 77, longer, sizeof longer, 0) != 17 ||
        compare_run_within(RUN_TABLE_WITHIN, limits, (const uint8_t *)"", 0, 77, longer, sizeof longer, 0) != 17)
        fail("not 17");
}

static void compare_ranges(void)
{
    static const uint64_t out[] = {0, 49, 64, 255, 256, 257, 65536 + 6, UINT64_C(1) << 32, (UINT64_C(1) << 32) + 6, UINT64_MAX};
    uint64_t some;

    for (size_t i = 0; i < sizeof out / sizeof *out; i++)
        for (int limit = 0; limit < 3; limit++) {
            struct limits limits = standard;
            *(limit == 0 ? &limits.pattern : limit == 1 ? &limits.rules : &limits.tags) = out[i];
            expect_17(limits);
        }
    for (some = 0; some < 64; some++) {
        struct limits pattern = {some, 16, 48}, rules = {6, some, 48}, tags = {6, 16, some};
        struct made_book book = zeros(1);
        expect_compiled(pattern, &book, 2, some >= 1 && some <= 8 ? 0 : 17);
        expect_compiled(rules, &book, 2, some >= 1 && some <= 16 ? 0 : 17);
        expect_compiled(tags, &book, 2, some >= 2 && some <= 48 ? 0 : 17);
    }
}

/* Tables that hold up to 113 tags: those above (L - 1) * 16 are not well formed. */
static void compare_held_limits(void)
{
    for (uint64_t pattern = 1; pattern <= WIDEST_PATTERN; pattern++)
        for (size_t held = 0; held <= WIDEST_HELD + 1; held++) {
            struct limits limits = {pattern, 1, 3};
            size_t length = random_table(3, 4, 0, held, bytes);
            uint64_t answer = compare_run_within(RUN_TABLE_WITHIN, limits, bytes, length, NO_END, (const uint8_t *)"\0\1\2", 3, 3);
            if ((answer % 256 == 12) != (held > (pattern - 1) * 16))
                fail("the held tags are not bounded by the limit");
        }
}

/* Work slices that are just long enough, and one entry short. */
static void compare_work_limits(void)
{
    for (uint64_t pattern = 1; pattern <= WIDEST_PATTERN; pattern++)
        for (size_t rules = 0; rules <= 4; rules++) {
            struct made_book book = random_book(3, rules, (size_t)pattern);
            struct limits limits = {pattern, 4, 3};
            uint8_t written[LONGEST_BOOK];
            size_t length = write_book(&book, written), entries = work_entries_within((size_t)pattern, 40, 3, rules);
            if (compare_compile_within(limits, written, length, NO_END, 40, entries - 1, 4096) != 9 ||
                compare_compile_within(limits, written, length, NO_END, 40, entries, 4096) % 256 == 9)
                fail("not the work entries of document 02");
        }
}

/* ababb to abbbb: the same bytes with all limits that allow it, 3 with all others. */
static void compare_same_bytes(void)
{
    static const uint8_t ababb[] = {0x20, 2, 0x21, 2, 1, 0x22, 0, 0x22, 1, 0x22, 0, 0x22, 1, 0x22, 1, 0x00};
    uint64_t expected = compare_compile(ababb, sizeof ababb, 6, work_entries(6, 2, 1), 4096);
    struct limits limits;

    memcpy(table, last_out, (size_t)(expected / 256));
    for (limits.pattern = 1; limits.pattern <= 8; limits.pattern++)
        for (limits.rules = 1; limits.rules <= 16; limits.rules++)
            for (limits.tags = 2; limits.tags <= 48; limits.tags++) {
                size_t entries = work_entries_within((size_t)limits.pattern, 6, 2, 1);
                uint64_t answer = compare_compile_within(limits, ababb, sizeof ababb, NO_END, 6, entries, 4096);
                if (limits.pattern < 5 ? answer != 3 : answer != expected || memcmp(last_out, table, (size_t)(answer / 256)) != 0)
                    fail("ababb has another table with other limits");
            }
}

/* Rules each of which waits behind seven zeros for what the one before makes, everywhere: after n zeros the table holds as many, up to seven for
   each rule. So with twelve rules and more it is no table with L 6. */
static void compare_long_holds(void)
{
    struct made_book book = {MOST_RULES + 2, 0, {{{0}, 0, 0, 0, 0}}};
    uint8_t written[LONGEST_BOOK];

    memset(sentence, 0, 200);
    for (book.rules = 1; book.rules <= MOST_RULES; book.rules++) {
        struct made_rule rule = {{0, 0, 0, 0, 0, 0, 0, book.rules}, WIDEST_PATTERN, 0, (uint8_t)(book.rules + 1), 1};
        struct limits least = {WIDEST_PATTERN, book.rules, MOST_RULES + 2};
        size_t length, held = 7 * (size_t)book.rules, entries = work_entries_within(8, held + 1, MOST_RULES + 2, book.rules);
        uint64_t answer;
        book.rule[book.rules - 1] = rule;
        length = write_book(&book, written);
        answer = compare_compile_within(least, written, length, NO_END, held + 1, entries, WIDEST_TABLE);
        if (answer % 256 != 0 || states_of(last_out) != held + 1)
            fail("not a state for each number of zeros");
        memcpy(table, last_out, (size_t)(answer / 256));
        if (compare_run_within(RUN_TABLE_WITHIN, least, table, (size_t)(answer / 256), NO_END, sentence, 200, 200) != 0)
            fail("a compiled table is not well formed with its limits");
        answer = compare_run_within(RUN_TABLE_WITHIN, standard, table, (size_t)(answer / 256), NO_END, sentence, 200, 200);
        if (answer != (held > MOST_HELD ? 12 : 0))
            fail("the held tags of a compiled table are not bounded by the limit");
    }
}

void compare_limits_cases(void)
{
    compare_pattern_limits();
    compare_rule_limits();
    compare_tag_limits();
    compare_ranges();
    compare_held_limits();
    compare_work_limits();
    compare_same_bytes();
    compare_long_holds();
}

void compare_limits_helpers(void)
{
    for (size_t pattern = 1; pattern <= WIDEST_PATTERN; pattern++)
        for (size_t ceiling = 1; ceiling <= 256; ceiling += 5)
            for (size_t tags = 2; tags <= 48; tags++)
                for (size_t rules = 0; rules <= 16; rules++)
                    if (nedzsuka_work_entries_within(pattern, 16, 48, ceiling, tags, rules, 0) !=
                        work_entries_within(pattern, ceiling, tags, rules))
                        fail("nedzsuka_work_entries_within differs from document 02");
    if (nedzsuka_work_entries_within(0, 16, 48, 1, 2, 1, 0) || nedzsuka_work_entries_within(9, 16, 48, 1, 2, 1, 0) ||
        nedzsuka_work_entries_within(8, 0, 48, 1, 2, 0, 0) || nedzsuka_work_entries_within(8, 17, 48, 1, 2, 1, 0) ||
        nedzsuka_work_entries_within(8, 16, 1, 1, 1, 1, 0) || nedzsuka_work_entries_within(8, 16, 49, 1, 2, 1, 0) ||
        nedzsuka_work_entries_within(8, 2, 48, 1, 2, 3, 0) || nedzsuka_work_entries_within(8, 2, 4, 1, 5, 1, 0) ||
        nedzsuka_work_entries_within(UINT64_MAX, 2, 4, 1, 3, 1, 0))
        fail("nedzsuka_work_entries_within isn't 0 outside the bounds");
    if (nedzsuka_work_entries_within(8, 16, 48, 256, 48, 16, 0) != WIDEST_WORK || (size_t)NEDZSUKA_WIDEST_WORK != WIDEST_WORK ||
        nedzsuka_table_bytes_within(8, 16, 48, 256, 48, 16) != WIDEST_TABLE || (size_t)NEDZSUKA_WIDEST_TABLE != WIDEST_TABLE)
        fail("not the greatest work slice or the longest table");
}

/* ---- Drawn ---- */

static struct limits some_limits(void)
{
    struct limits limits = {1 + random_below(8), 1 + random_below(one_in(3) ? 16 : 5), 2 + random_below(one_in(4) ? 47 : 5)};

    if (one_in(24))
        limits.pattern = one_in(2) ? 9 : random_bits();
    if (one_in(24))
        limits.rules = one_in(2) ? 17 : random_bits();
    if (one_in(24))
        limits.tags = one_in(2) ? 49 : random_bits();
    return limits;
}

/* A book that is mostly allowed: now and then one tag, rule or pattern tag too many. */
static struct made_book book_for(struct limits limits)
{
    size_t pattern = limits.pattern < 8 ? (size_t)limits.pattern + one_in(6) : 8;
    size_t rules = limits.rules < 16 ? (size_t)limits.rules + one_in(6) : 16;
    size_t tags = limits.tags < 48 ? (size_t)limits.tags + one_in(6) : 6;

    if (pattern < 1)
        pattern = 1;
    if (tags < 2)
        tags = 2;
    rules = random_below(3) ? random_below((rules < 4 ? rules : 4) + 1) : rules;
    return one_in(3) && tags > 2 ? holding_book(tags, rules < 3 ? rules : 3, pattern) : random_book(tags, rules, pattern);
}

/* A book and its compiled table do the same of the sentence, with the limits. */
static void compare_both_runs(struct limits limits, const uint8_t *book, size_t book_len, size_t table_len, unsigned end, size_t length)
{
    uint64_t by_book = compare_run_within(RUN_BOOK_WITHIN, limits, book, book_len, end, sentence, length, length);

    if (by_book % 256 == 0 && length > 0)
        memcpy(result, last_out, length);
    if (compare_run_within(RUN_TABLE_WITHIN, limits, table, table_len, end, sentence, length, length) != by_book)
        fail("the compiled table answers otherwise than its book");
    if (by_book % 256 == 0 && length > 0 && memcmp(result, last_out, length) != 0)
        fail("the compiled table makes something else of the sentence than its book");
}

/* The same bytes with other limits that allow the book, and with none where document 01's do. */
static void compare_other_limits(const struct made_book *book, const uint8_t *written, size_t length, unsigned end, uint64_t answer)
{
    struct limits other = some_limits();
    uint64_t again = compare_compile_within(other, written, length, end, MOST_CEILING, work_for(other, MOST_CEILING, book), MOST_BYTES);

    if (again % 256 == 0 && (again != answer || memcmp(table, last_out, (size_t)(answer / 256)) != 0))
        fail("another table with other limits");
    again = compare_compile_ending(written, length, end, MOST_CEILING, work_entries(MOST_CEILING, book->tags, book->rules), MOST_BYTES);
    if (again % 256 == 0 && (again != answer || memcmp(table, last_out, (size_t)(answer / 256)) != 0))
        fail("another table without limits");
}

static void compare_limited_book(void)
{
    struct limits limits = some_limits();
    struct made_book book = book_for(limits);
    unsigned end = book.tags > 2 && one_in(2) ? some_end(&book) : NO_END;
    uint8_t written[LONGEST_BOOK + DAMAGED_ROOM];
    size_t length = write_book(&book, written), ceiling = 1 + random_below(40), needed = work_for(limits, MOST_CEILING, &book);
    uint64_t answer = compare_compile_within(limits, written, length, end, MOST_CEILING, needed, MOST_BYTES);

    compare_compile_within(limits, written, length, end, ceiling, work_for(limits, ceiling, &book) - one_in(4), one_in(4) ? 40 : 4096);
    if (answer % 256 == 0) {
        compare_compile_within(limits, written, length, end, MOST_CEILING, needed, (size_t)(answer / 256));
        memcpy(table, last_out, (size_t)(answer / 256));
        compare_other_limits(&book, written, length, end, answer);
        for (int i = 0; i < 4; i++) {
            size_t tags = some_length();
            paragraph_for(sentence, tags, &book, end);
            compare_both_runs(limits, written, length, (size_t)(answer / 256), end, tags);
        }
        compare_run_within(RUN_TABLE_WITHIN, some_limits(), table, (size_t)(answer / 256), end, sentence, 5, some_room(5));
    }
    length = damage(written, length);
    compare_compile_within(limits, written, length, end, 1 + random_below(6), needed, 600);
    compare_run_within(RUN_BOOK_WITHIN, limits, written, length, end, sentence, 5, some_room(5));
}

void compare_limited_books(size_t times)
{
    while (times-- > 0)
        compare_limited_book();
}

void compare_limited_tables(size_t times)
{
    while (times-- > 0) {
        struct limits limits = some_limits();
        size_t tags = 2 + random_below(4), held = random_below(one_in(3) ? WIDEST_HELD + 2 : 4), count = some_length();
        size_t length = random_table(tags, 1 + random_below(6), 0, held, bytes);
        some_sentence(sentence, count, tags);
        compare_run_within(RUN_TABLE_WITHIN, limits, bytes, length, NO_END, sentence, count, some_room(count));
        length = damage(bytes, length);
        compare_run_within(RUN_TABLE_WITHIN, limits, bytes, length, NO_END, sentence, count, some_room(count));
    }
}

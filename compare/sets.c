#include "sets.h"

#include <stdlib.h>
#include <string.h>

#include "calls.h"
#include "generate.h"
#include "nedzsuka.h"
#include "slices.h"

enum { LONGEST_SET_BOOK = 2 + MOST_RULES * (3 + 7 * WIDEST_PATTERN) + 1, SOME_CEILING = 40, SOME_BYTES = 60000 };

/* A book whose rules may have a set at a place, 0 where a tag stands. */
struct set_book {
    struct made_book book;
    uint64_t set[MOST_RULES][WIDEST_PATTERN];
};

static const struct limits standard = {6, 16, 48};

static uint8_t sentence[LONGEST_TRIED_SENTENCE], result[LONGEST_TRIED_SENTENCE], table[TABLE_ROOM];

/* ---- Bytes ---- */

static size_t write_set(uint64_t set, uint8_t *bytes)
{
    bytes[0] = 0x23;
    for (int i = 0; i < 6; i++)
        bytes[1 + i] = (uint8_t)(set >> (40 - 8 * i));
    return 7;
}

static size_t write_set_book(const struct set_book *sets, uint8_t *bytes)
{
    size_t length = 0;

    bytes[length++] = 0x20;
    bytes[length++] = sets->book.tags;
    for (size_t i = 0; i < sets->book.rules; i++) {
        const struct made_rule *rule = &sets->book.rule[i];
        bytes[length++] = rule->everywhere ? 0x24 : 0x21;
        bytes[length++] = rule->place;
        bytes[length++] = rule->new_tag;
        for (size_t t = 0; t < rule->length; t++) {
            if (sets->set[i][t]) {
                length += write_set(sets->set[i][t], bytes + length);
            } else {
                bytes[length++] = 0x22;
                bytes[length++] = rule->pattern[t];
            }
        }
    }
    bytes[length++] = 0x00;
    return length;
}

static int some_set(const struct set_book *sets)
{
    for (size_t i = 0; i < sets->book.rules; i++)
        for (size_t t = 0; t < sets->book.rule[i].length; t++)
            if (sets->set[i][t])
                return 1;
    return 0;
}

/* The entries that document 02 asks for. */
static size_t entries_for(const struct set_book *sets, uint64_t pattern, size_t ceiling)
{
    size_t states = some_set(sets) ? ((size_t)1 << (pattern - 1)) + 2 : (size_t)pattern + 2;

    return 2 * states * ceiling * (sets->book.tags + 1u) * ((size_t)(pattern - 1) * sets->book.rules + 8);
}

/* ---- Cases worked out by hand ---- */

static void expect_made(const uint8_t *book, size_t length, unsigned end, const char *from, const char *to, size_t tags, size_t changes)
{
    if (compare_run_ending(book, length, end, (const uint8_t *)from, tags, tags) != changes * 256 ||
        (tags > 0 && memcmp(last_out, to, tags) != 0))
        fail("not what document 02 makes of a sentence with sets");
}

static void expect_fewest(const uint8_t *book, size_t length, unsigned end, size_t states)
{
    size_t entries = nedzsuka_work_entries(states, book[1], 1, nedzsuka_has_set(book, length));

    if (compare_compile_ending(book, length, end, states, entries, SOME_BYTES) % 256 != 0 || states_of(last_out) != states)
        fail("no table with as many states as were worked out");
    if (compare_compile_ending(book, length, end, states, entries - 1, SOME_BYTES) != 9)
        fail("not the work entries of document 02 for a set");
    if (states > 1 && compare_compile_ending(book, length, end, states - 1, entries, SOME_BYTES) != 256 + 10)
        fail("a table with fewer states than were worked out");
}

static void expect_refused(const uint8_t *book, size_t length, size_t byte, unsigned refusal)
{
    if (compare_read(READ_BOOK, book, length) != byte * 256 + refusal)
        fail("not the refusal that document 02 gives for a set");
    compare_compile(book, length, 8, 60000, 600);
    compare_run(RUN_BOOK, book, length, (const uint8_t *)"\0\1", 2, 2);
}

/* Any of the nouns 0 and 1 before the verb 2, which becomes 3. */
static const uint8_t noun[] = {0x20, 4, 0x21, 1, 3, 0x23, 0, 0, 0, 0, 0, 3, 0x22, 2, 0x00};
static const uint8_t nouns[] = {0x20, 4, 0x24, 1, 3, 0x23, 0, 0, 0, 0, 0, 3, 0x22, 2, 0x00};
/* Any tag, and 0 behind it. */
static const uint8_t all[] = {0x20, 2, 0x21, 1, 1, 0x23, 0, 0, 0, 0, 0, 3, 0x22, 0, 0x00};
/* {0, 1} {0, 2} 0 to .. 1: after 0 0 and after 1 2 two places match, but one match more is alive after 0 0. */
static const uint8_t several[] = {0x20, 3, 0x21, 2, 1, 0x23, 0, 0, 0, 0, 0, 3, 0x23, 0, 0, 0, 0, 0, 5, 0x22, 0, 0x00};
/* 3 {0, 1, 2, 3} {0, 2, 3} {0, 2, 3} {0, 1, 2, 3} 1, and the 1 becomes 2: all sets of lengths are reached. */
static const uint8_t widest_sets[] = {0x20, 4, 0x21, 5, 2, 0x22, 3, 0x23, 0, 0, 0, 0, 0, 15, 0x23, 0, 0, 0, 0, 0, 13,
                                      0x23, 0, 0, 0, 0, 0, 13, 0x23, 0, 0, 0, 0, 0, 15, 0x22, 1, 0x00};
/* {0, 1} 2 0 everywhere, and the 2 becomes 1: the 0 that ends a match counts for no other. */
static const uint8_t chained[] = {0x20, 3, 0x24, 1, 1, 0x23, 0, 0, 0, 0, 0, 3, 0x22, 2, 0x22, 0, 0x00};

static void compare_results_of_sets(void)
{
    expect_made(noun, sizeof noun, NO_END, "\2\0\2\1\2", "\2\0\3\1\2", 5, 1);
    expect_made(noun, sizeof noun, NO_END, "\2\3\2\2\1\2", "\2\3\2\2\1\3", 6, 1);
    expect_made(nouns, sizeof nouns, NO_END, "\0\2\1\2\2\1\0\2", "\0\3\1\3\2\1\0\3", 8, 3);
    expect_made(all, sizeof all, NO_END, "\0", "\0", 1, 0);
    expect_made(all, sizeof all, NO_END, "\0\0\0", "\0\1\0", 3, 1);
    expect_made(all, sizeof all, NO_END, "\1\1\0\0", "\1\1\1\0", 4, 1);
    expect_made(several, sizeof several, NO_END, "\0\0\2\0", "\0\0\2\1", 4, 1);
    expect_made(several, sizeof several, NO_END, "\1\2\2\0", "\1\2\2\0", 4, 0);
    expect_made(several, sizeof several, NO_END, "\0\0\0\0", "\0\0\1\0", 4, 1);
    expect_made(chained, sizeof chained, NO_END, "\0\2\0\2\0", "\0\1\0\2\0", 5, 1);
    expect_made(chained, sizeof chained, NO_END, "\1\2\0\0\2\0\1\2", "\1\1\0\0\1\0\1\2", 8, 2);
    expect_made(chained, sizeof chained, NO_END, "", "", 0, 0);
}

static void compare_states_of_sets(void)
{
    expect_fewest(noun, sizeof noun, NO_END, 3);
    expect_fewest(nouns, sizeof nouns, NO_END, 2);
    expect_fewest(all, sizeof all, NO_END, 3);
    expect_fewest(widest_sets, sizeof widest_sets, NO_END, 33);
    expect_fewest(chained, sizeof chained, NO_END, 3);
}

/* The end tag in a set is 14, whatever the set's place is; elsewhere it cuts as it does. */
static void compare_ends_of_sets(void)
{
    static const uint8_t closing[] = {0x20, 4, 0x21, 1, 2, 0x23, 0, 0, 0, 0, 0, 6, 0x22, 1, 0x22, 3, 0x00};

    for (unsigned end = 0; end < 6; end++) {
        uint64_t answer = compare_compile_ending(closing, sizeof closing, end, 8, nedzsuka_work_entries(8, 4, 1, 1), 600);
        if ((answer == 14) != (end != 0 && end != 3))
            fail("14 is not given exactly where document 02 gives it for a set");
    }
    expect_made(closing, sizeof closing, 3, "\1\1\3\2\1\3\1\3", "\1\2\3\2\2\3\1\3", 8, 2);
    expect_made(closing, sizeof closing, 0, "\1\1\3\0\2\1\3\0\1\0\1\3", "\1\2\3\0\2\2\3\0\1\0\1\3", 12, 2);
}

/* ---- Refusals ---- */

/* {..} 2 with p 1 and new tag 0, over three tags. */
static size_t book_with(uint64_t set, uint8_t *bytes)
{
    static const uint8_t front[] = {0x20, 3, 0x21, 1, 0}, back[] = {0x22, 2, 0x00};

    memcpy(bytes, front, sizeof front);
    write_set(set, bytes + sizeof front);
    memcpy(bytes + sizeof front + 7, back, sizeof back);
    return sizeof front + 7 + sizeof back;
}

static void compare_sets_themselves(void)
{
    uint8_t bytes[32];
    size_t length;

    for (uint64_t set = 0; set < 64; set++) {
        length = book_with(set, bytes);
        if (set >= 8)
            expect_refused(bytes, length, 11, 4);
        else if (set == 0 || set == 1 || set == 2 || set == 4)
            expect_refused(bytes, length, 11, 18);
        else if (compare_read(READ_BOOK, bytes, length) != (3 * 256 + 1) * 256)
            fail("a set of two tags or three is refused");
    }
    for (int bit = 0; bit < 48; bit++) {
        length = book_with(UINT64_C(1) << bit | 3, bytes);
        if ((compare_read(READ_BOOK, bytes, length) == 11 * 256 + 4) != (bit > 2))
            fail("a set's byte is taken for another");
        length = book_with(UINT64_C(1) << bit, bytes);
        expect_refused(bytes, length, 11, bit > 2 ? 4 : 18);
    }
    /* of 48 tags, the highest two */
    length = book_with(UINT64_C(3) << 46, bytes);
    bytes[1] = 48;
    if (compare_read(READ_BOOK, bytes, length) != (48 * 256 + 1) * 256)
        fail("the highest tags are not taken");
    bytes[1] = 47;
    expect_refused(bytes, length, 11, 4);
    for (length = 6; length < 12; length++) {
        book_with(3, bytes);
        expect_refused(bytes, length, length, 1);
    }
}

static void compare_places_of_sets(void)
{
    static const uint8_t at_place[] = {0x20, 3, 0x21, 0, 0, 0x23, 0, 0, 0, 0, 0, 3, 0x22, 2, 0x00};
    static const uint8_t after[] = {0x20, 3, 0x21, 0, 0, 0x22, 1, 0x23, 0, 0, 0, 0, 0, 3, 0x00};
    static const uint8_t not_6[] = {0x20, 3, 0x21, 0, 1, 0x22, 1, 0x23, 0, 0, 0, 0, 0, 3, 0x21};
    static const uint8_t not_19[] = {0x20, 3, 0x21, 2, 1, 0x22, 1, 0x23, 0, 0, 0, 0, 0, 3, 0x00};
    static const uint8_t zero[] = {0x20, 3, 0x21, 0, 0, 0x23, 0, 0, 0, 0, 0, 6, 0x24};
    static const uint8_t none[] = {0x20, 3, 0x23, 0, 0, 0, 0, 0, 3, 0x00};
    uint8_t many[2 + 3 + 9 * 7];

    expect_refused(at_place, sizeof at_place, 14, 19);
    expect_refused(after, sizeof after, 14, 19);
    expect_refused(not_6, sizeof not_6, 14, 19);
    expect_refused(not_19, sizeof not_19, 14, 5);
    expect_refused(zero, sizeof zero, 12, 19);
    expect_refused(none, sizeof none, 2, 1);
    memcpy(many, at_place, 5);
    for (size_t i = 0; i < 9; i++)
        write_set(3, many + 5 + 7 * i);
    expect_refused(many, sizeof many, 5 + 6 * 7, 3);
    expect_refused(many, 5 + 6 * 7, 5 + 6 * 7, 1);
    for (uint64_t most = 1; most <= 8; most++) {
        struct limits limits = {most, 16, 48};
        if (compare_run_within(RUN_BOOK_WITHIN, limits, many, sizeof many, NO_END, sentence, 0, 0) != 3)
            fail("one set too many is taken");
    }
}

/* ---- The largest work slice ---- */

/* Seven sets of all tags but one, and a tag: eight places, with one rule, all its states, and every ceiling that is needed. */
static void compare_eight_places(void)
{
    struct set_book sets = {{48, 1, {{{0}, WIDEST_PATTERN, 7, 1, 0}}}, {{0}}};
    struct limits widest = {8, 16, 48};
    uint8_t bytes[LONGEST_SET_BOOK];
    size_t length, entries;
    uint64_t answer;

    for (int i = 0; i < 7; i++)
        sets.set[0][i] = (UINT64_C(1) << 48) - 1 - (UINT64_C(2) << i);
    length = write_set_book(&sets, bytes);
    entries = entries_for(&sets, 8, 256);
    if (compare_compile_within(widest, bytes, length, NO_END, 256, entries - 1, SOME_BYTES) != 9)
        fail("not the work entries of document 02 for eight places");
    answer = compare_compile_within(widest, bytes, length, NO_END, 256, entries, TABLE_ROOM);
    if (answer % 256 != 0)
        fail("eight places do not compile");
    memcpy(table, last_out, (size_t)(answer / 256));
    for (int times = 0; times < 200; times++) {
        size_t count = some_length();
        for (size_t i = 0; i < count; i++)
            sentence[i] = (uint8_t)(one_in(3) ? random_below(9) : one_in(2) ? 0 : random_below(48));
        compare_run_within(RUN_BOOK_WITHIN, widest, bytes, length, NO_END, sentence, count, count);
        memcpy(result, last_out, count);
        compare_run_within(RUN_TABLE_WITHIN, widest, table, (size_t)(answer / 256), NO_END, sentence, count, count);
        if (memcmp(result, last_out, count) != 0)
            fail("the table of eight places makes something else of a sentence");
    }
}

/* Sixteen rules of seven sets and a tag have as many entries as there can be: only the library is called. It leaves zeros. */
static void call_with_most_entries(void)
{
    struct set_book sets = {{48, MOST_RULES, {{{0}, 0, 0, 0, 0}}}, {{0}}};
    uint8_t bytes[LONGEST_SET_BOOK];
    size_t length;
    uint64_t answer;
    uint16_t *work = calloc(NEDZSUKA_WIDEST_SET_WORK, sizeof *work);

    if (work == NULL)
        fail("no memory for the largest work slice");
    for (size_t i = 0; i < MOST_RULES; i++) {
        struct made_rule rule = {{0}, WIDEST_PATTERN, 7, 1, 0};
        sets.book.rule[i] = rule;
        for (int t = 0; t < 7; t++)
            sets.set[i][t] = 3;
    }
    length = write_set_book(&sets, bytes);
    if (entries_for(&sets, 8, 256) != (size_t)NEDZSUKA_WIDEST_SET_WORK)
        fail("not the greatest work slice");
    if (nedzsuka_compile_within(8, 16, 48, bytes, length, NO_END, 256, work, NEDZSUKA_WIDEST_SET_WORK - 1, table,
                                sizeof table) != 9)
        fail("one entry less than the greatest work slice is taken");
    answer = nedzsuka_compile_within(8, 16, 48, bytes, length, NO_END, 256, work, NEDZSUKA_WIDEST_SET_WORK, table, sizeof table);
    if (answer % 256 != 0 && answer % 256 != 10)
        fail("the greatest work slice is refused");
    for (size_t i = 0; i < (size_t)NEDZSUKA_WIDEST_SET_WORK; i++)
        if (work[i] != 0)
            fail("the greatest work slice is not zero again");
    free(work);
}

void compare_set_cases(void)
{
    for (size_t ceiling = 1; ceiling <= 256; ceiling += 5)
        for (size_t tags = 2; tags <= 48; tags++)
            for (size_t rules = 0; rules <= 16; rules++)
                if (nedzsuka_work_entries(ceiling, tags, rules, 1) != 68 * ceiling * (tags + 1) * (5 * rules + 8))
                    fail("nedzsuka_work_entries differs from document 02 for a set");
    compare_results_of_sets();
    compare_states_of_sets();
    compare_ends_of_sets();
    compare_sets_themselves();
    compare_places_of_sets();
    compare_eight_places();
    call_with_most_entries();
}

/* ---- Drawn ---- */

/* At least two tags below so many, often with the one that stood there. */
static uint64_t some_tags(size_t tags, uint8_t with)
{
    uint64_t set = one_in(8) ? (UINT64_C(1) << tags) - 1 : one_in(3) ? 0 : UINT64_C(1) << with;

    while ((set & (set - 1)) == 0)
        set |= UINT64_C(1) << random_below(tags);
    return set;
}

static struct set_book some_set_book(size_t longest)
{
    struct set_book sets = {{0, 0, {{{0}, 0, 0, 0, 0}}}, {{0}}};
    size_t tags = one_in(12) ? 2 + random_below(47) : 2 + random_below(4);

    sets.book = random_book(tags, random_below(4), longest);
    for (size_t i = 0; i < sets.book.rules; i++) {
        struct made_rule *rule = &sets.book.rule[i];
        if (one_in(2) && rule->length > 1 && rule->pattern[rule->length - 1] != rule->new_tag)
            rule->place = (uint8_t)(rule->length - 1);
        for (size_t t = 0; t < rule->place; t++)
            if (!one_in(3))
                sets.set[i][t] = some_tags(tags, rule->pattern[t]);
    }
    return sets;
}

/* Tags that the places of a rule accept, again and again, now and then others. */
static void set_sentence(uint8_t *to, size_t length, const struct set_book *sets, unsigned end)
{
    size_t i = 0;

    while (i < length) {
        size_t rule = random_below(sets->book.rules + 1u), t = random_below(3);
        if (rule == sets->book.rules) {
            to[i++] = (uint8_t)(end < sets->book.tags && one_in(2) ? end : random_below(sets->book.tags));
            continue;
        }
        for (; t < sets->book.rule[rule].length && i < length; t++) {
            uint64_t set = sets->set[rule][t];
            uint8_t tag = sets->book.rule[rule].pattern[t];
            while (set && !(set >> tag & 1))
                tag = (uint8_t)random_below(sets->book.tags);
            to[i++] = one_in(14) ? (uint8_t)random_below(sets->book.tags) : tag;
        }
    }
}

/* A book and its compiled table do the same of drawn sentences. */
static void compare_made(const struct set_book *sets, struct limits limits, const uint8_t *bytes, size_t length, size_t table_len, unsigned end)
{
    for (int times = 0; times < 5; times++) {
        size_t count = some_length();
        uint64_t by_book;
        set_sentence(sentence, count, sets, end);
        by_book = compare_run_within(RUN_BOOK_WITHIN, limits, bytes, length, end, sentence, count, count);
        if (by_book % 256 == 0)
            memcpy(result, last_out, count);
        if (compare_run_within(RUN_TABLE_WITHIN, limits, table, table_len, end, sentence, count, count) != by_book ||
            (by_book % 256 == 0 && memcmp(result, last_out, count) != 0))
            fail("the table of a book with sets makes something else of a sentence");
        compare_run_rules(bytes, length, end, sentence, count, some_room(count), some_room(count));
        compare_run_ending(bytes, length, end, sentence, count, some_room(count));
    }
}

static void compare_set_book(void)
{
    struct limits limits = {1 + random_below(8), 1 + random_below(5), 48};
    struct set_book sets;
    uint8_t bytes[LONGEST_SET_BOOK + DAMAGED_ROOM];
    unsigned end;
    size_t length, needed;
    uint64_t answer;

    if (one_in(3))
        limits = standard;
    sets = some_set_book(limits.pattern < 4 ? (size_t)limits.pattern + one_in(8) : 2 + random_below((size_t)limits.pattern - 1));
    end = one_in(2) ? NO_END : (unsigned)random_below(sets.book.tags + 2u);
    length = write_set_book(&sets, bytes);
    needed = entries_for(&sets, limits.pattern, SOME_CEILING);
    if (nedzsuka_has_set(bytes, length) != some_set(&sets))
        fail("nedzsuka_has_set is wrong");
    compare_read(READ_BOOK, bytes, length);
    answer = compare_compile_within(limits, bytes, length, end, SOME_CEILING, needed, SOME_BYTES);
    if (answer % 256 == 0) {
        size_t states = states_of(last_out), exact = entries_for(&sets, limits.pattern, states);
        memcpy(table, last_out, (size_t)(answer / 256));
        compare_compile_within(limits, bytes, length, end, states, exact, (size_t)(answer / 256) - one_in(3));
        if (states > 1 && compare_compile_within(limits, bytes, length, end, states - 1, exact, SOME_BYTES) % 256 != 10)
            fail("a book with sets has a table with fewer states than the smallest");
        compare_made(&sets, limits, bytes, length, (size_t)(answer / 256), end);
    }
    compare_compile_within(limits, bytes, length, end, 1 + random_below(SOME_CEILING), needed - 1, SOME_BYTES);
    for (int times = 0; times < 3; times++) {
        size_t damaged = damage(bytes, write_set_book(&sets, bytes));
        compare_read(READ_BOOK, bytes, damaged);
        compare_compile_within(limits, bytes, damaged, end, 1 + random_below(6), needed, 600);
        compare_run_within(RUN_BOOK_WITHIN, limits, bytes, damaged, end, sentence, 6, some_room(6));
    }
}

void compare_set_books(size_t times)
{
    while (times-- > 0)
        compare_set_book();
}

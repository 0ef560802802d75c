/* Compares the library with the reference, with what document 01 prints, and with tables found by trying words; see compare/run. */
#include <inttypes.h>
#include <stdio.h>
#include <stdlib.h>
#include <string.h>

#include "brute.h"
#include "calls.h"
#include "checking.h"
#include "ending.h"
#include "everywhere.h"
#include "generate.h"
#include "limits.h"
#include "loaded.h"
#include "nedzsuka.h"
#include "places.h"
#include "rules.h"
#include "sets.h"
#include "slices.h"
#include "starter.h"
#include "typing.h"

enum { SMALL_RULES = 68, SMALL_BOOKS = 1 + SMALL_RULES + SMALL_RULES * SMALL_RULES, LONGEST_SENTENCE = 65535 };

static uint8_t sentence[LONGEST_TRIED_SENTENCE], result[LONGEST_TRIED_SENTENCE], table[TABLE_ROOM];
static size_t tried_out, alike;

static size_t refusal_of(uint64_t answer)
{
    return (size_t)(answer & 255);
}

static size_t value_of(uint64_t answer)
{
    return (size_t)(answer >> 8);
}

/* ---- What document 01 prints ---- */

static void expect_run(const char *book, size_t book_len, const char *from, const char *to, size_t length, size_t changed)
{
    static uint16_t work[MOST_WORK];
    uint8_t out[256];
    uint64_t answer = compare_run(RUN_BOOK, (const uint8_t *)book, book_len, (const uint8_t *)from, length, length);

    if (refusal_of(answer) != 0 || value_of(answer) != changed || (length > 0 && memcmp(last_out, to, length) != 0))
        fail("not what document 01 prints for the run of a book");
    answer = nedzsuka_compile((const uint8_t *)book, book_len, 256, work, MOST_WORK, table, sizeof table);
    answer = nedzsuka_run_table(table, value_of(answer), (const uint8_t *)from, length, out, sizeof out);
    if (refusal_of(answer) != 0 || value_of(answer) != changed || memcmp(out, to, length) != 0)
        fail("not what document 01 prints, for the run of the compiled table");
}

static void expect_states(const char *book, size_t book_len, size_t states)
{
    uint64_t answer = compare_compile((const uint8_t *)book, book_len, states, MOST_WORK, 4096);

    if (refusal_of(answer) != 0 || states_of(last_out) != states)
        fail("not the number of states that document 01 gives");
    if (states > 1 && refusal_of(compare_compile((const uint8_t *)book, book_len, states - 1, MOST_WORK, 4096)) != 10)
        fail("a table with fewer states than document 01 gives");
}

static void expect_refusal(const char *book, size_t book_len, uint64_t ceiling, uint64_t expected)
{
    if (compare_compile((const uint8_t *)book, book_len, ceiling, 400000, 4096) != expected)
        fail("not the refusal that document 01 gives");
}

static const char book_a[] = "\x20\x02\x21\x00\x01\x22\x00\x22\x01";
static const char book_b[] = "\x20\x02\x21\x00\x01\x22\x00\x21\x00\x00\x22\x01";
static const char book_c[] = "\x20\x05\x21\x01\x02\x22\x00\x22\x01\x21\x00\x01\x22\x02\x22\x03";
/* 0 1 -> 1 1 everywhere, then 1 1 -> 0 1, then 0 -> 1 everywhere. */
static const char book_mixed[] = "\x20\x02\x24\x00\x01\x22\x00\x22\x01\x21\x00\x00\x22\x01\x22\x01\x24\x00\x01\x22\x00";

static void compare_published_runs(void)
{
    expect_run(book_a, sizeof book_a, "", "", 0, 0);
    expect_run(book_a, sizeof book_a, "\0", "\0", 1, 0);
    expect_run(book_a, sizeof book_a, "\0\0\1\0\1", "\0\1\1\0\1", 5, 1);
    expect_run(book_b, sizeof book_b, "\0\0", "\0\0", 2, 0);
    expect_run(book_b, sizeof book_b, "\1\0\0", "\0\1\0", 3, 2);
    expect_run(book_c, sizeof book_c, "\0\1\0\0", "\0\2\0\0", 4, 1);
    expect_run(book_c, sizeof book_c, "\0\0\2\2\3\0", "\0\0\2\1\3\0", 6, 1);
    expect_run(book_c, sizeof book_c, "\4\2\0\1\3\0", "\4\2\0\1\3\0", 6, 0);
}

static void compare_published_tables(void)
{
    static const char table_a[] = "\x30\x02\x00\x03\x31\x00\x33\x00\x01\x33\x00\x00\x34\x01\x31\x01\x32\x00\x33\x00\x01\x34\x00\x33"
                                  "\x00\x02\x34\x01\x34\x01\x31\x00\x33\x00\x02\x34\x00\x33\x00\x02\x34\x01";
    static const char ababb[] = "\x20\x02\x21\x02\x01\x22\x00\x22\x01\x22\x00\x22\x01\x22\x01";
    char rules[2 + 17 * 5 + 1] = "\x20\x02", pattern[2 + 3 + 7 * 2 + 1] = "\x20\x02\x21\x00\x01";

    for (size_t i = 0; i < 17; i++)
        memcpy(rules + 2 + 5 * i, "\x21\x00\x01\x22\x00", 5);
    for (size_t i = 0; i < 7; i++)
        memcpy(pattern + 5 + 2 * i, "\x22\x00", 2);
    expect_states(book_a, sizeof book_a, 3);
    expect_states(book_b, sizeof book_b, 3);
    expect_states(ababb, sizeof ababb, 6);
    expect_states("\x20\x02", 3, 1);
    expect_refusal(book_a, sizeof book_a, 2, 256 + 10);
    expect_refusal(book_a, sizeof book_a, 3, 43 * 256);
    if (memcmp(last_out, table_a, sizeof table_a) != 0)
        fail("not the table that document 01 prints");
    expect_refusal(book_a, sizeof book_a, 0, 8);
    expect_refusal(book_a, sizeof book_a, 257, 8);
    expect_refusal(rules, sizeof rules, 16, 7);
    rules[2 + 16 * 5] = 0;
    expect_states(rules, sizeof rules - 5, 17);
    expect_refusal(pattern, sizeof pattern, 16, 3);
    pattern[5 + 6 * 2] = 0;
    expect_states(pattern, sizeof pattern - 2, 7);
}

/* The header's helper against document 01's formula, and its answer outside the bounds. */
static void compare_work_helper(void)
{
    for (size_t ceiling = 1; ceiling <= 256; ceiling++)
        for (size_t tags = 2; tags <= 48; tags++)
            for (size_t rules = 0; rules <= 16; rules++)
                if (nedzsuka_work_entries(ceiling, tags, rules, 0) != work_entries(ceiling, tags, rules))
                    fail("nedzsuka_work_entries differs from document 01");
    if (nedzsuka_work_entries(0, 2, 1, 0) || nedzsuka_work_entries(257, 2, 1, 0) || nedzsuka_work_entries(1, 1, 1, 1) ||
        nedzsuka_work_entries(1, 49, 1, 0) || nedzsuka_work_entries(1, 2, 17, 1) || nedzsuka_work_entries(UINT64_MAX, 2, 1, 0))
        fail("nedzsuka_work_entries isn't 0 outside the bounds");
}

/* ---- Every byte of small books and tables ---- */

static void compare_damaged_bytes(enum call call, const uint8_t *bytes, size_t length)
{
    static const uint8_t tags[] = {0, 1, 1, 0, 1};

    if (call == RUN_BOOK)
        compare_compile(bytes, length, 4, work_entries(4, 48, 2), 300);
    else
        compare_load(bytes, length, 60);
    if (call == RUN_TABLE)
        compare_any_typed(bytes, length, 1);
    compare_run(call, bytes, length, tags, sizeof tags, sizeof tags);
    if (call == RUN_BOOK)
        compare_run_rules(bytes, length, NO_END, tags, sizeof tags, sizeof tags, sizeof tags);
    compare_read(call == RUN_BOOK ? READ_BOOK : READ_TABLE, bytes, length);
}

static void compare_every_byte(enum call call, const uint8_t *bytes, size_t length)
{
    uint8_t damaged[2048];

    for (size_t i = 0; i < length; i++) {
        memcpy(damaged, bytes, length);
        compare_damaged_bytes(call, damaged, i);
        for (unsigned byte = 0; byte < 256; byte++) {
            damaged[i] = (uint8_t)byte;
            compare_damaged_bytes(call, damaged, length);
        }
        memcpy(damaged, bytes, i);
        memcpy(damaged + i + 1, bytes + i, length - i);
        for (unsigned byte = 0; byte < 0x40; byte++) {
            damaged[i] = (uint8_t)byte;
            compare_damaged_bytes(call, damaged, length + 1);
        }
        memcpy(damaged + i, bytes + i + 1, length - i - 1);
        compare_damaged_bytes(call, damaged, length - 1);
    }
}

static void compare_every_byte_of_some(void)
{
    uint8_t bytes[2048];
    uint64_t answer;

    compare_every_byte(RUN_BOOK, (const uint8_t *)book_b, sizeof book_b);
    compare_every_byte(RUN_BOOK, (const uint8_t *)book_c, sizeof book_c);
    compare_every_byte(RUN_BOOK, (const uint8_t *)book_mixed, sizeof book_mixed);
    answer = compare_compile((const uint8_t *)book_a, sizeof book_a, 3, work_entries(3, 2, 1), 43);
    memcpy(bytes, last_out, value_of(answer));
    compare_every_byte(RUN_TABLE, bytes, value_of(answer));
    compare_every_byte(RUN_TABLE, bytes, random_table(3, 3, 0, 2, bytes));
}

/* ---- Runs ---- */

/* A book and its compiled table do the same of the sentence. */
static void compare_both_runs(const uint8_t *book, size_t book_len, size_t table_len, size_t length)
{
    uint64_t by_book = compare_run(RUN_BOOK, book, book_len, sentence, length, length);

    if (refusal_of(by_book) == 0 && length > 0)
        memcpy(result, last_out, length);
    if (compare_run(RUN_TABLE, table, table_len, sentence, length, length) != by_book)
        fail("the compiled table answers otherwise than its book");
    if (refusal_of(by_book) == 0 && length > 0 && memcmp(result, last_out, length) != 0)
        fail("the compiled table makes something else of the sentence than its book");
}

static void compare_runs(const struct made_book *made, const uint8_t *book, size_t book_len, size_t table_len, size_t times)
{
    while (times-- > 0) {
        size_t length = some_length();
        sentence_for(sentence, length, made);
        compare_both_runs(book, book_len, table_len, length);
        sentence_for(sentence, length, made);
        compare_run(RUN_BOOK, book, book_len, sentence, length, some_room(length));
        if (table_len < 50000)
            compare_run(RUN_TABLE, table, table_len, sentence, length, some_room(length));
    }
}

static void compare_long_runs(const struct made_book *made, const uint8_t *book, size_t book_len, size_t table_len)
{
    size_t length = some_great_length();

    if (one_in(2))
        random_sentence(sentence, length, book[1]);
    else
        matching_sentence(sentence, length, made);
    if (one_in(2)) /* matches near the end only */
        memset(sentence, (int)random_below(book[1]), length - random_below(300));
    if (one_in(4))
        sentence[random_below(length)] = 200;
    compare_both_runs(book, book_len, table_len, length);
    compare_run(RUN_TABLE, table, table_len, sentence, length, length - random_below(2));
    compare_run(RUN_BOOK, book, book_len, sentence, length, length - random_below(2));
    compare_loaded_sentence(table, table_len, sentence, length);
}

/* ---- Compiling ---- */

static size_t some_work(size_t needed)
{
    switch (random_below(6)) {
    case 0:
        return needed - 1;
    case 1:
        return needed + 1 + random_below(900);
    case 2:
        return one_in(3) ? random_below(needed) : needed;
    default:
        return needed;
    }
}

static uint64_t some_ceiling(void)
{
    static const uint64_t ceilings[] = {0, 1, 255, 256, 257, 258, 512, 65536 + 7, (UINT64_C(1) << 32) + 7, UINT64_C(1) << 63,
                                        UINT64_MAX};

    return one_in(8) ? ceilings[random_below(sizeof ceilings / sizeof *ceilings)] : 1 + random_below(one_in(3) ? 256 : 40);
}

static size_t work_for(uint64_t ceiling, const struct made_book *book)
{
    return work_entries(ceiling < 1 || ceiling > 256 ? 1 : (size_t)ceiling, book->tags, book->rules);
}

/* The compiled table goes to table; its length, or 0 where the ceiling of 256 isn't enough. */
static size_t compile_whole(const struct made_book *book, const uint8_t *bytes, size_t length)
{
    uint64_t answer = compare_compile(bytes, length, 256, work_for(256, book), 4096);
    size_t room = LONGEST_TABLE;

    if (refusal_of(answer) == 11)
        answer = compare_compile(bytes, length, 256, work_for(256, book), room);
    if (refusal_of(answer) != 0)
        return 0;
    memcpy(table, last_out, value_of(answer));
    return value_of(answer);
}

/* Ceilings at and around the number of states, and slices as long as needed, longer and shorter. */
static void compare_around(const struct made_book *book, const uint8_t *bytes, size_t length, size_t table_len)
{
    uint64_t states = states_of(table), ceiling = states - 1 + random_below(3);
    size_t needed = work_for(states, book);

    if (ceiling >= 1 && ceiling <= 256)
        compare_compile(bytes, length, ceiling, some_work(work_for(ceiling, book)), some_room(table_len));
    compare_compile(bytes, length, states, needed, table_len);
    compare_compile(bytes, length, states, needed, table_len - 1);
    compare_compile(bytes, length, states, needed - 1, table_len);
    compare_compile(bytes, length, states, some_work(needed), some_room(table_len));
}

static void compare_book(const struct made_book *book, size_t runs)
{
    uint8_t bytes[LONGEST_BOOK];
    size_t length = write_book(book, bytes), table_len;
    uint64_t ceiling = some_ceiling();

    compare_compile(bytes, length, ceiling, some_work(work_for(ceiling, book)), some_room(3000));
    table_len = compile_whole(book, bytes, length);
    if (table_len == 0)
        return;
    check_one_rule(book, NO_END, table);
    compare_around(book, bytes, length, table_len);
    compare_runs(book, bytes, length, table_len, runs);
    compare_read(READ_BOOK, bytes, length);
    compare_loaded_table(table, table_len, runs);
    compare_typed_table(table, table_len, 1);
    if (one_in(20))
        compare_long_runs(book, bytes, length, table_len);
}

static void compare_books(size_t times)
{
    while (times-- > 0) {
        struct made_book book;
        switch (random_below(5)) {
        case 0:
            book = random_book(2 + random_below(2), random_below(4), 6);
            break;
        case 1:
            book = random_book(2 + random_below(4), random_below(7), 2);
            break;
        case 2:
            book = random_book(2 + random_below(8), random_below(5), 3);
            break;
        case 3:
            book = holding_book(3 + random_below(8), 2 + random_below(3), 2 + random_below(5));
            break;
        default:
            book = random_book(2 + random_below(3), random_below(17), 1 + random_below(2));
        }
        compare_book(&book, 8);
    }
}

/* Many tags, many rules and many states. */
static void compare_big_books(size_t times)
{
    while (times-- > 0) {
        struct made_book book;
        size_t rules = 3 + random_below(5);
        switch (random_below(3)) {
        case 0:
            book = separate_book(2 * rules + random_below(49 - 2 * rules), rules, 1 + random_below(4));
            break;
        case 1:
            book = random_book(2 + random_below(47), random_below(17), 1 + random_below(6));
            break;
        default:
            book = random_book(40 + random_below(9), random_below(17), 1 + random_below(2));
        }
        compare_book(&book, 2);
    }
}

static void set_kind(struct made_book *book, uint8_t everywhere)
{
    for (size_t i = 0; i < book->rules; i++)
        book->rule[i].everywhere = everywhere;
}

/* Eight rules that meet nowhere and fire once have 256 states, one more is beyond every ceiling; every ceiling below refuses some leading
   part. */
static void compare_ceilings(void)
{
    struct made_book book = separate_book(18, 9, 1);
    uint8_t bytes[LONGEST_BOOK];
    size_t length;

    set_kind(&book, 0);
    length = write_book(&book, bytes);
    for (uint64_t ceiling = 1; ceiling <= 256; ceiling++)
        if (compare_compile(bytes, length, ceiling, work_for(ceiling, &book), one_in(2) ? 0 : 100) % 256 != 10)
            fail("a table for more than 256 states");
    book.rules = 8;
    compare_book(&book, 4);
    if (states_of(table) != 256)
        fail("not 256 states");
}

/* The most tags and rules, and the work slice that is always enough. */
static void compare_greatest(uint8_t everywhere)
{
    struct made_book book = random_book(48, 16, 1);
    uint8_t bytes[LONGEST_BOOK];
    size_t length;

    for (size_t i = 0; i < 16; i++) {
        book.rule[i] = book.rule[i % 3];
        book.rule[i].new_tag = (uint8_t)((book.rule[i].pattern[0] + 1 + i) % 48);
    }
    set_kind(&book, everywhere);
    length = write_book(&book, bytes);
    compare_compile(bytes, length, 256, MOST_WORK - 1, LONGEST_TABLE);
    compare_compile(bytes, length, 256, MOST_WORK, LONGEST_TABLE);
    compare_compile(bytes, length, 256, MOST_WORK + 1000, 0);
}

/* ---- Damaged books and tables ---- */

static void compare_damaged_books(size_t times)
{
    uint8_t bytes[2048];

    while (times-- > 0) {
        struct made_book book = random_book(one_in(4) ? 2 + random_below(47) : 2 + random_below(3), random_below(one_in(8) ? 17 : 4),
                                            one_in(4) ? 6 : 3);
        size_t length = write_book(&book, bytes), tags = some_length();
        uint64_t ceiling = one_in(20) ? some_ceiling() : 1 + random_below(6);
        if (one_in(16) && book.rules < 16)
            bytes[1] = (uint8_t)(one_in(2) ? random_below(2) : 49 + random_below(207));
        else
            length = damage(bytes, length);
        if (ceiling <= 6 || one_in(2))
            compare_compile(bytes, length, ceiling, one_in(8) ? random_below(40) : some_work(work_for(ceiling % 257, &book)), 600);
        some_sentence(sentence, tags, book.tags);
        compare_run(RUN_BOOK, bytes, length, sentence, tags, some_room(tags));
        compare_read(READ_BOOK, bytes, length);
    }
}

/* Seventh tags and seventeenth rules, and what else may be wrong at the same byte. */
static void compare_lengthened_books(size_t times)
{
    uint8_t bytes[LONGEST_BOOK + LENGTHENED_ROOM + DAMAGED_ROOM];

    while (times-- > 0) {
        size_t rules = 14 + random_below(3), longest = one_in(2) ? 1 : 6, tags = 2 + random_below(4), length;
        struct made_book book = random_book(tags, rules, longest);
        if (one_in(2))
            book.rule[rules - 1].length = (uint8_t)random_below(LONGEST_PATTERN + 1);
        if (one_in(8))
            book.rule[rules - 1].new_tag = (uint8_t)random_below(tags);
        length = lengthen_book(bytes, write_book(&book, bytes), tags);
        if (one_in(4))
            length = damage(bytes, length);
        compare_compile(bytes, length, 1 + random_below(3), work_entries(3, 5, 17), 600);
        some_sentence(sentence, 8, tags);
        compare_run(RUN_BOOK, bytes, length, sentence, 8, 8);
        compare_read(READ_BOOK, bytes, length);
    }
}

/* Random bytes out of the commands, so that reading goes on for a while. */
static void compare_bytes_of_books(size_t times)
{
    static const uint8_t common[] = {0x21, 0x24, 0x22, 0x22, 0x22, 0x00, 0x00, 0x01, 0x01, 0x02, 0x20, 0x05};
    uint8_t bytes[64] = {0x20, 0x03};

    while (times-- > 0) {
        size_t length = 2 + random_below(30);
        for (size_t i = 2; i < length; i++)
            bytes[i] = common[random_below(sizeof common)];
        compare_damaged_bytes(RUN_BOOK, bytes, length);
    }
}

static void compare_tables(size_t times)
{
    static uint8_t bytes[TABLE_ROOM];

    while (times-- > 0) {
        int big = one_in(300);
        size_t tags = big ? 2 + random_below(48) : 1 + random_below(5), states = 1 + random_below(big ? 257 : 7);
        size_t held = big ? random_below(one_in(2) ? 82 : 6) : random_below(4), first = one_in(12) ? random_below(3) : 0;
        size_t count = some_length(), length = random_table(tags, states, first, held, bytes);
        some_sentence(sentence, count, tags);
        compare_run(RUN_TABLE, bytes, length, sentence, count, some_room(count));
        if (one_in(4))
            compare_loaded_table(bytes, length, 2);
        if (one_in(4))
            compare_typed_table(bytes, length, 1);
        if (big && states * tags > 4000)
            continue;
        for (int i = 0; i < 2; i++) {
            size_t damaged = damage(bytes, length);
            compare_run(RUN_TABLE, bytes, damaged, sentence, count, some_room(count));
            if (one_in(4))
                compare_loaded_table(bytes, damaged, 0);
            compare_any_typed(bytes, damaged, 1);
            length = random_table(tags, states, first, held, bytes);
        }
    }
}

/* Tables at the bounds, and tables one tag, state or held tag beyond them. */
static void compare_table_bounds(void)
{
    static const size_t shapes[][4] = {{48, 256, 0, 80}, {49, 3, 0, 2}, {1, 3, 0, 2}, {2, 257, 0, 2},  {3, 9, 0, 81},
                                       {3, 9, 0, 80},    {3, 9, 1, 2},  {2, 1, 1, 0}, {2, 256, 0, 80}, {48, 1, 0, 0}};
    static uint8_t bytes[TABLE_ROOM + 1000];

    for (size_t i = 0; i < sizeof shapes / sizeof *shapes; i++) {
        size_t length = random_table(shapes[i][0], shapes[i][1], shapes[i][2], shapes[i][3], bytes);
        for (size_t count = 0; count < 40; count += 13) {
            random_sentence(sentence, count, 2);
            compare_run(RUN_TABLE, bytes, length, sentence, count, count);
        }
        compare_loaded_table(bytes, length, 4);
        compare_typed_table(bytes, length, 2);
    }
}

/* ---- Tables found by trying words ---- */

static void compare_tried(const struct made_book *book)
{
    uint8_t bytes[LONGEST_BOOK];
    size_t length = write_book(book, bytes);
    uint64_t answer = compare_compile(bytes, length, BRUTE_STATES, work_for(BRUTE_STATES, book), BRUTE_BYTES);

    if (refusal_of(answer) != 0 && refusal_of(answer) != 10)
        fail("no table, and not for too many states");
    if (!brute_finds(book, NO_END, last_out, refusal_of(answer) == 10 ? 0 : value_of(answer)))
        fail("another table than trying words gives");
    tried_out += refusal_of(answer) == 0;
}

/* What a book makes of every sentence of at most eleven tags out of two, as one number. Ten do not tell all small books apart. */
static uint64_t behavior_mark(const struct made_book *book)
{
    uint64_t mark = 14695981039346656037u;
    uint8_t word[11];

    for (size_t length = 0; length <= sizeof word; length++)
        for (unsigned bits = 0; bits < 1u << length; bits++) {
            for (size_t i = 0; i < length; i++)
                word[i] = bits >> i & 1;
            brute_rewrite(book, NO_END, word, length);
            for (size_t i = 0; i < length; i++)
                mark = (mark ^ word[i]) * 1099511628211u;
        }
    return mark;
}

struct small_book {
    uint64_t behavior;
    size_t table_len;
    uint8_t table[400];
};

/* Every two books get the same bytes exactly if they do the same. */
static void compare_small_pairs(const struct small_book *books, size_t count)
{
    for (size_t i = 0; i < count; i++)
        for (size_t j = 0; j < i; j++) {
            int same_bytes = books[i].table_len == books[j].table_len &&
                             memcmp(books[i].table, books[j].table, books[i].table_len) == 0;
            if (same_bytes != (books[i].behavior == books[j].behavior))
                fail(same_bytes ? "two books that differ get the same bytes" : "two books that do the same get different bytes");
            alike += (size_t)same_bytes;
        }
}

/* All books of at most two rules with at most three tags in a pattern, over two tags. */
static void compare_small_books(void)
{
    static struct small_book books[SMALL_BOOKS];
    struct made_rule rules[SMALL_RULES];
    size_t all = all_rules(rules, 3), count = 0;

    for (size_t i = 0; i <= all; i++)
        for (size_t j = 0; j <= (i == 0 ? 0 : all); j++, count++) {
            struct made_book book = {2, (uint8_t)((i > 0) + (j > 0)), {{{0}, 0, 0, 0, 0}}};
            if (i > 0)
                book.rule[0] = rules[i - 1];
            if (j > 0)
                book.rule[1] = rules[j - 1];
            compare_tried(&book);
            books[count].behavior = behavior_mark(&book);
            books[count].table_len = 5 + 2 * states_of(last_out);
            for (size_t at = 4; last_out[at] != 0x00; at += last_out[at] == 0x33 ? 3 : 2)
                books[count].table_len += last_out[at] == 0x33 ? 3 : last_out[at] == 0x31 ? 0 : 2;
            if (books[count].table_len > sizeof books[count].table)
                fail("a longer table than books so small can have");
            memcpy(books[count].table, last_out, books[count].table_len);
        }
    compare_small_pairs(books, count);
}

static void compare_tried_books(size_t times)
{
    while (times-- > 0) {
        struct made_book book;
        switch (random_below(4)) {
        case 0:
            book = random_book(3, 1 + random_below(3), 2);
            break;
        case 1:
            book = random_book(2, 1 + random_below(3), 3);
            break;
        case 2:
            book = random_book(2, 1 + random_below(4), 2);
            break;
        default:
            book = random_book(2, 1, 6);
        }
        compare_tried(&book);
    }
}

/* ---- Books that do the same ---- */

static void compare_reordered(size_t times)
{
    while (times-- > 0) {
        size_t rules = 2 + random_below(3);
        struct made_book book = separate_book(2 * rules + random_below(4), rules, 1 + random_below(3));
        size_t i = random_below(rules), j = random_below(rules), length, table_len;
        struct made_rule moved = book.rule[i];
        uint8_t bytes[LONGEST_BOOK];
        uint64_t answer;
        length = write_book(&book, bytes);
        table_len = compile_whole(&book, bytes, length);
        book.rule[i] = book.rule[j];
        book.rule[j] = moved;
        length = write_book(&book, bytes);
        answer = compare_compile(bytes, length, 256, work_for(256, &book), table_len);
        if (table_len > 0 && (value_of(answer) != table_len || memcmp(table, last_out, table_len) != 0))
            fail("another table when rules that meet nowhere change places");
        alike += table_len > 0;
    }
}

/* Chosen inputs, and all small ones. */
static void compare_chosen(void)
{
    compare_work_helper();
    compare_limits_helpers();
    compare_limits_cases();
    compare_published_runs();
    compare_published_tables();
    compare_every_byte_of_some();
    compare_every_number();
    compare_hoards();
    compare_small_books();
    compare_everywhere_cases();
    compare_one_rules();
    compare_full_sentences();
    compare_places();
    compare_set_cases();
    compare_two_rules();
    compare_starter_table();
    compare_ending_cases();
    compare_every_end();
    alike += compare_ending_pairs();
    compare_table_bounds();
    compare_ceilings();
    compare_check_cases();
    compare_greatest(0);
    compare_greatest(1);
}

static void compare_drawn(void)
{
    compare_random_numbers(30000);
    compare_tried_books(2500);
    tried_out += compare_ending_tried(600);
    compare_ending_books(6000);
    compare_limited_books(9000);
    compare_limited_tables(30000);
    compare_rules_books(9000);
    compare_set_books(6000);
    compare_bytes_of_books(30000);
    compare_damaged_books(60000);
    compare_lengthened_books(6000);
    compare_tables(60000);
    compare_longest_typed(3);
    compare_books(8000);
    compare_reordered(150);
    compare_checked_books(2500);
    compare_big_books(200);
}

int main(int argc, char **argv)
{
    char *end = NULL;
    const char *part = argc > 1 ? argv[1] : "";
    uint64_t seed = argc > 2 ? strtoull(argv[2], &end, 10) : 20111115;

    if (argc > 3 || (strcmp(part, "chosen") != 0 && strcmp(part, "drawn") != 0) ||
        (argc > 2 && (*argv[2] < '0' || *argv[2] > '9' || *end != '\0'))) {
        fprintf(stderr, "usage: compare chosen|drawn [SEED], a number\n");
        return 2;
    }
    start_calls(seed);
    if (strcmp(part, "chosen") == 0)
        compare_chosen();
    else
        compare_drawn();
    print_counts(part, tried_out, alike);
    return 0;
}

#include "loaded.h"

#include <string.h>

#include "calls.h"
#include "generate.h"
#include "slices.h"

#define RESTING UINT32_C(0xffffffff)

enum { LONGEST_WORD = 255, HOARD_NUMBERS = 1 + 6 * 255 + 2 * 255 * 255, RANDOM_NUMBERS = 4096, MOST_DAMAGED = 20000 };

static uint32_t loaded[TABLE_ROOM], damaged[MOST_DAMAGED];
static uint8_t tags_read[LONGEST_TRIED_SENTENCE], tags_made[LONGEST_TRIED_SENTENCE];

static size_t row_place(size_t tags, size_t state)
{
    return 1 + state * (2 * tags + 2);
}

/* ---- Single numbers ---- */

static uint32_t short_word(size_t count, size_t tags)
{
    uint32_t number = (uint32_t)count;

    for (size_t i = 0; i < count; i++)
        number += (uint32_t)random_below(one_in(20) ? 256 : tags) << (8 * (i + 1));
    return number;
}

/* A word that ends within the slice, at its end or a little beyond. */
static uint32_t long_word(size_t count)
{
    size_t length = 4 + random_below(one_in(4) ? LONGEST_WORD - 3 : 12);
    size_t last = count + 3 > length ? count + 3 - length : 0;
    size_t place = one_in(2) ? random_below(last + 1) : last - (last > 4 ? random_below(5) : 0);

    return (uint32_t)((place & 0xffffff) * 256 + length);
}

/* Rows, places around the last one at which a row fits, and places far outside. */
static uint32_t some_place(size_t tags, size_t count)
{
    switch (random_below(8)) {
    case 0:
        return RESTING;
    case 1:
        return RESTING - (uint32_t)random_below(2 * tags + 3);
    case 2:
        return (uint32_t)(count - 2 * tags - 4 + random_below(6));
    case 3:
        return (uint32_t)random_below(count + 4);
    case 4:
        return one_in(2) ? (uint32_t)random_bits() : UINT32_C(1) << random_below(32);
    default:
        return (uint32_t)row_place(tags, random_below(count / (2 * tags + 2) + 1));
    }
}

static uint32_t some_number(size_t tags, size_t count)
{
    switch (random_below(5)) {
    case 0:
        return (uint32_t)random_bits();
    case 1:
        return short_word(random_below(4), tags);
    case 2:
        return long_word(count);
    default:
        return some_place(tags, count);
    }
}

static uint32_t other_tag_count(size_t tags)
{
    static const uint32_t wrong[] = {0, 1, 49, 255, 256, 258, 304, 65538, UINT32_C(0x80000002), RESTING};

    if (one_in(2))
        return wrong[random_below(sizeof wrong / sizeof *wrong)];
    return one_in(2) ? (uint32_t)(tags - 1 + 2 * random_below(2)) : (uint32_t)random_below(52);
}

/* ---- Damage ---- */

/* Every word gets another count, so that far too much is put out or far too little. */
static void change_every_word(uint32_t *numbers, size_t count, size_t tags)
{
    uint32_t length = one_in(2) ? LONGEST_WORD : (uint32_t)random_below(8);

    for (size_t at = 1; at < count; at++)
        if ((at - 1) % (2 * tags + 2) == 0 || ((at - 1) % 2 == 1 && (at - 1) % (2 * tags + 2) != 1))
            numbers[at] = (length > 3 ? 256 * (uint32_t)random_below(count) : numbers[at] / 256 * 256) + length;
}

static void damage_once(uint32_t *numbers, size_t count, size_t tags)
{
    size_t at = random_below(count), row = row_place(tags, random_below((count - 1) / (2 * tags + 2)));
    size_t cell = row + 2 * random_below(tags) + 2;

    switch (random_below(10)) {
    case 0:
        numbers[at] = (uint32_t)random_bits();
        break;
    case 1:
        numbers[at] ^= UINT32_C(1) << random_below(32);
        break;
    case 2:
        numbers[0] = other_tag_count(tags);
        break;
    case 3:
    case 4: /* the next row's place */
        numbers[cell] = one_in(2) ? some_place(tags, count) : numbers[cell] - 2 + (uint32_t)random_below(5);
        break;
    case 5:
    case 6: /* the word put out */
        numbers[cell + 1] = one_in(2) ? short_word(random_below(4), tags) : long_word(count);
        break;
    case 7: /* the final word */
        numbers[row] = one_in(2) ? short_word(random_below(4), tags) : long_word(count);
        break;
    case 8: /* two numbers change places */
        numbers[at] ^= numbers[cell];
        numbers[cell] ^= at == cell ? 0 : numbers[at];
        numbers[at] ^= at == cell ? 0 : numbers[cell];
        break;
    default:
        if (one_in(4))
            change_every_word(numbers, count, tags);
        else
            numbers[at] = some_number(tags, count);
    }
}

/* ---- Runs ---- */

/* The lengths at which a buffer for the result might end, beside short ones. */
static size_t some_run_length(void)
{
    static const size_t ends[] = {64, 128, 256, 512, 1024, 2048, 4096};

    return one_in(16) ? ends[random_below(sizeof ends / sizeof *ends)] - 3 + random_below(6) : some_length();
}

static void run_damaged(size_t count, size_t tags, size_t times)
{
    while (times-- > 0) {
        size_t length = some_run_length(), changes = one_in(3) ? 1 + random_below(6) : 1, cut = one_in(8) ? random_below(count) : 0;
        memcpy(damaged, loaded, count * sizeof *loaded);
        while (changes-- > 0)
            damage_once(damaged, count, tags);
        some_sentence(tags_read, length, tags);
        compare_run_loaded(damaged, count - cut, tags_read, length, some_room(length));
    }
}

/* What is loaded is the front of the count of numbers; the rest may be anything. */
static void run_both(const uint8_t *table, size_t table_len, size_t count, const uint8_t *sentence, size_t length, size_t room)
{
    uint64_t by_table = compare_run(RUN_TABLE, table, table_len, sentence, length, room);
    int made = by_table % 256 == 0 && length > 0;

    if (made)
        memcpy(tags_made, last_out, length);
    if (compare_run_loaded(loaded, count, sentence, length, room) != by_table)
        fail("the loaded table answers otherwise than its table");
    if (made && memcmp(tags_made, last_out, length) != 0)
        fail("the loaded table makes something else of the sentence than its table");
}

/* Loads into a slice of so many numbers, and keeps it whole. */
static void keep_loaded(const uint8_t *table, size_t table_len, size_t count)
{
    if (compare_load(table, table_len, count) % 256 != 0)
        fail("a slice that is long enough is refused");
    memcpy(loaded, last_loaded, count * sizeof *loaded);
}

void compare_loaded_table(const uint8_t *table, size_t table_len, size_t times)
{
    uint64_t answer = compare_load(table, table_len, table_len);
    size_t needed = (size_t)(answer / 256), count;

    compare_read(READ_TABLE, table, table_len);
    if (answer % 256 != 0) {
        compare_load(table, table_len, random_below(40));
        return;
    }
    compare_load(table, table_len, needed - 1);
    compare_load(table, table_len, random_below(needed));
    for (size_t i = 0; i < times; i++) {
        size_t length = some_run_length();
        count = needed + (i % 2 == 0 ? 0 : random_below(300));
        if (i < 2 || count < 500)
            keep_loaded(table, table_len, count);
        else
            count = needed;
        some_sentence(tags_read, length, table[1]);
        run_both(table, table_len, count, tags_read, length, some_room(length));
        compare_run_loaded(loaded, needed - 1, tags_read, length, length);
        compare_run_loaded(loaded, random_below(needed), tags_read, length, length);
        if (count <= MOST_DAMAGED)
            run_damaged(count, table[1], count < 2000 ? 3 : 1);
    }
}

void compare_loaded_sentence(const uint8_t *table, size_t table_len, const uint8_t *sentence, size_t length)
{
    size_t needed = (size_t)(compare_load(table, table_len, table_len) / 256);

    keep_loaded(table, table_len, needed);
    run_both(table, table_len, needed, sentence, length, length);
    run_both(table, table_len, needed, sentence, length, length - 1);
    if (needed <= MOST_DAMAGED) {
        memcpy(damaged, loaded, needed * sizeof *loaded);
        damage_once(damaged, needed, table[1]);
        compare_run_loaded(damaged, needed, sentence, length, length);
    }
}

/* ---- Numbers that no table gives ---- */

/* Book A's table, with a row behind it that a changed place may lead to, and a word of four tags. */
void compare_every_number(void)
{
    static const uint32_t numbers[] = {2, 0, 0, 7, 0, 1, 257, 1, 0, 7, 1, RESTING, 65794, 0, 0, RESTING, 1, RESTING, 257,
                                       0, 0, 19, 1, 1, 257, 1, 0, 256, RESTING - 255};
    static const uint32_t bounds[] = {48, 49, 255, 256, 258, 511, 512, 514, 515, 769, 65537, 65538, 16777219, 33554435,
                                      4 + 256 * 24, 4 + 256 * 25, 4 + 256 * 26, 5 + 256 * 24, 5 + 256 * 25, 255 + 256 * 29,
                                      UINT32_C(1) << 31, RESTING - 5, RESTING - 4, RESTING - 3, RESTING - 2, RESTING - 1, RESTING};
    static const uint8_t tags[] = {0, 0, 1, 0, 1};
    size_t count = sizeof numbers / sizeof *numbers, more = sizeof bounds / sizeof *bounds;
    uint32_t changed[sizeof numbers / sizeof *numbers];

    for (size_t at = 0; at < count; at++)
        for (size_t i = 0; i < 40 + more; i++)
            for (size_t length = 0; length <= sizeof tags; length++) {
                memcpy(changed, numbers, sizeof changed);
                changed[at] = i < 40 ? (uint32_t)i : bounds[i - 40];
                compare_run_loaded(changed, count, tags, length, length);
            }
    for (size_t length = 0; length <= sizeof tags; length++)
        for (size_t shorter = 0; shorter <= count; shorter++)
            compare_run_loaded(numbers, shorter, tags, length, length);
}

/* Rows that hold 0 to most tags, all of them put out at once after the last. Tags that are 256 apart are the same. */
static size_t make_hoard(uint32_t *numbers, uint32_t most)
{
    size_t count = 1, behind = row_place(2, most + 1);

    numbers[count - 1] = 2;
    for (uint32_t held = 0; held <= most; held++) {
        uint32_t put = held == most ? most + 1 : 0, next = held == most ? 1 : (uint32_t)row_place(2, held + 1);
        numbers[count++] = held > 3 ? held + 256 * (uint32_t)behind : short_word(held, 2);
        numbers[count++] = 0;
        for (size_t i = 0; held > 3 && i < held; i++)
            numbers[behind++] = (uint32_t)random_bits() & UINT32_C(0xffffff01);
        for (int tag = 0; tag < 2; tag++) {
            numbers[count++] = next;
            numbers[count++] = put > 3 ? put + 256 * (uint32_t)behind : short_word(put, 2);
            for (size_t i = 0; put > 3 && i < put; i++)
                numbers[behind++] = (uint32_t)random_bits() & UINT32_C(0xffffff01);
        }
    }
    return behind;
}

void compare_hoards(void)
{
    static const uint32_t most[] = {2, 3, 4, 5, 31, 63, 64, 79, 80, 81, 127, 128, 200, 253, 254};
    static uint32_t numbers[HOARD_NUMBERS];

    for (size_t i = 0; i < sizeof most / sizeof *most; i++)
        for (int times = 0; times < 40; times++) {
            size_t count = make_hoard(numbers, most[i]);
            size_t length = one_in(4) ? some_run_length() : (most[i] + 1) * (1 + random_below(9)) - random_below(3);
            random_sentence(tags_read, length, 2);
            if (one_in(3))
                damage_once(numbers, count, 2);
            compare_run_loaded(numbers, count - (one_in(4) ? random_below(3) : 0), tags_read, length, some_room(length));
        }
}

/* Mostly one tag for one, so that ways go on for a while. */
static void fill_numbers(uint32_t *numbers, size_t count, size_t tags)
{
    size_t odd = one_in(3) ? 3 : 30;

    numbers[0] = one_in(20) ? other_tag_count(tags) : (uint32_t)tags;
    for (size_t at = 1; at < count; at++) {
        size_t in_row = (at - 1) % (2 * tags + 2);
        if (one_in(odd))
            numbers[at] = some_number(tags, count);
        else if (in_row >= 2 && in_row % 2 == 0)
            numbers[at] = (uint32_t)row_place(tags, random_below(count / (2 * tags + 2) + (one_in(9) ? 1 : 0)));
        else
            numbers[at] = in_row < 2 ? 0 : short_word(1, tags);
    }
}

void compare_random_numbers(size_t times)
{
    static uint32_t numbers[RANDOM_NUMBERS];

    while (times-- > 0) {
        size_t tags = one_in(20) ? 48 : 2 + random_below(4), rows = 1 + random_below(6), length = some_run_length();
        size_t count = one_in(8) ? random_below(30) : row_place(tags, rows) + random_below(20) - (one_in(4) ? random_below(5) : 0);
        if (one_in(10)) {
            fill_random(numbers, count * sizeof *numbers);
            numbers[0] = one_in(2) ? (uint32_t)tags : numbers[0] % 64;
        } else if (count > 2 * tags + 1) {
            fill_numbers(numbers, count, tags);
        }
        some_sentence(tags_read, length, tags);
        compare_run_loaded(numbers, count, tags_read, length, some_room(length));
    }
}

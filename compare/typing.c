#include "typing.h"

#include <string.h>

#include "calls.h"
#include "generate.h"
#include "slices.h"

enum { LONGEST_SENTENCE = 65535, MOST_PUT = MOST_HELD + 1, LONG_TABLE = 4000 };

/* A sentence as it is typed. The tags taken and those put out so far are the fronts of the two arrays. */
struct typed {
    const uint8_t *table;
    size_t table_len, taken, made;
    struct nedzsuka_sentence sentence;
};

static uint8_t tags_taken[LONGEST_SENTENCE], tags_made[LONGEST_SENTENCE + MOST_PUT];

/* ---- Any numbers ---- */

#define SOME_OF(numbers) (numbers)[random_below(sizeof(numbers) / sizeof *(numbers))]

/* A state, one around the bound, one with bits above, or any number. */
static uint64_t some_state(size_t states)
{
    static const uint64_t bounds[] = {255, 256, 65535, 65536, UINT32_MAX, UINT64_C(1) << 63, UINT64_MAX};

    switch (random_below(8)) {
    case 0:
        return states;
    case 1:
        return (uint64_t)states - 1;
    case 2:
        return SOME_OF(bounds);
    case 3:
        return random_below(states + 1) + (UINT64_C(1) << (8 + random_below(56)));
    case 4:
        return random_bits() >> random_below(64);
    default:
        return random_below(states + 1);
    }
}

static uint64_t some_given(void)
{
    static const uint64_t bounds[] = {65533,      65534, 65535, 65536, 65537, UINT32_MAX, UINT64_C(1) << 32, (UINT64_C(1) << 32) + 9,
                                      UINT64_MAX};

    if (one_in(8))
        return random_bits() >> random_below(64);
    return one_in(3) ? SOME_OF(bounds) : random_below(LONGEST_SENTENCE);
}

static uint64_t some_closed(void)
{
    static const uint64_t bounds[] = {1, 2, 7, 255, 256, 65536, UINT64_C(1) << 32, UINT64_C(1) << 63, UINT64_MAX};

    if (one_in(16))
        return random_bits();
    return one_in(6) ? SOME_OF(bounds) : 0;
}

static unsigned some_wrong_tag(size_t tags)
{
    return (unsigned)(one_in(2) ? tags : tags + random_below(256 - tags));
}

static struct nedzsuka_sentence some_typed(size_t states)
{
    struct nedzsuka_sentence sentence;

    sentence.state = some_state(states);
    sentence.given = some_given();
    sentence.closed = some_closed();
    return sentence;
}

void compare_any_typed(const uint8_t *table, size_t table_len, size_t times)
{
    static const enum call calls[] = {OPEN, GIVE, GIVE, LOOK, CLOSE};
    size_t tags = table_len > 1 ? table[1] : 2, states = table_len > 3 ? (size_t)table[2] * 256 + table[3] : 1;

    while (times-- > 0) {
        struct nedzsuka_sentence sentence = some_typed(states), copy = sentence;
        unsigned tag = tags == 0 || one_in(6) ? some_wrong_tag(tags) : (unsigned)random_below(tags);
        enum call call = SOME_OF(calls);
        uint64_t answer = compare_typed(call, table, table_len, &sentence, tag, call == OPEN ? 0 : MOST_PUT);
        if (call != OPEN)
            compare_typed(call, table, table_len, &copy, tag, some_room(answer % 256 == 0 ? answer / 256 : 2));
    }
}

/* ---- Sentences from an opening on ---- */

/* One call over the sentence's own table, for the sentence or a copy of it. */
static uint64_t typed_call(const struct typed *typed, enum call call, struct nedzsuka_sentence *sentence, unsigned tag, size_t room)
{
    uint64_t answer = compare_typed(call, typed->table, typed->table_len, sentence, tag, room);

    if (answer % 256 == 12 || answer % 256 == 16)
        fail("the table or the state is refused, from an opening on");
    return answer;
}

static void expect_refused(const struct typed *typed, enum call call, struct nedzsuka_sentence *sentence, unsigned tag, size_t room,
                           unsigned refusal)
{
    struct nedzsuka_sentence before = *sentence;

    if (typed_call(typed, call, sentence, tag, room) != refusal)
        fail("not the refusal of a typed sentence");
    if (memcmp(&before, sentence, sizeof before) != 0)
        fail("a refused call changes the sentence");
}

/* How many tags a call would put out. */
static size_t would_put(const struct typed *typed, enum call call, unsigned tag)
{
    struct nedzsuka_sentence copy = typed->sentence;

    return (size_t)(typed_call(typed, call, &copy, tag, MOST_PUT) / 256);
}

static void expect_closed(const struct typed *typed, struct nedzsuka_sentence *sentence)
{
    expect_refused(typed, GIVE, sentence, some_wrong_tag(typed->table[1]), 0, 15);
    expect_refused(typed, LOOK, sentence, 0, MOST_HELD, 15);
    expect_refused(typed, CLOSE, sentence, 0, MOST_HELD, 15);
}

/* A look, and the close of a copy: both put out the same. What that is stands behind the tags made, and its length is answered. */
static size_t look_and_close(const struct typed *typed, struct nedzsuka_sentence *copy)
{
    uint8_t *looked = tags_made + typed->made;
    struct nedzsuka_sentence seen = *copy;
    uint64_t look = typed_call(typed, LOOK, &seen, 0, MOST_HELD), close;

    if (memcmp(&seen, copy, sizeof seen) != 0)
        fail("a look changes the sentence");
    if (look / 256 > 0)
        memcpy(looked, last_out, look / 256);
    close = typed_call(typed, CLOSE, copy, 0, (size_t)(look / 256) + (one_in(2) ? random_below(9) : 0));
    if (close != look || close % 256 != 0 || (close > 0 && memcmp(looked, last_out, close / 256) != 0))
        fail("a look puts out something else than a close");
    if (copy->closed != 1 || copy->given != seen.given || copy->state != seen.state)
        fail("a close does something else than to close");
    return (size_t)(close / 256);
}

/* The table with some damage, for a copy: the sentence goes on over the table as it was. */
static void type_damaged(const struct typed *typed)
{
    static uint8_t damaged[LONG_TABLE + DAMAGED_ROOM];
    static const enum call calls[] = {GIVE, LOOK, CLOSE};
    struct nedzsuka_sentence copy = typed->sentence;
    unsigned tag = (unsigned)random_below(typed->table[1]);
    enum call call = SOME_OF(calls);

    if (typed->table_len > LONG_TABLE)
        return;
    memcpy(damaged, typed->table, typed->table_len);
    compare_typed(call, damaged, damage(damaged, typed->table_len), &copy, tag, MOST_PUT);
}

/* What leaves the sentence as it is. */
static void interrupt(struct typed *typed, unsigned tag)
{
    struct nedzsuka_sentence *sentence = &typed->sentence, copy = *sentence;
    size_t needed;

    switch (random_below(5)) {
    case 0: /* a tag that there isn't */
        expect_refused(typed, GIVE, sentence, some_wrong_tag(typed->table[1]), random_below(MOST_PUT), 4);
        break;
    case 1: /* too little room for what a tag puts out */
        needed = would_put(typed, GIVE, tag);
        if (needed > 0)
            expect_refused(typed, GIVE, sentence, tag, one_in(2) ? needed - 1 : random_below(needed), 11);
        break;
    case 2: /* too little room for what is held */
        needed = would_put(typed, LOOK, 0);
        if (needed > 0)
            expect_refused(typed, one_in(2) ? LOOK : CLOSE, sentence, 0, one_in(2) ? needed - 1 : random_below(needed), 11);
        break;
    case 3:
        look_and_close(typed, &copy);
        expect_closed(typed, &copy);
        break;
    default:
        type_damaged(typed);
    }
}

static void give_tag(struct typed *typed, unsigned tag)
{
    size_t room = one_in(3) ? would_put(typed, GIVE, tag) : MOST_PUT + random_below(4);
    uint64_t answer = typed_call(typed, GIVE, &typed->sentence, tag, room);

    if (answer % 256 != 0)
        fail("a tag isn't taken");
    if (answer / 256 > 0)
        memcpy(tags_made + typed->made, last_out, answer / 256);
    typed->made += (size_t)(answer / 256);
    tags_taken[typed->taken++] = (uint8_t)tag;
}

static struct typed open_typed(const uint8_t *table, size_t table_len)
{
    struct typed typed = {table, table_len, 0, 0, some_typed(256)};

    if (typed_call(&typed, OPEN, &typed.sentence, 0, 0) != 0 || typed.sentence.state != 0 || typed.sentence.given != 0 ||
        typed.sentence.closed != 0)
        fail("an opening that doesn't open");
    return typed;
}

static void close_typed(struct typed *typed)
{
    uint64_t run;

    typed->made += look_and_close(typed, &typed->sentence);
    expect_closed(typed, &typed->sentence);
    run = compare_run(RUN_TABLE, typed->table, typed->table_len, tags_taken, typed->taken, typed->taken);
    if (run % 256 != 0 || typed->made != typed->taken || (typed->made > 0 && memcmp(tags_made, last_out, typed->made) != 0))
        fail("what a typed sentence puts out isn't what the run makes of its tags");
}

/* Now and then some tags are undone: the sentence goes on from the copy that was kept before them. */
static void type_sentence(const uint8_t *table, size_t table_len, size_t tags)
{
    struct typed typed = open_typed(table, table_len), kept = typed;

    while (tags-- > 0) {
        unsigned tag = (unsigned)random_below(table[1]);
        if (one_in(4))
            interrupt(&typed, tag);
        if (one_in(8))
            kept = typed;
        if (one_in(16))
            typed = kept;
        give_tag(&typed, tag);
    }
    close_typed(&typed);
}

void compare_typed_table(const uint8_t *table, size_t table_len, size_t times)
{
    compare_any_typed(table, table_len, 2);
    if (compare_read(READ_TABLE, table, table_len) % 256 != 0)
        return;
    while (times-- > 0)
        type_sentence(table, table_len, table_len > LONG_TABLE ? random_below(5) : some_length());
}

void compare_longest_typed(size_t times)
{
    uint8_t table[LONG_TABLE];

    while (times-- > 0) {
        struct typed typed = open_typed(table, random_table(2, 1 + random_below(6), 0, random_below(4), table));
        while (typed.taken < LONGEST_SENTENCE)
            give_tag(&typed, (unsigned)random_below(2));
        expect_refused(&typed, GIVE, &typed.sentence, 0, MOST_PUT, 13);
        expect_refused(&typed, GIVE, &typed.sentence, 2, 0, 13);
        close_typed(&typed);
    }
}

#include "checking.h"

#include <string.h>

#include "calls.h"
#include "canonical.h"
#include "generate.h"
#include "nedzsuka.h"
#include "reference.h"
#include "slices.h"

enum { SET_BYTES = 7, LONGEST_SET_BOOK = 2 + MOST_RULES * (3 + SET_BYTES * LONGEST_PATTERN) + 1, MOST_SET_WORK = 68 * 256 * 49 * 33 };

/* A book's bytes with an end tag, and what the check asks for. */
struct checked {
    uint8_t book[LONGEST_SET_BOOK + DAMAGED_ROOM];
    size_t length, work;
    unsigned end;
};

static uint8_t table[LONGEST_TABLE + DAMAGED_ROOM];

static uint64_t check(const struct checked *checked, size_t table_len, size_t out_len)
{
    return compare_check(checked->book, checked->length, checked->end, table, table_len, checked->work, out_len);
}

static size_t entries_of(const uint8_t *book, size_t length)
{
    uint64_t size = reference_read_book(book, length) / 256;

    return nedzsuka_work_entries(256, size / 256, size % 256, nedzsuka_has_set(book, length));
}

static struct checked checked_book(const struct made_book *book, unsigned end)
{
    struct checked checked;

    checked.length = write_book(book, checked.book);
    checked.end = end;
    checked.work = entries_of(checked.book, checked.length);
    return checked;
}

/* The book's smallest table; 0 where it has none, 10 or 14 being the answer. */
static int own_states(const struct checked *checked, struct states *states)
{
    static uint16_t work[MOST_SET_WORK];
    static uint8_t bytes[LONGEST_TABLE];

    if (reference_compile_ending(checked->book, checked->length, (uint8_t)checked->end, 256, work, MOST_SET_WORK, bytes, sizeof bytes) %
            256 != 0)
        return 0;
    read_states(bytes, states);
    return 1;
}

/* ---- The same, put together otherwise ---- */

/* Two states change numbers, and every step leads where it did. */
static void swap_states(struct states *s, size_t q, size_t r)
{
    struct tags held = s->held[q];

    for (size_t p = 0; p < s->count; p++)
        for (size_t tag = 0; tag < s->tags; tag++)
            if (s->next[p][tag] == q || s->next[p][tag] == r)
                s->next[p][tag] = (uint16_t)(q + r - s->next[p][tag]);
    for (size_t tag = 0; tag < s->tags; tag++) {
        uint16_t next = s->next[q][tag];
        struct tags out = s->out[q][tag];
        s->next[q][tag] = s->next[r][tag];
        s->next[r][tag] = next;
        s->out[q][tag] = s->out[r][tag];
        s->out[r][tag] = out;
    }
    s->held[q] = s->held[r];
    s->held[r] = held;
}

static void shuffle_states(struct states *s)
{
    for (size_t q = 1; q < s->count; q++)
        swap_states(s, q, q + random_below(s->count - q));
}

static void copy_state(struct states *s, size_t from, size_t to)
{
    s->held[to] = s->held[from];
    for (size_t tag = 0; tag < s->tags; tag++) {
        s->next[to][tag] = s->next[from][tag];
        s->out[to][tag] = s->out[from][tag];
    }
}

/* One more state that does what another does; some of the steps that led there lead to it. */
static void split_state(struct states *s)
{
    size_t from = random_below(s->count);

    if (s->count == MOST_STATES)
        return;
    copy_state(s, from, s->count);
    s->count++;
    for (size_t q = 0; q < s->count; q++)
        for (size_t tag = 0; tag < s->tags; tag++)
            if (s->next[q][tag] == from && one_in(2))
                s->next[q][tag] = (uint16_t)(s->count - 1);
}

static void fill_tags(struct tags *word, size_t length, size_t tags)
{
    word->length = (uint8_t)length;
    for (size_t i = 0; i < length; i++)
        word->tag[i] = (uint8_t)random_below(tags);
}

/* One more state, to which no step leads but its own. */
static void add_unreached(struct states *s)
{
    size_t q = s->count;

    if (s->count == MOST_STATES)
        return;
    s->count++;
    fill_tags(&s->held[q], one_in(4) ? MOST_HELD : random_below(4), s->tags);
    for (size_t tag = 0; tag < s->tags; tag++) {
        size_t next = random_below(s->count);
        while (s->held[next].length > s->held[q].length + 1)
            next = random_below(s->count);
        s->next[q][tag] = (uint16_t)next;
        fill_tags(&s->out[q][tag], s->held[q].length + 1u - s->held[next].length, s->tags);
    }
}

/* ---- The same, put out later ---- */

/* How much of what could be put out is kept back: a run of one tag, all, or a number that goes by the tags. */
enum patience { RUNS, ALL, MARKED, PATIENCES };

/* States of a later table: one of the table, and tags that it would have put out. */
struct waiting {
    uint16_t state[MOST_STATES];
    struct tags kept[MOST_STATES];
    size_t count;
};

static size_t kept_of(const uint8_t *tags, size_t length, size_t most, enum patience patience)
{
    size_t kept = 0, mark = length;

    most = most < length ? most : length;
    if (patience == ALL)
        return most;
    for (size_t i = 0; patience == MARKED && i < length; i++)
        mark = mark * 31 + tags[i];
    if (patience == MARKED)
        return mark % (most + 1);
    while (kept < most && tags[length - 1 - kept] == tags[length - 1])
        kept++;
    return kept;
}

/* The number of the state that keeps these tags; MOST_STATES where there is no room for one more. */
static size_t waiting_state(struct waiting *w, size_t state, const uint8_t *tags, size_t length)
{
    size_t i = 0;

    while (i < w->count && (w->state[i] != state || w->kept[i].length != length || memcmp(w->kept[i].tag, tags, length) != 0))
        i++;
    if (i == w->count && i < MOST_STATES) {
        w->state[i] = (uint16_t)state;
        w->kept[i].length = (uint8_t)length;
        memmove(w->kept[i].tag, tags, length);
        w->count++;
    }
    return i;
}

static size_t join_tags(uint8_t *to, const struct tags *first, const struct tags *second)
{
    memcpy(to, first->tag, first->length);
    memcpy(to + first->length, second->tag, second->length);
    return (size_t)first->length + second->length;
}

/* One step: what was kept and what the table puts out, less what is kept from now on. */
static int late_step(const struct states *s, struct waiting *w, size_t q, size_t tag, size_t most, enum patience patience,
                     struct states *late)
{
    uint8_t tags[2 * (MOST_HELD + 2)];
    size_t next = s->next[w->state[q]][tag], length = join_tags(tags, &w->kept[q], &s->out[w->state[q]][tag]);
    size_t room = (size_t)MOST_HELD - s->held[next].length, kept = kept_of(tags, length, most < room ? most : room, patience);
    size_t put = length - kept;

    next = waiting_state(w, next, tags + put, kept);
    if (next == MOST_STATES)
        return 0;
    late->next[q][tag] = (uint16_t)next;
    late->out[q][tag].length = (uint8_t)put;
    memcpy(late->out[q][tag].tag, tags, put);
    return 1;
}

/* Keeps back up to so many tags more than the table; it stays as it is where this takes more than 256 states. */
static void make_late(struct states *s, size_t most, enum patience patience)
{
    static struct states late;
    static struct waiting w;

    w.count = 0;
    waiting_state(&w, 0, w.kept[0].tag, 0);
    late.tags = s->tags;
    for (size_t q = 0; q < w.count; q++) {
        late.held[q].length = (uint8_t)join_tags(late.held[q].tag, &w.kept[q], &s->held[w.state[q]]);
        for (size_t tag = 0; tag < s->tags; tag++)
            if (!late_step(s, &w, q, tag, most, patience, &late))
                return;
    }
    late.count = w.count;
    *s = late;
}

/* From the most that may fit down to one. */
static void make_some_late(struct states *s)
{
    size_t before = s->count;

    for (size_t most = one_in(3) ? MOST_HELD : 1 + random_below(8); most > 0 && s->count == before; most /= 2)
        make_late(s, most, (enum patience)random_below(PATIENCES));
}

static void rebuild(struct states *s)
{
    for (size_t times = 1 + random_below(3); times > 0; times--)
        switch (random_below(4)) {
        case 0:
            make_some_late(s);
            break;
        case 1:
            add_unreached(s);
            break;
        default:
            for (size_t splits = 1 + random_below(one_in(8) ? MOST_STATES : 4); splits > 0; splits--)
                split_state(s);
        }
    if (!one_in(4))
        shuffle_states(s);
}

/* ---- One fault ---- */

static void change_tag(uint8_t *tag, size_t tags)
{
    *tag = (uint8_t)((*tag + 1 + random_below(tags - 1)) % tags);
}

static void change_output(struct states *s)
{
    struct tags *out = &s->out[random_below(s->count)][random_below(s->tags)];

    if (out->length > 0)
        change_tag(&out->tag[random_below(out->length)], s->tags);
}

static void change_held(struct states *s)
{
    struct tags *held = &s->held[random_below(s->count)];

    if (held->length > 0)
        change_tag(&held->tag[random_below(held->length)], s->tags);
}

/* To another state that holds as many tags. */
static void change_next(struct states *s)
{
    uint16_t *next = &s->next[random_below(s->count)][random_below(s->tags)], other = (uint16_t)random_below(s->count);

    for (int tries = 0; tries < 20 && (other == *next || s->held[other].length != s->held[*next].length); tries++)
        other = (uint16_t)random_below(s->count);
    if (s->held[other].length == s->held[*next].length)
        *next = other;
}

static void spoil(struct states *s)
{
    switch (random_below(4)) {
    case 0:
        change_held(s);
        break;
    case 1:
        change_output(s);
        break;
    default:
        change_next(s);
    }
}

/* ---- Drawn ---- */

static size_t some_shown_room(void)
{
    static const size_t rooms[] = {0, 1, 256, 1022, 1023, 1023, 1025, 2000};

    return one_in(4) ? rooms[random_below(sizeof rooms / sizeof *rooms)] : LONGEST_SHOWN;
}

/* Three tags at most, with this one, mostly without the end tag. */
static uint64_t some_set(uint8_t tag, size_t tags, unsigned end)
{
    uint64_t set = UINT64_C(1) << tag | UINT64_C(1) << random_below(tags) | UINT64_C(1) << random_below(tags);

    return end < tags && !one_in(8) ? set & ~(UINT64_C(1) << end) : set;
}

/* Now and then a place before the one that changes accepts a set. */
static void add_sets(struct checked *checked)
{
    uint8_t from[LONGEST_SET_BOOK], *to = checked->book + 2;
    size_t place = 0, at = 0, i = 2;

    memcpy(from, checked->book, checked->length);
    while (from[i] != 0x00) {
        size_t bytes = from[i] == 0x22 ? 2 : 3;
        uint64_t set = from[i] == 0x22 ? some_set(from[i + 1], from[1], checked->end) : 0;
        place = from[i] == 0x22 ? place : from[i + 1];
        at = from[i] == 0x22 ? at + 1 : 0;
        if (at <= place && one_in(2) && (set & (set - 1)) != 0) {
            *to++ = 0x23;
            for (int shift = 40; shift >= 0; shift -= 8)
                *to++ = (uint8_t)(set >> shift);
        } else {
            memcpy(to, from + i, bytes);
            to += bytes;
        }
        i += bytes;
    }
    *to++ = 0x00;
    checked->length = (size_t)(to - checked->book);
    checked->work = entries_of(checked->book, checked->length);
}

/* Now and then one that needs more states than there may be. */
static struct made_book some_book(size_t tags)
{
    if (one_in(100) && tags < 6)
        return random_book(tags, 6 + random_below(5), LONGEST_PATTERN);
    switch (random_below(4)) {
    case 0:
        return random_book(tags, random_below(4), 5);
    case 1:
        return random_book(tags, random_below(6), 2);
    case 2:
        return holding_book(tags, 1 + random_below(3), 2 + random_below(4));
    default:
        return random_book(tags, random_below(4), 3);
    }
}

static struct checked some_checked(size_t tags)
{
    struct made_book book = some_book(tags);
    unsigned end = tags > 2 && one_in(2) ? some_end(&book) : NO_END;
    struct checked checked = checked_book(&book, end);

    if (one_in(5))
        add_sets(&checked);
    return checked;
}

static size_t some_tag_count(void)
{
    return one_in(25) ? 2 + random_below(20) : 2 + random_below(4);
}

/* Tables that do what the book does, and the same with a fault. */
static void compare_rebuilt(const struct checked *checked, const struct states *own)
{
    static struct states states;
    uint64_t answer;

    answer = check(checked, write_states(own, table), some_shown_room());
    if (answer != 0 && answer != 11)
        fail("no to a book's own table");
    for (int times = 0; times < 2; times++) {
        states = *own;
        rebuild(&states);
        answer = check(checked, write_states(&states, table), some_shown_room());
        if (answer != 0 && answer != 11)
            fail("no to a book's own table, put together otherwise");
        spoil(&states);
        check(checked, write_states(&states, table), some_shown_room());
    }
    states = *own;
    spoil(&states);
    check(checked, write_states(&states, table), LONGEST_SHOWN);
}

/* Tables of other books over as many tags or over others, and for another end tag. */
static void compare_others(const struct checked *checked)
{
    static struct states states;
    struct checked other = some_checked(one_in(6) ? some_tag_count() : checked->book[1]);

    if (own_states(&other, &states))
        check(checked, write_states(&states, table), some_shown_room());
    other = *checked;
    other.end = one_in(2) ? NO_END : (unsigned)random_below(checked->book[1]);
    if (own_states(&other, &states))
        check(checked, write_states(&states, table), some_shown_room());
}

/* One refusal or several. */
static void compare_refused(const struct checked *checked, const struct states *own)
{
    struct checked changed = *checked;
    size_t table_len = write_states(own, table);

    changed.work -= 1 + (one_in(3) ? random_below(changed.work) : 0);
    check(&changed, table_len, some_shown_room());
    changed.end = (unsigned)random_below(256);
    check(&changed, table_len, some_shown_room());
    changed = *checked;
    changed.length = one_in(8) ? lengthen_book(changed.book, changed.length, changed.book[1]) : damage(changed.book, changed.length);
    check(&changed, table_len, some_shown_room());
    table_len = damage(table, table_len);
    check(checked, table_len, some_shown_room());
    changed.work = one_in(2) ? 0 : changed.work;
    check(&changed, table_len, some_shown_room());
}

void compare_checked_books(size_t times)
{
    static struct states own;

    while (times-- > 0) {
        struct checked checked = some_checked(some_tag_count());
        if (!own_states(&checked, &own)) {
            check(&checked, random_table(checked.book[1], 1 + random_below(6), 0, random_below(4), table), some_shown_room());
            continue;
        }
        if (write_states(&own, table) > 60000)
            continue;
        compare_rebuilt(&checked, &own);
        compare_others(&checked);
        if (one_in(2))
            compare_refused(&checked, &own);
    }
}

/* ---- Cases ---- */

static void expect(const struct checked *checked, const struct states *states, size_t out_len, uint64_t answer)
{
    if (check(checked, write_states(states, table), out_len) != answer)
        fail("not the answer that document 02 gives for a table that another has built");
}

/* A no, with a sentence of exactly so many tags; any number for 0. */
static void expect_no(const struct checked *checked, const struct states *states, size_t tags)
{
    uint64_t answer = check(checked, write_states(states, table), LONGEST_SHOWN);

    if (answer == 0 || answer % 256 != 0 || (tags > 0 && answer != tags * 256))
        fail("not the no that was worked out for a table");
}

/* States in a row over two tags; each step leads to the next, puts out its own tag or always 0, and in the last one to some state. */
static void make_row(struct states *s, size_t count, size_t back, int zeros)
{
    s->tags = 2;
    s->count = count;
    for (size_t q = 0; q < count; q++) {
        s->held[q].length = 0;
        for (uint8_t tag = 0; tag < 2; tag++) {
            s->next[q][tag] = (uint16_t)(q + 1 < count ? q + 1 : back);
            s->out[q][tag].length = 1;
            s->out[q][tag].tag[0] = zeros ? 0 : tag;
        }
    }
}

/* No rules beside rows that change nothing but the last tag they can, and beside the largest tables. */
static void compare_rows(void)
{
    static struct states row;
    struct made_book nothing = {2, 0, {{{0}, 0, 0, 0, 0}}};
    struct checked checked = checked_book(&nothing, NO_END);

    for (size_t count = 1; count <= MOST_STATES; count += count < 4 ? 1 : 36) {
        make_row(&row, count, count - 1, 0);
        expect(&checked, &row, LONGEST_SHOWN, 0);
        row.out[count - 1][1].tag[0] = 0;
        expect_no(&checked, &row, count);
        expect(&checked, &row, LONGEST_SHOWN - 1, 11);
    }
    nothing.tags = MOST_TAGS;
    checked = checked_book(&nothing, NO_END);
    check(&checked, random_table(MOST_TAGS, MOST_STATES, 0, MOST_HELD, table), LONGEST_SHOWN);
    own_states(&checked, &row);
    while (row.count < MOST_STATES)
        one_in(2) ? split_state(&row) : add_unreached(&row);
    expect(&checked, &row, LONGEST_SHOWN, 0);
}

/* What is always put out as 1 is kept back for 80 tags: all held and put out at once, and a tag changed behind the end of the ladder. */
static void compare_latest(void)
{
    static struct states late;
    struct made_book ones = {2, 1, {{{0}, 1, 0, 1, 1}}};
    struct checked checked = checked_book(&ones, NO_END);

    for (enum patience patience = RUNS; patience < PATIENCES; patience++) {
        own_states(&checked, &late);
        make_late(&late, MOST_HELD, patience);
        expect(&checked, &late, LONGEST_SHOWN, 0);
        expect(&checked, &late, LONGEST_SHOWN - 1, 11);
    }
    own_states(&checked, &late);
    make_late(&late, MOST_HELD, ALL);
    if (late.held[late.count - 1].length != MOST_HELD)
        fail("no table that holds the most");
    late.held[late.count - 1].tag[0] = 0;
    expect_no(&checked, &late, 0);
}

static void add_bytes(struct checked *checked, const char *bytes, size_t length)
{
    memcpy(checked->book + checked->length, bytes, length);
    checked->length += length;
}

/* Over two tags, 1 to 0 everywhere first, so that all sentences are zeros. Then every fifth tag is marked, and every sixth that is not yet
   marked: two marks stand behind four zeros at 5 and 6, 30 and 31, and so on, 25 apart. Nine rules, once each, take one such pair away;
   the tenth pair becomes three marks, and two rules take away the first mark of each group. So the tag 231 becomes 1, and no other. */
static struct checked long_book(void)
{
    struct checked checked = {{0}, 0, 0, NO_END};

    add_bytes(&checked, "\x20\x02\x24\x00\x00\x22\x01", 7);
    add_bytes(&checked, "\x24\x04\x01\x22\x00\x22\x00\x22\x00\x22\x00\x22\x00\x24\x05\x01", 16);
    for (int i = 0; i < 5; i++)
        add_bytes(&checked, "\x23\x00\x00\x00\x00\x00\x03", SET_BYTES);
    add_bytes(&checked, "\x22\x00", 2);
    for (int i = 0; i < 10; i++) {
        add_bytes(&checked, i < 9 ? "\x21\x05\x00" : "\x21\x03\x01", 3);
        add_bytes(&checked, "\x22\x00\x22\x00\x22\x00\x22\x00\x22\x01\x22\x01", 12);
    }
    for (int i = 0; i < 2; i++)
        add_bytes(&checked, "\x24\x01\x00\x22\x00\x22\x01", 7);
    add_bytes(&checked, "", 1);
    checked.work = entries_of(checked.book, checked.length);
    return checked;
}

/* A row of 256 states makes 1 of tag 231 too, but begins again behind its last one: the first other result is at 256 + 231. */
static void compare_longest(void)
{
    static struct states row, own;
    struct checked checked = long_book();

    if (!own_states(&checked, &own) || own.count != 232)
        fail("not the states of the book for long sentences");
    make_row(&row, MOST_STATES, 0, 1);
    row.out[230][0].tag[0] = row.out[230][1].tag[0] = 1;
    expect_no(&checked, &row, 256 + 231);
    make_row(&row, MOST_STATES, MOST_STATES - 1, 1);
    row.out[230][0].tag[0] = row.out[230][1].tag[0] = 1;
    expect(&checked, &row, LONGEST_SHOWN, 0);
    expect(&checked, &own, LONGEST_SHOWN, 0);
    swap_states(&own, 1, 231);
    expect(&checked, &own, LONGEST_SHOWN, 0);
}

/* So many rules that meet nowhere, each of one tag, over 19 tags with the last for the end: they double the states. */
static struct checked doubling_book(uint8_t rules, unsigned end)
{
    struct made_book book = {19, rules, {{{0}, 0, 0, 0, 0}}};

    for (uint8_t i = 0; i < rules; i++) {
        struct made_rule rule = {{(uint8_t)(2 * i)}, 1, 0, (uint8_t)(2 * i + 1), 0};
        book.rule[i] = rule;
    }
    return checked_book(&book, end);
}

static void compare_most_states(void)
{
    static struct states own, other;
    struct checked checked = doubling_book(8, NO_END);

    if (!own_states(&checked, &own) || own.count != MOST_STATES)
        fail("not 256 states");
    expect(&checked, &own, LONGEST_SHOWN, 0);
    expect(&checked, &own, LONGEST_SHOWN - 1, 11);
    for (int times = 0; times < 12; times++) {
        other = own;
        shuffle_states(&other);
        if (times > 3) {
            (times < 8 ? change_output : change_next)(&other);
            expect_no(&checked, &other, 0);
        } else {
            expect(&checked, &other, LONGEST_SHOWN, 0);
        }
    }
    checked.end = 18;
    expect_no(&checked, &own, 0);
}

/* Each call has what comes later wrong too, as far as it can. */
static void compare_order(void)
{
    struct checked wrong = doubling_book(9, 19);
    size_t length = random_table(20, 3, 1, 2, table);
    uint64_t answer[7];

    wrong.work--;
    answer[0] = compare_check(wrong.book, wrong.length - 1, 19, table, length, wrong.work, LONGEST_SHOWN - 1);
    answer[1] = check(&wrong, length, LONGEST_SHOWN - 1);
    wrong.end = 18;
    answer[2] = check(&wrong, length, LONGEST_SHOWN - 1);
    answer[3] = check(&wrong, random_table(20, 3, 0, 2, table), LONGEST_SHOWN - 1);
    length = random_table(19, 3, 0, 2, table);
    answer[4] = check(&wrong, length, LONGEST_SHOWN - 1);
    wrong.work++;
    answer[5] = check(&wrong, length, LONGEST_SHOWN - 1);
    wrong = doubling_book(1, 18);
    answer[6] = check(&wrong, length, LONGEST_SHOWN - 1);
    if (answer[0] != 1 || answer[1] != 14 || answer[2] != 12 || answer[3] != 20 || answer[4] != 9 || answer[5] != 9 * 256 + 10 ||
        answer[6] != 11)
        fail("refusals of the check in another order");
}

/* A seventeenth rule, a set of one tag and a set at the place, each beside no table and a good one. */
static void compare_refused_books(void)
{
    static const uint8_t small[] = {0x20, 4, 0x21, 1, 3, 0x23, 0, 0, 0, 0, 0, 2, 0x22, 2, 0x00};
    static const uint8_t late[] = {0x20, 4, 0x21, 0, 3, 0x23, 0, 0, 0, 0, 0, 3, 0x22, 2, 0x00};
    uint8_t many[2 + 17 * 5 + 1] = {0x20, 4};
    size_t length = random_table(4, 3, 0, 2, table);

    for (size_t i = 0; i < 17; i++)
        memcpy(many + 2 + 5 * i, "\x21\x00\x01\x22\x00", 5);
    for (size_t given = 0; given <= length; given += length) {
        if (compare_check(many, sizeof many, 9, table, given, given, given) != 7 ||
            compare_check(small, sizeof small, 9, table, given, given, given) != 18 ||
            compare_check(late, sizeof late, 9, table, given, given, given) != 19)
            fail("not the refusal of the book");
    }
}

void compare_check_cases(void)
{
    compare_refused_books();
    compare_rows();
    compare_latest();
    compare_longest();
    compare_most_states();
    compare_order();
}

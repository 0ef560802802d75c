#include "canonical.h"

#include <string.h>

#include "calls.h"
#include "reference.h"

/* With the limits 6, 16 and 48. */
enum { LONGEST_VALID_BOOK = 643 };

/* ---- Tables as states ---- */

static const uint8_t *read_tags(const uint8_t *from, uint8_t command, struct tags *word)
{
    for (word->length = 0; *from == command; from += 2)
        word->tag[word->length++] = from[1];
    return from;
}

void read_states(const uint8_t *table, struct states *states)
{
    const uint8_t *from = table + 4;

    states->tags = table[1];
    states->count = states_of(table);
    for (size_t q = 0; q < states->count; q++) {
        from = read_tags(from + 2, 0x32, &states->held[q]);
        for (size_t tag = 0; tag < states->tags; tag++) {
            states->next[q][tag] = (uint16_t)(from[1] * 256 + from[2]);
            from = read_tags(from + 3, 0x34, &states->out[q][tag]);
        }
    }
}

static uint8_t *write_tags(uint8_t *to, uint8_t command, const struct tags *word)
{
    for (size_t i = 0; i < word->length; i++) {
        *to++ = command;
        *to++ = word->tag[i];
    }
    return to;
}

size_t write_states(const struct states *states, uint8_t *table)
{
    uint8_t *to = table;

    *to++ = 0x30;
    *to++ = (uint8_t)states->tags;
    *to++ = (uint8_t)(states->count / 256);
    *to++ = (uint8_t)(states->count % 256);
    for (size_t q = 0; q < states->count; q++) {
        *to++ = 0x31;
        *to++ = states->held[q].length;
        to = write_tags(to, 0x32, &states->held[q]);
        for (size_t tag = 0; tag < states->tags; tag++) {
            *to++ = 0x33;
            *to++ = (uint8_t)(states->next[q][tag] / 256);
            *to++ = (uint8_t)(states->next[q][tag] % 256);
            to = write_tags(to, 0x34, &states->out[q][tag]);
        }
    }
    *to++ = 0x00;
    return (size_t)(to - table);
}

/* ---- As early as can be ---- */

/* How far what a state holds agrees with what it puts out for one more tag and the end. */
static size_t agreed(const struct states *s, size_t q, size_t tag)
{
    const struct tags *held = &s->held[q], *out = &s->out[q][tag], *then = &s->held[s->next[q][tag]];
    size_t i = 0;

    while (i < held->length && held->tag[i] == (i < out->length ? out->tag[i] : then->tag[i - out->length]))
        i++;
    return i;
}

/* The common front of all that a state can still put out is a front of what it holds; it is shortened until nothing changes. */
static void find_fronts(const struct states *s, size_t *front)
{
    int shortened = 1;

    for (size_t q = 0; q < s->count; q++) {
        front[q] = s->held[q].length;
        for (size_t tag = 0; tag < s->tags; tag++)
            if (agreed(s, q, tag) < front[q])
                front[q] = agreed(s, q, tag);
    }
    while (shortened) {
        shortened = 0;
        for (size_t q = 0; q < s->count; q++)
            for (size_t tag = 0; tag < s->tags; tag++) {
                size_t through = s->out[q][tag].length + front[s->next[q][tag]];
                if (through >= front[q])
                    continue;
                front[q] = through;
                shortened = 1;
            }
    }
}

static void drop_front(struct tags *word, size_t front)
{
    word->length = (uint8_t)(word->length - front);
    memmove(word->tag, word->tag + front, word->length);
}

/* Each step puts out the front of the state that it leads to, and no longer that of its own. No word is longer than what a state holds and
   one tag more. */
static void put_out_early(struct states *s)
{
    size_t front[MOST_STATES];

    find_fronts(s, front);
    for (size_t q = 0; q < s->count; q++)
        for (size_t tag = 0; tag < s->tags; tag++) {
            struct tags *out = &s->out[q][tag];
            size_t next = s->next[q][tag];
            memcpy(out->tag + out->length, s->held[next].tag, front[next]);
            out->length = (uint8_t)(out->length + front[next]);
            drop_front(out, front[q]);
        }
    for (size_t q = 0; q < s->count; q++)
        drop_front(&s->held[q], front[q]);
}

/* ---- States that do the same ---- */

static int same_tags(const struct tags *a, const struct tags *b)
{
    return a->length == b->length && memcmp(a->tag, b->tag, a->length) == 0;
}

static int same_words(const struct states *s, size_t q, size_t r)
{
    if (!same_tags(&s->held[q], &s->held[r]))
        return 0;
    for (size_t tag = 0; tag < s->tags; tag++)
        if (!same_tags(&s->out[q][tag], &s->out[r][tag]))
            return 0;
    return 1;
}

static int same_kinds(const struct states *s, const uint16_t *kind, size_t q, size_t r)
{
    if (kind[q] != kind[r])
        return 0;
    for (size_t tag = 0; tag < s->tags; tag++)
        if (kind[s->next[q][tag]] != kind[s->next[r][tag]])
            return 0;
    return 1;
}

/* The kind of a state is the first state of that kind. States are of one kind at first if their words agree, and part as soon as one step
   leads to different kinds, until no kind is parted. */
static void find_kinds(const struct states *s, uint16_t *kind)
{
    uint16_t finer[MOST_STATES];
    int parted = 1;

    for (size_t q = 0; q < s->count; q++)
        for (kind[q] = 0; !same_words(s, kind[q], q);)
            kind[q]++;
    while (parted) {
        for (size_t q = 0; q < s->count; q++)
            for (finer[q] = kind[q]; !same_kinds(s, kind, finer[q], q);)
                finer[q]++;
        parted = memcmp(kind, finer, s->count * sizeof *kind) != 0;
        memcpy(kind, finer, s->count * sizeof *kind);
    }
}

void make_canonical(struct states *s)
{
    static struct states found;
    uint16_t kind[MOST_STATES], number[MOST_STATES] = {0}, first[MOST_STATES] = {0};

    put_out_early(s);
    find_kinds(s, kind);
    found.tags = s->tags;
    found.count = 1;
    number[0] = 1; /* from 1: 0 is not yet reached */
    for (size_t q = 0; q < found.count; q++) {
        found.held[q] = s->held[first[q]];
        for (size_t tag = 0; tag < s->tags; tag++) {
            uint16_t next = kind[s->next[first[q]][tag]];
            if (number[next] == 0) {
                first[found.count] = next;
                number[next] = (uint16_t)++found.count;
            }
            found.out[q][tag] = s->out[first[q]][tag];
            found.next[q][tag] = (uint16_t)(number[next] - 1);
        }
    }
    *s = found;
}

/* ---- The check ---- */

static int has_set(const uint8_t *valid_book)
{
    size_t i = 2;

    while (valid_book[i] == 0x21 || valid_book[i] == 0x22 || valid_book[i] == 0x24)
        i += valid_book[i] == 0x22 ? 2 : 3;
    return valid_book[i] == 0x23;
}

/* The entries that documents 01 and 02 ask for with a ceiling of 256. */
static size_t entries_for(const uint8_t *valid_book, size_t book_len)
{
    size_t rules = (size_t)(reference_read_book(valid_book, book_len) / 256 % 256);

    return (has_set(valid_book) ? 68u : 16u) * 256 * (valid_book[1] + 1u) * (5 * rules + 8);
}

/* What compiling with the ceiling 256 answers, with room enough. The last book's table is kept, since many tables are held against one. */
static uint64_t compiled(const uint8_t *book, size_t book_len, uint8_t end, uint16_t *work, size_t work_len, uint8_t **table)
{
    static uint8_t last[LONGEST_VALID_BOOK], bytes[LONGEST_TABLE];
    static size_t last_len;
    static uint8_t last_end;
    static uint64_t answer;
    size_t entries = entries_for(book, book_len);

    *table = bytes;
    if (last_len != book_len || last_end != end || memcmp(last, book, book_len) != 0) {
        answer = reference_compile_ending(book, book_len, end, 256, work, work_len, bytes, sizeof bytes);
        memcpy(last, book, book_len);
        last_len = book_len;
        last_end = end;
    }
    memset(work, 0, entries * sizeof *work);
    return answer;
}

/* Whether the table, which is well formed, has the compiled one for its smallest form. */
static int does_the_same(const uint8_t *table, const uint8_t *smallest, size_t length)
{
    static struct states states;
    static uint8_t bytes[LONGEST_TABLE];

    read_states(table, &states);
    make_canonical(&states);
    return write_states(&states, bytes) == length && memcmp(bytes, smallest, length) == 0;
}

uint64_t reference_check(const uint8_t *book, size_t book_len, uint8_t end, const uint8_t *table, size_t table_len, uint16_t *work,
                         size_t work_len, size_t out_len)
{
    uint64_t answer = reference_run_book_ending(book, book_len, end, NULL, 0, NULL, 0);
    uint8_t *smallest;

    if (answer % 256 != 0)
        return answer; /* of the book, or 14 */
    if (reference_read_table(table, table_len) % 256 != 0)
        return 12;
    if (table[1] != book[1])
        return 20;
    if (work_len < entries_for(book, book_len))
        return 9;
    answer = compiled(book, book_len, end, work, work_len, &smallest);
    if (answer % 256 != 0)
        return answer; /* 10 with the rule */
    if (out_len < LONGEST_SHOWN)
        return 11;
    return does_the_same(table, smallest, (size_t)(answer / 256)) ? 0 : 256;
}

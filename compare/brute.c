#include "brute.h"

#include <stdio.h>
#include <stdlib.h>
#include <string.h>

enum { LONGEST_ACCESS = 48, MOST_TAILS = 1 << 15, LONGEST_TRIED = LONGEST_ACCESS + 16, VIEW_BYTES = 1 << 19 };

/* A word with its P, the common front of what the book makes of it with any tail, and what is left after P for each tail. */
struct view {
    uint8_t word[LONGEST_ACCESS + 1], front[LONGEST_TRIED];
    size_t word_length, front_length, residual_length;
    uint8_t *residual;
};

/* The first match in the word; everywhere: then the word behind the match. */
static void rewrite_word(const struct made_rule *rule, uint8_t *word, size_t length)
{
    size_t behind = rule->length;

    while (behind <= length && memcmp(word + behind - rule->length, rule->pattern, rule->length) != 0)
        behind++;
    if (behind > length)
        return;
    word[behind - rule->length + rule->place] = rule->new_tag;
    if (rule->everywhere)
        rewrite_word(rule, word + behind, length - behind);
}

static void rewrite_piece(const struct made_book *book, uint8_t *word, size_t length)
{
    for (size_t i = 0; i < book->rules; i++)
        rewrite_word(&book->rule[i], word, length);
}

void brute_rewrite(const struct made_book *book, unsigned end, uint8_t *word, size_t length)
{
    size_t piece = 0;

    while (piece < length && word[piece] != end)
        piece++;
    piece += piece < length;
    rewrite_piece(book, word, piece);
    if (piece < length)
        brute_rewrite(book, end, word + piece, length - piece);
}

/* The next tail in the order of length and, within a length, of a counter with the last tag quickest. */
static size_t next_tail(uint8_t *tail, size_t length, size_t tags)
{
    size_t i = length;

    while (i > 0 && tail[i - 1] + 1u == tags)
        tail[--i] = 0;
    if (i > 0) {
        tail[i - 1]++;
        return length;
    }
    tail[length] = 0;
    return length + 1;
}

static size_t common_front(const uint8_t *a, const uint8_t *b, size_t most)
{
    size_t i = 0;

    while (i < most && a[i] == b[i])
        i++;
    return i;
}

static void look(const struct made_book *book, unsigned end, size_t depth, struct view *view)
{
    static uint8_t made[MOST_TAILS][LONGEST_TRIED];
    static size_t length[MOST_TAILS];
    uint8_t tail[LONGEST_TRIED];
    size_t tails = 0, front = view->word_length;
    uint8_t *to = view->residual;

    for (size_t t = 0; t <= depth; t = next_tail(tail, t, book->tags)) {
        memcpy(made[tails], view->word, view->word_length);
        memcpy(made[tails] + view->word_length, tail, t);
        length[tails] = view->word_length + t;
        brute_rewrite(book, end, made[tails], length[tails]);
        front = common_front(made[0], made[tails], front);
        if (++tails == MOST_TAILS)
            abort();
    }
    view->front_length = front;
    memcpy(view->front, made[0], front);
    for (size_t i = 0; i < tails; i++) {
        memcpy(to, made[i] + front, length[i] - front);
        to += length[i] - front;
    }
    view->residual_length = (size_t)(to - view->residual);
    if (view->residual_length > VIEW_BYTES)
        abort();
}

static int same_residual(const struct view *a, const struct view *b)
{
    return a->residual_length == b->residual_length && memcmp(a->residual, b->residual, a->residual_length) == 0;
}

static uint8_t *write_step(uint8_t *to, size_t next, const struct view *from, const struct view *reached)
{
    *to++ = 0x33;
    *to++ = (uint8_t)(next / 256);
    *to++ = (uint8_t)(next % 256);
    for (size_t i = from->front_length; i < reached->front_length; i++) {
        *to++ = 0x34;
        *to++ = reached->front[i];
    }
    return to;
}

static uint8_t *write_final(uint8_t *to, const struct view *view)
{
    size_t held = view->word_length - view->front_length;

    *to++ = 0x31;
    *to++ = (uint8_t)held;
    for (size_t i = 0; i < held; i++) {
        *to++ = 0x32;
        *to++ = view->residual[i];
    }
    return to;
}

static void make_room(struct view *view)
{
    if (view->residual == NULL)
        view->residual = malloc(VIEW_BYTES);
    if (view->residual == NULL) {
        perror("memory for views");
        exit(2);
    }
}

/* From tails of at most this depth, as a table's bytes; 0 where it has more than BRUTE_STATES states. */
static size_t table_at(const struct made_book *book, unsigned end, size_t depth, uint8_t *bytes)
{
    static struct view view[BRUTE_STATES + 1];
    size_t states = 1;
    uint8_t *to = bytes + 4;

    make_room(&view[0]);
    view[0].word_length = 0;
    look(book, end, depth, &view[0]);
    for (size_t q = 0; q < states; q++) {
        to = write_final(to, &view[q]);
        for (size_t tag = 0; tag < book->tags; tag++) {
            struct view *reached = &view[states];
            size_t same = 0;
            make_room(reached);
            reached->word_length = view[q].word_length + 1;
            memcpy(reached->word, view[q].word, view[q].word_length);
            reached->word[view[q].word_length] = (uint8_t)tag;
            look(book, end, depth, reached);
            while (!same_residual(&view[same], reached))
                same++;
            to = write_step(to, same, &view[q], reached);
            if (same == states && (++states > BRUTE_STATES || reached->word_length == LONGEST_ACCESS))
                return 0;
        }
    }
    *to++ = 0x00;
    bytes[0] = 0x30;
    bytes[1] = book->tags;
    bytes[2] = (uint8_t)(states / 256);
    bytes[3] = (uint8_t)(states % 256);
    return (size_t)(to - bytes);
}

/* Words that tails tell apart lead to different states of every transducer, so that no table is smaller than one found at some depth.
   Where all rules fire once, the sum of the pattern lengths was deep enough for all books of several small shapes, and one less was
   not; where some fire everywhere, it sometimes took as much more as there are further rules. One more than either is tried. */
int brute_finds(const struct made_book *book, unsigned end, const uint8_t *table, size_t table_len)
{
    static uint8_t tried[BRUTE_BYTES];
    size_t depth = 1, deepest;

    for (size_t i = 0; i < book->rules; i++)
        depth += book->rule[i].length;
    deepest = depth + (book->rules > 1 ? book->rules - 1u : 0u);
    for (; depth <= deepest; depth++) {
        size_t length = table_at(book, end, depth, tried);
        if (length == table_len && (length == 0 || memcmp(tried, table, length) == 0))
            return 1;
    }
    return 0;
}

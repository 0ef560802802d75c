#include "places.h"

#include <string.h>

#include "calls.h"
#include "generate.h"

enum { LONGEST = 200, NEW_TAG = 2, END_TAG = 3, PLACE_BYTE = 3, KINDS = 2, PATTERNS = 11, PIECES = 3, SENTENCE_ROOM = 400 };
enum { NUMBERED = 17 }; /* one run in so many, an odd number, is also made with rule numbers */
/* Where in a piece the pattern stands. */
enum way { IN_FRONT, AT_THE_BACK, BETWEEN, IN_FRONT_AND_AT_THE_BACK, NOWHERE, WAYS };

/* A book of one rule, the number of its pattern, and the end tag that it is run with. */
struct placed_book {
    struct made_rule rule;
    size_t number, length;
    unsigned end;
    uint8_t bytes[LONGEST_BOOK];
};

static const char *const patterns[PATTERNS] = {"0", "01", "00", "001", "010", "0101", "1101", "00001", "01101", "011010", "111111"};

/* Lengths at and around those where one more block is looked at, and short ones. */
static const size_t ranges[][2] = {{1, 38}, {47, 54}, {63, 70}, {95, 100}, {127, 133}};
enum { RANGES = sizeof ranges / sizeof *ranges };

static uint8_t sentence[SENTENCE_ROOM], wanted[SENTENCE_ROOM];

/* ---- What is expected ---- */

static int stands_at(const struct made_rule *rule, const uint8_t *tags)
{
    for (size_t i = 0; i < rule->length; i++)
        if (tags[i] != rule->pattern[i])
            return 0;
    return 1;
}

/* The leftmost match gets the new tag; everywhere: then the leftmost behind its last tag, and so on. */
static void rewrite_piece(const struct made_rule *rule, const uint8_t *from, uint8_t *to, size_t length)
{
    size_t at = 0;

    while (at + rule->length <= length) {
        if (!stands_at(rule, from + at)) {
            at++;
            continue;
        }
        to[at + rule->place] = rule->new_tag;
        if (!rule->everywhere)
            return;
        at += rule->length;
    }
}

/* What each piece becomes goes to wanted; how many tags differ. */
static size_t rewrite_sentence(const struct placed_book *book, size_t length)
{
    size_t piece = 0, changed = 0;

    memcpy(wanted, sentence, length);
    for (size_t i = 0; i < length; i++)
        if (sentence[i] == book->end || i + 1 == length) {
            rewrite_piece(&book->rule, sentence + piece, wanted + piece, i + 1 - piece);
            piece = i + 1;
        }
    for (size_t i = 0; i < length; i++)
        changed += wanted[i] != sentence[i];
    return changed;
}

/* The run with rule numbers over the same sentence: 1 where the tag changes, and nowhere else. */
static void number_placed(const struct placed_book *book, size_t length)
{
    compare_run_rules(book->bytes, book->length, book->end, sentence, length, length, length);
    for (size_t i = 0; i < length; i++)
        if (last_rules[i] != (wanted[i] != sentence[i]))
            fail("another number than going place by place gives");
}

/* One run over the sentence, with the new tag at the pattern's first and at its last place by turns; how many tags change. */
static size_t run_placed(struct placed_book *book, size_t length)
{
    static size_t runs;
    size_t changed;
    uint64_t answer;

    book->rule.place = book->rule.place == 0 ? (uint8_t)(book->rule.length - 1) : 0;
    book->bytes[PLACE_BYTE] = book->rule.place;
    changed = rewrite_sentence(book, length);
    if (book->end == NO_END)
        answer = compare_run(RUN_BOOK, book->bytes, book->length, sentence, length, length);
    else
        answer = compare_run_ending(book->bytes, book->length, book->end, sentence, length, length);
    if (answer != changed * 256)
        fail("another count than going place by place gives");
    if (memcmp(last_out, wanted, length) != 0)
        fail("another result than going place by place gives");
    if (++runs % NUMBERED == 0)
        number_placed(book, length);
    return changed;
}

/* ---- Matches ---- */

/* As far as the sentence has room. */
static void put_pattern(const struct made_rule *rule, size_t at, size_t length)
{
    for (size_t i = 0; i < rule->length && at + i < length; i++)
        sentence[at + i] = rule->pattern[i];
}

/* The pattern at each place; near the end of the sentence as much of it as there is room for, which is no match. */
static void compare_each_place(struct placed_book *book)
{
    const struct made_rule *rule = &book->rule;

    for (size_t length = 1; length <= LONGEST; length++)
        for (size_t at = 0; at < length; at++) {
            size_t whole = at + rule->length <= length;
            memset(sentence, NEW_TAG, length);
            put_pattern(rule, at, length);
            if (run_placed(book, length) != whole || (whole && last_out[at + rule->place] != NEW_TAG))
                fail("a match isn't found where it stands, or one that is cut off is found");
        }
}

static void compare_pair(struct placed_book *book, size_t length, size_t first, size_t second)
{
    const struct made_rule *rule = &book->rule;

    memset(sentence, NEW_TAG, length);
    put_pattern(rule, first, length);
    put_pattern(rule, second, length);
    if (run_placed(book, length) != 1u + rule->everywhere || last_out[first + rule->place] != NEW_TAG ||
        (last_out[second + rule->place] == NEW_TAG) != rule->everywhere)
        fail("of two matches not the first one, or everywhere not both");
}

/* Side by side at every place; the other pairs of places are shared out among the patterns. */
static void compare_pairs(struct placed_book *book, size_t length)
{
    size_t tags = book->rule.length;

    for (size_t first = 0; first + 2 * tags <= length; first++)
        for (size_t second = first + tags; second + tags <= length; second++)
            if (second == first + tags || (first + 5 * second) % PATTERNS == book->number)
                compare_pair(book, length, first, second);
}

/* ---- Near misses ---- */

/* From the place on, so many times, the pattern with a wrong tag between its first and its last one. */
static void put_misses(const struct made_rule *rule, size_t at, size_t times, size_t length, size_t turn)
{
    size_t tags = rule->length, between = 1 + turn / 2 % (tags - 2u);
    uint8_t wrong = turn % 2 == 0 ? NEW_TAG : (uint8_t)(1 - rule->pattern[between]);

    for (size_t i = 0; i < times * tags && at + i < length; i++)
        sentence[at + i] = i % tags == between ? wrong : rule->pattern[i % tags];
}

static void compare_misses(struct placed_book *book, size_t length)
{
    for (size_t at = 0; at + book->rule.length <= length; at++) {
        memset(sentence, NEW_TAG, length);
        put_misses(&book->rule, at, 1, length, length + at);
        if (run_placed(book, length) != 0)
            fail("a near miss is found");
    }
}

/* A sentence of near misses, with the pattern at each place. */
static void compare_among_misses(struct placed_book *book, size_t length)
{
    for (size_t at = 0; at + book->rule.length <= length; at++) {
        put_misses(&book->rule, 0, length, length, length + at);
        put_pattern(&book->rule, at, length);
        run_placed(book, length);
    }
}

/* A sentence of the pattern's first tag, with the pattern at each place. */
static void compare_first_tags(struct placed_book *book, size_t length)
{
    for (size_t at = 0; at + book->rule.length <= length; at++) {
        memset(sentence, book->rule.pattern[0], length);
        put_pattern(&book->rule, at, length);
        run_placed(book, length);
    }
}

static void compare_first_tags_alone(struct placed_book *book)
{
    for (size_t length = 1; length <= LONGEST; length++) {
        memset(sentence, book->rule.pattern[0], length);
        run_placed(book, length);
    }
}

/* ---- Pieces ---- */

/* So many tags with the pattern, which may be cut off; how many times it fits. */
static size_t put_piece(const struct made_rule *rule, size_t begin, size_t room, enum way way)
{
    size_t tags = rule->length, end = begin + room, at = begin;

    memset(sentence + begin, NEW_TAG, room);
    if (way == NOWHERE)
        return 0;
    if (room >= tags && way == AT_THE_BACK)
        at = end - tags;
    if (room >= tags && way == BETWEEN)
        at = begin + (room - tags) / 2;
    put_pattern(rule, at, end);
    if (way != IN_FRONT_AND_AT_THE_BACK || room < 2 * tags)
        return room >= tags;
    put_pattern(rule, end - tags, end);
    return 2;
}

/* Pieces of so many tags, an end tag between each two. */
static void compare_pieces(struct placed_book *book, const size_t *room, size_t pieces, size_t ways)
{
    size_t length = 0, changed = 0;

    for (size_t i = 0; i < pieces; i++, ways /= WAYS) {
        size_t put = put_piece(&book->rule, length, room[i], (enum way)(ways % WAYS));
        changed += book->rule.everywhere ? put : put > 0;
        length += room[i];
        sentence[length++] = END_TAG;
    }
    if (run_placed(book, length - 1) != changed)
        fail("not the first match of each piece, or everywhere not each match");
}

/* Two pieces, the end tag at each place. */
static void compare_cuts(struct placed_book *book, size_t length)
{
    for (size_t cut = 0; cut < length; cut++) {
        size_t room[] = {cut, length - cut - 1};
        compare_pieces(book, room, 2, book->number + cut + 7 * length);
    }
}

/* Every three of the lengths; the ways are shared out among the patterns. A last piece of no tags: the sentence ends with the end tag. */
static void compare_three_pieces(struct placed_book *book)
{
    static const size_t lengths[] = {0, 1, 6, 31, 64, 98};
    enum { LENGTHS = sizeof lengths / sizeof *lengths };

    for (size_t i = 0; i < LENGTHS * LENGTHS * LENGTHS; i++)
        for (size_t ways = book->number; ways < WAYS * WAYS * WAYS; ways += PATTERNS) {
            size_t room[PIECES] = {lengths[i % LENGTHS], lengths[i / LENGTHS % LENGTHS], lengths[i / LENGTHS / LENGTHS]};
            compare_pieces(book, room, PIECES, ways);
        }
}

/* ---- Books ---- */

static void for_some_lengths(void (*compare)(struct placed_book *, size_t), struct placed_book *book)
{
    for (size_t i = 0; i < RANGES; i++)
        for (size_t length = ranges[i][0]; length <= ranges[i][1]; length++)
            compare(book, length);
}

/* Of two patterns of the same length one begins with the first place and one with the last. */
static struct placed_book make_placed(size_t number, uint8_t everywhere, unsigned end)
{
    uint8_t length = (uint8_t)strlen(patterns[number]);
    struct made_rule rule = {{0}, length, number % 2 == 0 ? 0 : (uint8_t)(length - 1), NEW_TAG, everywhere};
    struct made_book made = {end == NO_END ? 3 : 4, 1, {{{0}, 0, 0, 0, 0}}};
    struct placed_book book = {rule, number, 0, end, {0}};

    for (size_t i = 0; i < length; i++)
        book.rule.pattern[i] = (uint8_t)(patterns[number][i] - '0');
    made.rule[0] = book.rule;
    book.length = write_book(&made, book.bytes);
    return book;
}

void compare_places(void)
{
    for (size_t number = 0; number < PATTERNS; number++)
        for (uint8_t everywhere = 0; everywhere < KINDS; everywhere++) {
            struct placed_book book = make_placed(number, everywhere, NO_END), ending = make_placed(number, everywhere, END_TAG);
            compare_each_place(&book);
            for_some_lengths(compare_pairs, &book);
            if (book.rule.length > 2) {
                for_some_lengths(compare_misses, &book);
                for_some_lengths(compare_among_misses, &book);
            }
            for_some_lengths(compare_first_tags, &book);
            compare_first_tags_alone(&book);
            for_some_lengths(compare_cuts, &ending);
            compare_three_pieces(&ending);
        }
}

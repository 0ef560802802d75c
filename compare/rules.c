#include "rules.h"

#include <string.h>

#include "brute.h"
#include "calls.h"
#include "generate.h"
#include "slices.h"

enum { SHORT_RULES = 20, END_TAG = 2, SHORT_SENTENCE = 5 };

static uint8_t sentence[LONGEST_TRIED_SENTENCE], result[LONGEST_TRIED_SENTENCE];

uint64_t compare_numbered(const uint8_t *book, size_t book_len, unsigned end, const uint8_t *tags, size_t length, size_t out_len,
                          size_t rules_len)
{
    uint64_t without = compare_run_ending(book, book_len, end, tags, length, out_len), answer;

    if (without % 256 == 0 && length > 0)
        memcpy(result, last_out, length);
    answer = compare_run_rules(book, book_len, end, tags, length, out_len, rules_len);
    if (answer != (without % 256 == 0 && rules_len < length ? 11 : without))
        fail("another answer than that of the run without rule numbers");
    if (answer % 256 != 0)
        return answer;
    if (length > 0 && memcmp(result, last_out, length) != 0)
        fail("another result than that of the run without rule numbers");
    for (size_t i = 0; i < length; i++)
        if (last_rules[i] == 0 && last_out[i] != tags[i])
            fail("a tag differs where there is no number");
    return answer;
}

/* ---- Numbers found by trying ---- */

/* The leading parts of the book are tried one after the other. No rule puts the tag that is there: so a place has the number of the last
   rule with which its tag becomes another. */
static void check_by_parts(const struct made_book *book, unsigned end, const uint8_t *tags, size_t length)
{
    struct made_book part = *book;
    uint8_t before[SOME_LENGTH], after[SOME_LENGTH], number[SOME_LENGTH] = {0};

    memcpy(before, tags, length);
    for (part.rules = 1; part.rules <= book->rules; part.rules++) {
        memcpy(after, tags, length);
        brute_rewrite(&part, end, after, length);
        for (size_t i = 0; i < length; i++)
            if (after[i] != before[i])
                number[i] = part.rules;
        memcpy(before, after, length);
    }
    if (length > 0 && memcmp(number, last_rules, length) != 0)
        fail("other numbers than trying the leading parts of the book gives");
}

static void compare_every_sentence(const struct made_book *book)
{
    uint8_t bytes[LONGEST_BOOK], tags[SHORT_SENTENCE];
    size_t book_len = write_book(book, bytes), count = 1;

    for (size_t length = 0; length <= SHORT_SENTENCE; length++, count *= book->tags)
        for (size_t drawn = 0; drawn < count; drawn++) {
            for (size_t i = 0, rest = drawn; i < length; i++, rest /= book->tags)
                tags[i] = (uint8_t)(rest % book->tags);
            compare_run_rules(bytes, book_len, END_TAG, tags, length, length, length);
            check_by_parts(book, END_TAG, tags, length);
        }
}

void compare_two_rules(void)
{
    struct made_rule rules[SHORT_RULES];
    size_t all = all_rules(rules, 2);

    for (size_t i = 0; i < all; i++)
        for (size_t j = 0; j < all; j++) {
            struct made_book book = {END_TAG + 1, 2, {rules[i], rules[j]}};
            compare_every_sentence(&book);
        }
}

/* ---- Random books ---- */

/* Every other rule undoes the one before it, where it comes upon what that one leaves. */
static void undo(struct made_book *book)
{
    for (size_t i = 1; i < book->rules; i += 2) {
        const struct made_rule *before = &book->rule[i - 1];
        uint8_t everywhere = book->rule[i].everywhere;
        book->rule[i] = *before;
        book->rule[i].pattern[before->place] = before->new_tag;
        book->rule[i].new_tag = before->pattern[before->place];
        book->rule[i].everywhere = everywhere;
    }
}

/* Mostly few tags and short patterns, so that rules meet. */
static struct made_book some_book(void)
{
    struct made_book book;

    switch (random_below(5)) {
    case 0:
        book = random_book(2 + random_below(2), random_below(17), 1);
        break;
    case 1:
        book = random_book(2 + random_below(3), random_below(17), 2);
        break;
    case 2:
        book = random_book(2 + random_below(3), random_below(7), 3);
        break;
    case 3:
        book = holding_book(3 + random_below(4), 2 + random_below(4), 2 + random_below(5));
        break;
    default:
        book = random_book(2 + random_below(47), random_below(17), 1 + random_below(6));
    }
    if (one_in(3))
        undo(&book);
    return book;
}

/* As some_end, but more often none; none, or any number, where a book of two tags leaves no other. */
static unsigned end_for(struct made_book *book)
{
    if (book->tags > 2 && !one_in(3))
        return some_end(book);
    return one_in(16) ? (unsigned)random_below(256) : NO_END;
}

static void compare_rules_book(struct made_book *book)
{
    uint8_t bytes[LONGEST_BOOK];
    unsigned end = end_for(book);
    size_t length = write_book(book, bytes);

    for (int times = 0; times < 4; times++) {
        size_t count = some_length();
        paragraph_for(sentence, count, book, end);
        if (compare_numbered(bytes, length, end, sentence, count, count + random_below(3), count + random_below(3)) % 256 == 0)
            check_by_parts(book, end, sentence, count);
        compare_run_rules(bytes, length, end, sentence, count, some_room(count), some_room(count));
    }
}

/* Also with more rules or longer patterns than a book may have. */
static void compare_damaged_rules(struct made_book *book)
{
    uint8_t bytes[LONGEST_BOOK + LENGTHENED_ROOM + DAMAGED_ROOM];
    unsigned end = end_for(book);
    size_t length = write_book(book, bytes), count = random_below(20);

    if (one_in(3))
        length = lengthen_book(bytes, length, book->tags);
    else
        length = damage(bytes, length);
    paragraph_for(sentence, count, book, end);
    compare_numbered(bytes, length, end, sentence, count, some_room(count), some_room(count));
}

static void compare_long_rules(struct made_book *book)
{
    uint8_t bytes[LONGEST_BOOK];
    unsigned end = end_for(book);
    size_t length = write_book(book, bytes), count = some_great_length();

    long_paragraph(sentence, count, book, end);
    if (one_in(4))
        sentence[random_below(count)] = 200;
    compare_numbered(bytes, length, end, sentence, count, count - (size_t)one_in(3), count - (size_t)one_in(3));
}

void compare_rules_books(size_t times)
{
    while (times-- > 0) {
        struct made_book book = some_book(), damaged = some_book();
        compare_rules_book(&book);
        compare_damaged_rules(&damaged);
        if (one_in(40))
            compare_long_rules(&book);
    }
}

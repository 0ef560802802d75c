/* Random books, tables and sentences, and damage to their bytes. */
#ifndef GENERATE_H
#define GENERATE_H

#include <stddef.h>
#include <stdint.h>

enum { MOST_TAGS = 48, MOST_RULES = 16, LONGEST_PATTERN = 6, MOST_STATES = 256, MOST_HELD = 80 };
/* With the widest limits of document 02, W8. */
enum { WIDEST_PATTERN = 8, WIDEST_HELD = 112 };
enum { LONGEST_TRIED_SENTENCE = 70000, SOME_LENGTH = 120, NO_END = 255 };
enum { LONGEST_BOOK = 2 + MOST_RULES * (3 + 2 * WIDEST_PATTERN) + 1, DAMAGED_ROOM = 16, LENGTHENED_ROOM = 5 };

struct made_rule {
    uint8_t pattern[WIDEST_PATTERN], length, place, new_tag, everywhere;
};

struct made_book {
    uint8_t tags, rules;
    struct made_rule rule[MOST_RULES];
};

/* A valid rule over the first so many of the book's tags, which fires once. The books below mix rules that fire once and everywhere. */
struct made_rule random_rule(size_t tags, size_t used, size_t longest);
/* Every rule over two tags with a pattern of at most so many, of both kinds; how many they are. */
size_t all_rules(struct made_rule *rules, size_t longest);
/* A valid book whose rules often meet: few tags, equal patterns, rules that undo one another. */
struct made_book random_book(size_t tags, size_t rules, size_t longest);
/* Rules over tags of their own, so that any order of them does the same; the smallest table has many states. */
struct made_book separate_book(size_t tags, size_t rules, size_t longest);
/* Rules each of which waits for the tag that the one before may put in place, so that states hold many tags. */
struct made_book holding_book(size_t tags, size_t rules, size_t longest);
size_t write_book(const struct made_book *book, uint8_t *bytes);
/* One more pattern tag, or one more rule, after the last: more than a book may have, if it has the most already. The rule's operands
   may be wrong or missing. */
size_t lengthen_book(uint8_t *bytes, size_t length, size_t tags);
/* A table, hardly ever the smallest. Its last state holds the most, so that it is well formed exactly if the sizes are within the bounds
   and state 0 holds nothing. */
size_t random_table(size_t tags, size_t states, size_t first_held, size_t most_held, uint8_t *bytes);
/* Changes, adds, takes out or cuts off some bytes; the result is at most DAMAGED_ROOM longer. */
size_t damage(uint8_t *bytes, size_t length);
void random_sentence(uint8_t *sentence, size_t length, size_t tags);
/* An end tag that the book, of at least three tags, can be used with; now and then 255, or one that may give 14. The rules are changed so
   that it fits. */
unsigned some_end(struct made_book *book);
/* Now and then one of its tags is not below the number of tags. */
void some_sentence(uint8_t *sentence, size_t length, size_t tags);
/* Patterns of the book's rules close together, so that matches meet and overlap: whole ones, ends of them, now and then a tag between. */
void matching_sentence(uint8_t *sentence, size_t length, const struct made_book *book);
/* One of the two. */
void sentence_for(uint8_t *sentence, size_t length, const struct made_book *book);
/* The same, and the end tag stands in it often. */
void paragraph_for(uint8_t *sentence, size_t length, const struct made_book *book, unsigned end);
/* One of at least 65,534 tags, of many pieces or of one. */
void long_paragraph(uint8_t *sentence, size_t length, const struct made_book *book, unsigned end);
/* The length of a sentence, mostly short and below SOME_LENGTH. */
size_t some_length(void);
/* The length of a long one, around the bound or far beyond it. */
size_t some_great_length(void);
/* The length of an output slice: as long as needed, a byte short, longer or of no bytes. */
size_t some_room(size_t needed);

#endif

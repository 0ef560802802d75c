/* Sentences to be timed. */
#ifndef SENTENCES_H
#define SENTENCES_H

#include <stddef.h>
#include <stdint.h>

enum kind { RANDOM, FIRING, QUIET, FULL, KINDS };
enum length { OF_20, OF_200, OF_65535, LENGTHS, LONGEST = 65535 };

struct sentences {
    int made[KINDS]; /* whether the book has sentences of the kind */
    uint8_t tags[KINDS][LENGTHS][LONGEST];
};

extern const size_t sentence_length[LENGTHS];

/* Sentences for a valid book: random tags; tags out of which no rule's pattern is made; these with the patterns of the rules, in
   their order, at even distances, as many as there is room for; and the patterns alone, again and again, one right behind the other. */
void make_sentences(const uint8_t *book, struct sentences *sentences);

#endif

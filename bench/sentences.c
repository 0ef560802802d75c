#include "sentences.h"

#include <string.h>

enum { MOST_RULES = 16, LONGEST_PATTERN = 6, DRAWS = 500, MOST_RETURNS = 10000 };

struct patterns {
    size_t count, length[MOST_RULES];
    uint8_t tags[MOST_RULES][LONGEST_PATTERN];
};

const size_t sentence_length[LENGTHS] = {20, 200, LONGEST};

static void read_patterns(const uint8_t *book, struct patterns *p)
{
    p->count = 0;
    for (size_t i = 2; book[i] != 0x00; i += book[i] == 0x22 ? 2 : 3) {
        if (book[i] != 0x22)
            p->length[p->count++] = 0;
        else
            p->tags[p->count - 1][p->length[p->count - 1]++] = book[i + 1];
    }
}

static uint8_t draw(uint32_t *z, uint8_t tags)
{
    *z = *z * 1664525 + 1013904223;
    return (uint8_t)((*z >> 16) % tags);
}

/* Whether a pattern ends with the sentence's first n tags. */
static int ends_pattern(const struct patterns *p, const uint8_t *s, size_t n)
{
    for (size_t i = 0; i < p->count; i++)
        if (p->length[i] <= n && memcmp(s + n - p->length[i], p->tags[i], p->length[i]) == 0)
            return 1;
    return 0;
}

/* Draws each tag until it ends no pattern; goes back a little where none will do. */
static int make_quiet(const struct patterns *p, uint8_t tags, uint8_t *s)
{
    uint32_t z = 54321;
    size_t i = 0;

    for (int returns = 0; returns < MOST_RETURNS; returns++) {
        int draws = 0;
        for (; i < LONGEST && draws < DRAWS; i++)
            for (draws = 0; draws < DRAWS; draws++) {
                s[i] = draw(&z, tags);
                if (!ends_pattern(p, s, i + 1))
                    break;
            }
        if (draws < DRAWS)
            return 1;
        i -= i < 2 * LONGEST_PATTERN ? i : 2 * LONGEST_PATTERN;
    }
    return 0;
}

static void plant(const struct patterns *p, uint8_t *s, size_t n)
{
    size_t count = 0, all = 0, at = 0;

    while (count < p->count && all + p->length[count] <= n)
        all += p->length[count++];
    for (size_t i = 0; i < count; i++) {
        at += (n - all) / (count + 1);
        memcpy(s + at, p->tags[i], p->length[i]);
        at += p->length[i];
    }
}

static void fill(const struct patterns *p, uint8_t *s)
{
    for (size_t i = 0, at = 0; at < LONGEST; i = (i + 1) % p->count)
        for (size_t t = 0; t < p->length[i] && at < LONGEST; t++)
            s[at++] = p->tags[i][t];
}

void make_sentences(const uint8_t *book, struct sentences *sentences)
{
    struct patterns p;
    uint32_t z = 12345;

    read_patterns(book, &p);
    for (size_t i = 0; i < LONGEST; i++)
        sentences->tags[RANDOM][0][i] = draw(&z, book[1]);
    sentences->made[RANDOM] = 1;
    sentences->made[QUIET] = make_quiet(&p, book[1], sentences->tags[QUIET][0]);
    sentences->made[FIRING] = sentences->made[QUIET] && p.count > 0;
    sentences->made[FULL] = p.count > 0;
    for (int length = 0; length < LENGTHS; length++) {
        memcpy(sentences->tags[RANDOM][length], sentences->tags[RANDOM][0], LONGEST);
        memcpy(sentences->tags[QUIET][length], sentences->tags[QUIET][0], LONGEST);
        memcpy(sentences->tags[FIRING][length], sentences->tags[QUIET][0], LONGEST);
        plant(&p, sentences->tags[FIRING][length], sentence_length[length]);
        if (sentences->made[FULL])
            fill(&p, sentences->tags[FULL][length]);
    }
}

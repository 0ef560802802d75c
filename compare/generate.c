#include "generate.h"

#include <string.h>

#include "slices.h"

static uint8_t tag_but(size_t used, uint8_t not_this)
{
    uint8_t tag = (uint8_t)random_below(used - 1);

    return tag >= not_this ? (uint8_t)(tag + 1) : tag;
}

struct made_rule random_rule(size_t tags, size_t used, size_t longest)
{
    struct made_rule rule = {{0}, 0, 0, 0, 0};
    size_t period = 1 + random_below(longest);

    rule.length = (uint8_t)(1 + random_below(longest));
    for (size_t i = 0; i < rule.length; i++)
        rule.pattern[i] = i >= period ? rule.pattern[i - period] : (uint8_t)random_below(used);
    rule.place = (uint8_t)random_below(rule.length);
    rule.new_tag = tag_but(one_in(4) ? tags : used, rule.pattern[rule.place]);
    return rule;
}

size_t all_rules(struct made_rule *rules, size_t longest)
{
    size_t count = 0;

    for (uint8_t length = 1; length <= longest; length++)
        for (unsigned pattern = 0; pattern < 1u << length; pattern++)
            for (uint8_t place = 0; place < length; place++) {
                struct made_rule rule = {{0}, length, place, 0, 0};
                for (uint8_t i = 0; i < length; i++)
                    rule.pattern[i] = pattern >> i & 1;
                rule.new_tag = 1 - rule.pattern[place];
                rules[count++] = rule;
                rule.everywhere = 1;
                rules[count++] = rule;
            }
    return count;
}

/* A rule that has to do with one before it: it undoes it, or changes its pattern otherwise. */
static struct made_rule related_rule(const struct made_rule *before, size_t used)
{
    struct made_rule rule = *before;

    if (one_in(2)) {
        rule.pattern[rule.place] = before->new_tag;
        rule.new_tag = before->pattern[before->place];
    }
    if (one_in(3)) {
        rule.place = (uint8_t)random_below(rule.length);
        rule.new_tag = tag_but(used, rule.pattern[rule.place]);
    }
    return rule;
}

/* Half of the books have no rule that fires everywhere, a quarter has no other, a quarter may have both. */
static void draw_kinds(struct made_book *book)
{
    size_t drawn = random_below(4);

    for (size_t i = 0; i < book->rules; i++)
        book->rule[i].everywhere = drawn == 2 || (drawn == 3 && one_in(2));
}

struct made_book random_book(size_t tags, size_t rules, size_t longest)
{
    struct made_book book = {(uint8_t)tags, (uint8_t)rules, {{{0}, 0, 0, 0, 0}}};
    size_t used = 2 + random_below(tags < 6 ? tags - 1 : one_in(3) ? tags - 1 : 4);

    for (size_t i = 0; i < rules; i++) {
        if (i > 0 && one_in(3))
            book.rule[i] = related_rule(&book.rule[random_below(i)], tags);
        else
            book.rule[i] = random_rule(tags, used, longest);
    }
    draw_kinds(&book);
    return book;
}

struct made_book separate_book(size_t tags, size_t rules, size_t longest)
{
    struct made_book book = {(uint8_t)tags, (uint8_t)rules, {{{0}, 0, 0, 0, 0}}};
    size_t own = tags / rules;

    for (size_t i = 0; i < rules; i++) {
        struct made_rule *rule = &book.rule[i];
        *rule = random_rule(own, own, longest);
        for (size_t t = 0; t < rule->length; t++)
            rule->pattern[t] = (uint8_t)(rule->pattern[t] + i * own);
        rule->new_tag = (uint8_t)(rule->new_tag + i * own);
    }
    draw_kinds(&book);
    return book;
}

struct made_book holding_book(size_t tags, size_t rules, size_t longest)
{
    struct made_book book = {(uint8_t)tags, (uint8_t)rules, {{{0}, 0, 0, 0, 0}}};

    for (size_t i = 0; i < rules; i++) {
        struct made_rule *rule = &book.rule[i];
        *rule = random_rule(tags, tags, longest);
        rule->length = (uint8_t)(longest - random_below(2));
        for (size_t t = 0; t < rule->length; t++)
            rule->pattern[t] = (uint8_t)random_below(tags);
        if (i > 0)
            rule->pattern[rule->length - 1] = book.rule[i - 1].new_tag;
        rule->place = 0;
        rule->new_tag = tag_but(tags, rule->pattern[0]);
    }
    draw_kinds(&book);
    return book;
}

static void spare_tag(uint8_t *tag, unsigned end, size_t tags)
{
    while (*tag == end)
        *tag = (uint8_t)random_below(tags);
}

/* The end tag at the last place of a pattern at most, where it is not the one that changes. */
static void spare_end(struct made_rule *rule, unsigned end, size_t tags)
{
    for (size_t i = 0; i + 1 < rule->length; i++)
        spare_tag(&rule->pattern[i], end, tags);
    if (rule->length > 1 && one_in(3))
        rule->pattern[rule->length - 1] = (uint8_t)end;
    spare_tag(&rule->pattern[rule->place], end, tags);
    spare_tag(&rule->new_tag, end, tags);
    while (rule->new_tag == rule->pattern[rule->place] || rule->new_tag == end)
        rule->new_tag = (uint8_t)random_below(tags);
}

unsigned some_end(struct made_book *book)
{
    unsigned end = one_in(2) ? book->tags - 1u : (unsigned)random_below(book->tags);

    if (one_in(12))
        return NO_END;
    if (one_in(12))
        return one_in(2) ? end : (unsigned)random_below(256);
    for (size_t i = 0; i < book->rules; i++)
        spare_end(&book->rule[i], end, book->tags);
    return end;
}

size_t write_book(const struct made_book *book, uint8_t *bytes)
{
    uint8_t *to = bytes;

    *to++ = 0x20;
    *to++ = book->tags;
    for (size_t i = 0; i < book->rules; i++) {
        *to++ = book->rule[i].everywhere ? 0x24 : 0x21;
        *to++ = book->rule[i].place;
        *to++ = book->rule[i].new_tag;
        for (size_t t = 0; t < book->rule[i].length; t++) {
            *to++ = 0x22;
            *to++ = book->rule[i].pattern[t];
        }
    }
    *to++ = 0x00;
    return (size_t)(to - bytes);
}

size_t lengthen_book(uint8_t *bytes, size_t length, size_t tags)
{
    uint8_t *to = bytes + length - 1;

    if (one_in(2)) {
        *to++ = one_in(2) ? 0x21 : 0x24;
        *to++ = (uint8_t)random_below(2);
        *to++ = (uint8_t)random_below(tags + 1);
    }
    *to++ = 0x22;
    *to++ = (uint8_t)random_below(tags + 1);
    *to++ = 0x00;
    return (size_t)(to - bytes) - (one_in(3) ? random_below(LENGTHENED_ROOM + 1) : 0);
}

static uint8_t *write_tags(uint8_t *to, uint8_t command, size_t count, size_t tags)
{
    for (size_t i = 0; i < count; i++) {
        *to++ = command;
        *to++ = (uint8_t)random_below(tags);
    }
    return to;
}

size_t random_table(size_t tags, size_t states, size_t first_held, size_t most_held, uint8_t *bytes)
{
    uint8_t held[MOST_STATES + 1] = {0};
    uint8_t *to = bytes;

    for (size_t q = 1; q < states; q++)
        held[q] = (uint8_t)(q + 1 == states ? most_held : random_below(most_held + 1));
    held[0] = (uint8_t)first_held;
    *to++ = 0x30;
    *to++ = (uint8_t)tags;
    *to++ = (uint8_t)(states / 256);
    *to++ = (uint8_t)(states % 256);
    for (size_t q = 0; q < states; q++) {
        *to++ = 0x31;
        *to++ = held[q];
        to = write_tags(to, 0x32, held[q], tags);
        for (size_t tag = 0; tag < tags; tag++) {
            size_t next = random_below(states);
            while (held[next] > held[q] + 1)
                next = random_below(states);
            *to++ = 0x33;
            *to++ = (uint8_t)(next / 256);
            *to++ = (uint8_t)(next % 256);
            to = write_tags(to, 0x34, (size_t)held[q] + 1 - held[next], tags);
        }
    }
    *to++ = 0x00;
    return (size_t)(to - bytes);
}

static uint8_t likely_byte(void)
{
    static const uint8_t likely[] = {0x00, 0x01, 0x02, 0x06, 0x20, 0x21, 0x22, 0x23, 0x24, 0x25,
                                     0x30, 0x31, 0x32, 0x33, 0x34, 0x35, 0x50, 0x51, 0xff};

    return one_in(3) ? (uint8_t)random_bits() : likely[random_below(sizeof likely)];
}

static size_t damage_once(uint8_t *bytes, size_t length)
{
    size_t at = random_below(length + 1), from = random_below(length + 1);

    switch (random_below(6)) {
    case 0: /* one byte more */
        memmove(bytes + at + 1, bytes + at, length - at);
        bytes[at] = likely_byte();
        return length + 1;
    case 1: /* cut off */
        return at;
    case 2: /* one byte fewer */
        if (at == length)
            return length;
        memmove(bytes + at, bytes + at + 1, length - at - 1);
        return length - 1;
    case 3: /* one byte moved elsewhere */
        if (at < length && from < length)
            bytes[at] = bytes[from];
        return length;
    case 4: /* one bit */
        if (at < length)
            bytes[at] ^= (uint8_t)(1u << random_below(8));
        return length;
    default: /* one byte */
        if (at < length)
            bytes[at] = likely_byte();
        return length;
    }
}

size_t damage(uint8_t *bytes, size_t length)
{
    size_t times = one_in(4) ? 1 + random_below(DAMAGED_ROOM) : 1;

    while (times-- > 0)
        length = damage_once(bytes, length);
    return length;
}

void random_sentence(uint8_t *sentence, size_t length, size_t tags)
{
    size_t used = 1 + random_below(tags < 5 || one_in(4) ? tags : 5);

    for (size_t i = 0; i < length; i++)
        sentence[i] = (uint8_t)random_below(used);
}

void some_sentence(uint8_t *sentence, size_t length, size_t tags)
{
    static const uint8_t wrong[] = {48, 49, 127, 128, 255};

    random_sentence(sentence, length, tags);
    if (length > 0 && one_in(10))
        sentence[random_below(length)] = one_in(2) ? (uint8_t)tags : wrong[random_below(sizeof wrong)];
}

void matching_sentence(uint8_t *sentence, size_t length, const struct made_book *book)
{
    size_t i = 0;

    random_sentence(sentence, length, book->tags);
    while (book->rules > 0 && i < length) {
        const struct made_rule *rule = &book->rule[random_below(book->rules)];
        for (size_t t = one_in(3) ? random_below(rule->length) : 0; t < rule->length && i < length; t++)
            sentence[i++] = rule->pattern[t];
        i += one_in(5) ? 1 : 0;
    }
}

void sentence_for(uint8_t *sentence, size_t length, const struct made_book *book)
{
    if (one_in(3))
        matching_sentence(sentence, length, book);
    else
        some_sentence(sentence, length, book->tags);
}

void paragraph_for(uint8_t *sentence, size_t length, const struct made_book *book, unsigned end)
{
    sentence_for(sentence, length, book);
    if (end >= book->tags || one_in(8))
        return;
    for (size_t i = random_below(6); i < length; i += 1 + random_below(12))
        sentence[i] = (uint8_t)end;
    if (length > 0 && one_in(3))
        sentence[length - 1] = (uint8_t)end;
}

void long_paragraph(uint8_t *sentence, size_t length, const struct made_book *book, unsigned end)
{
    int one_piece = one_in(2);

    if (one_in(2))
        random_sentence(sentence, length, book->tags);
    else
        matching_sentence(sentence, length, book);
    for (size_t i = 0; i < length && one_piece; i++)
        if (sentence[i] == end)
            sentence[i] = (uint8_t)(end == 0);
}

size_t some_great_length(void)
{
    static const size_t lengths[] = {65534, 65535, 65536, 65537, LONGEST_TRIED_SENTENCE};

    return lengths[random_below(sizeof lengths / sizeof *lengths)];
}

size_t some_length(void)
{
    switch (random_below(8)) {
    case 0:
        return random_below(3);
    case 1:
        return random_below(SOME_LENGTH);
    default:
        return random_below(24);
    }
}

size_t some_room(size_t needed)
{
    switch (random_below(8)) {
    case 0:
        return needed == 0 ? 0 : needed - 1;
    case 1:
        return needed + 1 + random_below(40);
    case 2:
        return random_below(needed + 1);
    case 3:
        return one_in(3) ? 0 : needed;
    default:
        return needed;
    }
}

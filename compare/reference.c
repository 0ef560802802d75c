/* The second implementation. It compiles rule by rule: the smallest transducer so far is paired with the sets of matched lengths of the next
   rule, each pair's common front is a shortest distance, and states are found in the order of their numbers, a newly reached pair
   being compared with the states found before it. Scratch memory is static: one thread only. */
#include "reference.h"

#include <string.h>

/* The widest limits. */
enum {
    MOST_TAGS = 48,
    MOST_RULES = 16,
    LONGEST_PATTERN = 8,
    MOST_STATES = 256,
    MOST_HELD = 112,
    NO_END = 255,
    LONGEST_SENTENCE = 65535,
    MOST_ALIVE = (1 << (LONGEST_PATTERN - 1)) + 1,
    MOST_PAIRS = MOST_STATES * MOST_ALIVE,
    LONGEST_WORD = 128,
    LONGEST_TABLE = 2860837
};

/* Those of the call; where it names none, those of document 01. */
static struct {
    int pattern, rules, tags;
} limits = {6, 16, 48};

/* A place of the pattern is a set, or where that is 0 a tag. */
struct rule {
    uint8_t pattern[LONGEST_PATTERN];
    uint64_t set[LONGEST_PATTERN];
    int length, place, new_tag, everywhere;
};

/* With the end tag of the call, 255 for none, and the bytes so far of the set that is read. */
struct book {
    int tags, rules, end, set_bytes;
    uint64_t set;
    struct rule rule[MOST_RULES];
};

struct word {
    uint8_t length, tag[LONGEST_WORD];
};

struct row {
    struct word final, out[MOST_TAGS];
    uint16_t next[MOST_TAGS];
};

struct machine {
    int tags, states;
    struct row row[MOST_STATES];
};

/* ---- The bytes of a book, one byte at a time ---- */

enum expected { OPENING, TAGS, COMMAND, PLACE, NEW_TAG, PATTERN_TAG, SET_BYTE, NOTHING };

static int accepts(const struct rule *rule, int place, int tag)
{
    return rule->set[place] ? (int)(rule->set[place] >> tag & 1) : rule->pattern[place] == tag;
}

static int has_set_from(const struct rule *rule, int place)
{
    for (; place < rule->length; place++)
        if (rule->set[place])
            return 1;
    return 0;
}

static int refusal_at_closing(const struct book *book)
{
    const struct rule *last;

    if (book->rules == 0)
        return 0;
    last = &book->rule[book->rules - 1];
    if (last->length == 0)
        return 3;
    if (last->place >= last->length)
        return 5;
    if (has_set_from(last, last->place))
        return 19;
    return last->pattern[last->place] == last->new_tag ? 6 : 0;
}

static int read_command(struct book *book, uint8_t byte, enum expected *expected)
{
    int refusal = 0;

    if (byte == 0x22 || byte == 0x23) {
        *expected = byte == 0x22 ? PATTERN_TAG : SET_BYTE;
        book->set = 0;
        book->set_bytes = 0;
        if (book->rules == 0)
            return 1;
        return book->rule[book->rules - 1].length == limits.pattern ? 3 : 0;
    }
    if (byte != 0x21 && byte != 0x24 && byte != 0x00)
        return 1;
    refusal = refusal_at_closing(book);
    if (refusal)
        return refusal;
    if (byte == 0x00) {
        *expected = NOTHING;
        return 0;
    }
    if (book->rules == limits.rules)
        return 7;
    book->rule[book->rules].everywhere = byte == 0x24;
    book->rule[book->rules++].length = 0;
    *expected = PLACE;
    return 0;
}

static int ones_of(uint64_t set)
{
    int ones = 0;

    for (int tag = 0; tag < MOST_TAGS; tag++)
        ones += (int)(set >> tag & 1);
    return ones;
}

/* Six bytes, the high one first. */
static int read_set_byte(struct book *book, uint8_t byte, enum expected *expected)
{
    struct rule *last = &book->rule[book->rules - 1];

    book->set = book->set * 256 + byte;
    if (++book->set_bytes < 6)
        return 0;
    *expected = COMMAND;
    if (book->set >> book->tags != 0)
        return 4;
    if (ones_of(book->set) < 2)
        return 18;
    last->pattern[last->length] = 0;
    last->set[last->length++] = book->set;
    return 0;
}

static int read_operand(struct book *book, uint8_t byte, enum expected *expected)
{
    struct rule *last;
    enum expected now = *expected;

    *expected = now == PLACE ? NEW_TAG : COMMAND;
    if (now == TAGS) {
        book->tags = byte;
        return byte < 2 || byte > limits.tags ? 2 : 0;
    }
    last = &book->rule[book->rules - 1];
    if (now == PLACE) {
        last->place = byte;
        return 0;
    }
    if (byte >= book->tags)
        return 4;
    if (now == NEW_TAG) {
        last->new_tag = byte;
        return 0;
    }
    last->set[last->length] = 0;
    last->pattern[last->length++] = byte;
    return 0;
}

/* The byte at which reading ended goes to at. */
static int read_book_to(const uint8_t *bytes, size_t length, struct book *book, size_t *at)
{
    enum expected expected = OPENING;
    int refusal = 0;

    book->rules = 0;
    for (*at = 0; *at < length; ++*at) {
        if (expected == NOTHING) {
            refusal = 1;
        } else if (expected == OPENING) {
            refusal = bytes[*at] == 0x20 ? 0 : 1;
            expected = TAGS;
        } else if (expected == COMMAND) {
            refusal = read_command(book, bytes[*at], &expected);
        } else if (expected == SET_BYTE) {
            refusal = read_set_byte(book, bytes[*at], &expected);
        } else {
            refusal = read_operand(book, bytes[*at], &expected);
        }
        if (refusal)
            return refusal;
    }
    return expected == NOTHING ? 0 : 1;
}

static int read_book(const uint8_t *bytes, size_t length, struct book *book)
{
    size_t at;

    return read_book_to(bytes, length, book, &at);
}

uint64_t reference_read_book(const uint8_t *bytes, size_t length)
{
    struct book book;
    size_t at;
    int refusal = read_book_to(bytes, length, &book, &at);

    if (refusal)
        return (uint64_t)at * 256 + (uint64_t)refusal;
    return ((uint64_t)book.tags * 256 + (uint64_t)book.rules) * 256;
}

/* ---- The end tag of a call ---- */

static int rule_misuses(const struct rule *rule, int end)
{
    for (int i = 0; i + 1 < rule->length; i++)
        if (accepts(rule, i, end))
            return 1;
    return rule->pattern[rule->place] == end || rule->new_tag == end;
}

/* The book's refusals, then 14. */
static int read_book_ending(const uint8_t *bytes, size_t length, int end, struct book *book)
{
    int refusal = read_book(bytes, length, book);

    book->end = end;
    if (refusal || end == NO_END)
        return refusal;
    if (end >= book->tags)
        return 14;
    for (int i = 0; i < book->rules; i++)
        if (rule_misuses(&book->rule[i], end))
            return 14;
    return 0;
}

/* ---- The run of a book ---- */

static int refusal_of_sentence(const uint8_t *sentence, size_t length, int tags, size_t room)
{
    if (length > LONGEST_SENTENCE)
        return 13;
    for (size_t i = 0; i < length; i++)
        if (sentence[i] >= tags)
            return 4;
    return room < length ? 11 : 0;
}

static uint64_t changed_times_256(const uint8_t *sentence, const uint8_t *result, size_t length)
{
    uint64_t answer = 0;

    for (size_t i = 0; i < length; i++)
        if (sentence[i] != result[i])
            answer += 256;
    return answer;
}

static int occurs_at(const struct rule *rule, const uint8_t *tags)
{
    for (int i = 0; i < rule->length; i++)
        if (!accepts(rule, i, tags[i]))
            return 0;
    return 1;
}

/* The leftmost match; everywhere: matching begins again behind its last tag. The rule's number goes where its new tag goes. */
static void rewrite(const struct rule *rule, int number, uint8_t *sentence, uint8_t *numbers, size_t length)
{
    size_t x = 0;

    while (x + (size_t)rule->length <= length) {
        if (!occurs_at(rule, sentence + x)) {
            x++;
            continue;
        }
        sentence[x + (size_t)rule->place] = (uint8_t)rule->new_tag;
        numbers[x + (size_t)rule->place] = (uint8_t)number;
        x = rule->everywhere ? x + (size_t)rule->length : length;
    }
}

/* Cut after each end tag, each piece rewritten by itself. */
static void rewrite_pieces(const struct book *book, uint8_t *sentence, uint8_t *numbers, size_t length)
{
    size_t from = 0;

    for (size_t to = 1; to <= length; to++) {
        if (to < length && sentence[to - 1] != book->end)
            continue;
        for (int i = 0; i < book->rules; i++)
            rewrite(&book->rule[i], i + 1, sentence + from, numbers + from, to - from);
        from = to;
    }
}

uint64_t reference_run_book_rules(const uint8_t *book_bytes, size_t book_len, uint8_t end, const uint8_t *sentence,
                                  size_t sentence_len, uint8_t *out, size_t out_len, uint8_t *rules, size_t rules_len)
{
    struct book book;
    int refusal = read_book_ending(book_bytes, book_len, end, &book);

    if (!refusal)
        refusal = refusal_of_sentence(sentence, sentence_len, book.tags, out_len < rules_len ? out_len : rules_len);
    if (refusal)
        return (uint64_t)refusal;
    for (size_t i = 0; i < sentence_len; i++) {
        out[i] = sentence[i];
        rules[i] = 0;
    }
    rewrite_pieces(&book, out, rules, sentence_len);
    return changed_times_256(sentence, out, sentence_len);
}

/* The same with numbers that nobody reads. */
uint64_t reference_run_book_ending(const uint8_t *book, size_t book_len, uint8_t end, const uint8_t *sentence,
                                   size_t sentence_len, uint8_t *out, size_t out_len)
{
    static uint8_t unread[LONGEST_SENTENCE];

    return reference_run_book_rules(book, book_len, end, sentence, sentence_len, out, out_len, unread, sizeof unread);
}

uint64_t reference_run_book(const uint8_t *book, size_t book_len, const uint8_t *sentence, size_t sentence_len, uint8_t *out,
                            size_t out_len)
{
    return reference_run_book_ending(book, book_len, NO_END, sentence, sentence_len, out, out_len);
}

/* ---- The bytes of a table, and its run ---- */

struct cursor {
    const uint8_t *bytes;
    size_t place, length;
};

static void put(struct word *word, int tag)
{
    word->tag[word->length++] = (uint8_t)tag;
}

/* The next byte, or -1 after the last. */
static int take(struct cursor *cursor)
{
    return cursor->place < cursor->length ? cursor->bytes[cursor->place++] : -1;
}

static int take_number(struct cursor *cursor)
{
    int high = take(cursor), low = take(cursor);

    return high < 0 || low < 0 ? -1 : high * 256 + low;
}

static int take_command_and_tag(struct cursor *cursor, int command, int tags, struct word *word)
{
    int byte = take(cursor), tag = take(cursor);

    if (byte != command || tag < 0 || tag >= tags || word->length > MOST_HELD)
        return 0;
    put(word, tag);
    return 1;
}

static int take_row(struct cursor *cursor, const struct machine *table, struct row *row)
{
    int command = take(cursor), held = take(cursor), next;

    if (command != 0x31 || held < 0 || held > (limits.pattern - 1) * 16)
        return 0;
    row->final.length = 0;
    for (int i = 0; i < held; i++)
        if (!take_command_and_tag(cursor, 0x32, table->tags, &row->final))
            return 0;
    for (int tag = 0; tag < table->tags; tag++) {
        command = take(cursor);
        next = take_number(cursor);
        if (command != 0x33 || next < 0 || next >= table->states)
            return 0;
        row->next[tag] = (uint16_t)next;
        row->out[tag].length = 0;
        while (cursor->place < cursor->length && cursor->bytes[cursor->place] == 0x34)
            if (!take_command_and_tag(cursor, 0x34, table->tags, &row->out[tag]))
                return 0;
    }
    return 1;
}

static int puts_out_what_it_takes(const struct machine *table)
{
    for (int state = 0; state < table->states; state++) {
        const struct row *row = &table->row[state];
        for (int tag = 0; tag < table->tags; tag++)
            if (row->final.length + 1 != row->out[tag].length + table->row[row->next[tag]].final.length)
                return 0;
    }
    return 1;
}

static int read_table(const uint8_t *bytes, size_t length, struct machine *table)
{
    struct cursor cursor = {bytes, 0, length};

    if (take(&cursor) != 0x30)
        return 0;
    table->tags = take(&cursor);
    table->states = take_number(&cursor);
    if (table->tags < 2 || table->tags > limits.tags || table->states < 1 || table->states > MOST_STATES)
        return 0;
    for (int state = 0; state < table->states; state++)
        if (!take_row(&cursor, table, &table->row[state]))
            return 0;
    if (take(&cursor) != 0x00 || cursor.place != length)
        return 0;
    return table->row[0].final.length == 0 && puts_out_what_it_takes(table);
}

static uint8_t *copy_word(uint8_t *to, const struct word *word)
{
    memcpy(to, word->tag, word->length);
    return to + word->length;
}

uint64_t reference_run_table(const uint8_t *table_bytes, size_t table_len, const uint8_t *sentence, size_t sentence_len,
                             uint8_t *out, size_t out_len)
{
    static struct machine table;
    const struct row *row = &table.row[0];
    uint8_t *to = out;
    int refusal;

    if (!read_table(table_bytes, table_len, &table))
        return 12;
    refusal = refusal_of_sentence(sentence, sentence_len, table.tags, out_len);
    if (refusal)
        return (uint64_t)refusal;
    if (sentence_len == 0)
        return 0;
    for (size_t i = 0; i < sentence_len; i++) {
        to = copy_word(to, &row->out[sentence[i]]);
        row = &table.row[row->next[sentence[i]]];
    }
    copy_word(to, &row->final);
    return changed_times_256(sentence, out, sentence_len);
}

uint64_t reference_read_table(const uint8_t *bytes, size_t length)
{
    static struct machine table;

    if (!read_table(bytes, length, &table))
        return 12;
    return ((uint64_t)table.tags * 65536 + (uint64_t)table.states) * 256;
}

/* ---- Typed sentences ---- */

/* What a give, a look and a close are refused alike, before what each has of its own. */
static int refusal_of_typed(const uint8_t *bytes, size_t length, uint64_t state, uint64_t closed, struct machine *table)
{
    if (!read_table(bytes, length, table))
        return 12;
    if (closed != 0)
        return 15;
    return state < (uint64_t)table->states ? 0 : 16;
}

static uint64_t put_out(const struct word *word, uint8_t *out, size_t out_len)
{
    if (out_len < word->length)
        return 11;
    for (int i = 0; i < word->length; i++)
        out[i] = word->tag[i];
    return (uint64_t)word->length * 256;
}

uint64_t reference_open(const uint8_t *bytes, size_t length, uint64_t *state, uint64_t *given, uint64_t *closed)
{
    static struct machine table;

    if (!read_table(bytes, length, &table))
        return 12;
    *state = *given = *closed = 0;
    return 0;
}

uint64_t reference_give(const uint8_t *bytes, size_t length, uint64_t *state, uint64_t *given, uint64_t *closed, uint8_t tag,
                        uint8_t *out, size_t out_len)
{
    static struct machine table;
    int refusal = refusal_of_typed(bytes, length, *state, *closed, &table);
    uint64_t answer;

    if (!refusal && *given >= LONGEST_SENTENCE)
        refusal = 13;
    if (!refusal && tag >= table.tags)
        refusal = 4;
    if (refusal)
        return (uint64_t)refusal;
    answer = put_out(&table.row[*state].out[tag], out, out_len);
    if (answer % 256 == 0) {
        *state = table.row[*state].next[tag];
        ++*given;
    }
    return answer;
}

uint64_t reference_look(const uint8_t *bytes, size_t length, uint64_t state, uint64_t given, uint64_t closed, uint8_t *out,
                        size_t out_len)
{
    static struct machine table;
    int refusal = refusal_of_typed(bytes, length, state, closed, &table);

    (void)given;
    return refusal ? (uint64_t)refusal : put_out(&table.row[state].final, out, out_len);
}

uint64_t reference_close(const uint8_t *bytes, size_t length, uint64_t *state, uint64_t *given, uint64_t *closed, uint8_t *out,
                         size_t out_len)
{
    uint64_t answer = reference_look(bytes, length, *state, *given, *closed, out, out_len);

    if (answer % 256 == 0)
        *closed = 1;
    return answer;
}

/* ---- Tables as numbers ---- */

#define RESTING UINT32_C(0xffffffff)

struct numbers {
    uint32_t *at;
    size_t count, behind; /* the next place in the rows, and the next one behind them */
};

static size_t row_place(const struct machine *table, size_t state)
{
    return 1 + state * (size_t)(2 * table->tags + 2);
}

static size_t long_tags(const struct word *word)
{
    return word->length > 3 ? word->length : 0;
}

static size_t numbers_needed(const struct machine *table)
{
    size_t needed = row_place(table, (size_t)table->states);

    for (int state = 0; state < table->states; state++) {
        needed += long_tags(&table->row[state].final);
        for (int tag = 0; tag < table->tags; tag++)
            needed += long_tags(&table->row[state].out[tag]);
    }
    return needed;
}

static int rests(const struct machine *table, int state)
{
    const struct row *row = &table->row[state];

    for (int tag = 0; tag < table->tags; tag++)
        if (row->next[tag] != state || row->out[tag].length != 1 || row->out[tag].tag[0] != tag)
            return 0;
    return row->final.length == 0;
}

/* The first state that rests, or the number of states. */
static int first_resting(const struct machine *table)
{
    int state = 0;

    while (state < table->states && !rests(table, state))
        state++;
    return state;
}

static void number_word(struct numbers *numbers, const struct word *word)
{
    uint32_t number = word->length, unit = 256;

    if (long_tags(word) > 0) {
        number += (uint32_t)numbers->behind * 256;
        for (int i = 0; i < word->length; i++)
            numbers->at[numbers->behind++] = word->tag[i];
    } else {
        for (int i = 0; i < word->length; i++, unit *= 256)
            number += word->tag[i] * unit;
    }
    numbers->at[numbers->count++] = number;
}

uint64_t reference_load_table(const uint8_t *bytes, size_t length, uint32_t *loaded, size_t loaded_len)
{
    static struct machine table;
    struct numbers numbers = {loaded, 0, 0};
    size_t needed;
    int resting;

    if (!read_table(bytes, length, &table))
        return 12;
    needed = numbers_needed(&table);
    resting = first_resting(&table);
    if (loaded_len < needed)
        return 11;
    numbers.behind = row_place(&table, (size_t)table.states);
    loaded[numbers.count++] = (uint32_t)table.tags;
    for (int state = 0; state < table.states; state++) {
        const struct row *row = &table.row[state];
        number_word(&numbers, &row->final);
        loaded[numbers.count++] = 0;
        for (int tag = 0; tag < table.tags; tag++) {
            int next = row->next[tag];
            loaded[numbers.count++] = next == resting ? RESTING : (uint32_t)row_place(&table, (size_t)next);
            number_word(&numbers, &row->out[tag]);
        }
    }
    return (uint64_t)needed * 256;
}

/* ---- The run of any numbers ---- */

struct made {
    size_t length; /* of all that was put out; what is beyond the longest sentence is only counted */
    uint8_t tag[LONGEST_SENTENCE];
};

static void make_tag(struct made *made, uint32_t tag)
{
    if (made->length < LONGEST_SENTENCE)
        made->tag[made->length] = (uint8_t)(tag % 256);
    made->length++;
}

/* Whether the word lies within the numbers. */
static int make_word(const uint32_t *loaded, size_t loaded_len, uint32_t number, struct made *made)
{
    uint64_t count = number % 256, above = number / 256;

    if (count > 3 && above + count > loaded_len)
        return 0;
    for (uint64_t i = 0; i < count; i++) {
        if (count > 3)
            make_tag(made, loaded[above + i]);
        else
            make_tag(made, number >> (8 * (i + 1)));
    }
    return 1;
}

/* Whether the way meets nothing that lies outside the numbers. */
static int make_way(const uint32_t *loaded, size_t loaded_len, const uint8_t *sentence, size_t length, struct made *made)
{
    uint64_t tags = loaded[0], row = 1;

    made->length = 0;
    for (size_t i = 0; i < length; i++) {
        if (row + 2 * tags + 2 > loaded_len)
            return 0;
        if (!make_word(loaded, loaded_len, loaded[row + 2 * (uint64_t)sentence[i] + 3], made))
            return 0;
        row = loaded[row + 2 * (uint64_t)sentence[i] + 2];
        if (row == RESTING) {
            while (++i < length)
                make_tag(made, sentence[i]);
            return 1;
        }
    }
    return row + 2 * tags + 2 <= loaded_len && make_word(loaded, loaded_len, loaded[row], made);
}

uint64_t reference_run_loaded(const uint32_t *loaded, size_t loaded_len, const uint8_t *sentence, size_t sentence_len,
                              uint8_t *out, size_t out_len)
{
    static struct made made;
    int refusal;

    if (loaded_len == 0 || loaded[0] < 2 || loaded[0] > MOST_TAGS)
        return 12;
    refusal = refusal_of_sentence(sentence, sentence_len, (int)loaded[0], out_len);
    if (refusal)
        return (uint64_t)refusal;
    if (!make_way(loaded, loaded_len, sentence, sentence_len, &made) || made.length != sentence_len)
        return 12;
    for (size_t i = 0; i < made.length; i++)
        if (made.tag[i] >= loaded[0])
            return 12;
    if (sentence_len > 0)
        memcpy(out, made.tag, sentence_len);
    return changed_times_256(sentence, out, sentence_len);
}

/* ---- One rule's transducer (definition 2): its states are the sets of matched lengths, bit i for the length i + 1 ---- */

/* Once: the whole length alone. Everywhere: a whole match leads back to the start, so that the whole length is in no state. */
static int after_match(const struct rule *rule)
{
    return rule->everywhere ? 0 : 1 << (rule->length - 1);
}

static int longest_of(int alive)
{
    int longest = 0;

    while (alive >> longest != 0)
        longest++;
    return longest;
}

/* How many tags are held where these lengths are matched: from the place on. */
static int held_at(const struct rule *rule, int alive)
{
    int matched = longest_of(alive);

    return matched > rule->place && matched < rule->length ? matched - rule->place : 0;
}

/* A length is matched after the tag if one less was, or none, and the place there accepts it. */
static int alive_after(const struct rule *rule, int alive, int tag)
{
    int next = 0;

    for (int i = 0; i < rule->length; i++)
        if ((i == 0 || alive >> (i - 1) & 1) && accepts(rule, i, tag))
            next |= 1 << i;
    return next;
}

/* Feeds one tag to the rule; what it puts out goes after the word. */
static int feed(const struct rule *rule, int alive, int tag, struct word *word)
{
    int next, free_tags;

    if (longest_of(alive) == rule->length) {
        put(word, tag);
        return alive;
    }
    next = alive_after(rule, alive, tag);
    if (longest_of(next) == rule->length) {
        put(word, rule->new_tag);
        for (int i = rule->place + 1; i < rule->length; i++)
            put(word, rule->pattern[i]);
        return after_match(rule);
    }
    free_tags = held_at(rule, alive) + 1 - held_at(rule, next);
    for (int i = 0; i < free_tags; i++)
        put(word, i < held_at(rule, alive) ? rule->pattern[rule->place + i] : tag);
    return next;
}

static void put_held(const struct rule *rule, int matched, struct word *word)
{
    for (int held = 0, all = held_at(rule, matched); held < all; held++)
        put(word, rule->pattern[rule->place + held]);
}

/* After the end tag nothing is held and nothing is matched: the next piece begins. */
static int feed_word(const struct rule *rule, int end, int matched, const struct word *fed, struct word *word)
{
    word->length = 0;
    for (int i = 0; i < fed->length; i++) {
        matched = feed(rule, matched, fed->tag[i], word);
        if (fed->tag[i] != end)
            continue;
        put_held(rule, matched, word);
        matched = 0;
    }
    return matched;
}

/* ---- Pairs of a state so far and a state of the next rule ---- */

struct pairs {
    int tags, count;
    uint16_t number[MOST_STATES][MOST_ALIVE]; /* from 1 */
    uint16_t state[MOST_PAIRS];
    uint8_t matched[MOST_PAIRS];
    struct row row[MOST_PAIRS];
    uint8_t front[MOST_PAIRS];
    uint16_t kind[MOST_PAIRS], parent[MOST_PAIRS], size[MOST_PAIRS];
    uint32_t mark[MOST_PAIRS];
};

static int pair_number(struct pairs *pairs, int state, int matched)
{
    uint16_t *number = &pairs->number[state][matched];

    if (*number == 0) {
        pairs->state[pairs->count] = (uint16_t)state;
        pairs->matched[pairs->count] = (uint8_t)matched;
        *number = (uint16_t)++pairs->count;
    }
    return *number - 1;
}

static void make_pairs(struct pairs *pairs, const struct machine *before, const struct rule *rule, int end)
{
    while (pairs->count > 0) {
        pairs->count--;
        pairs->number[pairs->state[pairs->count]][pairs->matched[pairs->count]] = 0;
    }
    pairs->tags = before->tags;
    pair_number(pairs, 0, 0);
    for (int i = 0; i < pairs->count; i++) {
        const struct row *from = &before->row[pairs->state[i]];
        struct row *row = &pairs->row[i];
        int matched = feed_word(rule, end, pairs->matched[i], &from->final, &row->final);
        put_held(rule, matched, &row->final);
        for (int tag = 0; tag < pairs->tags; tag++) {
            matched = feed_word(rule, end, pairs->matched[i], &from->out[tag], &row->out[tag]);
            row->next[tag] = (uint16_t)pair_number(pairs, from->next[tag], matched);
        }
    }
}

/* How far the final word agrees with what is put out for one tag and the end. */
static int agreement(const struct word *final, const struct word *out, const struct word *then)
{
    int i = 0;

    while (i < final->length && i < out->length + then->length) {
        int tag = i < out->length ? out->tag[i] : then->tag[i - out->length];
        if (tag != final->tag[i])
            break;
        i++;
    }
    return i;
}

/* The length of the common front of all that a pair can still put out: the shortest distance to a pair whose final word parts from
   what a further tag gives, a step being as long as what it puts out. */
static void find_fronts(struct pairs *pairs)
{
    int shortened = 1;

    for (int i = 0; i < pairs->count; i++) {
        const struct row *row = &pairs->row[i];
        int front = row->final.length;
        for (int tag = 0; tag < pairs->tags && front > 0; tag++) {
            int agreed = agreement(&row->final, &row->out[tag], &pairs->row[row->next[tag]].final);
            front = agreed < front ? agreed : front;
        }
        pairs->front[i] = (uint8_t)front;
    }
    while (shortened) {
        shortened = 0;
        for (int i = 0; i < pairs->count; i++) {
            const struct row *row = &pairs->row[i];
            for (int tag = 0; tag < pairs->tags && pairs->front[i] > 0; tag++) {
                int through = row->out[tag].length + pairs->front[row->next[tag]];
                if (through < pairs->front[i]) {
                    pairs->front[i] = (uint8_t)through;
                    shortened = 1;
                }
            }
        }
    }
}

static void drop_front(struct word *word, int front)
{
    word->length = (uint8_t)(word->length - front);
    memmove(word->tag, word->tag + front, word->length);
}

/* Each front is put out by the steps that lead to its pair. */
static void put_out_early(struct pairs *pairs)
{
    for (int i = 0; i < pairs->count; i++) {
        struct row *row = &pairs->row[i];
        for (int tag = 0; tag < pairs->tags; tag++) {
            int next = row->next[tag];
            for (int t = 0; t < pairs->front[next]; t++)
                put(&row->out[tag], pairs->row[next].final.tag[t]);
            drop_front(&row->out[tag], pairs->front[i]);
        }
    }
    for (int i = 0; i < pairs->count; i++)
        drop_front(&pairs->row[i].final, pairs->front[i]);
}

/* ---- Which pairs do the same ---- */

static int same_word(const struct word *a, const struct word *b)
{
    return a->length == b->length && memcmp(a->tag, b->tag, a->length) == 0;
}

static uint32_t mark_of_word(uint32_t mark, const struct word *word)
{
    mark = (mark ^ word->length) * 16777619u;
    for (int i = 0; i < word->length; i++)
        mark = (mark ^ word->tag[i]) * 16777619u;
    return mark;
}

static int same_words(const struct row *a, const struct row *b, int tags)
{
    if (!same_word(&a->final, &b->final))
        return 0;
    for (int tag = 0; tag < tags; tag++)
        if (!same_word(&a->out[tag], &b->out[tag]))
            return 0;
    return 1;
}

/* Two pairs are of one kind if their words agree, wherever their steps lead. The kind is the first such pair. */
static void find_kinds(struct pairs *pairs)
{
    for (int i = 0; i < pairs->count; i++) {
        int kind = 0;
        uint32_t mark = mark_of_word(2166136261u, &pairs->row[i].final);
        for (int tag = 0; tag < pairs->tags; tag++)
            mark = mark_of_word(mark, &pairs->row[i].out[tag]);
        pairs->mark[i] = mark;
        while (pairs->mark[kind] != mark || !same_words(&pairs->row[kind], &pairs->row[i], pairs->tags))
            kind++;
        pairs->kind[i] = (uint16_t)kind;
        pairs->parent[i] = (uint16_t)i;
        pairs->size[i] = 1;
    }
}

static int root_of(const struct pairs *pairs, int pair)
{
    while (pairs->parent[pair] != pair)
        pair = pairs->parent[pair];
    return pair;
}

static int join(struct pairs *pairs, int a, int b)
{
    int small = pairs->size[a] < pairs->size[b] ? a : b, big = small == a ? b : a;

    pairs->parent[small] = (uint16_t)big;
    pairs->size[big] = (uint16_t)(pairs->size[big] + pairs->size[small]);
    return small;
}

static void part_again(struct pairs *pairs, const uint16_t *joined, int count)
{
    while (count-- > 0) {
        int small = joined[count], big = pairs->parent[small];
        pairs->size[big] = (uint16_t)(pairs->size[big] - pairs->size[small]);
        pairs->parent[small] = (uint16_t)small;
    }
}

/* Supposes that both do the same and follows what that entails, until kinds differ or nothing new follows. */
static int do_the_same(struct pairs *pairs, int first, int second)
{
    static uint16_t left[MOST_PAIRS], right[MOST_PAIRS], joined[MOST_PAIRS];
    int made = 0, done = 0;

    if (root_of(pairs, first) == root_of(pairs, second))
        return 1;
    if (pairs->kind[first] != pairs->kind[second])
        return 0;
    left[0] = (uint16_t)first;
    right[0] = (uint16_t)second;
    joined[made++] = (uint16_t)join(pairs, root_of(pairs, first), root_of(pairs, second));
    for (; done < made; done++) {
        for (int tag = 0; tag < pairs->tags; tag++) {
            int a = pairs->row[left[done]].next[tag], b = pairs->row[right[done]].next[tag];
            int root_a = root_of(pairs, a), root_b = root_of(pairs, b);
            if (root_a == root_b)
                continue;
            if (pairs->kind[a] != pairs->kind[b]) {
                part_again(pairs, joined, made);
                return 0;
            }
            left[made] = (uint16_t)a;
            right[made] = (uint16_t)b;
            joined[made++] = (uint16_t)join(pairs, root_a, root_b);
        }
    }
    return 1;
}

/* ---- The smallest transducer with one more rule ---- */

/* Finds the states in the order of their numbers; 0 where there are more than the ceiling. */
static int number_states(struct pairs *pairs, int ceiling, struct machine *after)
{
    static int16_t state_of[MOST_PAIRS];
    int found[MOST_STATES] = {0};

    for (int i = 0; i < pairs->count; i++)
        state_of[i] = -1;
    state_of[0] = 0;
    after->tags = pairs->tags;
    after->states = 1;
    for (int state = 0; state < after->states; state++) {
        after->row[state] = pairs->row[found[state]];
        for (int tag = 0; tag < pairs->tags; tag++) {
            int pair = pairs->row[found[state]].next[tag], same = 0;
            if (state_of[pair] < 0) {
                while (same < after->states && !do_the_same(pairs, found[same], pair))
                    same++;
                if (same == ceiling)
                    return 0;
                if (same == after->states)
                    found[after->states++] = pair;
                state_of[pair] = (int16_t)same;
            }
            after->row[state].next[tag] = (uint16_t)state_of[pair];
        }
    }
    return 1;
}

static int add_rule(struct machine *machine, const struct rule *rule, int end, int ceiling)
{
    static struct pairs pairs;

    make_pairs(&pairs, machine, rule, end);
    find_fronts(&pairs);
    put_out_early(&pairs);
    find_kinds(&pairs);
    return number_states(&pairs, ceiling, machine);
}

static void change_nothing(struct machine *machine, int tags)
{
    machine->tags = tags;
    machine->states = 1;
    machine->row[0].final.length = 0;
    for (int tag = 0; tag < tags; tag++) {
        machine->row[0].next[tag] = 0;
        machine->row[0].out[tag].length = 0;
        put(&machine->row[0].out[tag], tag);
    }
}

static uint8_t *write_word(uint8_t *to, uint8_t command, const struct word *word)
{
    for (int i = 0; i < word->length; i++) {
        *to++ = command;
        *to++ = word->tag[i];
    }
    return to;
}

static size_t write_table(const struct machine *machine, uint8_t *bytes)
{
    uint8_t *to = bytes;

    *to++ = 0x30;
    *to++ = (uint8_t)machine->tags;
    *to++ = (uint8_t)(machine->states / 256);
    *to++ = (uint8_t)(machine->states % 256);
    for (int state = 0; state < machine->states; state++) {
        const struct row *row = &machine->row[state];
        *to++ = 0x31;
        *to++ = row->final.length;
        to = write_word(to, 0x32, &row->final);
        for (int tag = 0; tag < machine->tags; tag++) {
            *to++ = 0x33;
            *to++ = (uint8_t)(row->next[tag] / 256);
            *to++ = (uint8_t)(row->next[tag] % 256);
            to = write_word(to, 0x34, &row->out[tag]);
        }
    }
    *to++ = 0x00;
    return (size_t)(to - bytes);
}

static int some_set(const struct book *book)
{
    for (int i = 0; i < book->rules; i++)
        if (has_set_from(&book->rule[i], 0))
            return 1;
    return 0;
}

uint64_t reference_compile_ending(const uint8_t *book_bytes, size_t book_len, uint8_t end, uint64_t ceiling, uint16_t *work,
                                  size_t work_len, uint8_t *out, size_t out_len)
{
    static struct machine machine;
    static uint8_t table[LONGEST_TABLE];
    struct book book;
    size_t entries, length;
    int refusal;

    if (ceiling < 1 || ceiling > MOST_STATES)
        return 8;
    refusal = read_book_ending(book_bytes, book_len, end, &book);
    if (refusal)
        return (uint64_t)refusal;
    entries = 2 * (size_t)(some_set(&book) ? (1 << (limits.pattern - 1)) + 2 : limits.pattern + 2) * (size_t)ceiling * (size_t)(book.tags + 1) *
              (size_t)((limits.pattern - 1) * book.rules + 8);
    if (work_len < entries)
        return 9;
    memset(work, 0, entries * sizeof *work);
    change_nothing(&machine, book.tags);
    for (int i = 0; i < book.rules; i++)
        if (!add_rule(&machine, &book.rule[i], end, (int)ceiling))
            return (uint64_t)(i + 1) * 256 + 10;
    length = write_table(&machine, table);
    if (out_len < length)
        return 11;
    memcpy(out, table, length);
    return (uint64_t)length * 256;
}

uint64_t reference_compile(const uint8_t *book, size_t book_len, uint64_t ceiling, uint16_t *work, size_t work_len, uint8_t *out,
                           size_t out_len)
{
    return reference_compile_ending(book, book_len, NO_END, ceiling, work, work_len, out, out_len);
}

/* "K = 48, pattern 0 1, place 1, new tag 2" (document 02, W7), with the lowest ceiling at which it compiles. */
uint64_t reference_starter_table(uint8_t *out, size_t out_len)
{
    static const uint8_t book[] = {0x20, 48, 0x21, 1, 2, 0x22, 0, 0x22, 1, 0x00};
    static uint16_t work[16 * 3 * 49 * 13];

    return reference_compile(book, sizeof book, 3, work, sizeof work / sizeof *work, out, out_len);
}

/* ---- Calls with limits (document 02, W8) ---- */

static int limits_taken(uint64_t pattern, uint64_t rules, uint64_t tags)
{
    if (pattern < 1 || pattern > LONGEST_PATTERN || rules < 1 || rules > MOST_RULES || tags < 2 || tags > MOST_TAGS)
        return 0;
    limits.pattern = (int)pattern;
    limits.rules = (int)rules;
    limits.tags = (int)tags;
    return 1;
}

static uint64_t with_limits_left(uint64_t answer)
{
    limits_taken(6, 16, 48);
    return answer;
}

uint64_t reference_compile_within(uint64_t pattern, uint64_t rules, uint64_t tags, const uint8_t *book, size_t book_len, uint8_t end,
                                  uint64_t ceiling, uint16_t *work, size_t work_len, uint8_t *out, size_t out_len)
{
    if (!limits_taken(pattern, rules, tags))
        return 17;
    return with_limits_left(reference_compile_ending(book, book_len, end, ceiling, work, work_len, out, out_len));
}

uint64_t reference_run_book_within(uint64_t pattern, uint64_t rules, uint64_t tags, const uint8_t *book, size_t book_len, uint8_t end,
                                   const uint8_t *sentence, size_t sentence_len, uint8_t *out, size_t out_len)
{
    if (!limits_taken(pattern, rules, tags))
        return 17;
    return with_limits_left(reference_run_book_ending(book, book_len, end, sentence, sentence_len, out, out_len));
}

uint64_t reference_run_table_within(uint64_t pattern, uint64_t rules, uint64_t tags, const uint8_t *table, size_t table_len,
                                    const uint8_t *sentence, size_t sentence_len, uint8_t *out, size_t out_len)
{
    if (!limits_taken(pattern, rules, tags))
        return 17;
    return with_limits_left(reference_run_table(table, table_len, sentence, sentence_len, out, out_len));
}

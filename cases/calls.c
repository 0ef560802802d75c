/* Makes one call of the library for each line of standard input, or several for some, and prints one line for each; cases/calls.sh has
   the lines.

   run_table ROOM TABLE / SENTENCE      the number of changed tags or the refusal, then the output slice
   run_book ROOM BOOK / SENTENCE        the same
   run_rules ROOM ROOM BOOK / SENTENCE  the same, then the rules slice, whose length is the second number
   run_compiled ROOM BOOK / SENTENCE    as run_book, by the table that the book compiles to, or compile's refusal
   compile CEILING ENTRIES ROOM BOOK    the table's states and bytes and on how many sentences it does what the book does, or the refusal
   slices CEILING ENTRIES ROOM BOOK     states and bytes or the refusal, then how much of the slices' memory has changed
   one_rules COMMAND K LONGEST [LAST]   for 1 to LONGEST every book of one rule with so many of 0 and 1 in its pattern, LAST behind them, and
                                        the other of both for new tag: how many, the states of their tables, the least to the most, and
                                        how many are refused with 10 at rule 1 where the ceiling is one lower
   starter ROOM                         the starter table's bytes or the refusal, then the output slice
   read_book BOOK                       the tags and rules, or the refusal and its byte
   read_table TABLE                     the tags and states, or the refusal
   load_table ROOM TABLE                how many numbers were written or the refusal, then the loaded slice
   run_loaded ROOM NUMBERS / SENTENCE   the number of changed tags or the refusal, then the output slice
   check ENTRIES ROOM BOOK / TABLE      whether the table does the same as the book, or the refusal, then how much of the slices' memory has
                                        changed, the sentence of a no left out
   check_book ENTRIES ROOM END BOOK / OTHER
                                        the same for the table that the other book compiles to with this end tag
   type TABLE / STEP ..                 for each call how many tags were put out or the refusal, then the output slice, and the sentence:
                                        its state, the tags given and whether it is closed

   The steps of a line share one sentence, whose numbers are seven at first. A step is a call:

   open, give TAG ROOM, look ROOM, close ROOM

   or what a host does between two calls: set STATE GIVEN CLOSED, which sets the sentence's numbers, or byte AT BYTE, which replaces a byte
   of the table.

   Of a no the sentence is run through book and table: where they make the same of it, it has no tag or more than 1,024, or one of its tags
   is not below K, the line says "differs wrongly". How many tags it has is told where they are more than 255.

   With ending END in front, run_book, run_rules, run_compiled, compile, slices and one_rules make the calls that name an end tag, and it is
   that of check and check_book; for run_rules, check and check_book it is 255 otherwise. With within PATTERN RULES TAGS before that, or in front, run_table, run_book, run_compiled, compile and
   slices make the calls that name limits.

   ROOM is the length of the output slice, ENTRIES that of the work slice; bytes are pairs of hexadecimal digits, numbers decimal. Output
   and work slices are the front of longer memory, which holds sevens before each call; typing, run_rules and starter tell where other
   bytes of it were written.
   A line that can't be read ends the program with status 2. */
#include <nedzsuka.h>

#include <inttypes.h>
#include <stdio.h>
#include <stdlib.h>
#include <string.h>

/* The entries are enough for sixteen rules over two tags at every ceiling, and for no rules over 48 tags at ceilings up to 172; those of a
   check for sixteen rules with sets over two tags, and for nine without over 18. */
enum { MOST_ENTRIES = 1081344, MOST_CHECKED = 4595712, MOST_BYTES = 65536, MOST_NUMBERS = 4096, LONGEST_LINE = 1 << 18, DRAWN = 400, LENGTHS = 41 };

static char line[LONGEST_LINE];
static size_t lines;
static uint8_t first[MOST_BYTES], sentence[MOST_BYTES], out[MOST_BYTES], rules[MOST_BYTES]; /* first: the book or table */
static uint16_t work[MOST_ENTRIES], check_work[MOST_CHECKED];
static uint32_t loaded[MOST_NUMBERS];
static uint8_t end_tag;
static int with_end, with_limits; /* whether the line names an end tag, or limits */
static uint64_t pattern_limit, rules_limit, tags_limit;

static void unreadable(const char *why)
{
    fprintf(stderr, "calls: line %zu: %s\n", lines, why);
    exit(2);
}

static uint64_t number_of(const char *word, uint64_t most)
{
    uint64_t number = word == NULL ? 0 : strtoull(word, NULL, 10);

    if (word == NULL || word[strspn(word, "0123456789")] != '\0' || number > most)
        unreadable("a number is missing, wrong or too large");
    return number;
}

static uint64_t read_number(uint64_t most)
{
    return number_of(strtok(NULL, " \n"), most);
}

/* Reads numbers up to a slash and answers how many they are. */
static size_t read_numbers(uint32_t *numbers)
{
    const char *word = strtok(NULL, " \n");
    size_t length = 0;

    for (; word != NULL && strcmp(word, "/") != 0; word = strtok(NULL, " \n")) {
        if (length == MOST_NUMBERS)
            unreadable("a number is one too many");
        numbers[length++] = (uint32_t)number_of(word, UINT32_MAX);
    }
    if (word == NULL)
        unreadable("a slash is missing");
    return length;
}

static uint8_t byte_of(const char *word)
{
    if (word == NULL || strlen(word) != 2 || strspn(word, "0123456789abcdef") != 2)
        unreadable("a byte is missing or wrong");
    return (uint8_t)strtoul(word, NULL, 16);
}

/* Reads bytes up to the end of the line, or up to a slash where there has to be one, and answers how many they are. */
static size_t read_bytes(uint8_t *bytes, int slash)
{
    const char *word = strtok(NULL, " \n");
    size_t length = 0;

    for (; word != NULL && strcmp(word, "/") != 0; word = strtok(NULL, " \n")) {
        if (length == MOST_BYTES)
            unreadable("a byte is one too many");
        bytes[length++] = byte_of(word);
    }
    if ((word != NULL) != slash)
        unreadable("a slash is missing or one too many");
    return length;
}

/* Whether the answer is a refusal, which is printed with the rule or byte that it names. */
static int refused(uint64_t answer, const char *named)
{
    if (nedzsuka_refusal(answer) == NEDZSUKA_OK)
        return 0;
    printf("refused %u", nedzsuka_refusal(answer));
    if (nedzsuka_value(answer) != 0)
        printf(" at %s %" PRIu64, named, nedzsuka_value(answer));
    return 1;
}

static void read_book(void)
{
    uint64_t answer = nedzsuka_read_book(first, read_bytes(first, 0));

    if (!refused(answer, "byte"))
        printf("tags %" PRIu64 ", rules %" PRIu64, nedzsuka_value(answer) / 256, nedzsuka_value(answer) % 256);
}

static void read_table(void)
{
    uint64_t answer = nedzsuka_read_table(first, read_bytes(first, 0));

    if (!refused(answer, "nothing"))
        printf("tags %" PRIu64 ", states %" PRIu64, nedzsuka_value(answer) / 65536, nedzsuka_value(answer) % 65536);
}

static void load_table(void)
{
    size_t room = read_number(MOST_NUMBERS), table_len = read_bytes(first, 0);
    uint64_t answer = nedzsuka_load_table(first, table_len, loaded, room);

    if (!refused(answer, "nothing"))
        printf("%" PRIu64 " numbers", nedzsuka_value(answer));
    printf(", loaded");
    for (size_t i = 0; i < room; i++)
        printf(" %" PRIu32, loaded[i]);
}

static void print_slice(const char *name, const uint8_t *slice, size_t room)
{
    printf(", %s", name);
    for (size_t i = 0; i < room; i++)
        printf(" %d", slice[i]);
}

static void print_beyond(const uint8_t *slice, size_t room)
{
    for (size_t i = room; i < MOST_BYTES; i++)
        if (slice[i] != 7)
            printf(", written at %zu", i);
}

static void print_run(uint64_t answer, size_t room)
{
    if (!refused(answer, "nothing"))
        printf("%" PRIu64 " changed", nedzsuka_value(answer));
    print_slice("output", out, room);
}

static void starter(void)
{
    size_t room = read_number(MOST_BYTES);
    uint64_t answer = nedzsuka_starter_table(out, room);

    if (!refused(answer, "nothing"))
        printf("%" PRIu64 " bytes", nedzsuka_value(answer));
    print_slice("output", out, room);
    print_beyond(out, room);
}

static uint64_t run_table(const uint8_t *table, size_t table_len, size_t length, uint8_t *to, size_t room)
{
    if (with_limits)
        return nedzsuka_run_table_within(pattern_limit, rules_limit, tags_limit, table, table_len, sentence, length, to, room);
    return nedzsuka_run_table(table, table_len, sentence, length, to, room);
}

static uint64_t run_book(size_t book_len, size_t length, uint8_t *to, size_t room)
{
    if (with_limits)
        return nedzsuka_run_book_within(pattern_limit, rules_limit, tags_limit, first, book_len, end_tag, sentence, length, to, room);
    if (with_end)
        return nedzsuka_run_book_ending(first, book_len, end_tag, sentence, length, to, room);
    return nedzsuka_run_book(first, book_len, sentence, length, to, room);
}

static uint64_t compile_book(size_t book_len, uint64_t ceiling, size_t entries, size_t room)
{
    if (with_limits)
        return nedzsuka_compile_within(pattern_limit, rules_limit, tags_limit, first, book_len, end_tag, ceiling, work, entries, out, room);
    if (with_end)
        return nedzsuka_compile_ending(first, book_len, end_tag, ceiling, work, entries, out, room);
    return nedzsuka_compile(first, book_len, ceiling, work, entries, out, room);
}

static void run(int table)
{
    size_t room = read_number(MOST_BYTES), first_len = read_bytes(first, 1), length = read_bytes(sentence, 0);

    print_run(table ? run_table(first, first_len, length, out, room) : run_book(first_len, length, out, room), room);
}

static void run_rules(void)
{
    size_t room = read_number(MOST_BYTES), rules_room = read_number(MOST_BYTES), book_len = read_bytes(first, 1);
    size_t length = read_bytes(sentence, 0);

    print_run(nedzsuka_run_book_rules(first, book_len, end_tag, sentence, length, out, room, rules, rules_room), room);
    print_beyond(out, room);
    print_slice("rules", rules, rules_room);
    print_beyond(rules, rules_room);
}

static void run_compiled(void)
{
    size_t room = read_number(MOST_BYTES), book_len = read_bytes(first, 1), length = read_bytes(sentence, 0);
    uint64_t answer = compile_book(book_len, NEDZSUKA_MOST_STATES, MOST_ENTRIES, MOST_BYTES);

    if (refused(answer, "rule"))
        return;
    memcpy(first, out, (size_t)nedzsuka_value(answer));
    memset(out, 7, sizeof out);
    print_run(run_table(first, (size_t)nedzsuka_value(answer), length, out, room), room);
}

static void run_loaded(void)
{
    size_t room = read_number(MOST_BYTES), count = read_numbers(loaded), length = read_bytes(sentence, 0);

    print_run(nedzsuka_run_loaded(loaded, count, sentence, length, out, room), room);
}

/* On how many drawn sentences neither the book nor its table refuses, and both answer the same and leave the same in the output slice. The
   tags of a sentence come from the numbers after its own, in the sequence of many a C library. */
static int agreements(size_t book_len, size_t table_len)
{
    uint8_t by[2][LENGTHS];
    int same = 0;

    for (size_t i = 0; i < DRAWN; i++) {
        size_t length = i % LENGTHS;
        uint64_t x = i, answer;
        for (size_t j = 0; j < length; j++) {
            x = (x * 1103515245 + 12345) % 0x80000000;
            sentence[j] = (uint8_t)(x / 0x1000000 % first[1]);
        }
        memset(by, 7, sizeof by);
        answer = run_book(book_len, length, by[0], LENGTHS);
        same += nedzsuka_refusal(answer) == NEDZSUKA_OK && run_table(out, table_len, length, by[1], LENGTHS) == answer &&
                memcmp(by[0], by[1], LENGTHS) == 0;
    }
    return same;
}

static void print_changed(const uint16_t *slice, size_t count)
{
    size_t entries = 0, bytes = 0;

    for (size_t i = 0; i < count; i++)
        entries += slice[i] != 7;
    for (size_t i = 0; i < MOST_BYTES; i++)
        bytes += out[i] != 7;
    printf("; %zu entries and %zu bytes other than before", entries, bytes);
}

static void compile(int slices)
{
    size_t ceiling = read_number(UINT32_MAX), entries = read_number(MOST_ENTRIES), room = read_number(MOST_BYTES);
    size_t book_len = read_bytes(first, 0);
    uint64_t answer = compile_book(book_len, ceiling, entries, room);

    if (!refused(answer, "rule"))
        printf("states %d, bytes %" PRIu64, out[2] * 256 + out[3], nedzsuka_value(answer));
    if (slices)
        print_changed(work, MOST_ENTRIES);
    else if (nedzsuka_refusal(answer) == NEDZSUKA_OK)
        printf(", agree on %d of %d sentences", agreements(book_len, (size_t)nedzsuka_value(answer)), DRAWN);
}

/* Whether the sentence at the front of the output slice is one of which the book and the table make different results. */
static int differ(size_t book_len, const uint8_t *table, size_t table_len, uint64_t length)
{
    uint8_t by_book[NEDZSUKA_LONGEST_SHOWN], by_table[NEDZSUKA_LONGEST_SHOWN];
    size_t tags = (size_t)length;

    return length >= 1 && length <= NEDZSUKA_LONGEST_SHOWN &&
           nedzsuka_refusal(nedzsuka_run_book_ending(first, book_len, end_tag, out, tags, by_book, tags)) == NEDZSUKA_OK &&
           nedzsuka_refusal(nedzsuka_run_table(table, table_len, out, tags, by_table, tags)) == NEDZSUKA_OK &&
           memcmp(by_book, by_table, tags) != 0;
}

static void check_bytes(size_t entries, size_t room, size_t book_len, const uint8_t *table, size_t table_len)
{
    uint64_t answer;

    for (size_t i = 0; i < MOST_CHECKED; i++)
        check_work[i] = 7;
    answer = nedzsuka_check_table(first, book_len, end_tag, table, table_len, check_work, entries, out, room);
    if (!refused(answer, "rule")) {
        if (answer == 0)
            printf("same");
        else
            printf(differ(book_len, table, table_len, nedzsuka_value(answer)) ? "differs" : "differs wrongly");
        if (nedzsuka_value(answer) > 255)
            printf(" on %" PRIu64 " tags", nedzsuka_value(answer));
        memset(out, 7, nedzsuka_value(answer) > MOST_BYTES ? MOST_BYTES : (size_t)nedzsuka_value(answer));
    }
    print_changed(check_work, MOST_CHECKED);
}

static void check(void)
{
    size_t entries = read_number(MOST_CHECKED), room = read_number(MOST_BYTES), book_len = read_bytes(first, 1);
    size_t table_len = read_bytes(sentence, 0);

    check_bytes(entries, room, book_len, sentence, table_len);
}

static void check_book(void)
{
    size_t entries = read_number(MOST_CHECKED), room = read_number(MOST_BYTES);
    uint8_t other_end = (uint8_t)read_number(UINT8_MAX);
    size_t book_len = read_bytes(first, 1), other_len = read_bytes(rules, 0);
    uint64_t answer = nedzsuka_compile_ending(rules, other_len, other_end, NEDZSUKA_MOST_STATES, check_work, MOST_CHECKED, sentence, MOST_BYTES);

    if (nedzsuka_refusal(answer) != NEDZSUKA_OK)
        unreadable("the other book has no table");
    check_bytes(entries, room, book_len, sentence, (size_t)nedzsuka_value(answer));
}

/* A book of one rule, whose pattern is the lowest bits of a number, the first tag lowest. */
static size_t write_rule(uint8_t command, uint8_t tags, size_t length, unsigned pattern, size_t place, const char *last)
{
    uint8_t opening[] = {0x20, tags, command, (uint8_t)place, !(pattern >> place & 1)}, *to = first + sizeof opening;

    memcpy(first, opening, sizeof opening);
    for (size_t i = 0; i < length; i++) {
        *to++ = 0x22;
        *to++ = pattern >> i & 1;
    }
    if (last != NULL) {
        *to++ = 0x22;
        *to++ = byte_of(last);
    }
    *to++ = 0x00;
    return (size_t)(to - first);
}

struct counts {
    size_t rules, least, most, refused;
};

static void count_states(size_t book_len, struct counts *counts)
{
    uint64_t answer = compile_book(book_len, NEDZSUKA_MOST_STATES, MOST_ENTRIES, MOST_BYTES);
    size_t states = nedzsuka_refusal(answer) == NEDZSUKA_OK ? out[2] * 256u + out[3] : 0;

    if (counts->rules == 0 || states < counts->least)
        counts->least = states;
    if (states > counts->most)
        counts->most = states;
    counts->rules++;
    counts->refused += states > 1 && compile_book(book_len, states - 1, MOST_ENTRIES, MOST_BYTES) == 256 + NEDZSUKA_TOO_MANY_STATES;
}

static void one_rules(void)
{
    uint8_t command = byte_of(strtok(NULL, " \n")), tags = byte_of(strtok(NULL, " \n"));
    size_t longest = read_number(NEDZSUKA_LONGEST_PATTERN);
    const char *last = strtok(NULL, " \n");

    for (size_t length = 1; length <= longest; length++) {
        struct counts counts = {0, 0, 0, 0};
        for (unsigned pattern = 0; pattern < 1u << length; pattern++)
            for (size_t place = 0; place < length; place++)
                count_states(write_rule(command, tags, length, pattern, place, last), &counts);
        printf("%s%zu of length %zu, states %zu", length == 1 ? "" : "; ", counts.rules, length + (last != NULL), counts.least);
        if (counts.least != counts.most)
            printf(" to %zu", counts.most);
        printf(", %zu refused below", counts.refused);
    }
}

static void print_step(uint64_t answer, const char *call, size_t room, const struct nedzsuka_sentence *typed)
{
    if (!refused(answer, "nothing"))
        printf("%" PRIu64 " put", nedzsuka_value(answer));
    if (strcmp(call, "open") != 0)
        print_slice("output", out, room);
    print_beyond(out, room);
    printf(", sentence %" PRIu64 " %" PRIu64 " %" PRIu64, typed->state, typed->given, typed->closed);
}

static void make_step(const char *call, size_t table_len, struct nedzsuka_sentence *typed)
{
    uint8_t tag = strcmp(call, "give") == 0 ? (uint8_t)read_number(UINT8_MAX) : 0;
    size_t room = strcmp(call, "open") == 0 ? 0 : read_number(MOST_BYTES);
    uint64_t answer = 0;

    memset(out, 7, sizeof out);
    if (strcmp(call, "open") == 0)
        answer = nedzsuka_sentence_open(first, table_len, typed);
    else if (strcmp(call, "give") == 0)
        answer = nedzsuka_sentence_give(first, table_len, typed, tag, out, room);
    else if (strcmp(call, "look") == 0)
        answer = nedzsuka_sentence_look(first, table_len, typed, out, room);
    else if (strcmp(call, "close") == 0)
        answer = nedzsuka_sentence_close(first, table_len, typed, out, room);
    else
        unreadable("a step doesn't begin with its name");
    print_step(answer, call, room, typed);
}

static void type(void)
{
    struct nedzsuka_sentence typed = {7, 7, 7};
    size_t table_len = read_bytes(first, 1);
    const char *between = "";

    for (const char *word = strtok(NULL, " \n"); word != NULL; word = strtok(NULL, " \n")) {
        if (strcmp(word, "set") == 0) {
            typed.state = read_number(UINT64_MAX);
            typed.given = read_number(UINT64_MAX);
            typed.closed = read_number(UINT64_MAX);
        } else if (strcmp(word, "byte") == 0) {
            size_t at = read_number(MOST_BYTES - 1);
            first[at] = byte_of(strtok(NULL, " \n"));
        } else {
            fputs(between, stdout);
            make_step(word, table_len, &typed);
            between = "; ";
        }
    }
}

static const char *read_limits(const char *word)
{
    with_limits = word != NULL && strcmp(word, "within") == 0;
    if (!with_limits)
        return word;
    pattern_limit = read_number(UINT64_MAX);
    rules_limit = read_number(UINT64_MAX);
    tags_limit = read_number(UINT64_MAX);
    return strtok(NULL, " \n");
}

static const char *read_ending(const char *word)
{
    with_end = word != NULL && strcmp(word, "ending") == 0;
    end_tag = NEDZSUKA_NO_END;
    if (!with_end)
        return word;
    end_tag = (uint8_t)read_number(UINT8_MAX);
    return strtok(NULL, " \n");
}

static void fill_slices(void)
{
    memset(out, 7, sizeof out);
    memset(rules, 7, sizeof rules);
    for (size_t i = 0; i < MOST_ENTRIES; i++)
        work[i] = 7;
    for (size_t i = 0; i < MOST_NUMBERS; i++)
        loaded[i] = 7;
}

static void answer_line(const char *word)
{
    word = read_ending(read_limits(word));
    word = word == NULL ? "" : word;
    fill_slices();
    if (strcmp(word, "run_table") == 0 || strcmp(word, "run_book") == 0)
        run(strcmp(word, "run_table") == 0);
    else if (strcmp(word, "run_rules") == 0)
        run_rules();
    else if (strcmp(word, "run_compiled") == 0)
        run_compiled();
    else if (strcmp(word, "compile") == 0 || strcmp(word, "slices") == 0)
        compile(strcmp(word, "slices") == 0);
    else if (strcmp(word, "one_rules") == 0)
        one_rules();
    else if (strcmp(word, "starter") == 0)
        starter();
    else if (strcmp(word, "read_book") == 0)
        read_book();
    else if (strcmp(word, "read_table") == 0)
        read_table();
    else if (strcmp(word, "load_table") == 0)
        load_table();
    else if (strcmp(word, "run_loaded") == 0)
        run_loaded();
    else if (strcmp(word, "check") == 0)
        check();
    else if (strcmp(word, "check_book") == 0)
        check_book();
    else if (strcmp(word, "type") == 0)
        type();
    else
        unreadable("it doesn't begin with a call's name");
    putchar('\n');
}

/* Lines are written one by one, so that after a crash they tell which call it was. */
int main(void)
{
    setvbuf(stdout, NULL, _IOLBF, BUFSIZ);
    for (lines = 1; fgets(line, sizeof line, stdin) != NULL; lines++) {
        if (strchr(line, '\n') == NULL && !feof(stdin))
            unreadable("it is too long");
        answer_line(strtok(line, " \n"));
    }
    return 0;
}

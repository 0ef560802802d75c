#define _DEFAULT_SOURCE
#include "calls.h"

#include <inttypes.h>
#include <signal.h>
#include <stdio.h>
#include <stdlib.h>
#include <string.h>
#include <unistd.h>

#include "canonical.h"
#include "generate.h"
#include "nedzsuka.h"
#include "reference.h"
#include "slices.h"

enum { REFUSALS = 21, SIZES = 9, MOST_SHOWN = 4096, SECONDS_A_CALL = 100, RULES_ROOM = 2 * LONGEST_TRIED_SENTENCE };
enum { STATE, GIVEN, CLOSED, NUMBERS };

static const char *const call_name[CALLS] = {
    "nedzsuka_compile",         "nedzsuka_compile_ending",   "nedzsuka_compile_within",  "nedzsuka_starter_table",
    "nedzsuka_run_book",        "nedzsuka_run_book_ending",  "nedzsuka_run_book_rules",  "nedzsuka_run_book_within",
    "nedzsuka_run_table",       "nedzsuka_run_table_within", "nedzsuka_read_book",       "nedzsuka_read_table",
    "nedzsuka_check_table",     "nedzsuka_load_table",       "nedzsuka_run_loaded",      "nedzsuka_open",
    "nedzsuka_give",            "nedzsuka_look",             "nedzsuka_close"};

static struct {
    enum call call;
    const uint8_t *bytes, *sentence, *table; /* bytes: of the book, the table or the loaded numbers; table: beside a book */
    size_t length, sentence_len, table_len, work_len, out_len, rules_len;
    uint64_t ceiling, answer, expected;
    uint8_t end, tag;
    struct limits limits;
    uint64_t number[NUMBERS]; /* of the typed sentence, before the call */
} now;

static struct slice first_slice, table_slice, sentence_slice, out_slice, rules_slice, work_slice, loaded_slice, number_slice[NUMBERS];
static uint8_t *expected_out, *expected_rules;
static uint16_t *expected_work;
static uint32_t *expected_loaded;
static uint64_t seed_used, calls_made, refusals[CALLS][REFUSALS], ten_at[257];
static uint64_t tables_by_size[SIZES], most_held, longest_table, places_by_rule[MOST_RULES + 1], rewritten_back;
static uint64_t checked_alike, longest_shown;

const uint8_t *last_out, *last_rules;
const uint32_t *last_loaded;

static void print_hex(const char *name, const uint8_t *bytes, size_t length)
{
    fprintf(stderr, "%s, %zu bytes:", name, length);
    for (size_t i = 0; i < length && i < MOST_SHOWN; i++)
        fprintf(stderr, " %02x", bytes[i]);
    fprintf(stderr, "%s\n", length > MOST_SHOWN ? " .. (the seed gives the rest)" : "");
}

static int is_typing(enum call call)
{
    return call == OPEN || call == GIVE || call == LOOK || call == CLOSE;
}

static int is_run(enum call call)
{
    return call == RUN_BOOK || call == RUN_BOOK_ENDING || call == RUN_BOOK_RULES || call == RUN_BOOK_WITHIN || call == RUN_TABLE ||
           call == RUN_TABLE_WITHIN || call == RUN_LOADED;
}

static int is_compile(enum call call)
{
    return call == COMPILE || call == COMPILE_ENDING || call == COMPILE_WITHIN;
}

static int has_limits(enum call call)
{
    return call == COMPILE_WITHIN || call == RUN_BOOK_WITHIN || call == RUN_TABLE_WITHIN;
}

static int has_table(enum call call)
{
    return call == RUN_TABLE || call == RUN_TABLE_WITHIN || call == READ_TABLE || call == LOAD_TABLE || is_typing(call);
}

static void print_input(void)
{
    if (now.call == RUN_LOADED) {
        fprintf(stderr, "loaded, %zu numbers:", now.length / sizeof(uint32_t));
        for (size_t i = 0; i < now.length / sizeof(uint32_t) && i < MOST_SHOWN; i++)
            fprintf(stderr, " %" PRIu32, ((const uint32_t *)(const void *)now.bytes)[i]);
        fprintf(stderr, "\n");
        return;
    }
    print_hex(has_table(now.call) ? "table" : "book", now.bytes, now.length);
    if (now.call == CHECK_TABLE)
        print_hex("table", now.table, now.table_len);
    if (has_limits(now.call))
        fprintf(stderr, "limits %" PRIu64 ", %" PRIu64 ", %" PRIu64 "\n", now.limits.pattern, now.limits.rules, now.limits.tags);
    if (is_typing(now.call))
        fprintf(stderr, "state %" PRIu64 ", given %" PRIu64 ", closed %" PRIu64 ", tag %d\n", now.number[STATE], now.number[GIVEN],
                now.number[CLOSED], now.tag);
}

void fail(const char *what)
{
    fprintf(stderr, "compare: %s: %s (seed %" PRIu64 ", call %" PRIu64 ")\n", call_name[now.call], what, seed_used, calls_made);
    fprintf(stderr, "answer %" PRIu64 " with refusal %" PRIu64 ", expected %" PRIu64 " with refusal %" PRIu64 "\n", now.answer >> 8,
            now.answer & 255, now.expected >> 8, now.expected & 255);
    print_input();
    if (now.call == COMPILE_ENDING || now.call == COMPILE_WITHIN || now.call == RUN_BOOK_ENDING || now.call == RUN_BOOK_RULES ||
        now.call == RUN_BOOK_WITHIN || now.call == CHECK_TABLE)
        fprintf(stderr, "end tag %d\n", now.end);
    if (is_compile(now.call) || now.call == CHECK_TABLE)
        fprintf(stderr, "ceiling %" PRIu64 ", work slice of %zu entries, ", now.ceiling, now.work_len);
    else if (is_run(now.call))
        print_hex("sentence", now.sentence, now.sentence_len);
    if (now.call == RUN_BOOK_RULES)
        fprintf(stderr, "rules slice of %zu bytes, ", now.rules_len);
    fprintf(stderr, "output slice of %zu %s\n", now.out_len, now.call == LOAD_TABLE ? "numbers" : "bytes");
    _exit(1);
}

static void on_signal(int number)
{
    fail(number == SIGALRM ? "the call doesn't end" : "the call reads or writes outside its slices, or stops the program");
}

static void *room_for(size_t bytes)
{
    void *room = malloc(bytes);

    if (room == NULL) {
        perror("memory for what is expected");
        exit(2);
    }
    return room;
}

void start_calls(uint64_t seed)
{
    static const int caught[] = {SIGSEGV, SIGBUS, SIGILL, SIGFPE, SIGABRT, SIGTRAP, SIGALRM};

    seed_used = seed;
    random_seed(seed);
    first_slice = make_slice(TABLE_ROOM * sizeof(uint32_t));
    table_slice = make_slice(TABLE_ROOM);
    sentence_slice = make_slice(LONGEST_TRIED_SENTENCE);
    out_slice = make_slice(TABLE_ROOM);
    rules_slice = make_slice(RULES_ROOM);
    work_slice = make_slice((ONE_SET_WORK + 1000) * sizeof(uint16_t));
    loaded_slice = make_slice(TABLE_ROOM * sizeof(uint32_t));
    for (int i = 0; i < NUMBERS; i++)
        number_slice[i] = make_slice(sizeof(uint64_t));
    expected_out = room_for(TABLE_ROOM);
    expected_rules = room_for(RULES_ROOM);
    expected_work = room_for((ONE_SET_WORK + 1000) * sizeof(uint16_t));
    expected_loaded = room_for(TABLE_ROOM * sizeof(uint32_t));
    for (size_t i = 0; i < sizeof caught / sizeof *caught; i++)
        signal(caught[i], on_signal);
}

size_t states_of(const uint8_t *table)
{
    return (size_t)table[2] * 256 + table[3];
}

size_t work_entries(size_t ceiling, size_t tags, size_t rules)
{
    return 16 * ceiling * (tags + 1) * (5 * rules + 8);
}

size_t work_entries_within(size_t pattern, size_t ceiling, size_t tags, size_t rules)
{
    return 2 * (pattern + 2) * ceiling * (tags + 1) * ((pattern - 1) * rules + 8);
}

static void lend_input(struct slice *slice, const uint8_t *bytes, size_t length)
{
    lend(slice, length);
    if (slice->at != NULL)
        memcpy(slice->at, bytes, length);
}

/* Both output slices, or both work slices, begin with the same random bytes. */
static void lend_random(struct slice *slice, size_t length, void *expected)
{
    lend(slice, length);
    if (slice->at == NULL)
        return;
    fill_random(slice->at, length);
    memcpy(expected, slice->at, length);
}

static void check_input(const struct slice *slice, const uint8_t *bytes, const char *changed)
{
    if (slice->length > 0 && memcmp(slice->at, bytes, slice->length) != 0)
        fail(changed);
    if (!guards_kept(slice))
        fail("the call writes around an input slice");
}

static void check_output(const struct slice *slice, const void *expected, const char *differs)
{
    if (slice->length > 0 && memcmp(slice->at, expected, slice->length) != 0)
        fail(differs);
    if (!guards_kept(slice))
        fail("the call writes around an output or work slice, or around a number");
}

static void count_answer(void)
{
    uint64_t refusal = now.answer & 255;
    size_t size = 0;

    calls_made++;
    refusals[now.call][refusal]++;
    if (!is_compile(now.call))
        return;
    if (refusal == 10)
        ten_at[now.ceiling]++;
    if (refusal != 0)
        return;
    for (size_t states = states_of(last_out); states > 1; states /= 2)
        size++;
    tables_by_size[size]++;
    longest_table = now.answer >> 8 > longest_table ? now.answer >> 8 : longest_table;
    for (size_t i = 4; last_out[i] != 0x00; i += last_out[i] == 0x33 ? 3 : 2)
        if (last_out[i] == 0x31 && last_out[i + 1] > most_held)
            most_held = last_out[i + 1];
}

static void check_call(void)
{
    alarm(0);
    last_out = out_slice.at;
    if (now.answer != now.expected)
        fail("another answer than the reference's");
    if ((now.answer & 255) >= REFUSALS)
        fail("no such refusal");
    check_input(&first_slice, now.bytes, "the call changes its book, table or loaded numbers");
}

static void check_out(void)
{
    check_output(&out_slice, expected_out, "another output slice than the reference's");
}

static size_t rules_in(const uint8_t *valid_book)
{
    size_t rules = 0;

    for (size_t i = 2; valid_book[i] != 0x00; i += valid_book[i] == 0x22 ? 2 : valid_book[i] == 0x23 ? 7 : 3)
        rules += valid_book[i] != 0x22 && valid_book[i] != 0x23;
    return rules;
}

static void compile_both(void)
{
    uint8_t *book = first_slice.at, *out = out_slice.at;
    uint16_t *work = (uint16_t *)(void *)work_slice.at;

    if (now.call == COMPILE) {
        now.expected = reference_compile(now.bytes, now.length, now.ceiling, expected_work, now.work_len, expected_out, now.out_len);
        alarm(SECONDS_A_CALL);
        now.answer = nedzsuka_compile(book, now.length, now.ceiling, work, now.work_len, out, now.out_len);
    } else if (now.call == COMPILE_WITHIN) {
        now.expected = reference_compile_within(now.limits.pattern, now.limits.rules, now.limits.tags, now.bytes, now.length, now.end,
                                                now.ceiling, expected_work, now.work_len, expected_out, now.out_len);
        alarm(SECONDS_A_CALL);
        now.answer = nedzsuka_compile_within(now.limits.pattern, now.limits.rules, now.limits.tags, book, now.length, now.end,
                                             now.ceiling, work, now.work_len, out, now.out_len);
    } else {
        now.expected = reference_compile_ending(now.bytes, now.length, now.end, now.ceiling, expected_work, now.work_len,
                                                expected_out, now.out_len);
        alarm(SECONDS_A_CALL);
        now.answer = nedzsuka_compile_ending(book, now.length, now.end, now.ceiling, work, now.work_len, out, now.out_len);
    }
}

/* What the header says is enough for the table of a valid book. */
static size_t most_bytes(uint64_t ceiling, const uint8_t *book)
{
    if (now.call != COMPILE_WITHIN)
        return nedzsuka_table_bytes(ceiling, book[1], rules_in(book));
    return nedzsuka_table_bytes_within(now.limits.pattern, now.limits.rules, now.limits.tags, ceiling, book[1], rules_in(book));
}

static uint64_t compare_compiling(enum call call, const uint8_t *book, size_t book_len, unsigned end, uint64_t ceiling,
                                  size_t work_len, size_t out_len)
{
    now.call = call;
    now.bytes = book;
    now.length = book_len;
    now.end = (uint8_t)end;
    now.ceiling = ceiling;
    now.work_len = work_len;
    now.out_len = out_len;
    lend_input(&first_slice, book, book_len);
    lend_random(&out_slice, out_len, expected_out);
    lend_random(&work_slice, work_len * sizeof(uint16_t), expected_work);
    compile_both();
    check_call();
    check_out();
    check_output(&work_slice, expected_work, "the work slice isn't what the papers say");
    count_answer();
    if ((now.answer & 255) == 0 && now.answer >> 8 > most_bytes(ceiling, book))
        fail("a longer table than the header allows");
    return now.answer;
}

uint64_t compare_compile(const uint8_t *book, size_t book_len, uint64_t ceiling, size_t work_len, size_t out_len)
{
    return compare_compiling(COMPILE, book, book_len, NO_END, ceiling, work_len, out_len);
}

uint64_t compare_compile_ending(const uint8_t *book, size_t book_len, unsigned end, uint64_t ceiling, size_t work_len,
                                size_t out_len)
{
    return compare_compiling(COMPILE_ENDING, book, book_len, end, ceiling, work_len, out_len);
}

uint64_t compare_compile_within(struct limits limits, const uint8_t *book, size_t book_len, unsigned end, uint64_t ceiling,
                                size_t work_len, size_t out_len)
{
    now.limits = limits;
    return compare_compiling(COMPILE_WITHIN, book, book_len, end, ceiling, work_len, out_len);
}

uint64_t compare_starter(size_t out_len)
{
    now.call = STARTER_TABLE;
    now.bytes = expected_out; /* there is no book */
    now.length = 0;
    now.out_len = out_len;
    lend_input(&first_slice, now.bytes, 0);
    lend_random(&out_slice, out_len, expected_out);
    now.expected = reference_starter_table(expected_out, out_len);
    alarm(SECONDS_A_CALL);
    now.answer = nedzsuka_starter_table(out_slice.at, out_len);
    check_call();
    check_out();
    count_answer();
    return now.answer;
}

static void run_within(void)
{
    const uint8_t *bytes = first_slice.at, *sentence = sentence_slice.at;
    uint64_t pattern = now.limits.pattern, rules = now.limits.rules, tags = now.limits.tags;
    size_t length = now.length, count = now.sentence_len, room = now.out_len;

    if (now.call == RUN_BOOK_WITHIN)
        now.expected = reference_run_book_within(pattern, rules, tags, now.bytes, length, now.end, now.sentence, count, expected_out,
                                                 room);
    else
        now.expected = reference_run_table_within(pattern, rules, tags, now.bytes, length, now.sentence, count, expected_out, room);
    alarm(SECONDS_A_CALL);
    if (now.call == RUN_BOOK_WITHIN)
        now.answer = nedzsuka_run_book_within(pattern, rules, tags, bytes, length, now.end, sentence, count, out_slice.at, room);
    else
        now.answer = nedzsuka_run_table_within(pattern, rules, tags, bytes, length, sentence, count, out_slice.at, room);
}

static void run_both(void)
{
    const uint8_t *bytes = first_slice.at, *sentence = sentence_slice.at;
    size_t length = now.length, count = now.sentence_len, room = now.out_len;

    if (now.call == RUN_BOOK_RULES)
        now.expected = reference_run_book_rules(now.bytes, length, now.end, now.sentence, count, expected_out, room, expected_rules,
                                                now.rules_len);
    else if (now.call == RUN_BOOK_ENDING)
        now.expected = reference_run_book_ending(now.bytes, length, now.end, now.sentence, count, expected_out, room);
    else
        now.expected = (now.call == RUN_BOOK ? reference_run_book : reference_run_table)(now.bytes, length, now.sentence, count,
                                                                                         expected_out, room);
    alarm(SECONDS_A_CALL);
    if (now.call == RUN_BOOK_RULES)
        now.answer = nedzsuka_run_book_rules(bytes, length, now.end, sentence, count, out_slice.at, room, rules_slice.at,
                                             now.rules_len);
    else if (now.call == RUN_BOOK_ENDING)
        now.answer = nedzsuka_run_book_ending(bytes, length, now.end, sentence, count, out_slice.at, room);
    else
        now.answer = (now.call == RUN_BOOK ? nedzsuka_run_book : nedzsuka_run_table)(bytes, length, sentence, count, out_slice.at,
                                                                                     room);
}

uint64_t compare_run(enum call call, const uint8_t *bytes, size_t length, const uint8_t *sentence, size_t sentence_len,
                     size_t out_len)
{
    now.call = call;
    now.bytes = bytes;
    now.length = length;
    now.sentence = sentence;
    now.sentence_len = sentence_len;
    now.out_len = out_len;
    lend_input(&first_slice, bytes, length);
    lend_input(&sentence_slice, sentence, sentence_len);
    lend_random(&out_slice, out_len, expected_out);
    if (has_limits(call))
        run_within();
    else
        run_both();
    check_call();
    check_out();
    check_input(&sentence_slice, sentence, "the call changes its sentence");
    count_answer();
    return now.answer;
}

uint64_t compare_run_ending(const uint8_t *book, size_t book_len, unsigned end, const uint8_t *sentence, size_t sentence_len,
                            size_t out_len)
{
    now.end = (uint8_t)end;
    return compare_run(RUN_BOOK_ENDING, book, book_len, sentence, sentence_len, out_len);
}

uint64_t compare_run_within(enum call call, struct limits limits, const uint8_t *bytes, size_t length, unsigned end,
                            const uint8_t *sentence, size_t sentence_len, size_t out_len)
{
    now.limits = limits;
    now.end = (uint8_t)end;
    return compare_run(call, bytes, length, sentence, sentence_len, out_len);
}

static void count_numbers(void)
{
    if ((now.answer & 255) != 0)
        return;
    for (size_t i = 0; i < now.sentence_len; i++) {
        places_by_rule[last_rules[i]]++;
        rewritten_back += last_rules[i] > 0 && last_out[i] == now.sentence[i];
    }
}

uint64_t compare_run_rules(const uint8_t *book, size_t book_len, unsigned end, const uint8_t *sentence, size_t sentence_len,
                           size_t out_len, size_t rules_len)
{
    now.end = (uint8_t)end;
    now.rules_len = rules_len;
    lend_random(&rules_slice, rules_len, expected_rules);
    compare_run(RUN_BOOK_RULES, book, book_len, sentence, sentence_len, out_len);
    last_rules = rules_slice.at;
    check_output(&rules_slice, expected_rules, "another rules slice than the reference's");
    count_numbers();
    return now.answer;
}

uint64_t compare_read(enum call call, const uint8_t *bytes, size_t length)
{
    now.call = call;
    now.bytes = bytes;
    now.length = length;
    now.out_len = 0;
    lend_input(&first_slice, bytes, length);
    now.expected = (call == READ_BOOK ? reference_read_book : reference_read_table)(bytes, length);
    alarm(SECONDS_A_CALL);
    now.answer = (call == READ_BOOK ? nedzsuka_read_book : nedzsuka_read_table)(first_slice.at, length);
    check_call();
    count_answer();
    return now.answer;
}

/* A long slice is filled quickly: one number, which is not 0, in all its entries. */
static void lend_work(size_t entries)
{
    int byte = (int)(1 + random_below(255));

    lend(&work_slice, entries * sizeof(uint16_t));
    if (work_slice.at == NULL)
        return;
    memset(work_slice.at, byte, work_slice.length);
    memset(expected_work, byte, work_slice.length);
}

/* The sentence of a no: its tags are below K, book and table make different results of it, and nothing is written behind it. */
static void check_shown(size_t length)
{
    static uint8_t by_book[2][LONGEST_SHOWN], by_table[2][LONGEST_SHOWN];
    const uint8_t *shown = out_slice.at;
    uint64_t answer[2][2];

    if (length < 1 || length > LONGEST_SHOWN)
        fail("a sentence of no tags or of more than 1,024");
    memcpy(expected_out, shown, length);
    answer[0][0] = reference_run_book_ending(now.bytes, now.length, now.end, shown, length, by_book[0], length);
    answer[0][1] = reference_run_table(now.table, now.table_len, shown, length, by_table[0], length);
    answer[1][0] = nedzsuka_run_book_ending(now.bytes, now.length, now.end, shown, length, by_book[1], length);
    answer[1][1] = nedzsuka_run_table(now.table, now.table_len, shown, length, by_table[1], length);
    if (answer[0][0] % 256 != 0 || answer[0][1] % 256 != 0)
        fail("a sentence that book or table refuses");
    if (memcmp(answer[0], answer[1], sizeof answer[0]) != 0 || memcmp(by_book[0], by_book[1], length) != 0 ||
        memcmp(by_table[0], by_table[1], length) != 0)
        fail("the runs over the sentence are not the reference's");
    if (memcmp(by_book[0], by_table[0], length) == 0)
        fail("a sentence of which book and table make the same");
    longest_shown = length > longest_shown ? length : longest_shown;
}

static void check_both(void)
{
    now.expected = reference_check(now.bytes, now.length, now.end, now.table, now.table_len, expected_work, now.work_len, now.out_len);
    alarm(SECONDS_A_CALL);
    now.answer = nedzsuka_check_table(first_slice.at, now.length, now.end, table_slice.at, now.table_len,
                                      (uint16_t *)(void *)work_slice.at, now.work_len, out_slice.at, now.out_len);
    alarm(0);
    if (now.expected == 256 && now.answer % 256 == 0 && now.answer > 0) {
        now.expected = now.answer;
        check_shown((size_t)(now.answer / 256));
    }
    checked_alike += now.answer == 0;
}

uint64_t compare_check(const uint8_t *book, size_t book_len, unsigned end, const uint8_t *table, size_t table_len, size_t work_len,
                       size_t out_len)
{
    now.call = CHECK_TABLE;
    now.bytes = book;
    now.length = book_len;
    now.end = (uint8_t)end;
    now.table = table;
    now.table_len = table_len;
    now.ceiling = 256;
    now.work_len = work_len;
    now.out_len = out_len;
    lend_input(&first_slice, book, book_len);
    lend_input(&table_slice, table, table_len);
    lend_random(&out_slice, out_len, expected_out);
    lend_work(work_len);
    check_both();
    check_call();
    check_out();
    check_input(&table_slice, table, "the call changes its table");
    check_output(&work_slice, expected_work, "the work slice isn't what the papers say");
    count_answer();
    return now.answer;
}

uint64_t compare_load(const uint8_t *table, size_t table_len, size_t loaded_len)
{
    now.call = LOAD_TABLE;
    now.bytes = table;
    now.length = table_len;
    now.out_len = loaded_len;
    lend_input(&first_slice, table, table_len);
    lend_random(&loaded_slice, loaded_len * sizeof(uint32_t), expected_loaded);
    now.expected = reference_load_table(table, table_len, expected_loaded, loaded_len);
    alarm(SECONDS_A_CALL);
    now.answer = nedzsuka_load_table(first_slice.at, table_len, (uint32_t *)(void *)loaded_slice.at, loaded_len);
    check_call();
    check_output(&loaded_slice, expected_loaded, "another loaded slice than the reference's");
    last_loaded = (const uint32_t *)(const void *)loaded_slice.at;
    count_answer();
    return now.answer;
}

uint64_t compare_run_loaded(const uint32_t *loaded, size_t loaded_len, const uint8_t *sentence, size_t sentence_len,
                            size_t out_len)
{
    now.call = RUN_LOADED;
    now.bytes = (const uint8_t *)loaded;
    now.length = loaded_len * sizeof *loaded;
    now.sentence = sentence;
    now.sentence_len = sentence_len;
    now.out_len = out_len;
    lend_input(&first_slice, now.bytes, now.length);
    lend_input(&sentence_slice, sentence, sentence_len);
    lend_random(&out_slice, out_len, expected_out);
    now.expected = reference_run_loaded(loaded, loaded_len, sentence, sentence_len, expected_out, out_len);
    alarm(SECONDS_A_CALL);
    now.answer = nedzsuka_run_loaded((const uint32_t *)(const void *)first_slice.at, loaded_len, sentence_slice.at, sentence_len,
                                     out_slice.at, out_len);
    check_call();
    check_out();
    check_input(&sentence_slice, sentence, "the call changes its sentence");
    count_answer();
    return now.answer;
}

static uint64_t *lent_number(int which)
{
    return (uint64_t *)(void *)number_slice[which].at;
}

/* The numbers that the reference leaves go to expected. */
static void type_both(uint64_t *expected)
{
    const uint8_t *table = first_slice.at;
    uint64_t *state = &expected[STATE], *given = &expected[GIVEN], *closed = &expected[CLOSED];

    if (now.call == OPEN)
        now.expected = reference_open(now.bytes, now.length, state, given, closed);
    else if (now.call == GIVE)
        now.expected = reference_give(now.bytes, now.length, state, given, closed, now.tag, expected_out, now.out_len);
    else if (now.call == LOOK)
        now.expected = reference_look(now.bytes, now.length, *state, *given, *closed, expected_out, now.out_len);
    else
        now.expected = reference_close(now.bytes, now.length, state, given, closed, expected_out, now.out_len);
    state = lent_number(STATE);
    given = lent_number(GIVEN);
    closed = lent_number(CLOSED);
    alarm(SECONDS_A_CALL);
    if (now.call == OPEN)
        now.answer = nedzsuka_open(table, now.length, state, given, closed);
    else if (now.call == GIVE)
        now.answer = nedzsuka_give(table, now.length, state, given, closed, now.tag, out_slice.at, now.out_len);
    else if (now.call == LOOK)
        now.answer = nedzsuka_look(table, now.length, *state, *given, *closed, out_slice.at, now.out_len);
    else
        now.answer = nedzsuka_close(table, now.length, state, given, closed, out_slice.at, now.out_len);
}

uint64_t compare_typed(enum call call, const uint8_t *table, size_t table_len, struct nedzsuka_sentence *sentence, unsigned tag,
                       size_t out_len)
{
    uint64_t number[NUMBERS] = {sentence->state, sentence->given, sentence->closed};

    now.call = call;
    now.bytes = table;
    now.length = table_len;
    now.tag = (uint8_t)tag;
    now.out_len = out_len;
    memcpy(now.number, number, sizeof number);
    lend_input(&first_slice, table, table_len);
    lend_random(&out_slice, out_len, expected_out);
    for (int i = 0; i < NUMBERS; i++)
        lend_input(&number_slice[i], (const uint8_t *)&number[i], sizeof number[i]);
    type_both(number);
    check_call();
    check_out();
    for (int i = 0; i < NUMBERS; i++)
        check_output(&number_slice[i], &number[i], "the sentence's numbers aren't the reference's");
    count_answer();
    sentence->state = *lent_number(STATE);
    sentence->given = *lent_number(GIVEN);
    sentence->closed = *lent_number(CLOSED);
    return now.answer;
}

static void print_refusals(enum call call)
{
    const char *between = "";

    printf("%s ", call_name[call] + strlen("nedzsuka_"));
    for (int i = 0; i < REFUSALS; i++) {
        if (refusals[call][i] == 0)
            continue;
        printf("%s%d:%" PRIu64, between, i, refusals[call][i]);
        between = " ";
    }
    printf("; ");
}

void print_counts(const char *part, size_t tried_out, size_t alike)
{
    int ceilings = 0;

    for (int i = 1; i <= 256; i++)
        ceilings += ten_at[i] > 0;
    printf("compare: %s inputs: no difference in %" PRIu64 " calls, seed %" PRIu64 "; answers by refusal (0 none): ", part, calls_made,
           seed_used);
    for (int call = 0; call < CALLS; call++)
        print_refusals((enum call)call);
    printf("10 at %d of 256 ceilings; tables of 1, 2-3, 4-7, .. 128-255, 256 states:", ceilings);
    for (int size = 0; size < SIZES; size++)
        printf(" %" PRIu64, tables_by_size[size]);
    printf(", holding up to %" PRIu64 ", of up to %" PRIu64 " bytes; places with the rule numbers 0, 1, .. 16:", most_held,
           longest_table);
    for (int number = 0; number <= MOST_RULES; number++)
        printf(" %" PRIu64, places_by_rule[number]);
    printf(", %" PRIu64 " of them rewritten back; %" PRIu64 " tables checked that do what their book does, and sentences of up to %" PRIu64
           " tags for those that don't; %zu tables found by trying words; %zu pairs that do the same\n",
           rewritten_back, checked_alike, longest_shown, tried_out, alike);
}

/* Times the library beside plain C and prints their ratios, then what the library takes. Books come as lines on standard input: bytes in
   hexadecimal, a ceiling and a name. Library and plain C do the same work in turns. All books are gone through several times, since a shared
   machine may be slow for seconds on end; the best round counts. */
#define _DEFAULT_SOURCE
#include <nedzsuka.h>

#include <inttypes.h>
#include <stdio.h>
#include <stdlib.h>
#include <string.h>
#include <sys/mman.h>
#include <time.h>

#include "plain.h"
#include "sentences.h"

enum { LIBRARY, PLAIN, BOTH };
/* Those that need no table come first. */
enum call { COMPILE, COMPILE_NARROW, COMPILE_MOST, CHECK, RUN_BOOK, RUN_ENDING, RUN_RULES, RUN_TABLE, LOAD, RUN_LOADED, RUN_TAG, GIVE, LOOK };
enum { PASSES = 8, ROUNDS = 6, MOST_TIMES = 100000, MOST_BOOKS = 64, NAME = 48 };

struct workload {
    const char *heading;
    enum call call;
    enum kind kind;
    enum length length;
};

/* What is timed beside plain C, on random sentences. */
static const struct workload beside[] = {
    {"compile", COMPILE, RANDOM, OF_20},
    {"book 20", RUN_BOOK, RANDOM, OF_20},
    {"book 65,535", RUN_BOOK, RANDOM, OF_65535},
    {"table 20", RUN_TABLE, RANDOM, OF_20},
    {"table 65,535", RUN_TABLE, RANDOM, OF_65535},
    {"load", LOAD, RANDOM, OF_20},
    {"loaded 20", RUN_LOADED, RANDOM, OF_20},
    {"loaded 65,535", RUN_LOADED, RANDOM, OF_65535},
};
/* What an editor pays for one tag: the run of the table over a sentence of one, a give and a look. */
enum { ONE_RUN, ONE_GIVE, ONE_LOOK, TYPING };
static const struct workload typing[TYPING] = {
    [ONE_RUN] = {"table 1", RUN_TAG, RANDOM, OF_20},
    [ONE_GIVE] = {"give", GIVE, RANDOM, OF_20},
    [ONE_LOOK] = {"look", LOOK, RANDOM, OF_20},
};
/* What is timed of the library alone: each of these with each length, with sentences in which rules fire and in which none does. For books
   with a rule that fires everywhere also beside plain C, with sentences full of matches. */
static const enum call runs[] = {RUN_BOOK, RUN_TABLE, RUN_LOADED};
enum { BESIDE = sizeof beside / sizeof *beside, RUNS = sizeof runs / sizeof *runs };

struct figures {
    char name[NAME];
    uint8_t book[NEDZSUKA_LONGEST_BOOK];
    size_t book_len;
    uint64_t ceiling;
    int states;
    double beside[BESIDE][BOTH], typing[TYPING][BOTH], alone[KINDS][LENGTHS][RUNS], full[LENGTHS][RUNS][BOTH];
    double unnumbered[LENGTHS], numbered[LENGTHS][BOTH]; /* runs without and with rule numbers, no end tag */
    double fresh, again; /* a compile whose work slice is fresh memory, and the next one */
    double narrow[BOTH]; /* a compile with the narrowest limits that allow the book; plain C has none */
    double most, checked; /* a compile with a ceiling of 256, and the check of its table, which compiles the book so */
};

static uint8_t table[NEDZSUKA_LONGEST_TABLE], out[BOTH][NEDZSUKA_LONGEST_TABLE];
static uint8_t rules[BOTH][NEDZSUKA_LONGEST_SENTENCE];
static uint32_t loaded[NEDZSUKA_LONGEST_TABLE], loaded_out[BOTH][NEDZSUKA_LONGEST_TABLE];
static uint16_t *work;
static size_t table_len, loaded_len;
static const struct figures *timed; /* the book that is timed, with its table, loaded numbers and sentences */
static struct sentences sentences;

static double now(void)
{
    struct timespec t;

    clock_gettime(CLOCK_MONOTONIC, &t);
    return (double)t.tv_sec + (double)t.tv_nsec * 1e-9;
}

/* A give or a look, in the table's last state. */
static uint64_t type(int which, enum call call, uint8_t tag)
{
    struct nedzsuka_sentence typed = {(uint64_t)timed->states - 1, 0, 0};

    if (call == GIVE)
        return (which == LIBRARY ? nedzsuka_give : plain_give)(table, table_len, &typed.state, &typed.given, &typed.closed, tag,
                                                               out[which], NEDZSUKA_MOST_PUT);
    return (which == LIBRARY ? nedzsuka_look : plain_look)(table, table_len, typed.state, typed.given, typed.closed, out[which],
                                                           NEDZSUKA_MOST_HELD);
}

/* The most tags in a pattern of the book. */
static uint64_t longest_pattern(const struct figures *f)
{
    uint64_t tags = 0, most = 1;

    for (size_t i = 2; f->book[i] != 0x00; i += f->book[i] == 0x22 ? 2 : 3) {
        tags = f->book[i] == 0x22 ? tags + 1 : 0;
        most = tags > most ? tags : most;
    }
    return most;
}

static size_t narrow_entries(const struct figures *f)
{
    uint64_t size = nedzsuka_value(nedzsuka_read_book(f->book, f->book_len));

    return nedzsuka_work_entries_within(longest_pattern(f), size % 256, size / 256, f->ceiling, size / 256, size % 256,
                                        nedzsuka_has_set(f->book, f->book_len));
}

static uint64_t compile_narrow(int which)
{
    uint64_t size = nedzsuka_value(nedzsuka_read_book(timed->book, timed->book_len));

    if (which == PLAIN)
        return plain_compile(timed->book, timed->book_len, timed->ceiling, work, NEDZSUKA_MOST_WORK, out[which], sizeof out[which]);
    return nedzsuka_compile_within(longest_pattern(timed), size % 256, size / 256, timed->book, timed->book_len, NEDZSUKA_NO_END,
                                   timed->ceiling, work, narrow_entries(timed), out[which], sizeof out[which]);
}

static uint64_t call(int which, const struct workload *load)
{
    const uint8_t *sentence = sentences.tags[load->kind][load->length];
    size_t tags = sentence_length[load->length];

    switch (load->call) {
    case COMPILE:
        return (which == LIBRARY ? nedzsuka_compile : plain_compile)(timed->book, timed->book_len, timed->ceiling, work,
                                                                     NEDZSUKA_MOST_WORK, out[which], sizeof out[which]);
    case COMPILE_NARROW:
        return compile_narrow(which);
    case COMPILE_MOST:
        return nedzsuka_compile(timed->book, timed->book_len, NEDZSUKA_MOST_STATES, work, NEDZSUKA_MOST_WORK, out[which], sizeof out[which]);
    case CHECK:
        return nedzsuka_check_table(timed->book, timed->book_len, NEDZSUKA_NO_END, table, table_len, work, NEDZSUKA_MOST_WORK, out[which],
                                    NEDZSUKA_LONGEST_SHOWN);
    case RUN_BOOK:
        return (which == LIBRARY ? nedzsuka_run_book : plain_run_book)(timed->book, timed->book_len, sentence, tags, out[which], tags);
    case RUN_ENDING:
        if (which == PLAIN)
            return plain_run_book(timed->book, timed->book_len, sentence, tags, out[which], tags);
        return nedzsuka_run_book_ending(timed->book, timed->book_len, NEDZSUKA_NO_END, sentence, tags, out[which], tags);
    case RUN_RULES:
        return (which == LIBRARY ? nedzsuka_run_book_rules : plain_run_book_rules)(
            timed->book, timed->book_len, NEDZSUKA_NO_END, sentence, tags, out[which], tags, rules[which], tags);
    case RUN_TABLE:
        return (which == LIBRARY ? nedzsuka_run_table : plain_run_table)(table, table_len, sentence, tags, out[which], tags);
    case RUN_TAG:
        return (which == LIBRARY ? nedzsuka_run_table : plain_run_table)(table, table_len, sentence, 1, out[which], 1);
    case GIVE:
    case LOOK:
        return type(which, load->call, sentence[0]);
    case LOAD:
        return (which == LIBRARY ? nedzsuka_load_table : plain_load_table)(table, table_len, loaded_out[which], table_len);
    default:
        return (which == LIBRARY ? nedzsuka_run_loaded : plain_run_loaded)(loaded, loaded_len, sentence, tags, out[which], tags);
    }
}

/* Library and plain C do the same, and tags change where they should. */
static void agree(const char *name, const struct workload *load)
{
    uint64_t answer;

    memset(out, 0, sizeof out);
    memset(loaded_out, 0, sizeof loaded_out);
    memset(rules, 0, sizeof rules);
    answer = call(LIBRARY, load);
    if (answer != call(PLAIN, load) || memcmp(out[LIBRARY], out[PLAIN], sizeof out[PLAIN]) != 0 ||
        memcmp(rules[LIBRARY], rules[PLAIN], sizeof rules[PLAIN]) != 0 ||
        memcmp(loaded_out[LIBRARY], loaded_out[PLAIN], sizeof loaded_out[PLAIN]) != 0) {
        fprintf(stderr, "bench: %s, %s: the library and plain C differ\n", name, load->heading);
        exit(1);
    }
    if (load->kind != RANDOM && (nedzsuka_value(answer) > 0) != (load->kind != QUIET)) {
        fprintf(stderr, "bench: %s, %s: not the changes that the sentence is for\n", name, load->heading);
        exit(1);
    }
}

/* The best round so far; 0 is none. */
static void keep_best(double *best, double seconds)
{
    if (*best == 0 || seconds < *best)
        *best = seconds;
}

/* The library, and plain C in turns with it where seconds are for both. */
static void measure(const struct workload *load, double *seconds, int both)
{
    double start = now();
    long times;

    call(LIBRARY, load);
    times = (long)(0.01 / (now() - start + 1e-9));
    times = times < 1 ? 1 : times > MOST_TIMES ? MOST_TIMES : times;
    for (int round = 0; round < ROUNDS; round++)
        for (int which = LIBRARY; which < both; which++) {
            start = now();
            for (long i = 0; i < times; i++)
                call(which, load);
            keep_best(&seconds[which], (now() - start) / (double)times);
        }
}

static int needs_table(const struct workload *load)
{
    return load->call >= RUN_TABLE;
}

/* Random sentences, each call beside plain C. */
static void measure_beside(const struct figures *f, const struct workload *loads, int count, double (*seconds)[BOTH])
{
    for (int i = 0; i < count; i++) {
        if (f->states == 0 && needs_table(&loads[i]))
            continue;
        agree(f->name, &loads[i]);
        measure(&loads[i], seconds[i], BOTH);
    }
}

static void measure_alone(struct figures *f, enum kind kind)
{
    for (int length = 0; length < LENGTHS; length++)
        for (int i = 0; i < RUNS; i++) {
            struct workload load = {kind == FIRING ? "rules fire" : "no rule fires", runs[i], kind, (enum length)length};
            if ((f->states == 0 && needs_table(&load)) || !sentences.made[kind])
                continue;
            agree(f->name, &load);
            measure(&load, &f->alone[kind][length][i], PLAIN);
        }
}

static int fires_everywhere(const struct figures *f)
{
    size_t i = 2;

    while (f->book[i] != 0x00 && f->book[i] != 0x24)
        i += f->book[i] == 0x22 ? 2 : 3;
    return f->book[i] == 0x24;
}

static void measure_full(struct figures *f)
{
    for (int length = 0; length < LENGTHS; length++)
        for (int i = 0; i < RUNS; i++) {
            struct workload load = {"full of matches", runs[i], FULL, (enum length)length};
            if (!fires_everywhere(f) || (f->states == 0 && needs_table(&load)))
                continue;
            agree(f->name, &load);
            measure(&load, f->full[length][i], BOTH);
        }
}

/* The run with rule numbers beside plain C, and the run without them. */
static void measure_rules(struct figures *f)
{
    for (int length = 0; length < LENGTHS && sentences.made[FIRING]; length++) {
        struct workload without = {"without rule numbers", RUN_ENDING, FIRING, (enum length)length};
        struct workload with = {"with rule numbers", RUN_RULES, FIRING, (enum length)length};
        agree(f->name, &without);
        agree(f->name, &with);
        measure(&without, &f->unnumbered[length], PLAIN);
        measure(&with, f->numbered[length], BOTH);
    }
}

/* With a work slice that is as long as needed and was never touched, and again with the same. */
static void measure_fresh(struct figures *f)
{
    uint64_t size = nedzsuka_value(nedzsuka_read_book(f->book, f->book_len));
    size_t entries = nedzsuka_work_entries(f->ceiling, size / 256, size % 256, nedzsuka_has_set(f->book, f->book_len));
    uint16_t *fresh = mmap(NULL, entries * sizeof *fresh, PROT_READ | PROT_WRITE, MAP_PRIVATE | MAP_ANONYMOUS, -1, 0);
    double *best[] = {&f->fresh, &f->again};

    if (fresh == MAP_FAILED) {
        perror("work slice");
        exit(2);
    }
    for (int i = 0; i < 2; i++) {
        double start = now();
        nedzsuka_compile(f->book, f->book_len, f->ceiling, fresh, entries, out[LIBRARY], sizeof out[LIBRARY]);
        keep_best(best[i], now() - start);
    }
    munmap(fresh, entries * sizeof *fresh);
}

static void measure_narrow(struct figures *f)
{
    struct workload load = {"the narrowest limits", COMPILE_NARROW, RANDOM, OF_20};

    agree(f->name, &load);
    measure(&load, f->narrow, PLAIN);
}

/* The library alone: a book's own table is checked, for which the answer is yes. */
static void measure_check(struct figures *f)
{
    struct workload compile = {"ceiling 256", COMPILE_MOST, RANDOM, OF_20}, check = {"check", CHECK, RANDOM, OF_20};

    if (f->states == 0)
        return;
    if (call(LIBRARY, &check) != 0) {
        fprintf(stderr, "bench: %s: the check doesn't say yes to the book's own table\n", f->name);
        exit(1);
    }
    measure(&compile, &f->most, PLAIN);
    measure(&check, &f->checked, PLAIN);
}

static void bench(struct figures *f)
{
    uint64_t answer = plain_compile(f->book, f->book_len, f->ceiling, work, NEDZSUKA_MOST_WORK, table, sizeof table);

    timed = f;
    f->states = nedzsuka_refusal(answer) == NEDZSUKA_OK ? table[2] * 256 + table[3] : 0;
    table_len = (size_t)nedzsuka_value(answer);
    loaded_len = (size_t)nedzsuka_value(plain_load_table(table, f->states == 0 ? 0 : table_len, loaded, table_len));
    make_sentences(f->book, &sentences);
    measure_beside(f, beside, BESIDE, f->beside);
    measure_beside(f, typing, TYPING, f->typing);
    measure_alone(f, FIRING);
    measure_alone(f, QUIET);
    measure_full(f);
    measure_rules(f);
    measure_fresh(f);
    measure_narrow(f);
    measure_check(f);
}

static int read_line(struct figures *f)
{
    static char line[1024], hex[1024];

    while (fgets(line, sizeof line, stdin) != NULL) {
        if (sscanf(line, "%1023s %" SCNu64 " %47[^\n]", hex, &f->ceiling, f->name) != 3)
            continue;
        f->book_len = strlen(hex) / 2;
        for (size_t i = 0; i < f->book_len && i < sizeof f->book; i++) {
            unsigned byte;
            if (sscanf(hex + 2 * i, "%2x", &byte) != 1)
                exit(2);
            f->book[i] = (uint8_t)byte;
        }
        return f->book_len <= sizeof f->book;
    }
    return 0;
}

static void print_heading(const char *title)
{
    printf("%-42s %6s", title, "states");
    for (int i = 0; i < BESIDE; i++)
        printf(" %13s", beside[i].heading);
    printf("\n");
}

static void print_figure(double figure, int decimals)
{
    if (figure == 0)
        printf(" %13s", "-");
    else
        printf(" %13.*f", decimals, figure);
}

static double ratio(const double *seconds)
{
    return seconds[PLAIN] == 0 ? 0 : seconds[LIBRARY] / seconds[PLAIN];
}

static void print_beside(const struct figures *figures, int books)
{
    print_heading("time of the library / time of plain C");
    for (int b = 0; b < books; b++) {
        printf("%-42s %6d", figures[b].name, figures[b].states);
        for (int i = 0; i < BESIDE; i++)
            print_figure(ratio(figures[b].beside[i]), 2);
        printf("\n");
    }
    printf("\n");
    print_heading("time of the library in microseconds");
    for (int b = 0; b < books; b++) {
        printf("%-42s %6d", figures[b].name, figures[b].states);
        for (int i = 0; i < BESIDE; i++)
            print_figure(figures[b].beside[i][LIBRARY] * 1e6, 2);
        printf("\n");
    }
}

static void print_typing(const struct figures *figures, int books)
{
    printf("\n%-42s %6s", "nanoseconds for a typed tag", "states");
    for (int i = 0; i < TYPING; i++)
        printf(" %13s", typing[i].heading);
    printf(" %13s\n", "give / C");
    for (int b = 0; b < books; b++) {
        printf("%-42s %6d", figures[b].name, figures[b].states);
        for (int i = 0; i < TYPING; i++)
            print_figure(figures[b].typing[i][LIBRARY] * 1e9, 0);
        print_figure(ratio(figures[b].typing[ONE_GIVE]), 2);
        printf("\n");
    }
}

static void print_alone(const struct figures *figures, int books)
{
    printf("\n%-42s %6s %41s %41s\n", "nanoseconds for a sentence", "tags", "rules fire: book, table, loaded",
           "none does: book, table, loaded");
    for (int b = 0; b < books; b++)
        for (int length = 0; length < LENGTHS; length++) {
            printf("%-42s %6zu", figures[b].name, sentence_length[length]);
            for (int kind = FIRING; kind <= QUIET; kind++)
                for (int i = 0; i < RUNS; i++)
                    print_figure(figures[b].alone[kind][length][i] * 1e9, 0);
            printf("\n");
        }
}

static void print_full(const struct figures *figures, int books)
{
    printf("\n%-42s %6s %41s %41s\n", "nanoseconds, full of matches", "tags", "book, table, loaded", "beside plain C: book, table, loaded");
    for (int b = 0; b < books; b++)
        for (int length = 0; length < LENGTHS && fires_everywhere(&figures[b]); length++) {
            printf("%-42s %6zu", figures[b].name, sentence_length[length]);
            for (int i = 0; i < RUNS; i++)
                print_figure(figures[b].full[length][i][LIBRARY] * 1e9, 0);
            for (int i = 0; i < RUNS; i++)
                print_figure(ratio(figures[b].full[length][i]), 2);
            printf("\n");
        }
}

static void print_rules(const struct figures *figures, int books)
{
    printf("\n%-42s %6s %13s %13s %13s %13s\n", "nanoseconds, end tag 255, rules fire", "tags", "book ending", "book rules",
           "plain C rules", "rules / C");
    for (int b = 0; b < books; b++)
        for (int length = 0; length < LENGTHS; length++) {
            printf("%-42s %6zu", figures[b].name, sentence_length[length]);
            print_figure(figures[b].unnumbered[length] * 1e9, 0);
            print_figure(figures[b].numbered[length][LIBRARY] * 1e9, 0);
            print_figure(figures[b].numbered[length][PLAIN] * 1e9, 0);
            print_figure(ratio(figures[b].numbered[length]), 2);
            printf("\n");
        }
}

static void print_fresh(const struct figures *figures, int books)
{
    printf("\n%-42s %6s %13s %13s\n", "compile in microseconds, work slice", "states", "fresh", "used before");
    for (int b = 0; b < books; b++)
        printf("%-42s %6d %13.2f %13.2f\n", figures[b].name, figures[b].states, figures[b].fresh * 1e6, figures[b].again * 1e6);
}

static void print_narrow(const struct figures *figures, int books)
{
    printf("\n%-42s %6s %13s %13s %13s %13s\n", "compile, limits 6, 16 and 48 or the narrowest", "states", "entries", "narrowest",
           "microseconds", "narrowest");
    for (int b = 0; b < books; b++) {
        uint64_t size = nedzsuka_value(nedzsuka_read_book(figures[b].book, figures[b].book_len));
        printf("%-42s %6d %13zu %13zu %13.2f %13.2f\n", figures[b].name, figures[b].states,
               nedzsuka_work_entries(figures[b].ceiling, size / 256, size % 256, nedzsuka_has_set(figures[b].book, figures[b].book_len)), narrow_entries(&figures[b]),
               figures[b].beside[0][LIBRARY] * 1e6, figures[b].narrow[LIBRARY] * 1e6);
    }
}

static void print_check(const struct figures *figures, int books)
{
    printf("\n%-42s %6s %13s %13s %13s\n", "microseconds, ceiling 256", "states", "compile", "check", "beyond it");
    for (int b = 0; b < books; b++) {
        printf("%-42s %6d", figures[b].name, figures[b].states);
        print_figure(figures[b].most * 1e6, 2);
        print_figure(figures[b].checked * 1e6, 2);
        print_figure((figures[b].checked - figures[b].most) * 1e6, 2);
        printf("\n");
    }
}

int main(void)
{
    static struct figures figures[MOST_BOOKS];
    int books = 0;

    work = calloc(NEDZSUKA_MOST_WORK, sizeof *work);
    if (work == NULL) {
        perror("work slice");
        return 2;
    }
    while (books < MOST_BOOKS && read_line(&figures[books]))
        books++;
    for (int pass = 0; pass < PASSES; pass++)
        for (int b = 0; b < books; b++)
            bench(&figures[b]);
    print_beside(figures, books);
    print_typing(figures, books);
    print_alone(figures, books);
    print_full(figures, books);
    print_rules(figures, books);
    print_fresh(figures, books);
    print_narrow(figures, books);
    print_check(figures, books);
    free(work);
    return 0;
}

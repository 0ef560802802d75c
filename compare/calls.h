/* One call through the library and through the reference: answers, slices and guard bytes compared, what was seen counted. */
#ifndef CALLS_H
#define CALLS_H

#include <stddef.h>
#include <stdint.h>

#include "nedzsuka.h"

enum call {
    COMPILE,
    COMPILE_ENDING,
    COMPILE_WITHIN,
    STARTER_TABLE,
    RUN_BOOK,
    RUN_BOOK_ENDING,
    RUN_BOOK_RULES,
    RUN_BOOK_WITHIN,
    RUN_TABLE,
    RUN_TABLE_WITHIN,
    READ_BOOK,
    READ_TABLE,
    CHECK_TABLE,
    LOAD_TABLE,
    RUN_LOADED,
    OPEN,
    GIVE,
    LOOK,
    CLOSE,
    CALLS
};
enum { LONGEST_TABLE = 2061157, TABLE_ROOM = 3200000, MOST_WORK = 16 * 256 * 49 * 88 };
/* With the widest limits. */
enum { WIDEST_TABLE = 2860837, WIDEST_WORK = 20 * 256 * 49 * 120 };
/* With a set, and one rule. */
enum { ONE_SET_WORK = 260 * 256 * 49 * 15 };

/* The limits of a call, any numbers. */
struct limits {
    uint64_t pattern, rules, tags;
};

/* The output slice of the last call, as the library left it, that of the last load, and the last one for rule numbers. */
extern const uint8_t *last_out, *last_rules;
extern const uint32_t *last_loaded;

void start_calls(uint64_t seed);
/* Ends the program with this message, the seed and the last call's input. */
void fail(const char *what);

uint64_t compare_compile(const uint8_t *book, size_t book_len, uint64_t ceiling, size_t work_len, size_t out_len);
uint64_t compare_compile_ending(const uint8_t *book, size_t book_len, unsigned end, uint64_t ceiling, size_t work_len,
                                size_t out_len);
uint64_t compare_compile_within(struct limits limits, const uint8_t *book, size_t book_len, unsigned end, uint64_t ceiling,
                                size_t work_len, size_t out_len);
uint64_t compare_starter(size_t out_len);
uint64_t compare_run(enum call call, const uint8_t *bytes, size_t length, const uint8_t *sentence, size_t sentence_len,
                     size_t out_len);
uint64_t compare_run_ending(const uint8_t *book, size_t book_len, unsigned end, const uint8_t *sentence, size_t sentence_len,
                            size_t out_len);
uint64_t compare_run_rules(const uint8_t *book, size_t book_len, unsigned end, const uint8_t *sentence, size_t sentence_len,
                           size_t out_len, size_t rules_len);
/* One of RUN_BOOK_WITHIN and RUN_TABLE_WITHIN; the end tag is the book's alone. */
uint64_t compare_run_within(enum call call, struct limits limits, const uint8_t *bytes, size_t length, unsigned end,
                            const uint8_t *sentence, size_t sentence_len, size_t out_len);
uint64_t compare_read(enum call call, const uint8_t *bytes, size_t length);
/* Of a no the sentence is run through book and table, by the library and by the reference, and is the last output. */
uint64_t compare_check(const uint8_t *book, size_t book_len, unsigned end, const uint8_t *table, size_t table_len, size_t work_len,
                       size_t out_len);
uint64_t compare_load(const uint8_t *table, size_t table_len, size_t loaded_len);
uint64_t compare_run_loaded(const uint32_t *loaded, size_t loaded_len, const uint8_t *sentence, size_t sentence_len,
                            size_t out_len);
/* One of OPEN, GIVE, LOOK and CLOSE; the tag is GIVE's alone. The sentence's numbers become what the library leaves. */
uint64_t compare_typed(enum call call, const uint8_t *table, size_t table_len, struct nedzsuka_sentence *sentence, unsigned tag,
                       size_t out_len);

/* The number of states in a table's bytes. */
size_t states_of(const uint8_t *table);
/* The entries that document 01 asks of a work slice, and those of document 02, W8. */
size_t work_entries(size_t ceiling, size_t tags, size_t rules);
size_t work_entries_within(size_t pattern, size_t ceiling, size_t tags, size_t rules);
/* Prints what was seen, on one line. */
void print_counts(const char *part, size_t tried_out, size_t alike);

#endif

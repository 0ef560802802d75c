/* nedzsuka: books of part-of-speech tag rules, and their smallest sequential transducers as tables.

   A tag is a number from 0 to K - 1. A rule changes one tag of a pattern of 1 to 6 tags, or of 1 to 8 where a call takes limits: the
   leftmost occurrence of the pattern in the sentence, once; where it occurs nowhere, the sentence stays as it is. A rule that fires
   everywhere goes on: after a match, matching begins again behind the match's last tag, and no tag of the old match counts for the next.
   In front of the tag that changes a pattern may have a set of tags in place of a tag: that place accepts every tag of the set.
   A book applies its rules in order, each to the result of the one before. A table is a sequential transducer: it starts in state 0,
   reads the tags once from left to right, puts out zero or more tags at each, and at the end the final word of its state. A loaded
   table is a table as numbers, made for running.

   Which call is for what: nedzsuka_run_book for a book that is still edited; nedzsuka_run_book_rules for whoever corrects it and looks for
   the rule behind a changed tag; nedzsuka_run_table for a table that is used once; nedzsuka_load_table, once, and then
   nedzsuka_run_loaded for a table that is run on every sentence; nedzsuka_open, nedzsuka_give, nedzsuka_look and nedzsuka_close for a
   sentence that is still being typed, through struct nedzsuka_sentence below; nedzsuka_starter_table for a first table, without a book;
   nedzsuka_check_table for a table that another has built, to know whether it does what a book says.

   A slice that holds several sentences, a paragraph, is for nedzsuka_compile_ending, nedzsuka_run_book_ending, nedzsuka_run_book_rules
   and nedzsuka_check_table: they take an end tag, the number of the full stop. The slice is cut after each end tag, the rules are applied
   to each piece by itself, and the pieces are joined. A table that was compiled with an end tag does the same; its runs are those of any
   table. An end tag of 255 is none: the slice is one sentence, as for nedzsuka_compile and nedzsuka_run_book.

   A house with longer patterns, or with few rules and little memory for compiling, calls nedzsuka_compile_within,
   nedzsuka_run_book_within and nedzsuka_run_table_within: they take limits. All other calls have the limits 6, 16 and 48.

   What holds of every call
   - For any bytes, numbers and slices it ends, with a result or with a numbered refusal, and which one is fixed by what it was given.
   - The answer is one number: the result's length or count times 256, plus the refusal, 0 for none. On a refusal the upper part is 0;
     with 10 it is the rule's number, and with a refusal of nedzsuka_read_book the byte. nedzsuka_value and nedzsuka_refusal take it
     apart, and nedzsuka_in_words puts a refusal into words.
   - A refused call writes nothing into an output slice, and leaves the three numbers of a typed sentence as they were. Otherwise the
     result stands at the front of the output slice, and what lies beyond the result stays as it was. The output slice of
     nedzsuka_load_table is the loaded one; nedzsuka_run_book_rules has two, and the rules' numbers stand at the front of the second.
   - The other slices are only read, the work slice of compile and check excepted.
   - It allocates nothing and keeps nothing from one call to the next: several threads may call at once, each with output and work
     slices of its own, and typed sentences of its own. One table, loaded or not, serves several threads, since running it only reads it.
   - Of the stack nedzsuka_run_table, nedzsuka_run_table_within, nedzsuka_read_table, nedzsuka_load_table, nedzsuka_open, nedzsuka_give,
     nedzsuka_look and nedzsuka_close take less than 2,200 bytes if S * (K + 1) is at most 192, some 10,600 if it is at most 1,024, some
     35,200 if it is at most 4,096, else some 102,700; nedzsuka_run_loaded less than 1,000 for a sentence of at most 256 tags, some 2,900
     for one of at most 2,048, else some 66,400; compile less than 3,100, and less than 4,500 for a book with a set; nedzsuka_check_table
     some 124,000; the other calls less than 2,200, and less than 5,200 for a book with a set.

   What is asked of the caller
   - A pointer reaches as many entries as the length beside it says. It may be null only where that length is 0.
   - The work pointer is aligned for uint16_t, the loaded pointer for uint32_t.
   - Neither an output slice nor the work slice overlaps another slice of the same call. Slices that are only read may overlap one another.
   - The pointers to the numbers of a typed sentence are not null, aligned for uint64_t, and point to three different numbers, which
     overlap no slice of the same call.
   - While a call reads a slice, nothing writes to it. Between calls a host may write what it likes, also over a loaded table.

   Bytes of a book (hexadecimal): 20 K opens it; 21 p t opens a rule that puts tag t in place p, counted from 0, and closes the rule
   before; 24 p t does the same for a rule that fires everywhere; 22 t is the next tag of the rule's pattern; 23 with six bytes stands for
   a 22, and its place accepts a set of tags: 48 bits, the high byte first, the lowest bit for tag 0; 00 closes the last rule and the book,
   and is the last byte. A book may mix both kinds of rules. A set holds at least two tags, all below K, and stands before p.

   Bytes of a table: 30 K, then the number of states S in two bytes, the high one first; for each state 31 with the number of held tags, 32
   t for each of them, and for each tag 0 to K - 1 33 with the next state in two bytes, followed by 34 t for each tag put out; 00, the last
   byte. The held tags are the state's final word. A table is well formed if its bytes follow this layout, K is 2 to 48, S is 1 to 256,
   each state holds at most 80 tags, every tag is below K, every next state below S, state 0 holds nothing, and each step from a state that
   holds d tags to one that holds e puts out exactly d + 1 - e. It need not be the smallest. Where a call takes limits, the greatest K is
   its limit for 48, and a state holds at most (L - 1) * 16 tags for 80, L being its limit of tags in a pattern. */
#ifndef NEDZSUKA_H
#define NEDZSUKA_H

#include <stddef.h>
#include <stdint.h>

/* The version, in words and as 10,000 * major + 100 * minor + patch. */
#define NEDZSUKA_VERSION "0.8.0"
#define NEDZSUKA_VERSION_NUMBER 800

#ifdef __cplusplus
extern "C" {
#endif

/* The bounds, of calls that take no limits. */
enum nedzsuka_bound {
    NEDZSUKA_LEAST_TAGS = 2,            /* K is at least this, */
    NEDZSUKA_MOST_TAGS = 48,            /* and at most this */
    NEDZSUKA_MOST_RULES = 16,           /* rules in a book, and the greatest number of a rule */
    NEDZSUKA_LONGEST_PATTERN = 6,       /* tags and sets in a pattern; at least one */
    NEDZSUKA_MOST_STATES = 256,         /* states of a table, and the greatest ceiling; at least one */
    NEDZSUKA_MOST_HELD = 80,            /* tags that a state holds, and that a look or a close puts out */
    NEDZSUKA_MOST_PUT = 81,             /* tags that a give puts out */
    NEDZSUKA_LONGEST_SENTENCE = 65535,  /* tags */
    NEDZSUKA_LONGEST_BOOK = 643,        /* bytes of a valid book: 2 + 16 * (3 + 5 * 7 + 2) + 1; without a set 243 */
    NEDZSUKA_LONGEST_TABLE = 2061157,   /* bytes of a well-formed table, compiled or not: 4 + 242 + 255 * 8082 + 1 */
    NEDZSUKA_STARTER_BYTES = 731,       /* bytes of the starter table */
    NEDZSUKA_LONGEST_SHOWN = 1024,      /* tags of a sentence that a check shows, and of its output slice at least */
    NEDZSUKA_NO_END = 255,              /* the end tag of calls with none */
    NEDZSUKA_MOST_WORK = 17661952,      /* entries of the work slice that are enough for every book without a set: 16 * 256 * 49 * 88;
                                           with two bytes each 35,323,904 bytes, about 34 MiB */
    NEDZSUKA_MOST_SET_WORK = 75063296   /* and for every book: 68 * 256 * 49 * 88; 150,126,592 bytes, about 143 MiB */
};

/* The greatest limits that a call takes, the least being 1, 1 and 2, and what follows from them. */
enum nedzsuka_widest {
    NEDZSUKA_WIDEST_PATTERN = 8,       /* tags and sets in a pattern */
    NEDZSUKA_WIDEST_RULES = 16,        /* rules in a book */
    NEDZSUKA_WIDEST_TAGS = 48,         /* K */
    NEDZSUKA_WIDEST_HELD = 112,        /* tags that a state holds */
    NEDZSUKA_WIDEST_BOOK = 867,        /* bytes of a valid book: 2 + 16 * (3 + 7 * 7 + 2) + 1; without a set 307 */
    NEDZSUKA_WIDEST_TABLE = 2860837,   /* bytes of a well-formed table: 4 + 242 + 255 * 11218 + 1 */
    NEDZSUKA_WIDEST_WORK = 30105600,   /* entries of the work slice that are enough for every book without a set: 2 * 10 * 256 * 49 * 120 */
    NEDZSUKA_WIDEST_SET_WORK = 391372800 /* and for every book: 2 * 130 * 256 * 49 * 120 */
};

/* The refusals. */
enum nedzsuka_refusal_number {
    NEDZSUKA_OK = 0,                 /* none: the answer carries a result */
    NEDZSUKA_BAD_COMMAND = 1,        /* book: a command unknown or out of place, bytes missing, or bytes after 00 */
    NEDZSUKA_BAD_TAG_COUNT = 2,      /* book: K outside 2 to 48, or to its limit */
    NEDZSUKA_BAD_PATTERN = 3,        /* book: a pattern that is empty when its rule closes, or a seventh 22 or 23, or one beyond its limit */
    NEDZSUKA_BAD_TAG = 4,            /* book, sentence or give: a tag, new tag or tag of a set not below K */
    NEDZSUKA_BAD_PLACE = 5,          /* book: p not below the pattern's length when the rule closes */
    NEDZSUKA_SAME_TAG = 6,           /* book: the new tag is the tag at p when the rule closes */
    NEDZSUKA_TOO_MANY_RULES = 7,     /* book: a seventeenth rule, or one beyond its limit, by 21 or 24 */
    NEDZSUKA_BAD_CEILING = 8,        /* compile: a ceiling outside 1 to 256 */
    NEDZSUKA_SHORT_WORK = 9,         /* compile and check: fewer work entries than nedzsuka_work_entries says */
    NEDZSUKA_TOO_MANY_STATES = 10,   /* compile and check: the first i rules need more states than the ceiling; i is the answer's value */
    NEDZSUKA_SHORT_OUTPUT = 11,      /* every call with an output slice: it, or one of two, is shorter than the result; check: than 1,024 */
    NEDZSUKA_BAD_TABLE = 12,         /* table: not well formed; loaded table: its numbers make no result of the sentence */
    NEDZSUKA_LONG_SENTENCE = 13,     /* sentence: longer than 65,535 tags; give: 65,535 or more have been given */
    NEDZSUKA_BAD_END = 14,           /* calls with an end tag: the book cannot be used with it */
    NEDZSUKA_CLOSED = 15,            /* give, look and close: the sentence is closed */
    NEDZSUKA_BAD_STATE = 16,         /* give, look and close: the sentence's state is not below the table's S */
    NEDZSUKA_BAD_LIMIT = 17,         /* calls with limits: one of them is outside its range */
    NEDZSUKA_SMALL_SET = 18,         /* book: a set of fewer than two tags */
    NEDZSUKA_LATE_SET = 19,          /* book: a set at or after p when the rule closes */
    NEDZSUKA_OTHER_TAGS = 20         /* check: the table's K is not the book's */
};

/* Compiles a book to its smallest table and answers the table's length in bytes.

   The table at the front of out turns every sentence over the book's tags, of every length, into what the book makes of it, and no
   sequential transducer that does so has fewer states, whatever its initial word and however it puts out; states that are never
   reached count. Its number of states is the S in its bytes. Each state puts out as early as can be: what it can still put out has no
   common front. States are numbered as first reached from state 0, lower-numbered states first and within a state lower tags first.
   Two books over equally many tags that compile get the same bytes exactly if they make the same of every sentence.

   Refusals, in this order:
   - 8: the ceiling is outside 1 to 256.
   - 1 to 7, 18 and 19: the book is not valid. The refusal at the earliest byte is given; the end of the bytes counts as a place after the
     last. At a closing 3, 5, 19 and 6 come in that order, all before 7. 4 and 18 are found at a set's last byte, 4 first.
   - 9: work_len is below 16 * ceiling * (K + 1) * (5 * m + 8) for a book of m rules, or, if one of them has a set, below
     68 * ceiling * (K + 1) * (5 * m + 8).
   - 10 with i: given exactly if some leading part of the book, its first i rules with i from 1 to m, needs more than ceiling states in
     every sequential transducer that does what these rules do; the least such i is named.
   - 11: out_len is below the table's length.

   nedzsuka_work_entries and nedzsuka_table_bytes, below, give lengths of work and out that are enough; nedzsuka_read_book gives the K
   and the number of rules that they ask for, nedzsuka_has_set tells whether there is a set. Time and memory grow with the ceiling, whatever the number of states is in the end.

   The work slice keeps its numbers on the refusals before 10 (8, the book's, 14 and 9). On 10, on 11 and with a result its first
   entries, as many as 9 asks for, are zero and the rest unchanged. What it holds before the call plays no part. */
uint64_t nedzsuka_compile(const uint8_t *book, size_t book_len, uint64_t ceiling, uint16_t *work, size_t work_len, uint8_t *out,
                          size_t out_len);

/* Compiles a book whose sentences end with the tag end, or NEDZSUKA_NO_END for none: as nedzsuka_compile, which is the call with
   NEDZSUKA_NO_END, with the joined result for what the book makes of a sentence. So the table is the smallest for that; a leading part
   is looked at with the end tag too; and two books over equally many tags that compile, each with its own end tag, get the same bytes
   exactly if they make the same of every sentence with it.

   Refusals, in this order: 8, the book's, 14, 9, 10, 11, as for nedzsuka_compile, and
   - 14: end is neither below the book's K nor 255; or end is a tag of a pattern before its last place, or in a set; or a rule changes end,
     or puts it. The upper part is 0, and the work slice and the output slice keep what they had. */
uint64_t nedzsuka_compile_ending(const uint8_t *book, size_t book_len, uint8_t end, uint64_t ceiling, uint16_t *work, size_t work_len,
                                 uint8_t *out, size_t out_len);

/* Compiles a book as nedzsuka_compile_ending does, with the limits of the call: pattern for 6, the most tags in a pattern; rules for 16,
   the most rules in a book; tags for 48, the greatest K. All that is said of nedzsuka_compile_ending holds with them. The table is well
   formed with the same limits, and with all that are greater. A book that several limits allow gets the same bytes with each. Two books
   over equally many tags that compile, each with its own limits and its own end tag, get the same bytes exactly if they make the same of
   every sentence. With 6, 16 and 48 it is nedzsuka_compile_ending.

   Refusals, in this order:
   - 17: pattern is outside 1 to 8, or rules outside 1 to 16, or tags outside 2 to 48. The upper part is 0, and the work slice and the
     output slice keep what they had.
   - 8, the book's, 14, 9, 10 and 11, as for nedzsuka_compile_ending: 2 if K is below 2 or above tags, 3 also for a 22 or 23 beyond pattern
     tags, 7 for a rule beyond rules, and 9 if work_len is below 2 * (pattern + 2) * ceiling * (K + 1) * ((pattern - 1) * m + 8) for a
     book of m rules, with 2 to the power of pattern - 1 in place of pattern if one of them has a set.

   nedzsuka_work_entries_within and nedzsuka_table_bytes_within, below, give lengths of work and out that are enough. Small limits need
   less memory, and are compiled with faster. */
uint64_t nedzsuka_compile_within(uint64_t pattern, uint64_t rules, uint64_t tags, const uint8_t *book, size_t book_len, uint8_t end,
                                 uint64_t ceiling, uint16_t *work, size_t work_len, uint8_t *out, size_t out_len);

/* Writes the starter table to the front of out and answers its length, 731 bytes. It is the table of the starter book, which has 48 tags
   and one rule, 0 1 to 0 2, once:

       20 30 21 01 02 22 00 22 01 00

   The answer and the bytes in out are those of nedzsuka_compile for this book with every ceiling from 3 to 256 and a work slice that is
   long enough. So the table has three states and no other for this book has fewer, and its runs are those of the book, on every sentence.
   Nothing is compiled: the table is a constant of the library.

   Refusal: 11, out_len is below 731. */
uint64_t nedzsuka_starter_table(uint8_t *out, size_t out_len);

/* Runs a book over a sentence, one tag a byte: what its rules leave, applied in order, goes to the front of out and is as long as the
   sentence. Answers the number of places at which sentence and result differ: two changes that undo one another count as none.

   Refusals, in this order:
   - 1 to 7, 18 and 19: the book is not valid, as for nedzsuka_compile.
   - 13: sentence_len is above 65,535.
   - 4: a tag of the sentence is not below the book's K.
   - 11: out_len is below sentence_len. */
uint64_t nedzsuka_run_book(const uint8_t *book, size_t book_len, const uint8_t *sentence, size_t sentence_len, uint8_t *out,
                           size_t out_len);

/* Runs a book over a slice of sentences that end with the tag end, or NEDZSUKA_NO_END for none: as nedzsuka_run_book, which is the call
   with NEDZSUKA_NO_END, with the joined result of the pieces. What comes after the last end tag is a piece too.

   Refusals, in this order: the book's, 14, 13, 4, 11, as for nedzsuka_run_book and nedzsuka_compile_ending. */
uint64_t nedzsuka_run_book_ending(const uint8_t *book, size_t book_len, uint8_t end, const uint8_t *sentence, size_t sentence_len,
                                  uint8_t *out, size_t out_len);

/* Runs a book as nedzsuka_run_book_ending does, and tells for each place which rule rewrote it last. The answer, and the result at the
   front of out, are those of nedzsuka_run_book_ending. The front of rules gets one byte for each tag of the sentence: the number of the
   last rule that rewrote this place, or 0 where none did. Rules are numbered from 1 in the order of the book, whether they fire or not, so
   that a number is 1 to NEDZSUKA_MOST_RULES.

   A rule writes its number only at the place p of its match, where it puts its tag, and a rule that fires everywhere at that of each
   match. With an end tag the numbers are found piece by piece, as the tags are. Where several rules rewrote a place, the last one's number
   stands. A place that was rewritten and rewritten back keeps that number, though its tag does not count as changed. So a place with the
   number 0 has the sentence's tag, and a place whose tag differs from the sentence's has a number. The tag at a place with a number is the
   one that the rule with that number puts.

   What lies beyond sentence_len stays as it was in both slices, and on every refusal both keep all their bytes. A table carries no rule
   numbers, so there is no such call for tables.

   Refusals, in this order: the book's, 14, 13, 4, as for nedzsuka_run_book_ending, and
   - 11: out_len or rules_len is below sentence_len. */
uint64_t nedzsuka_run_book_rules(const uint8_t *book, size_t book_len, uint8_t end, const uint8_t *sentence, size_t sentence_len,
                                 uint8_t *out, size_t out_len, uint8_t *rules, size_t rules_len);

/* Runs a book as nedzsuka_run_book_ending does, with the limits of the call, which are those of nedzsuka_compile_within.

   Refusals, in this order: 17, as for nedzsuka_compile_within, then the book's with these limits, 14, 13, 4 and 11. */
uint64_t nedzsuka_run_book_within(uint64_t pattern, uint64_t rules, uint64_t tags, const uint8_t *book, size_t book_len, uint8_t end,
                                  const uint8_t *sentence, size_t sentence_len, uint8_t *out, size_t out_len);

/* Reads a book and answers K * 256 + the number of its rules.

   Refusals: 1 to 7, 18 and 19, as for nedzsuka_compile. The upper part is the byte at which the refusal is given, counted from 0; book_len where
   bytes are missing. */
uint64_t nedzsuka_read_book(const uint8_t *book, size_t book_len);

/* Runs a table over a sentence, one tag a byte: what the transducer puts out, its final word included, goes to the front of out and is
   as long as the sentence. Answers the number of places at which sentence and result differ. For a compiled table the answer and
   the result are those of its book, with the end tag that it was compiled with.

   Refusals, in this order:
   - 12: the table is not well formed.
   - 13: sentence_len is above 65,535.
   - 4: a tag of the sentence is not below the table's K.
   - 11: out_len is below sentence_len. */
uint64_t nedzsuka_run_table(const uint8_t *table, size_t table_len, const uint8_t *sentence, size_t sentence_len, uint8_t *out,
                            size_t out_len);

/* Runs a table as nedzsuka_run_table does, with the limits of the call, which are those of nedzsuka_compile_within. The limit of rules
   plays no part. Run with the limits that it was compiled with, a table does what its book does with them.

   Refusals, in this order: 17, as for nedzsuka_compile_within, then 12 with these limits, 13, 4 and 11. */
uint64_t nedzsuka_run_table_within(uint64_t pattern, uint64_t rules, uint64_t tags, const uint8_t *table, size_t table_len,
                                   const uint8_t *sentence, size_t sentence_len, uint8_t *out, size_t out_len);

/* Reads a table and answers K * 65,536 + S, its number of states.

   Refusal: 12, the table is not well formed. */
uint64_t nedzsuka_read_table(const uint8_t *table, size_t table_len);

/* Checks a table that another has built against a book whose sentences end with the tag end, or NEDZSUKA_NO_END for none. Answers 0 for
   yes: the table makes of every sentence over their tags, of every length, what the book with this end tag makes of it. For no it answers
   the length of a sentence, 1 to NEDZSUKA_LONGEST_SHOWN, of which they make different results, and that sentence stands at the front of
   out. Which one it is, where there are several, is left open.

   The table may be any that is well formed, however many states it has, reached or not, and in whatever order they are numbered. Only
   results count: a table that puts out later than the compiled one, and holds more, is not different for that. The book is compiled with a
   ceiling of 256, so the time is that of nedzsuka_compile_ending with it, and some more for the states of both tables and their tags.

   A yes writes nothing to out; with a no what lies beyond the sentence stays as it was.

   Refusals, in this order:
   - 1 to 7, 18 and 19: the book is not valid, as for nedzsuka_compile.
   - 14: the book cannot be used with end, as for nedzsuka_compile_ending.
   - 12: the table is not well formed.
   - 20: the table's K is not the book's.
   - 9: work_len is below what nedzsuka_compile asks for with a ceiling of 256: nedzsuka_work_entries(256, K, m, has_set) for a book of m
     rules.
   - 10 with i: the first i rules of the book need more than 256 states, as for nedzsuka_compile_ending.
   - 11: out_len is below NEDZSUKA_LONGEST_SHOWN, whatever the answer would be, yes too.

   The work slice keeps its numbers on the refusals before 10. On 10, on 11, with a yes and with a no its first entries, as many as 9 asks
   for, are zero and the rest unchanged. What it holds before the call plays no part. */
uint64_t nedzsuka_check_table(const uint8_t *book, size_t book_len, uint8_t end, const uint8_t *table, size_t table_len, uint16_t *work,
                              size_t work_len, uint8_t *out, size_t out_len);

/* Loads a table: writes it as numbers to the front of loaded and answers how many they are. table_len numbers are always enough. What
   nedzsuka_run_loaded makes of these numbers, with anything behind them, is what nedzsuka_run_table makes of the table, for every
   sentence and every output slice.

   The numbers are K, then for each state a row of 2 * K + 2, then the tags of long words, one a number. A row has its state's final
   word and a 0, and for each tag the place of the next state's row, counted from 0 at K, and the word put out; the row of state q is at
   place 1 + q * (2 * K + 2). A word of n tags is n + 256 * a + 65,536 * b + 16,777,216 * c with its tags a, b, c as far as it has them, or
   with more than three n + 256 * p, p being the place of its first tag behind the rows; long words stand there in the order in which
   the rows name them. In place of a next row stands 4,294,967,295 if the next state is the first one that rests: it holds nothing,
   and each tag is put out as it is and leads to the state itself. The rest of the sentence is then put out as it is.

   Refusals, in this order:
   - 12: the table is not well formed.
   - 11: loaded_len is below the number of numbers. */
uint64_t nedzsuka_load_table(const uint8_t *table, size_t table_len, uint32_t *loaded, size_t loaded_len);

/* Runs a loaded table over a sentence, one tag a byte: what it puts out goes to the front of out and is as long as the sentence.
   Answers the number of places at which sentence and result differ. A sentence costs its tags, whatever the size of the table.

   The slice may hold any numbers. Each is looked at only where the sentence's way meets it, and tested there: it is never read outside
   the slice, and every tag of a result is below K. So a loaded table that was written over gives 12 or some sentence over its K.

   Refusals, in this order:
   - 12: loaded_len is 0, or the first number, K, is outside 2 to 48.
   - 13: sentence_len is above 65,535.
   - 4: a tag of the sentence is not below K.
   - 11: out_len is below sentence_len.
   - 12: on the sentence's way, from place 1 on, a row or a long word does not lie within the slice; or what is put out is not as long
     as the sentence, or has a tag that is not below K. */
uint64_t nedzsuka_run_loaded(const uint32_t *loaded, size_t loaded_len, const uint8_t *sentence, size_t sentence_len, uint8_t *out,
                             size_t out_len);

/* Opens a sentence over a table, to be typed tag by tag, and answers 0.

   A typed sentence is three numbers that the host keeps: the table's state, how many tags were given, and whether it is closed, 0 for
   open and any other number for closed. This call sets them to 0, 0 and 0. From an opening on, over one table, each call being given
   the numbers that the one before has left: what the gives put out and what the close then puts out, joined, is what nedzsuka_run_table
   makes of the tags taken, whatever looks and refused calls lie between. So what was put out is certain, whatever is typed next. Changed
   tags are not counted.

   The numbers may hold any values, and the table may be another one at each call: a call answers for what it gets. It reads the whole
   table, as nedzsuka_run_table does, and costs the table's bytes, however long the sentence is. A host with many finished sentences loads
   the table instead.

   Refusal: 12, the table is not well formed. */
uint64_t nedzsuka_open(const uint8_t *table, size_t table_len, uint64_t *state, uint64_t *given, uint64_t *closed);

/* Gives one tag: what the table's step from the state on the tag puts out goes to the front of out, and the answer is how many tags these
   are, 0 to 81. The state becomes the step's next state, and given goes up by one.

   Refusals, in this order:
   - 12: the table is not well formed.
   - 15: closed is not 0.
   - 16: the state is not below the table's S. From an opening on, over one table, this is never given.
   - 13: given is 65,535 or more.
   - 4: the tag is not below the table's K.
   - 11: out_len is below the number of tags that the step puts out. A step that puts out none asks for no room. */
uint64_t nedzsuka_give(const uint8_t *table, size_t table_len, uint64_t *state, uint64_t *given, uint64_t *closed, uint8_t tag,
                       uint8_t *out, size_t out_len);

/* Looks at what closing now would give: the tags that the state holds, its final word, go to the front of out, and the answer is how many
   these are, 0 to 80. The sentence stays as it is. What given is plays no part.

   Refusals, in this order: 12, 15 and 16, as for nedzsuka_give, and
   - 11: out_len is below the number of tags that the state holds. */
uint64_t nedzsuka_look(const uint8_t *table, size_t table_len, uint64_t state, uint64_t given, uint64_t closed, uint8_t *out,
                       size_t out_len);

/* Closes the sentence: puts out and answers what nedzsuka_look does, and sets closed to 1. State and given stay as they are.

   Refusals: 12, 15, 16 and 11, as for nedzsuka_look. */
uint64_t nedzsuka_close(const uint8_t *table, size_t table_len, uint64_t *state, uint64_t *given, uint64_t *closed, uint8_t *out,
                        size_t out_len);

/* A typed sentence, with any values. It may be copied: a copy is a second sentence, which goes on from there, so that a host which keeps
   the copy from before a tag can undo the tag. The four functions are the four calls. */
struct nedzsuka_sentence {
    uint64_t state, given, closed;
};

static inline uint64_t nedzsuka_sentence_open(const uint8_t *table, size_t table_len, struct nedzsuka_sentence *sentence)
{
    return nedzsuka_open(table, table_len, &sentence->state, &sentence->given, &sentence->closed);
}

static inline uint64_t nedzsuka_sentence_give(const uint8_t *table, size_t table_len, struct nedzsuka_sentence *sentence, uint8_t tag,
                                              uint8_t *out, size_t out_len)
{
    return nedzsuka_give(table, table_len, &sentence->state, &sentence->given, &sentence->closed, tag, out, out_len);
}

static inline uint64_t nedzsuka_sentence_look(const uint8_t *table, size_t table_len, const struct nedzsuka_sentence *sentence,
                                              uint8_t *out, size_t out_len)
{
    return nedzsuka_look(table, table_len, sentence->state, sentence->given, sentence->closed, out, out_len);
}

static inline uint64_t nedzsuka_sentence_close(const uint8_t *table, size_t table_len, struct nedzsuka_sentence *sentence, uint8_t *out,
                                               size_t out_len)
{
    return nedzsuka_close(table, table_len, &sentence->state, &sentence->given, &sentence->closed, out, out_len);
}

/* The refusal of an answer, 0 for none. */
static inline unsigned nedzsuka_refusal(uint64_t answer)
{
    return (unsigned)(answer & 255u);
}

/* The length, count or sizes of an answer; the rule, counted from 1, with 10; the byte, counted from 0, with a refusal of
   nedzsuka_read_book; 0 with any other refusal. */
static inline uint64_t nedzsuka_value(uint64_t answer)
{
    return answer >> 8;
}

/* A refusal in words, which stay where they are. */
static inline const char *nedzsuka_in_words(unsigned refusal)
{
    static const char *const words[] = {
        "no refusal",
        "the book has a command that is unknown or out of place, too few bytes, or bytes after its end",
        "the book's number of tags is outside 2 to 48, or above its limit",
        "a rule's pattern is empty or longer than 6 tags, or than its limit",
        "a tag of the book or the sentence is not below the number of tags",
        "a rule's place is not within its pattern",
        "a rule's new tag is the one it replaces",
        "the book has more than 16 rules, or more than its limit",
        "the ceiling is outside 1 to 256 states",
        "the work slice is too short",
        "the rules up to this one need more states than the ceiling in every machine",
        "an output slice is too short",
        "the table is not well formed, or the loaded one makes no result of the sentence",
        "the sentence is longer than 65,535 tags",
        "the end tag is no tag of the book, or stands in a pattern before its last place, or a rule changes or makes it",
        "the sentence is closed",
        "the sentence's state is not one of the table's",
        "a limit is outside its range: 1 to 8 tags in a pattern, 1 to 16 rules, 2 to 48 for the greatest number of tags",
        "a set of tags has fewer than two",
        "a set of tags stands at the place that the rule changes, or after it",
    };

    return refusal < sizeof words / sizeof *words ? words[refusal] : "unknown refusal";
}

/* Whether a rule of the book has a set, 1 or 0, of a book that nedzsuka_read_book does not refuse. It never reads beyond the book's bytes. */
static inline int nedzsuka_has_set(const uint8_t *book, size_t book_len)
{
    size_t at = 2;

    while (at < book_len && book[at] != 0x00 && book[at] != 0x23)
        at += book[at] == 0x22 ? 2 : 3;
    return at < book_len && book[at] == 0x23;
}

/* The entries that nedzsuka_compile_within asks of its work slice: the limits of the call, then a ceiling, the book's K, its number of
   rules, and whether one of them has a set, 1 or 0. It is 0 for a limit outside its range, a ceiling outside 1 to 256, K outside 2 to
   most_tags or more than most_rules rules; the call refuses these whatever its slices are. It is never above NEDZSUKA_WIDEST_SET_WORK, and
   without a set never above NEDZSUKA_WIDEST_WORK. */
static inline size_t nedzsuka_work_entries_within(uint64_t pattern, uint64_t most_rules, uint64_t most_tags, uint64_t ceiling,
                                                  uint64_t tags, uint64_t rules, int has_set)
{
    if (pattern < 1 || pattern > NEDZSUKA_WIDEST_PATTERN || most_rules < 1 || most_rules > NEDZSUKA_WIDEST_RULES ||
        most_tags < NEDZSUKA_LEAST_TAGS || most_tags > NEDZSUKA_WIDEST_TAGS)
        return 0;
    if (ceiling < 1 || ceiling > NEDZSUKA_MOST_STATES || tags < NEDZSUKA_LEAST_TAGS || tags > most_tags || rules > most_rules)
        return 0;
    return (size_t)(2 * ((has_set ? UINT64_C(1) << (pattern - 1) : pattern) + 2) * ceiling * (tags + 1) * ((pattern - 1) * rules + 8));
}

/* The entries, of two bytes each, that compile asks of its work slice, and check with a ceiling of 256, for a ceiling, the book's K, its
   number of rules, and whether one of them has a set, 1 or 0. K is the book's second byte; where the number of rules is not known, 16,
   NEDZSUKA_MOST_RULES, is enough, and where it is not known whether there is a set, 1 is. For a ceiling outside 1 to 256, K outside 2 to
   48 or more than 16 rules it is 0; compile refuses these whatever its slices are. It is never above NEDZSUKA_MOST_SET_WORK, and without
   a set never above NEDZSUKA_MOST_WORK, so that neither the product nor the number of bytes overflows where size_t has 32 bits. */
static inline size_t nedzsuka_work_entries(uint64_t ceiling, uint64_t tags, uint64_t rules, int has_set)
{
    return nedzsuka_work_entries_within(NEDZSUKA_LONGEST_PATTERN, NEDZSUKA_MOST_RULES, NEDZSUKA_MOST_TAGS, ceiling, tags, rules, has_set);
}

/* Bytes that are enough for the table of every book with at most this ceiling of states, this K and at most this many rules, compiled with
   these limits: a rule has each state hold at most pattern - 1 tags more. The arguments are those of nedzsuka_work_entries_within; where
   that is 0 so is this. */
static inline size_t nedzsuka_table_bytes_within(uint64_t pattern, uint64_t most_rules, uint64_t most_tags, uint64_t ceiling,
                                                 uint64_t tags, uint64_t rules)
{
    uint64_t held = (pattern - 1) * rules;

    if (nedzsuka_work_entries_within(pattern, most_rules, most_tags, ceiling, tags, rules, 0) == 0)
        return 0;
    return (size_t)(4 + (2 + 5 * tags) + (ceiling - 1) * (2 + 2 * held + tags * (3 + 2 * (held + 1))) + 1);
}

/* The same for the limits 6, 16 and 48, with the arguments of nedzsuka_work_entries. As many numbers are enough for the loaded table. */
static inline size_t nedzsuka_table_bytes(uint64_t ceiling, uint64_t tags, uint64_t rules)
{
    return nedzsuka_table_bytes_within(NEDZSUKA_LONGEST_PATTERN, NEDZSUKA_MOST_RULES, NEDZSUKA_MOST_TAGS, ceiling, tags, rules);
}

#ifdef __cplusplus
}
#endif

#endif

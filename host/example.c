/* example [-c CEILING] [-e END] BOOK [TAG ...]: compiles the book in a file, loads the table once, and tags sentences with it.
   example [-c CEILING] [-e END] -t BOOK: compiles the book, and tags a sentence while it is typed on standard input.
   example [-e END] -r BOOK [TAG ...]: runs the book itself over sentences, and tells each tag's rule.
   example [-e END] -k TABLE BOOK: checks whether a table, built by whomever, does what the book says. */
#include <nedzsuka.h>

#include <ctype.h>
#include <errno.h>
#include <inttypes.h>
#include <stdio.h>
#include <stdlib.h>
#include <string.h>

#define SYNOPSIS \
    "usage: example [-c CEILING] [-e END] BOOK [TAG ...]\n" \
    "       example [-c CEILING] [-e END] -t BOOK\n" \
    "       example [-e END] -r BOOK [TAG ...]\n"
#define NOT_A_TAG "not a tag, a number from 0 to 255"

/* Exit statuses, the worse the greater; a function of type int answers one where nothing else is said. */
enum { DONE = 0, REFUSED = 1, DIFFERS = 1, FAILED = 2 };
enum { LONGEST_WORD = 20 };

static const char usage[] =
    SYNOPSIS
    "       example [-e END] -k TABLE BOOK\n"
    "       example --help | -h\n"
    "\n"
    "Compiles a book of tag rules to its smallest table, and runs the table over a sentence,\n"
    "or over several that end with a tag.\n"
    "Prints the table's states and length, the result, and the number of changed tags.\n"
    "With -t the sentence is typed on standard input, its tags with white space between, up to the\n"
    "end of input. Prints after each tag what is certain so far, whatever is typed next, and what\n"
    "closing the sentence now would add; in the end the result.\n"
    "With -r the book itself is run, rule by rule. Prints the result, under each of its tags the\n"
    "number of the last rule that rewrote this place, counted from 1, or 0 where none did, and the\n"
    "number of changed tags: a tag that was rewritten and rewritten back has a number, but isn't one\n"
    "of them.\n"
    "With -k no sentence is run: a table is checked. Prints \"same\" if it makes of every sentence what\n"
    "the book makes of it, however late it puts out; else a sentence of which it makes something\n"
    "else, what the book makes of that, and what the table makes.\n"
    "\n"
    "  BOOK        a file with the raw bytes of a book, not text; nedzsuka.h says what they are\n"
    "  TAG ...     the sentence, each tag a number from 0 to 255; empty if there are none\n"
    "  -c CEILING  the most states that the table may have, 1 to 256; 256 if not given\n"
    "  -e END      the tag that ends a sentence; 255, which is none, if not given\n"
    "  -t          the sentence is typed; a tag that is refused, or what isn't a tag, is told on\n"
    "              standard error, and the sentence goes on as if it hadn't been typed\n"
    "  -r          each tag with its rule; no table is made, so that -c and -t can't be given\n"
    "  -k TABLE    a file with the raw bytes of a table, to be checked; -c, -t, -r and TAG can't be\n"
    "              given\n"
    "\n"
    "Exit status:\n"
    "  0  a result; with -k: the table does the same\n"
    "  1  a refusal, on standard error; standard output stays empty, unless it is of a typed tag;\n"
    "     with -k also: the table differs, which is told on standard output\n"
    "  2  an error, on standard error: wrong arguments, a file or input that can't be read, what\n"
    "     was typed and isn't a tag, output that can't be written, or too little memory\n";

/* What the arguments ask for. */
struct request {
    uint64_t ceiling, end;
    int limited, typing, numbered; /* whether there is -c, -t or -r */
    const char *book, *table;      /* table: NULL if there is no -k */
    char **tags;
    size_t count;
};

static int failed(const char *what, const char *why)
{
    fprintf(stderr, "example: %s: %s\n", what, why);
    return FAILED;
}

static int wrong_argument(const char *argument, const char *why)
{
    failed(argument, why);
    fputs(SYNOPSIS "example --help says more\n", stderr);
    return FAILED;
}

/* Whether the text is a number from 0 to the limit, in decimal digits only. */
static int read_number(const char *text, uint64_t limit, uint64_t *number)
{
    char *end;

    if (*text < '0' || *text > '9')
        return 0;
    errno = 0;
    *number = strtoull(text, &end, 10);
    return *end == '\0' && errno == 0 && *number <= limit;
}

/* Whether the option stands for itself, with no value after it. */
static int takes_no_value(const char *option)
{
    return strcmp(option, "-t") == 0 || strcmp(option, "-r") == 0;
}

static int read_option(const char *option, const char *value, struct request *request)
{
    request->limited |= strcmp(option, "-c") == 0;
    request->typing |= strcmp(option, "-t") == 0;
    request->numbered |= strcmp(option, "-r") == 0;
    if (strcmp(option, "-c") == 0)
        return value != NULL && read_number(value, UINT64_MAX, &request->ceiling)
                   ? DONE
                   : wrong_argument(option, "no number below 2^64 after it");
    if (strcmp(option, "-e") == 0)
        return value != NULL && read_number(value, UINT8_MAX, &request->end)
                   ? DONE
                   : wrong_argument(option, "no number from 0 to 255 after it");
    if (strcmp(option, "-k") == 0) {
        request->table = value;
        return value != NULL ? DONE : wrong_argument(option, "no TABLE after it");
    }
    return takes_no_value(option) ? DONE : wrong_argument(option, "not an option here");
}

static int check_options(const struct request *request)
{
    if (request->table != NULL && (request->limited || request->typing || request->numbered))
        return wrong_argument(request->limited ? "-c" : request->typing ? "-t" : "-r", "not with -k: a table is checked there");
    if (request->table != NULL && request->count > 0)
        return wrong_argument(request->tags[0], "no TAG with -k: no sentence is run there");
    if (request->numbered && (request->limited || request->typing))
        return wrong_argument(request->limited ? "-c" : "-t", "not with -r: no table is made there");
    if (request->typing && request->count > 0)
        return wrong_argument(request->tags[0], "no TAG with -t: they are typed on standard input");
    return DONE;
}

static int read_arguments(int argc, char **argv, struct request *request)
{
    int at = 1;

    request->ceiling = NEDZSUKA_MOST_STATES;
    request->end = NEDZSUKA_NO_END;
    request->limited = request->typing = request->numbered = 0;
    request->table = NULL;
    for (; at < argc && argv[at][0] == '-'; at += takes_no_value(argv[at]) ? 1 : 2)
        if (read_option(argv[at], argv[at + 1], request) != DONE)
            return FAILED;
    if (at >= argc)
        return wrong_argument("BOOK", "missing");
    request->book = argv[at];
    request->tags = argv + at + 1;
    request->count = (size_t)(argc - at - 1);
    return check_options(request);
}

/* One byte more than the longest valid book, or table, is enough: the refusal of a longer one lies within. */
static int read_file(const char *name, uint8_t *bytes, size_t most, size_t *length)
{
    FILE *file = fopen(name, "rb");
    int status;

    if (file == NULL)
        return failed(name, strerror(errno));
    *length = fread(bytes, 1, most, file);
    status = ferror(file) ? failed(name, strerror(errno)) : DONE;
    fclose(file);
    return status;
}

static int read_sentence(const struct request *request, uint8_t *sentence)
{
    uint64_t tag;

    for (size_t i = 0; i < request->count; i++) {
        if (!read_number(request->tags[i], UINT8_MAX, &tag))
            return wrong_argument(request->tags[i], NOT_A_TAG);
        sentence[i] = (uint8_t)tag;
    }
    return DONE;
}

/* A slice of no bytes may be null, and malloc may make it so. */
static void *allocate(size_t bytes)
{
    void *slice = malloc(bytes);

    if (slice == NULL && bytes > 0)
        exit(failed("memory", "not enough"));
    return slice;
}

/* Compiles into a slice that the caller frees. What is needed goes by the ceiling, the book's tags and its rules, which reading it
   has answered. With a book that is not valid or a ceiling out of bounds both slices are empty, and the call gives that refusal before
   it asks for them. */
static uint64_t compile_book(const uint8_t *book, size_t book_len, uint64_t read, const struct request *request, uint8_t **table)
{
    uint64_t size = nedzsuka_refusal(read) == NEDZSUKA_OK ? nedzsuka_value(read) : 0, tags = size / 256, rules = size % 256, answer;
    size_t work_len = nedzsuka_work_entries(request->ceiling, tags, rules, nedzsuka_has_set(book, book_len));
    size_t table_room = nedzsuka_table_bytes(request->ceiling, tags, rules);
    uint16_t *work = allocate(work_len * sizeof *work);

    *table = allocate(table_room);
    answer = nedzsuka_compile_ending(book, book_len, (uint8_t)request->end, request->ceiling, work, work_len, *table, table_room);
    free(work);
    return answer;
}

/* Loads into a slice that the caller frees. As many numbers as the table has bytes are enough. */
static uint64_t load_table(const uint8_t *table, size_t table_len, uint32_t **loaded)
{
    *loaded = allocate(table_len * sizeof **loaded);
    return nedzsuka_load_table(table, table_len, *loaded, table_len);
}

/* What the answer's value names, if anything, is said in front of it. */
static int refused(uint64_t answer, const char *named)
{
    fprintf(stderr, "refused %u", nedzsuka_refusal(answer));
    if (named != NULL)
        fprintf(stderr, " at %s %" PRIu64, named, nedzsuka_value(answer));
    fprintf(stderr, ": %s\n", nedzsuka_in_words(nedzsuka_refusal(answer)));
    return REFUSED;
}

/* The refusal of a call over a book: those of the book name the byte, which reading it has answered. */
static int refused_book(uint64_t answer, uint64_t read)
{
    if (nedzsuka_refusal(answer) == NEDZSUKA_TOO_MANY_STATES)
        return refused(answer, "rule");
    if (nedzsuka_refusal(answer) == nedzsuka_refusal(read))
        return refused(read, "byte");
    return refused(answer, NULL);
}

/* Output is held back until it is closed, so that a full or closed one shows at the latest here. */
static int close_output(void)
{
    int lost = ferror(stdout);

    errno = 0;
    if (fclose(stdout) == 0 && !lost)
        return DONE;
    return failed("standard output", errno != 0 ? strerror(errno) : "not written in full");
}

static void print_table(const uint8_t *table, size_t table_len)
{
    uint64_t states = nedzsuka_value(nedzsuka_read_table(table, table_len)) % 65536;

    printf("table: %" PRIu64 " state%s, %zu bytes\n", states, states == 1 ? "" : "s", table_len);
}

static void print_tags(const char *what, const uint8_t *tags, size_t count)
{
    printf("%s:", what);
    for (size_t i = 0; i < count; i++)
        printf(" %d", tags[i]);
}

static int print_result(const uint8_t *table, size_t table_len, const uint8_t *result, size_t count, uint64_t changed)
{
    print_table(table, table_len);
    print_tags("result", result, count);
    printf("\nchanged: %" PRIu64 "\n", changed);
    return close_output();
}

/* Nothing is printed before the last call has answered: a refusal leaves standard output empty. A host with many sentences loads the
   table once and makes the run for each, or for several at once if the book was compiled with the tag that ends them. */
static int tag_sentence(const uint8_t *table, size_t table_len, const uint8_t *sentence, size_t count)
{
    uint32_t *loaded;
    uint8_t *result = allocate(count);
    uint64_t answer = load_table(table, table_len, &loaded);
    int status;

    if (nedzsuka_refusal(answer) == NEDZSUKA_OK)
        answer = nedzsuka_run_loaded(loaded, (size_t)nedzsuka_value(answer), sentence, count, result, count);
    if (nedzsuka_refusal(answer) != NEDZSUKA_OK)
        status = refused(answer, NULL);
    else
        status = print_result(table, table_len, result, count, nedzsuka_value(answer));
    free(result);
    free(loaded);
    return status;
}

/* A typed sentence, and the tags that its gives have put out. There is room for all: together with what is held they are as many as were
   taken. What a look or the close puts out stands behind them. */
struct typing {
    const uint8_t *table;
    size_t table_len, certain;
    struct nedzsuka_sentence sentence;
    uint8_t tags[NEDZSUKA_LONGEST_SENTENCE];
};

/* The next word of standard input, if there is one. Of a longer one the rest becomes dots, so that it is no number. */
static int read_word(char word[LONGEST_WORD + 4])
{
    size_t length = 0;
    int c = getchar();

    while (isspace(c))
        c = getchar();
    for (; c != EOF && !isspace(c); c = getchar(), length++)
        if (length < LONGEST_WORD)
            word[length] = c == '\0' ? '?' : (char)c;
    strcpy(word + (length < LONGEST_WORD ? length : LONGEST_WORD), length > LONGEST_WORD ? "..." : "");
    return length > 0;
}

/* Output is flushed: whoever types waits for it. */
static int type_tag(struct typing *typing, const char *word)
{
    uint8_t *behind = typing->tags + typing->certain;
    size_t room = sizeof typing->tags - typing->certain;
    uint64_t tag, answer;

    if (!read_number(word, UINT8_MAX, &tag))
        return failed(word, NOT_A_TAG);
    answer = nedzsuka_sentence_give(typing->table, typing->table_len, &typing->sentence, (uint8_t)tag, behind, room);
    if (nedzsuka_refusal(answer) != NEDZSUKA_OK) {
        fprintf(stderr, "%3" PRIu64 " -> ", tag);
        return refused(answer, NULL);
    }
    behind += nedzsuka_value(answer);
    room -= (size_t)nedzsuka_value(answer);
    typing->certain = (size_t)(behind - typing->tags);
    answer = nedzsuka_sentence_look(typing->table, typing->table_len, &typing->sentence, behind, room);
    printf("%3" PRIu64 " -> ", tag);
    print_tags("certain", typing->tags, typing->certain);
    print_tags("; closing adds", behind, (size_t)nedzsuka_value(answer));
    putchar('\n');
    fflush(stdout);
    return DONE;
}

static int close_typing(struct typing *typing)
{
    uint64_t answer = nedzsuka_sentence_close(typing->table, typing->table_len, &typing->sentence, typing->tags + typing->certain,
                                              sizeof typing->tags - typing->certain);

    print_tags("result", typing->tags, typing->certain + (size_t)nedzsuka_value(answer));
    putchar('\n');
    return close_output();
}

static int worse(int status, int other)
{
    return status > other ? status : other;
}

static int type_sentence(const uint8_t *table, size_t table_len)
{
    struct typing typing = {table, table_len, 0, {0, 0, 0}, {0}};
    uint64_t answer = nedzsuka_sentence_open(table, table_len, &typing.sentence);
    char word[LONGEST_WORD + 4];
    int status = DONE;

    if (nedzsuka_refusal(answer) != NEDZSUKA_OK)
        return refused(answer, NULL);
    print_table(table, table_len);
    fflush(stdout);
    while (!ferror(stdout) && read_word(word))
        status = worse(status, type_tag(&typing, word));
    if (ferror(stdin))
        status = failed("standard input", strerror(errno));
    return worse(status, close_typing(&typing));
}

/* How many digits a column has. No tag and no rule's number has more than two. */
static int width_of(const uint8_t *result, const uint8_t *rules, size_t count)
{
    for (size_t i = 0; i < count; i++)
        if (result[i] > 9 || rules[i] > 9)
            return 2;
    return 1;
}

/* The name is filled up, so that one row's numbers stand under the other's. */
static void print_row(const char *name, const uint8_t *numbers, size_t count, int width)
{
    printf("%-*s", count == 0 ? 0 : (int)strlen("result:"), name);
    for (size_t i = 0; i < count; i++)
        printf(" %*d", width, numbers[i]);
    putchar('\n');
}

static int print_rules(const uint8_t *result, const uint8_t *rules, size_t count, uint64_t changed)
{
    int width = width_of(result, rules, count);

    print_row("result:", result, count, width);
    print_row("rules:", rules, count, width);
    printf("changed: %" PRIu64 "\n", changed);
    return close_output();
}

/* The book is run as it is, since a table doesn't know the rules that it comes from. */
static int tell_rules(const uint8_t *book, size_t book_len, const struct request *request, const uint8_t *sentence)
{
    size_t count = request->count;
    uint8_t *result = allocate(count), *rules = allocate(count);
    uint64_t answer = nedzsuka_run_book_rules(book, book_len, (uint8_t)request->end, sentence, count, result, count, rules, count);
    int status;

    if (nedzsuka_refusal(answer) == NEDZSUKA_OK)
        status = print_rules(result, rules, count, nedzsuka_value(answer));
    else
        status = refused_book(answer, nedzsuka_read_book(book, book_len));
    free(rules);
    free(result);
    return status;
}

static int use_table(const uint8_t *book, size_t book_len, const struct request *request, const uint8_t *sentence)
{
    uint8_t *table;
    uint64_t read = nedzsuka_read_book(book, book_len), answer = compile_book(book, book_len, read, request, &table);
    int status;

    if (nedzsuka_refusal(answer) != NEDZSUKA_OK)
        status = refused_book(answer, read);
    else if (request->typing)
        status = type_sentence(table, (size_t)nedzsuka_value(answer));
    else
        status = tag_sentence(table, (size_t)nedzsuka_value(answer), sentence, request->count);
    free(table);
    return status;
}

/* The sentence of a no, and the results that its runs give; neither is refused. */
static int print_difference(const uint8_t *book, size_t book_len, uint8_t end, const uint8_t *table, size_t table_len,
                            const uint8_t *shown, size_t count)
{
    uint8_t result[NEDZSUKA_LONGEST_SHOWN];

    print_tags("differs on", shown, count);
    nedzsuka_run_book_ending(book, book_len, end, shown, count, result, sizeof result);
    print_tags("\nbook makes", result, count);
    nedzsuka_run_table(table, table_len, shown, count, result, sizeof result);
    print_tags("\ntable makes", result, count);
    putchar('\n');
    return worse(DIFFERS, close_output());
}

/* The work slice is what compiling the book with a ceiling of 256 asks for. */
static int check_bytes(const uint8_t *book, size_t book_len, uint8_t end, const uint8_t *table, size_t table_len)
{
    uint64_t read = nedzsuka_read_book(book, book_len), answer;
    uint64_t size = nedzsuka_refusal(read) == NEDZSUKA_OK ? nedzsuka_value(read) : 0;
    size_t work_len = nedzsuka_work_entries(NEDZSUKA_MOST_STATES, size / 256, size % 256, nedzsuka_has_set(book, book_len));
    uint16_t *work = allocate(work_len * sizeof *work);
    uint8_t shown[NEDZSUKA_LONGEST_SHOWN];

    answer = nedzsuka_check_table(book, book_len, end, table, table_len, work, work_len, shown, sizeof shown);
    free(work);
    if (nedzsuka_refusal(answer) != NEDZSUKA_OK)
        return refused_book(answer, read);
    if (answer != 0)
        return print_difference(book, book_len, end, table, table_len, shown, (size_t)nedzsuka_value(answer));
    puts("same");
    return close_output();
}

static int check_table(const uint8_t *book, size_t book_len, const struct request *request)
{
    uint8_t *table = allocate(NEDZSUKA_LONGEST_TABLE + 1);
    size_t table_len = 0;
    int status = read_file(request->table, table, NEDZSUKA_LONGEST_TABLE + 1, &table_len);

    if (status == DONE)
        status = check_bytes(book, book_len, (uint8_t)request->end, table, table_len);
    free(table);
    return status;
}

int main(int argc, char **argv)
{
    struct request request;
    uint8_t book[NEDZSUKA_LONGEST_BOOK + 1], *sentence;
    size_t book_len = 0;
    int status;

    if (argc > 1 && (strcmp(argv[1], "--help") == 0 || strcmp(argv[1], "-h") == 0)) {
        fputs(usage, stdout);
        return close_output();
    }
    status = read_arguments(argc, argv, &request);
    if (status != DONE)
        return status;
    sentence = allocate(request.count);
    status = read_sentence(&request, sentence);
    if (status == DONE)
        status = read_file(request.book, book, sizeof book, &book_len);
    if (status == DONE && request.table != NULL)
        status = check_table(book, book_len, &request);
    else if (status == DONE)
        status = (request.numbered ? tell_rules : use_table)(book, book_len, &request, sentence);
    free(sentence);
    return status;
}

/* Plain C. Compiling composes over the reached pairs, takes fronts off until nothing changes, splits classes by hashing, and numbers.
   It allocates as it goes and uses the work slice only to clear it, as the calls promise. */
#include "plain.h"

#include <stdlib.h>
#include <string.h>

struct book {
    int tags, rules;
    uint8_t pattern[16][6], length[16], place[16], new_tag[16], everywhere[16];
};

/* ---- Books ---- */

static int close_rule(const struct book *b)
{
    int i = b->rules - 1;

    if (b->rules == 0)
        return 0;
    if (b->length[i] == 0)
        return 3;
    if (b->place[i] >= b->length[i])
        return 5;
    return b->pattern[i][b->place[i]] == b->new_tag[i] ? 6 : 0;
}

static int open_rule(struct book *b, const uint8_t *s, size_t left)
{
    int refusal = close_rule(b);

    if (refusal)
        return refusal;
    if (b->rules == 16)
        return 7;
    if (left < 3)
        return 1;
    if (s[2] >= b->tags)
        return 4;
    b->everywhere[b->rules] = s[0] == 0x24;
    b->place[b->rules] = s[1];
    b->new_tag[b->rules] = s[2];
    b->length[b->rules++] = 0;
    return 0;
}

static int add_tag(struct book *b, const uint8_t *s, size_t left)
{
    if (b->rules == 0)
        return 1;
    if (b->length[b->rules - 1] == 6)
        return 3;
    if (left < 2)
        return 1;
    if (s[1] >= b->tags)
        return 4;
    b->pattern[b->rules - 1][b->length[b->rules - 1]++] = s[1];
    return 0;
}

static int read_book(const uint8_t *s, size_t n, struct book *b)
{
    int refusal = 0;

    b->rules = 0;
    if (n < 2 || s[0] != 0x20)
        return 1;
    if (s[1] < 2 || s[1] > 48)
        return 2;
    b->tags = s[1];
    for (size_t i = 2; i < n && !refusal;) {
        if (s[i] == 0x00) {
            refusal = close_rule(b);
            return refusal ? refusal : i + 1 < n;
        }
        if (s[i] != 0x21 && s[i] != 0x24 && s[i] != 0x22)
            return 1;
        refusal = s[i] == 0x22 ? add_tag(b, s + i, n - i) : open_rule(b, s + i, n - i);
        i += s[i] == 0x22 ? 2 : 3;
    }
    return refusal ? refusal : 1;
}

static int bad_sentence(const uint8_t *s, size_t n, int tags)
{
    uint8_t top = 0;

    if (n > 65535)
        return 13;
    for (size_t i = 0; i < n; i++)
        top = s[i] > top ? s[i] : top;
    return top >= tags ? 4 : 0;
}

static uint64_t differences(const uint8_t *a, const uint8_t *b, size_t n)
{
    uint64_t count = 0;

    for (size_t i = 0; i < n; i++)
        count += a[i] != b[i];
    return count;
}

uint64_t plain_run_book(const uint8_t *book, size_t book_len, const uint8_t *s, size_t n, uint8_t *out, size_t out_len)
{
    struct book b;
    int refusal = read_book(book, book_len, &b);

    if (!refusal)
        refusal = bad_sentence(s, n, b.tags);
    if (!refusal && out_len < n)
        refusal = 11;
    if (refusal)
        return (uint64_t)refusal;
    if (n > 0)
        memcpy(out, s, n);
    for (int i = 0; i < b.rules; i++) {
        size_t length = b.length[i];
        for (size_t at = 0; at + length <= n; at++)
            if (out[at] == b.pattern[i][0] && memcmp(out + at, b.pattern[i], length) == 0) {
                out[at + b.place[i]] = b.new_tag[i];
                if (!b.everywhere[i])
                    break;
                at += length - 1;
            }
    }
    return differences(s, out, n) * 256;
}

static int bad_end(const struct book *b, uint8_t end)
{
    if (end == 255)
        return 0;
    if (end >= b->tags)
        return 14;
    for (int i = 0; i < b->rules; i++)
        if (memchr(b->pattern[i], end, b->length[i] - 1u) != NULL || b->pattern[i][b->place[i]] == end || b->new_tag[i] == end)
            return 14;
    return 0;
}

/* The rules to one piece, as in plain_run_book, whose loop stays as it is, so that times can be compared from one delivery to the next. */
static void apply_rules(const struct book *b, uint8_t *out, uint8_t *rules, size_t n)
{
    for (int i = 0; i < b->rules; i++) {
        size_t length = b->length[i];
        for (size_t at = 0; at + length <= n; at++)
            if (out[at] == b->pattern[i][0] && memcmp(out + at, b->pattern[i], length) == 0) {
                out[at + b->place[i]] = b->new_tag[i];
                rules[at + b->place[i]] = (uint8_t)(i + 1);
                if (!b->everywhere[i])
                    break;
                at += length - 1;
            }
    }
}

uint64_t plain_run_book_rules(const uint8_t *book, size_t book_len, uint8_t end, const uint8_t *s, size_t n, uint8_t *out,
                              size_t out_len, uint8_t *rules, size_t rules_len)
{
    struct book b;
    int refusal = read_book(book, book_len, &b);

    if (!refusal)
        refusal = bad_end(&b, end);
    if (!refusal)
        refusal = bad_sentence(s, n, b.tags);
    if (!refusal && (out_len < n || rules_len < n))
        refusal = 11;
    if (refusal)
        return (uint64_t)refusal;
    if (n == 0)
        return 0;
    memcpy(out, s, n);
    memset(rules, 0, n);
    for (size_t at = 0, length; at < n; at += length) {
        const uint8_t *last = end == 255 ? NULL : memchr(s + at, end, n - at);
        length = last == NULL ? n - at : (size_t)(last - s) + 1 - at;
        apply_rules(&b, out + at, rules + at, length);
    }
    return differences(s, out, n) * 256;
}

/* ---- Tables, read into steps that say where they lead and where the tags put out stand ---- */

struct place {
    uint32_t out;
    uint16_t next, count;
};

struct places {
    struct place step[256 * 48];
    uint32_t final[256];
    uint8_t held[256];
};

/* Reads one state from byte i on; the byte after it, or 0 if it is not well formed. */
static size_t read_state(const uint8_t *t, size_t n, size_t i, int q, int tags, int states, struct places *p)
{
    if (i + 1 >= n || t[i] != 0x31 || t[i + 1] > 80)
        return 0;
    p->held[q] = t[i + 1];
    p->final[q] = (uint32_t)(i += 2);
    for (int j = 0; j < p->held[q]; j++, i += 2)
        if (i + 1 >= n || t[i] != 0x32 || t[i + 1] >= tags)
            return 0;
    for (int a = 0; a < tags; a++) {
        struct place *step = &p->step[q * 48 + a];
        if (i + 2 >= n || t[i] != 0x33 || t[i + 1] * 256 + t[i + 2] >= states)
            return 0;
        step->next = (uint16_t)(t[i + 1] * 256 + t[i + 2]);
        step->out = (uint32_t)(i += 3);
        for (; i + 1 < n && t[i] == 0x34; i += 2)
            if (t[i + 1] >= tags)
                return 0;
        if ((i - step->out) / 2 > 81)
            return 0;
        step->count = (uint16_t)((i - step->out) / 2);
    }
    return i;
}

static int balanced(int tags, int states, const struct places *p)
{
    for (int q = 0; q < states; q++)
        for (int a = 0; a < tags; a++)
            if (p->step[q * 48 + a].count + p->held[p->step[q * 48 + a].next] != p->held[q] + 1)
                return 0;
    return 1;
}

static int read_table(const uint8_t *t, size_t n, struct places *p)
{
    size_t i = 4;
    int tags, states;

    if (n < 5 || t[0] != 0x30)
        return 12;
    tags = t[1];
    states = t[2] * 256 + t[3];
    if (tags < 2 || tags > 48 || states < 1 || states > 256)
        return 12;
    for (int q = 0; q < states; q++) {
        i = read_state(t, n, i, q, tags, states, p);
        if (i == 0)
            return 12;
    }
    return i + 1 == n && t[i] == 0x00 && p->held[0] == 0 && balanced(tags, states, p) ? 0 : 12;
}

uint64_t plain_run_table(const uint8_t *t, size_t table_len, const uint8_t *s, size_t n, uint8_t *out, size_t out_len)
{
    struct places p;
    size_t o = 0, q = 0;
    int refusal = read_table(t, table_len, &p);

    if (!refusal)
        refusal = bad_sentence(s, n, t[1]);
    if (!refusal && out_len < n)
        refusal = 11;
    if (refusal)
        return (uint64_t)refusal;
    for (size_t i = 0; i < n; i++) {
        struct place step = p.step[q * 48 + s[i]];
        q = step.next;
        for (size_t j = 0; j < step.count; j++)
            out[o++] = t[step.out + 2 * j + 1];
    }
    for (size_t j = 0; j < p.held[q]; j++)
        out[o++] = t[p.final[q] + 2 * j + 1];
    return differences(s, out, n) * 256;
}

/* ---- Typed sentences ---- */

static int bad_typed(const uint8_t *t, size_t table_len, uint64_t state, uint64_t closed, struct places *p)
{
    int refusal = read_table(t, table_len, p);

    if (refusal)
        return refusal;
    if (closed != 0)
        return 15;
    return state < (uint64_t)(t[2] * 256 + t[3]) ? 0 : 16;
}

uint64_t plain_give(const uint8_t *t, size_t table_len, uint64_t *state, uint64_t *given, uint64_t *closed, uint8_t tag, uint8_t *out,
                    size_t out_len)
{
    struct places p;
    struct place step;
    int refusal = bad_typed(t, table_len, *state, *closed, &p);

    if (refusal)
        return (uint64_t)refusal;
    if (*given >= 65535)
        return 13;
    if (tag >= t[1])
        return 4;
    step = p.step[*state * 48 + tag];
    if (out_len < step.count)
        return 11;
    for (size_t j = 0; j < step.count; j++)
        out[j] = t[step.out + 2 * j + 1];
    *state = step.next;
    ++*given;
    return step.count * 256u;
}

uint64_t plain_look(const uint8_t *t, size_t table_len, uint64_t state, uint64_t given, uint64_t closed, uint8_t *out, size_t out_len)
{
    struct places p;
    int refusal = bad_typed(t, table_len, state, closed, &p);

    (void)given;
    if (refusal)
        return (uint64_t)refusal;
    if (out_len < p.held[state])
        return 11;
    for (size_t j = 0; j < p.held[state]; j++)
        out[j] = t[p.final[state] + 2 * j + 1];
    return p.held[state] * 256u;
}

/* ---- Loaded tables ---- */

#define RESTING 0xffffffffu

/* Buffers have room for a word of three tags stored as four bytes past the longest sentence that they are for. */
enum { SPARE = 4, SMALL = 256, MIDDLE = 2048, LARGE = 65535, BLOCK = 192 };

static int rests(const uint8_t *t, int q, const struct places *p)
{
    if (p->held[q] != 0)
        return 0;
    for (int a = 0; a < t[1]; a++) {
        struct place step = p->step[q * 48 + a];
        if (step.next != q || step.count != 1 || t[step.out + 1] != a)
            return 0;
    }
    return 1;
}

static size_t numbers_of(int tags, int states, const struct places *p)
{
    size_t n = 1 + (size_t)states * (size_t)(2 * tags + 2);

    for (int q = 0; q < states; q++) {
        n += p->held[q] > 3 ? p->held[q] : 0;
        for (int a = 0; a < tags; a++)
            n += p->step[q * 48 + a].count > 3 ? p->step[q * 48 + a].count : 0;
    }
    return n;
}

/* The number of the word whose tags stand at every other byte of w; a long one goes to the end of the numbers. */
static inline uint32_t word_number(const uint8_t *w, uint32_t count, uint32_t *loaded, size_t *end)
{
    uint32_t number = count;

    if (count > 3) {
        number |= (uint32_t)*end << 8;
        for (uint32_t j = 0; j < count; j++)
            loaded[(*end)++] = w[2 * j + 1];
    } else {
        for (uint32_t j = 0; j < count; j++)
            number |= (uint32_t)w[2 * j + 1] << (8 * j + 8);
    }
    return number;
}

uint64_t plain_load_table(const uint8_t *t, size_t table_len, uint32_t *loaded, size_t loaded_len)
{
    struct places p;
    uint32_t place[256], *l = loaded;
    size_t needed, end;
    int tags, states;

    if (read_table(t, table_len, &p))
        return 12;
    tags = t[1];
    states = t[2] * 256 + t[3];
    needed = numbers_of(tags, states, &p);
    if (loaded_len < needed)
        return 11;
    for (int q = 0; q < states; q++)
        place[q] = 1 + (uint32_t)q * (uint32_t)(2 * tags + 2);
    for (int q = 0; q < states; q++)
        if (rests(t, q, &p)) {
            place[q] = RESTING;
            break;
        }
    end = 1 + (size_t)states * (size_t)(2 * tags + 2);
    *l++ = (uint32_t)tags;
    for (int q = 0; q < states; q++) {
        *l++ = word_number(t + p.final[q], p.held[q], loaded, &end);
        *l++ = 0;
        for (int a = 0; a < tags; a++) {
            struct place step = p.step[q * 48 + a];
            *l++ = place[step.next];
            *l++ = word_number(t + step.out, step.count, loaded, &end);
        }
    }
    return (uint64_t)needed * 256;
}

/* A frame of its own: short sentences don't pay for a large buffer, nor the loop for long words. */
#if defined(__GNUC__)
#define OWN_FRAME __attribute__((noinline))
#else
#define OWN_FRAME
#endif

static OWN_FRAME size_t put_long_word(const uint32_t *l, size_t len, uint32_t e, uint8_t *buffer, size_t o, size_t n)
{
    size_t count = e & 255, place = e >> 8;

    if (place + count > len || o + count > n)
        return n + 1;
    for (size_t j = 0; j < count; j++)
        buffer[o + j] = (uint8_t)l[place + j];
    return o + count;
}

/* Puts a word after the o tags in the buffer; how many there are then, or more than n where it doesn't fit or lies outside. */
static inline size_t put_word(const uint32_t *l, size_t len, uint32_t e, uint8_t *buffer, size_t o, size_t n)
{
    uint32_t above = e >> 8;

    if ((e & 255) > 3)
        return put_long_word(l, len, e, buffer, o, n);
    memcpy(buffer + o, &above, sizeof above);
    return o + (e & 255);
}

/* Whether the way puts out n tags into the buffer, which has n + SPARE bytes. A tag's column is found apart from the row, so that from
   one row to the next there is one load. */
static inline int walk(const uint32_t *l, size_t len, const uint8_t *s, size_t n, uint8_t *buffer)
{
    size_t row = 2 * (size_t)l[0] + 1, x = 1, o = 0;

    for (size_t i = 0; i < n; i++) {
        const uint32_t *column = l + 2 + 2 * (size_t)s[i];
        uint32_t e;
        if (x + row >= len)
            return 0;
        e = column[x + 1];
        x = column[x];
        o = put_word(l, len, e, buffer, o, n);
        if (o > n)
            return 0;
        if (x == RESTING) {
            if (n - i - 1 != n - o)
                return 0;
            memcpy(buffer + o, s + i + 1, n - o);
            return 1;
        }
    }
    return x + row < len && put_word(l, len, l[x], buffer, o, n) == n;
}

/* As differences, in sums of bytes, of which the compiler adds sixteen at once. */
static inline uint64_t changed_places(const uint8_t *a, const uint8_t *b, size_t n)
{
    uint64_t count = 0;
    size_t i = 0;

    for (; i + BLOCK <= n; i += BLOCK) {
        uint8_t sum = 0;
        for (size_t j = 0; j < BLOCK; j++)
            sum = (uint8_t)(sum + (a[i + j] != b[i + j]));
        count += sum;
    }
    for (; i < n; i++)
        count += a[i] != b[i];
    return count;
}

static inline uint64_t walk_and_copy(const uint32_t *l, size_t len, const uint8_t *s, size_t n, uint8_t *buffer, uint8_t *out)
{
    if (!walk(l, len, s, n, buffer) || bad_sentence(buffer, n, (int)l[0]))
        return 12;
    if (n > 0)
        memcpy(out, buffer, n);
    return changed_places(s, buffer, n) * 256;
}

static OWN_FRAME uint64_t run_small(const uint32_t *l, size_t len, const uint8_t *s, size_t n, uint8_t *out)
{
    uint8_t buffer[SMALL + SPARE];

    return walk_and_copy(l, len, s, n, buffer, out);
}

static OWN_FRAME uint64_t run_middle(const uint32_t *l, size_t len, const uint8_t *s, size_t n, uint8_t *out)
{
    uint8_t buffer[MIDDLE + SPARE];

    return walk_and_copy(l, len, s, n, buffer, out);
}

static OWN_FRAME uint64_t run_large(const uint32_t *l, size_t len, const uint8_t *s, size_t n, uint8_t *out)
{
    uint8_t buffer[LARGE + SPARE];

    return walk_and_copy(l, len, s, n, buffer, out);
}

uint64_t plain_run_loaded(const uint32_t *l, size_t loaded_len, const uint8_t *s, size_t n, uint8_t *out, size_t out_len)
{
    int refusal;

    if (loaded_len == 0 || l[0] < 2 || l[0] > 48)
        return 12;
    refusal = bad_sentence(s, n, (int)l[0]);
    if (!refusal && out_len < n)
        refusal = 11;
    if (refusal)
        return (uint64_t)refusal;
    return (n <= SMALL ? run_small : n <= MIDDLE ? run_middle : run_large)(l, loaded_len, s, n, out);
}

/* ---- Machines ---- */

enum { LONGEST_WORD = 84 };

struct word {
    uint8_t n, tag[LONGEST_WORD];
};

struct step {
    uint16_t next;
    struct word out;
};

struct machine {
    int states, tags;
    struct word *final;
    struct step *steps;
};

static void *room_for(size_t count, size_t size)
{
    void *room = malloc(count * size);

    if (room == NULL)
        abort();
    return room;
}

static struct machine make_machine(int states, int tags)
{
    struct machine m = {states, tags, room_for((size_t)states, sizeof(struct word)),
                        room_for((size_t)(states * tags), sizeof(struct step))};

    return m;
}

static void drop(struct machine *m)
{
    free(m->final);
    free(m->steps);
}

static inline struct step *step_of(const struct machine *m, int q, int a)
{
    return &m->steps[q * m->tags + a];
}

static inline void append(struct word *w, const uint8_t *tags, int n)
{
    memcpy(w->tag + w->n, tags, (size_t)n);
    w->n = (uint8_t)(w->n + n);
}

static void rule_step(const struct book *b, int i, int j, uint8_t a, const struct machine *m, struct step *s)
{
    const uint8_t *u = b->pattern[i];
    int length = b->length[i], t = j + 1;
    uint8_t w[8];

    s->out.n = 0;
    s->next = (uint16_t)length;
    if (j == length) {
        append(&s->out, &a, 1);
        return;
    }
    memcpy(w, u, (size_t)j);
    w[j] = a;
    while (t > 0 && memcmp(w + j + 1 - t, u, (size_t)t) != 0)
        t--;
    s->next = (uint16_t)(t == length && b->everywhere[i] ? 0 : t);
    if (t == length) {
        append(&s->out, u + b->place[i], length - b->place[i]);
        s->out.tag[0] = b->new_tag[i];
        return;
    }
    append(&s->out, m->final[j].tag, m->final[j].n);
    append(&s->out, &a, 1);
    s->out.n = (uint8_t)(s->out.n - m->final[t].n);
}

static struct machine rule_machine(const struct book *b, int i)
{
    int length = b->length[i], p = b->place[i];
    struct machine m = make_machine(length + !b->everywhere[i], b->tags);

    for (int j = 0; j < m.states; j++) {
        m.final[j].n = 0;
        if (j > p && j < length)
            append(&m.final[j], b->pattern[i] + p, j - p);
    }
    for (int j = 0; j < m.states; j++)
        for (int a = 0; a < b->tags; a++)
            rule_step(b, i, j, (uint8_t)a, &m, step_of(&m, j, a));
    return m;
}

static struct machine no_rules(int tags)
{
    struct machine m = make_machine(1, tags);

    m.final[0].n = 0;
    for (int a = 0; a < tags; a++) {
        step_of(&m, 0, a)->next = 0;
        step_of(&m, 0, a)->out.n = 1;
        step_of(&m, 0, a)->out.tag[0] = (uint8_t)a;
    }
    return m;
}

/* ---- Composition over reached pairs ---- */

static int through(const struct machine *r, int q, const struct word *w, struct word *out)
{
    out->n = 0;
    for (int i = 0; i < w->n; i++) {
        const struct step *s = step_of(r, q, w->tag[i]);
        append(out, s->out.tag, s->out.n);
        q = s->next;
    }
    return q;
}

static struct machine compose(const struct machine *a, const struct machine *r)
{
    int all = a->states * r->states, n = 1;
    int *number = room_for((size_t)all, sizeof *number), *pair = room_for((size_t)all, sizeof *pair);
    struct machine p = make_machine(all, a->tags);

    memset(number, -1, (size_t)all * sizeof *number);
    number[0] = pair[0] = 0;
    for (int i = 0; i < n; i++) {
        int q = pair[i] / r->states, x = pair[i] % r->states;
        int end = through(r, x, &a->final[q], &p.final[i]);
        append(&p.final[i], r->final[end].tag, r->final[end].n);
        for (int t = 0; t < a->tags; t++) {
            const struct step *s = step_of(a, q, t);
            int key = s->next * r->states + through(r, x, &s->out, &step_of(&p, i, t)->out);
            if (number[key] < 0) {
                number[key] = n;
                pair[n++] = key;
            }
            step_of(&p, i, t)->next = (uint16_t)number[key];
        }
    }
    p.states = n;
    free(number);
    free(pair);
    return p;
}

/* ---- Output as early as it can be ---- */

static int common(const uint8_t *a, int an, const uint8_t *b, int bn)
{
    int i = 0;

    while (i < an && i < bn && a[i] == b[i])
        i++;
    return i;
}

static int front_of(const struct machine *p, const int *front, int i)
{
    int v = front[i];

    for (int t = 0; t < p->tags && v > 0; t++) {
        const struct step *s = step_of(p, i, t);
        int c = common(p->final[i].tag, v, s->out.tag, s->out.n);
        if (c == s->out.n && c < v)
            c += common(p->final[i].tag + c, v - c, p->final[s->next].tag, front[s->next]);
        v = c;
    }
    return v;
}

static void cut(struct word *w, int n)
{
    w->n = (uint8_t)(w->n - n);
    memmove(w->tag, w->tag + n, w->n);
}

static void make_early(struct machine *p)
{
    int *front = room_for((size_t)p->states, sizeof *front), again = 1;

    for (int i = 0; i < p->states; i++)
        front[i] = p->final[i].n;
    while (again) {
        again = 0;
        for (int i = p->states - 1; i >= 0; i--) {
            int v = front_of(p, front, i);
            again |= v != front[i];
            front[i] = v;
        }
    }
    for (int i = 0; i < p->states; i++)
        for (int t = 0; t < p->tags; t++) {
            struct step *s = step_of(p, i, t);
            append(&s->out, p->final[s->next].tag, front[s->next]);
            cut(&s->out, front[i]);
        }
    for (int i = 0; i < p->states; i++)
        cut(&p->final[i], front[i]);
    free(front);
}

/* ---- Classes of states that do the same ---- */

struct classes {
    int count, buckets;
    int *now, *next, *bucket;
    uint64_t *words, *hash;
};

static uint64_t hash_word(uint64_t x, const struct word *w)
{
    x = (x ^ 777) * 1099511628211u;
    for (int j = 0; j < w->n; j++)
        x = (x ^ (w->tag[j] + 1u)) * 1099511628211u;
    return x;
}

static struct classes make_classes(const struct machine *p)
{
    size_t n = (size_t)p->states;
    struct classes c = {0, 1, room_for(n, sizeof(int)), room_for(n, sizeof(int)), NULL, room_for(n, 8), room_for(n, 8)};

    while (c.buckets < 2 * p->states)
        c.buckets *= 2;
    c.bucket = room_for((size_t)c.buckets, sizeof(int));
    for (int i = 0; i < p->states; i++) {
        uint64_t x = hash_word(14695981039346656037u, &p->final[i]);
        for (int t = 0; t < p->tags; t++)
            x = hash_word(x, &step_of(p, i, t)->out);
        c.words[i] = x;
        c.now[i] = 0;
    }
    return c;
}

static void drop_classes(struct classes *c)
{
    free(c->now);
    free(c->next);
    free(c->bucket);
    free(c->words);
    free(c->hash);
}

static int same_word(const struct word *a, const struct word *b)
{
    return a->n == b->n && memcmp(a->tag, b->tag, a->n) == 0;
}

static int same_row(const struct machine *p, const struct classes *c, int i, int j)
{
    if (c->hash[i] != c->hash[j] || c->now[i] != c->now[j] || !same_word(&p->final[i], &p->final[j]))
        return 0;
    for (int t = 0; t < p->tags; t++) {
        const struct step *s = step_of(p, i, t), *z = step_of(p, j, t);
        if (c->now[s->next] != c->now[z->next] || !same_word(&s->out, &z->out))
            return 0;
    }
    return 1;
}

/* One round; the number of classes it leaves. */
static int split(const struct machine *p, struct classes *c)
{
    int count = 0, *swapped;

    memset(c->bucket, -1, (size_t)c->buckets * sizeof *c->bucket);
    for (int i = 0; i < p->states; i++) {
        uint64_t x = c->words[i] ^ (uint64_t)c->now[i] * 0x9e3779b97f4a7c15u;
        for (int t = 0; t < p->tags; t++)
            x = (x ^ (uint64_t)c->now[step_of(p, i, t)->next]) * 1099511628211u;
        c->hash[i] = x ^= x >> 29;
        int b = (int)(x & (uint64_t)(c->buckets - 1));
        while (c->bucket[b] >= 0 && !same_row(p, c, i, c->bucket[b]))
            b = (b + 1) & (c->buckets - 1);
        if (c->bucket[b] < 0) {
            c->bucket[b] = i;
            c->next[i] = count++;
        } else {
            c->next[i] = c->next[c->bucket[b]];
        }
    }
    swapped = c->now;
    c->now = c->next;
    c->next = swapped;
    return count;
}

/* ---- Numbering ---- */

static struct machine number_states(const struct machine *p, const struct classes *c, int ceiling)
{
    size_t size = (size_t)c->count * sizeof(int);
    int *number = room_for(size, 1), *first = room_for(size, 1), *order = room_for(size, 1), n = 1;
    struct machine m = {-1, p->tags, NULL, NULL};

    memset(number, -1, size);
    for (int i = p->states - 1; i >= 0; i--)
        first[c->now[i]] = i;
    number[c->now[0]] = 0;
    order[0] = 0;
    for (int i = 0; i < n; i++)
        for (int t = 0; t < p->tags; t++) {
            int y = c->now[step_of(p, order[i], t)->next];
            if (number[y] < 0) {
                number[y] = n;
                order[n++] = first[y];
            }
        }
    if (n <= ceiling) {
        m = make_machine(n, p->tags);
        for (int i = 0; i < n; i++) {
            m.final[i] = p->final[order[i]];
            for (int t = 0; t < p->tags; t++) {
                *step_of(&m, i, t) = *step_of(p, order[i], t);
                step_of(&m, i, t)->next = (uint16_t)number[c->now[step_of(p, order[i], t)->next]];
            }
        }
    }
    free(number);
    free(first);
    free(order);
    return m;
}

/* The smallest machine of a followed by r, with -1 states where it has more than the ceiling. */
static struct machine extend(const struct machine *a, const struct machine *r, int ceiling)
{
    struct machine p = compose(a, r), m;
    struct classes c;
    int count;

    make_early(&p);
    c = make_classes(&p);
    while ((count = split(&p, &c)) != c.count)
        c.count = count;
    m = number_states(&p, &c, ceiling);
    drop_classes(&c);
    drop(&p);
    return m;
}

/* ---- Compile ---- */

static uint8_t *write_word(uint8_t *o, uint8_t command, const struct word *w)
{
    for (int j = 0; j < w->n; j++) {
        *o++ = command;
        *o++ = w->tag[j];
    }
    return o;
}

static size_t table_length(const struct machine *m)
{
    size_t length = 5;

    for (int q = 0; q < m->states; q++) {
        length += 2 + 2 * (size_t)m->final[q].n;
        for (int a = 0; a < m->tags; a++)
            length += 3 + 2 * (size_t)step_of(m, q, a)->out.n;
    }
    return length;
}

static void write_table(const struct machine *m, uint8_t *o)
{
    *o++ = 0x30;
    *o++ = (uint8_t)m->tags;
    *o++ = (uint8_t)(m->states >> 8);
    *o++ = (uint8_t)m->states;
    for (int q = 0; q < m->states; q++) {
        *o++ = 0x31;
        *o++ = m->final[q].n;
        o = write_word(o, 0x32, &m->final[q]);
        for (int a = 0; a < m->tags; a++) {
            const struct step *s = step_of(m, q, a);
            *o++ = 0x33;
            *o++ = (uint8_t)(s->next >> 8);
            *o++ = (uint8_t)s->next;
            o = write_word(o, 0x34, &s->out);
        }
    }
    *o = 0x00;
}

/* The machine of the book, or the rule, counted from 1, at which there are too many states. */
static int build(const struct book *b, int ceiling, struct machine *m)
{
    *m = no_rules(b->tags);
    for (int i = 0; i < b->rules; i++) {
        struct machine rule = rule_machine(b, i), longer = extend(m, &rule, ceiling);
        drop(&rule);
        drop(m);
        *m = longer;
        if (m->states < 0)
            return i + 1;
    }
    return 0;
}

uint64_t plain_compile(const uint8_t *book, size_t book_len, uint64_t ceiling, uint16_t *work, size_t work_len, uint8_t *out,
                       size_t out_len)
{
    struct book b;
    struct machine m;
    size_t needed, length;
    int refusal, rule;

    if (ceiling < 1 || ceiling > 256)
        return 8;
    refusal = read_book(book, book_len, &b);
    if (refusal)
        return (uint64_t)refusal;
    needed = 16 * (size_t)ceiling * (size_t)(b.tags + 1) * (size_t)(5 * b.rules + 8);
    if (work_len < needed)
        return 9;
    rule = build(&b, (int)ceiling, &m);
    memset(work, 0, needed * sizeof *work);
    if (rule)
        return (uint64_t)rule * 256 + 10;
    length = table_length(&m);
    if (length <= out_len)
        write_table(&m, out);
    drop(&m);
    return length <= out_len ? (uint64_t)length * 256 : 11;
}

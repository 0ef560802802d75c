#define _DEFAULT_SOURCE
#include "slices.h"

#include <stdio.h>
#include <stdlib.h>
#include <string.h>
#include <sys/mman.h>
#include <unistd.h>

enum { GUARD = 64 };

static uint64_t random_state;

void random_seed(uint64_t seed)
{
    random_state = seed;
}

uint64_t random_bits(void)
{
    uint64_t x = random_state += 0x9e3779b97f4a7c15u;

    x = (x ^ (x >> 30)) * 0xbf58476d1ce4e5b9u;
    x = (x ^ (x >> 27)) * 0x94d049bb133111ebu;
    return x ^ (x >> 31);
}

size_t random_below(size_t limit)
{
    return (size_t)(random_bits() % limit);
}

int one_in(size_t times)
{
    return random_below(times) == 0;
}

void fill_random(void *bytes, size_t length)
{
    uint8_t *to = bytes;
    uint64_t bits;

    for (; length >= sizeof bits; length -= sizeof bits, to += sizeof bits) {
        bits = random_bits();
        memcpy(to, &bits, sizeof bits);
    }
    bits = random_bits();
    memcpy(to, &bits, length);
}

struct slice make_slice(size_t most)
{
    size_t page = (size_t)sysconf(_SC_PAGESIZE);
    size_t inside = (most + 3 * GUARD + page - 1) / page * page;
    uint8_t *all = mmap(NULL, inside + 2 * page, PROT_READ | PROT_WRITE, MAP_PRIVATE | MAP_ANONYMOUS, -1, 0);
    struct slice slice = {0};

    if (all == MAP_FAILED || mprotect(all, page, PROT_NONE) != 0 || mprotect(all + page + inside, page, PROT_NONE) != 0) {
        perror("memory for slices");
        exit(2);
    }
    slice.low = all + page;
    slice.high = slice.low + inside;
    return slice;
}

static uint8_t guard_byte(const struct slice *slice, const uint8_t *place)
{
    return (uint8_t)(slice->salt + 151 * (place - slice->low));
}

void lend(struct slice *slice, size_t length)
{
    enum seat seat = (enum seat)random_below(SEATS);
    size_t step = length % 8 == 0 ? 8 : length % 4 == 0 ? 4 : length % 2 == 0 ? 2 : 1;

    slice->length = length;
    slice->salt = (uint8_t)random_bits();
    if (length == 0 && one_in(2)) {
        slice->at = NULL;
        return;
    }
    slice->at = slice->low;
    if (seat == AT_THE_END)
        slice->at = slice->high - length;
    if (seat == IN_THE_MIDDLE)
        slice->at = slice->low + GUARD + step * random_below(GUARD / step);
    for (uint8_t *p = slice->at; p > slice->low && p > slice->at - GUARD; p--)
        p[-1] = guard_byte(slice, p - 1);
    for (uint8_t *p = slice->at + length; p < slice->high && p < slice->at + length + GUARD; p++)
        *p = guard_byte(slice, p);
}

int guards_kept(const struct slice *slice)
{
    if (slice->at == NULL)
        return 1;
    for (uint8_t *p = slice->at; p > slice->low && p > slice->at - GUARD; p--)
        if (p[-1] != guard_byte(slice, p - 1))
            return 0;
    for (uint8_t *p = slice->at + slice->length; p < slice->high && p < slice->at + slice->length + GUARD; p++)
        if (*p != guard_byte(slice, p))
            return 0;
    return 1;
}

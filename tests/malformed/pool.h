/* Random numbers, lent memory, and well-formed tables written directly: what the programs here hand to the library. */
#ifndef POOL_H
#define POOL_H

#include <stdbool.h>
#include <stdio.h>
#include <stdlib.h>
#include <string.h>
#include <sys/mman.h>
#include <unistd.h>

#if __has_include(<valgrind/memcheck.h>)
#include <valgrind/memcheck.h>
#else
#define VALGRIND_MAKE_MEM_NOACCESS(p, n) ((void)(p), (void)(n))
#define VALGRIND_MAKE_MEM_DEFINED(p, n) ((void)(p), (void)(n))
#endif

#include "questions.h"

/* --- random numbers (xoshiro256**) --- */

static uint64_t rng[4];
static uint64_t rotl(uint64_t x, int k) { return x << k | x >> (64 - k); }
static uint64_t draw(void)
{
    uint64_t r = rotl(rng[1] * 5, 7) * 9, t = rng[1] << 17;
    rng[2] ^= rng[0], rng[3] ^= rng[1], rng[1] ^= rng[2], rng[0] ^= rng[3];
    rng[2] ^= t, rng[3] = rotl(rng[3], 45);
    return r;
}
static void seed(uint64_t s)
{
    for (int i = 0; i < 4; i++) {
        uint64_t z = s += 0x9E3779B97F4A7C15ULL;
        z = (z ^ z >> 30) * 0xBF58476D1CE4E5B9ULL;
        z = (z ^ z >> 27) * 0x94D049BB133111EBULL;
        rng[i] = z ^ z >> 31;
    }
}
static unsigned below(unsigned n) { return (unsigned)((draw() >> 32) * n >> 32); }
static bool chance(unsigned percent) { return below(100) < percent; }
static void noise(uint8_t *p, size_t n)
{
    for (; n >= 8; p += 8, n -= 8) {
        uint64_t r = draw();
        memcpy(p, &r, 8);
    }
    for (; n; p++, n--)
        *p = (uint8_t)draw();
}

/* --- lent memory: pages between two that nobody may touch, filled with a pattern where nothing is lent --- */

struct arena {
    uint8_t *low, *high;
    int holds; /* of a storage: the table of the pool that stands there, -1 for none */
};
enum { PATTERN_BYTES = 1 << 18 };
static uint8_t pattern[PATTERN_BYTES];
static void make_pattern(void)
{
    for (size_t i = 0; i < PATTERN_BYTES; i++)
        pattern[i] = (uint8_t)(i * 167 + (i >> 8) * 29 + 0xA5);
}

static struct arena arena(size_t bytes)
{
    size_t page = (size_t)sysconf(_SC_PAGESIZE), size = (bytes + page - 1) / page * page;
    uint8_t *map = mmap(NULL, size + 2 * page, PROT_READ | PROT_WRITE, MAP_PRIVATE | MAP_ANONYMOUS, -1, 0);
    if (map == MAP_FAILED || size > PATTERN_BYTES || mprotect(map, page, PROT_NONE) || mprotect(map + page + size, page, PROT_NONE)) {
        perror("malformed: memory");
        exit(2);
    }
    memcpy(map + page, pattern, size);
    return (struct arena){map + page, map + page + size, -1};
}
static bool patterned(const struct arena *r, const uint8_t *from, const uint8_t *to)
{
    return from >= to || memcmp(from, pattern + (from - r->low), (size_t)(to - from)) == 0;
}
static void repair(const struct arena *r, uint8_t *from, const uint8_t *to)
{
    if (from < to)
        memcpy(from, pattern + (from - r->low), (size_t)(to - from));
}
static void shut(const struct arena *r, const uint8_t *lent, size_t len)
{
    VALGRIND_MAKE_MEM_NOACCESS(r->low, lent - r->low);
    VALGRIND_MAKE_MEM_NOACCESS(lent + len, r->high - (lent + len));
}
static void reopen(const struct arena *r) { VALGRIND_MAKE_MEM_DEFINED(r->low, r->high - r->low); }

enum { NUM_PLACINGS = 3 };

/* Where a storage of this size stands in an arena: at the front, at the end, or between, at an odd address. */
static uint8_t *standing(const struct arena *r, int placing, size_t size)
{
    return placing == 0 ? r->low : placing == 1 ? r->high - size : r->low + 65;
}

/* --- well-formed tables --- */

static void random_value(uint8_t *value)
{
    static const uint8_t nets[3][3] = {{10, 0, 0}, {10, 0, 1}, {192, 168, 7}};
    memset(value, 0, KBUCKETS_VALUE_BYTES);
    value[0] = chance(75);
    if (value[0]) {
        if (chance(60)) {
            memcpy(value + 1, nets[below(3)], 3);
            value[4] = (uint8_t)below(4);
        } else {
            noise(value + 1, 4);
        }
    }
    /* few slots, most of which differ in one byte, any of the eight */
    if (chance(5))
        noise(value + SLOT_AT - VALUE_AT, KBUCKETS_SLOT_BYTES);
    value[KBUCKETS_VALUE_BYTES - 1 - below(chance(50) ? 1 : KBUCKETS_SLOT_BYTES)] = (uint8_t)below(chance(80) ? 3 : 256);
}

/* A key of this index, or any key where local is null; often differing in one byte from one that the bucket has. */
static void random_key(uint8_t *key, const uint8_t *b, const uint8_t *local, int index)
{
    if (b[0] && chance(50)) {
        memcpy(key, b + NODES_AT + below(b[0]) * NODE, KEY);
        key[KEY - 1] ^= (uint8_t)(1 + below(255));
        if (!local || bucket_index(local, key) == index)
            return;
    }
    noise(key, KEY);
    if (!local)
        return;
    for (int i = 0; i < BUCKETS; i++)
        if (i >= index) {
            uint8_t bit = (uint8_t)(1 << (i % 8)), *byte = key + KEY - 1 - i / 8;
            uint8_t want = (local[KEY - 1 - i / 8] & bit) ^ (i == index ? bit : 0);
            *byte = (uint8_t)((*byte & ~bit) | want);
        }
}

/* A well-formed bucket of `count` nodes, or fewer where the index has fewer keys. */
static void make_bucket(uint8_t *b, const uint8_t *local, int index, unsigned max_incoming, unsigned count, unsigned pending_percent)
{
    memset(b, 0, STORED);
    unsigned keys_there = local && index < 5 ? 1u << index : 32;
    if (count > keys_there)
        count = keys_there;
    if (count > PLACES)
        count = PLACES;
    unsigned first = chance(25) ? 0 : chance(25) ? count : below(count + 1), incoming = 0;
    bool many = chance(40);
    for (unsigned i = 0; i < count; i++) {
        uint8_t *node = b + NODES_AT + i * NODE;
        do
            random_key(node, b, local, index);
        while (place(b, node) >= 0);
        node[STATE_AT] = i >= first;
        node[DIRECTION_AT] = node[STATE_AT] ? incoming < max_incoming && (many || chance(40)) : chance(50);
        incoming += node[STATE_AT] && node[DIRECTION_AT];
        random_value(node + VALUE_AT);
        b[0] = (uint8_t)(i + 1);
    }
    b[FIRST_AT] = (uint8_t)first;
    if (keys_there > count && chance(pending_percent)) {
        uint8_t *node = b + PENDING_NODE_AT;
        b[PENDING_AT] = 1;
        do
            random_key(node, b, local, index);
        while (place(b, node) >= 0);
        node[STATE_AT] = chance(80);
        node[DIRECTION_AT] = chance(50);
        random_value(node + VALUE_AT);
        put_number(b + DEADLINE_AT, chance(80) ? below(200000) : chance(50) ? UINT64_MAX - below(3) : draw());
    }
}

static uint64_t random_timeout(void)
{
    switch (below(12)) {
    case 0: return 0;
    case 1: return UINT64_MAX - below(2);
    case 2: return draw();
    case 3: return 1;
    default: return 60000;
    }
}

/* A well-formed table, written directly: it can hold what no list of calls leaves, as far as question 2 lets it. */
static void make_table(uint8_t *s, unsigned style)
{
    static const unsigned fill[6] = {0, 4, 15, 40, 80, 100}; /* percent of the buckets that hold anything */
    memset(s, 0, STORAGE);
    if (chance(80))
        noise(s, KEY);
    put_number(s + TIMEOUT_AT, style % 6 < 2 ? random_timeout() : 60000);
    s[MAX_INCOMING_AT] = (uint8_t)(chance(50) ? below(17) : 1 + below(5));
    s[TABLE_FILTER_AT] = chance(50);
    s[BUCKET_FILTER_AT] = chance(50);
    s[COUNT_AT] = (uint8_t)(style % 3 == 0 ? 0 : style % 3 == 1 ? below(65) : 64 - below(3));
    for (unsigned i = 0; i < s[COUNT_AT]; i++) {
        uint8_t *record = s + RECORDS_AT + i * RECORD, *evicted = record + EVICTED_AT;
        noise(record, KEY);
        record[ENDING_AT] = (uint8_t)(chance(50) ? KBUCKETS_ENDING_REPLACED : below(KBUCKETS_ENDING_FIRST_CONFIRMED + 1));
        if (record[ENDING_AT] == KBUCKETS_ENDING_REPLACED) {
            noise(evicted, KEY);
            evicted[STATE_AT] = chance(50);
            evicted[DIRECTION_AT] = chance(50);
            random_value(evicted + VALUE_AT);
        }
    }
    for (int i = 0; i < BUCKETS; i++)
        if (chance(fill[style % 6]))
            make_bucket(s + HEADER + i * STORED, s, i, s[MAX_INCOMING_AT],
                        style % 6 == 5 || chance(30) ? PLACES : below(PLACES + 1), style % 2 ? 70 : 30);
}

#endif

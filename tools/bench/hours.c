// What session hours cost: nanoseconds per call without windows and with 32 windows, of which the last alone is open, and 64 closed dates, on
// a table of 1,008 nodes; the least and the median of passes that take turns. Exit status 1 where the hours cost more than MOST ns, by the
// least.
#include <stddef.h>
#include <stdint.h>
#include <stdio.h>
#include <stdlib.h>
#include <string.h>
#include <time.h>
#include "../../include/kbuckets.h"

enum { ROUNDS = 400, CALLS = 32, MOST = 400, KINDS = 3 };

static uint8_t storage[KBUCKETS_STORAGE_BYTES], answer[KBUCKETS_ANSWER_BYTES], line[KBUCKETS_EXPLANATION_BYTES];
static uint8_t held[1008][32], new_keys[CALLS][32];
static int held_count;

static uint16_t windows[3 * KBUCKETS_MAX_WINDOWS], closed[3 * KBUCKETS_MAX_CLOSED_DATES];
static struct hours {
    const char *name;
    size_t windows, closed;
    uint16_t date[3], minute;
} kinds[KINDS] = {
    {"no windows", 0, 0, {0, 0, 0}, 0},
    {"the most, 2026", 3 * KBUCKETS_MAX_WINDOWS, 3 * KBUCKETS_MAX_CLOSED_DATES, {2026, 11, 16}, 1439}, // a Monday
    {"the most, 2399", 3 * KBUCKETS_MAX_WINDOWS, 3 * KBUCKETS_MAX_CLOSED_DATES, {2399, 12, 27}, 1439}, // a Monday
};
static const struct hours *with;
#define HOURS windows, with->windows, closed, with->closed, with->date[0], with->date[1], with->date[2], with->minute

static double now_ns(void) {
    struct timespec t;
    clock_gettime(CLOCK_MONOTONIC, &t);
    return (double)t.tv_sec * 1e9 + (double)t.tv_nsec;
}

static uint64_t state = 88172645463325252u;
static uint8_t next_byte(void) {
    state ^= state << 13;
    state ^= state >> 7;
    state ^= state << 17;
    return (uint8_t)(state >> 32);
}

// A random key of bucket i; the local key is 0.
static void random_key(uint8_t *key, int i) {
    for (int j = 0; j < 32; j++) key[j] = next_byte();
    int byte = 31 - i / 8, bit = i % 8;
    memset(key, 0, (size_t)byte);
    key[byte] = (uint8_t)((key[byte] & ((1 << bit) - 1)) | (1 << bit));
}

static uint32_t put(const uint8_t *key) {
    return kbuckets_insert_or_update(storage, sizeof storage, key, 32, 0, 0, 0, 0, 0, 1, 1, 0, 0, HOURS, answer, sizeof answer);
}
static uint32_t put_absent(const uint8_t *key) {
    return kbuckets_absent_insert(storage, sizeof storage, key, 32, 0, 0, 0, 0, 0, 1, 1, 0, 0, HOURS, answer, sizeof answer);
}
static uint32_t explain(const uint8_t *key) {
    return kbuckets_explain_insert_or_update(storage, sizeof storage, key, 32, 0, 0, 0, 0, 0, 1, 1, 0, 0, HOURS, line, sizeof line);
}
static uint32_t take_out(const uint8_t *key) { return kbuckets_remove(storage, sizeof storage, key, 32, 0); }

// 63 buckets of 16 nodes; the new keys are of buckets that hold none.
static void fill(void) {
    static const uint8_t local[32];
    with = &kinds[0];
    if (kbuckets_new(storage, sizeof storage, local, 32, 60000, 16, 0, 0) != 0) abort();
    for (int i = 193; i < 256; i++)
        for (int n = 0; n < 16;) {
            random_key(held[held_count], i);
            if (put(held[held_count]) == KBUCKETS_INSERT_INSERTED) n++, held_count++;
        }
    for (int i = 0; i < CALLS; i++) random_key(new_keys[i], 100 + i);
    for (int i = 0; i < KBUCKETS_MAX_WINDOWS; i++) {
        const int last = i == KBUCKETS_MAX_WINDOWS - 1;
        windows[3 * i] = (uint16_t)(last ? 1 : 2 + i % 6);
        windows[3 * i + 1] = (uint16_t)(last ? 1439 : i);
        windows[3 * i + 2] = KBUCKETS_MINUTES;
    }
    for (int i = 0; i < KBUCKETS_MAX_CLOSED_DATES; i++) {
        closed[3 * i] = (uint16_t)(2399 - i % 2);
        closed[3 * i + 1] = 12;
        closed[3 * i + 2] = (uint16_t)(28 + i % 4);
    }
}

static volatile uint32_t sink;
static int ascending(const void *a, const void *b) {
    const double x = *(const double *)a, y = *(const double *)b;
    return (x > y) - (x < y);
}

static double pass(uint32_t (*call)(const uint8_t *), const uint8_t *(*key)(int, int), int r) {
    const double start = now_ns();
    for (int i = 0; i < CALLS; i++) {
        const uint32_t code = call(key(r, i));
        if (code >= KBUCKETS_REFUSED) abort();
        sink += code;
    }
    return (now_ns() - start) / CALLS;
}
static const uint8_t *held_key(int r, int i) { return held[(unsigned)(r * CALLS + i) * 2654435761u % (unsigned)held_count]; }
static const uint8_t *new_key(int r, int i) { return (void)r, new_keys[i]; }

static int measure(const char *name, uint32_t (*call)(const uint8_t *), const uint8_t *(*key)(int, int), int undo) {
    static double whole[KINDS][ROUNDS];
    for (int r = 0; r < ROUNDS; r++)
        for (int k = 0; k < KINDS; k++) {
            with = &kinds[k];
            whole[k][r] = pass(call, key, r);
            if (undo) pass(take_out, key, r);
        }
    printf("%s\n", name);
    int fails = 0;
    for (int k = 0; k < KINDS; k++) {
        qsort(whole[k], ROUNDS, sizeof whole[k][0], ascending);
        const double more = whole[k][0] - whole[0][0];
        printf("  %-16s %7.0f ns, median %6.0f", kinds[k].name, whole[k][0], whole[k][ROUNDS / 2]);
        if (k) printf("; %.0f ns more%s", more, more > MOST ? ", which is too much" : "");
        printf("\n");
        fails |= more > MOST;
    }
    return fails;
}

int main(void) {
    fill();
    int fails = measure("insert_or_update of a held key", put, held_key, 0);
    fails |= measure("insert_or_update of a new key", put, new_key, 1);
    fails |= measure("absent_insert", put_absent, new_key, 1);
    fails |= measure("explain_insert_or_update of a new key", explain, new_key, 0);
    return fails;
}

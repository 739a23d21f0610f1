// Nanoseconds per call of the table's exports, whole calls with all their questions, in passes of CALLS: the least and the median of all
// passes. Question 2 of the whole table is kbuckets_write without an output, which asks questions 1 and 2, of all buckets, and is refused
// with 6. The limit is what it takes to read the bytes that a call must read, 16 at a time, and do nothing with them (x86-64).
#include <emmintrin.h>
#include <stddef.h>
#include <stdint.h>
#include <stdio.h>
#include <stdlib.h>
#include <string.h>
#include <time.h>
#include "../../include/kbuckets.h"

enum { ROUNDS = 100, CALLS = 32, N = 16, ALL = 4096 };

static uint8_t storage[KBUCKETS_STORAGE_BYTES];
static uint8_t answer[KBUCKETS_ANSWER_BYTES], output[ALL * KBUCKETS_ITER_ENTRY_BYTES];
static uint8_t held[4096][32];
static int held_count;

static double now_ns(void) {
    struct timespec t;
    clock_gettime(CLOCK_MONOTONIC, &t);
    return (double)t.tv_sec * 1e9 + (double)t.tv_nsec;
}

static uint64_t state = 88172645463325252u;
static uint64_t next_random(void) {
    state ^= state << 13;
    state ^= state >> 7;
    state ^= state << 17;
    return state;
}

// A random key of bucket i; the local key is 0.
static void random_key(uint8_t *key, int i) {
    for (int j = 0; j < 32; j++) key[j] = (uint8_t)(next_random() >> 32);
    int byte = 31 - i / 8, bit = i % 8;
    memset(key, 0, (size_t)byte);
    key[byte] = (uint8_t)((key[byte] & ((1 << bit) - 1)) | (1 << bit));
}

// No windows: at every hour.
static const uint16_t none[1];

static uint32_t put(const uint8_t *key) {
    return kbuckets_insert_or_update(
        storage, sizeof storage, key, 32, 0, 0, 0, 0, 0, 1, KBUCKETS_CONNECTED, KBUCKETS_OUTGOING, 0, none, 0, none, 0, 0, 0, 0, 0, answer,
        sizeof answer);
}

// A new table with up to `most` nodes in each of the buckets from the first on.
static void fill(int first, int most) {
    static const uint8_t local[32];
    if (kbuckets_new(storage, sizeof storage, local, 32, 60000, 16, 0, 0) != 0) abort();
    held_count = 0;
    for (int i = first; i < 256; i++)
        for (int tries = 0, n = 0; n < most && tries < 200; tries++) {
            random_key(held[held_count], i);
            if (put(held[held_count]) == KBUCKETS_INSERT_INSERTED) n++, held_count++;
        }
}

static volatile uint64_t sink;

// The bytes OR-ed, 16 at a time and 128 in a step, in eight sums, since one would wait for itself; the last 128 may overlap those before.
static int or_of(const uint8_t *bytes, size_t length) {
    __m128i sums[8] = {0};
    for (size_t i = 0; i < length; i += 128) {
        const uint8_t *step = bytes + (i + 128 <= length ? i : length - 128);
        for (int k = 0; k < 8; k++) sums[k] = _mm_or_si128(sums[k], _mm_loadu_si128((const __m128i *)step + k));
    }
    for (int k = 1; k < 8; k++) sums[0] = _mm_or_si128(sums[0], sums[k]);
    return _mm_movemask_epi8(sums[0]);
}
static void run_header(int i) { (void)i; sink += (uint64_t)or_of(storage, KBUCKETS_HEADER_BYTES); }
static void run_bucket(int i) {
    size_t bucket = 192 + (size_t)i * 37 % 64;
    run_header(i);
    sink += (uint64_t)or_of(storage + KBUCKETS_HEADER_BYTES + bucket * KBUCKETS_STORED_BUCKET_BYTES, KBUCKETS_STORED_BUCKET_BYTES);
}
static void run_storage(int i) { (void)i; sink += (uint64_t)or_of(storage, sizeof storage); }

static void run_question_2(int i) { (void)i; sink += kbuckets_write(storage, sizeof storage, output, 0); }
static void run_take(int i) { (void)i; sink += kbuckets_take_applied_pending(storage, sizeof storage, answer, sizeof answer); }

// The keys of a pass stand in one buffer, as in the messages that a host took them from; they are put there before the clock starts.
static uint8_t keys[CALLS][32], *key;
static void take_key(int i) { memcpy(keys[i % CALLS], held[(unsigned)i * 2654435761u % (unsigned)held_count], 32); }
static void run_status(int i) { (void)i; sink += kbuckets_update_node_status(storage, sizeof storage, key, 32, 1, 0, 0); }
static void run_held(int i) { (void)i; sink += put(key); }
static void run_update(int i) { sink += kbuckets_update_node(storage, sizeof storage, key, 32, 1, 10, 0, 0, 1, (kbuckets_slot)i, 1, 0); }
static void run_present(int i) { (void)i; sink += kbuckets_present_update(storage, sizeof storage, key, 32, 1, 0); }
static void run_entry(int i) { (void)i; sink += kbuckets_entry(storage, sizeof storage, key, 32, 0); }
static void run_remove(int i) { (void)i; sink += kbuckets_remove(storage, sizeof storage, key, 32, 0); }
static void run_closest(int i) {
    (void)i;
    uint8_t target[32];
    memcpy(target, key, sizeof target);
    target[31] ^= 85;
    sink += kbuckets_closest_keys(storage, sizeof storage, target, sizeof target, N, 0, output, N * KBUCKETS_CLOSEST_KEYS_ENTRY_BYTES);
}
static void run_iter(int i) { (void)i; sink += kbuckets_iter(storage, sizeof storage, ALL, 0, output, sizeof output); }

static int ascending(const void *a, const void *b) { return (*(const double *)a > *(const double *)b) - (*(const double *)a < *(const double *)b); }

static void pass(void (*f)(int), int r) {
    for (int i = 0; i < CALLS; i++) {
        key = keys[i];
        f(r * CALLS + i);
    }
}

// A round is a pass of CALLS calls; then their undoing, which is not timed.
static void measure_call(const char *name, void (*f)(int), void (*undo)(int)) {
    static double whole[ROUNDS];
    for (int r = 0; r < ROUNDS; r++) {
        for (int i = r * CALLS; held_count > 0 && i < (r + 1) * CALLS; i++) take_key(i);
        double start = now_ns();
        pass(f, r);
        whole[r] = (now_ns() - start) / CALLS;
        if (undo) pass(undo, r);
    }
    qsort(whole, ROUNDS, sizeof whole[0], ascending);
    printf("  %-42s %9.0f ns, median %6.0f\n", name, whole[0], whole[ROUNDS / 2]);
}

static void measure(const char *name, int first, int most) {
    fill(first, most);
    printf("%s, %d nodes\n", name, held_count);
    measure_call("question 2 of the whole table", run_question_2, 0);
    measure_call("take_applied_pending, empty queue", run_take, 0);
    measure_call("iter", run_iter, 0);
    if (held_count == 0) return;
    measure_call("update_node_status", run_status, 0);
    measure_call("present_update", run_present, 0);
    measure_call("update_node, another value", run_update, 0);
    measure_call("insert_or_update of a held key", run_held, 0);
    measure_call("entry", run_entry, 0);
    if (held_count > 2 * CALLS) measure_call("remove", run_remove, run_held);
    measure_call("closest_keys of 16", run_closest, 0);
}

// For a count of instructions (tools/bench/instructions): fills the table and makes CALLS calls, on nodes spread over all that are held, or on
// new keys of CALLS buckets where none is. 'new' takes its keys out first, 'remove' puts them in where none is held, 'filled' makes no calls.
static void count(int first, int most, const char *call) {
    fill(first, most);
    for (int i = 0; i < CALLS; i++) {
        if (held_count == 0) random_key(keys[i], 255 - i);
        else memcpy(keys[i], held[i * held_count / CALLS], 32);
    }
    static const struct {
        const char *name;
        void (*f)(int);
    } calls[] = {
        {"update_node_status", run_status}, {"update_node", run_update}, {"held", run_held}, {"new", run_held}, {"remove", run_remove},
        {"closest_keys", run_closest},      {"iter", run_iter},
    };
    if (strcmp(call, "new") == 0 && held_count > 0) pass(run_remove, 0);
    if (strcmp(call, "remove") == 0 && held_count == 0) pass(run_held, 0);
    for (size_t k = 0; k < sizeof calls / sizeof calls[0]; k++)
        if (strcmp(call, calls[k].name) == 0) pass(calls[k].f, 0);
    printf("%d nodes, %d calls\n", held_count, CALLS);
}

int main(int words, char **word) {
    if (words == 5 && strcmp(word[1], "count") == 0) {
        count(atoi(word[2]), atoi(word[3]), word[4]);
        return 0;
    }
    measure("full table", 0, 16);
    measure("63 full buckets", 193, 16);
    measure("252 buckets of 4", 4, 4);
    measure("one full bucket", 255, 16);
    measure("empty table", 256, 16);
    printf("limit\n");
    measure_call("header", run_header, 0);
    measure_call("header and one bucket", run_bucket, 0);
    measure_call("header and all buckets", run_storage, 0);
    return 0;
}

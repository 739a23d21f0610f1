// The stack that each call of the library takes: the most of many calls, each on a stack of its own that is filled with a pattern, in bytes
// from the return address on, without the arguments that do not fit in registers. The tables are empty, full with nodes in both states and a
// pending in each bucket, and the same with a full queue; the times are such that pendings are due and not due.
#include <stdint.h>
#include <stdio.h>
#include <stdlib.h>
#include <string.h>
#include <ucontext.h>
#include "kbuckets.h"

enum { STACK = 1 << 16, CALLS = 2000, TIMEOUT = 60000, TABLES = 3, BUCKETS = 2 };

static uint8_t tables[TABLES][KBUCKETS_STORAGE_BYTES], buckets[BUCKETS][KBUCKETS_BUCKET_BYTES];
static uint8_t storage[KBUCKETS_STORAGE_BYTES], bucket[KBUCKETS_BUCKET_BYTES];
static uint8_t answer[KBUCKETS_ANSWER_BYTES], output[KBUCKETS_MAX_COUNT * KBUCKETS_NODE_BYTES];
static uint8_t saved[KBUCKETS_MAX_WRITTEN_BYTES]; // the full table as written, for the reader
static size_t saved_bytes;
static uint8_t keys[8192][KBUCKETS_KEY_BYTES];
static unsigned key_count;

static uint64_t word = 88172645463325252u;
static unsigned below(unsigned end) {
    word ^= word << 13;
    word ^= word >> 7;
    word ^= word << 17;
    return (unsigned)(word >> 32) % end;
}

// A random key of bucket i; the local key is 0.
static uint8_t *random_key(unsigned i) {
    uint8_t *key = keys[key_count];
    for (int j = 0; j < 32; j++) key[j] = (uint8_t)below(256);
    unsigned byte = 31 - i / 8, bit = i % 8;
    memset(key, 0, byte);
    key[byte] = (uint8_t)((key[byte] & ((1 << bit) - 1)) | (1 << bit));
    return key;
}

// The arguments of a call.
static struct {
    const uint8_t *key;
    uint8_t flag, a, b, c, d, state, direction, predicate, given_state, given_direction;
    kbuckets_slot slot;
    uint64_t now, distances[8];
    size_t n, windows, closed;
    uint16_t date[3], minute;
} with;
static uint16_t windows[3 * KBUCKETS_MAX_WINDOWS], closed[3 * KBUCKETS_MAX_CLOSED_DATES];

static void choose(void) {
    static const uint64_t times[] = {0, 1, TIMEOUT + 2};
    static const size_t counts[] = {0, 1, 16, KBUCKETS_MAX_COUNT};
    static const uint8_t local[KBUCKETS_KEY_BYTES];
    with.key = below(50) ? keys[below(key_count)] : local;
    with.flag = below(4) != 0;
    with.a = with.flag ? 10 : 0;
    with.b = with.flag ? (uint8_t)below(2) : 0;
    with.c = with.flag ? (uint8_t)below(256) : 0;
    with.d = with.flag ? (uint8_t)below(4) : 0;
    with.slot = (kbuckets_slot)below(65536) << 16 * below(4);
    with.state = (uint8_t)below(2);
    with.direction = (uint8_t)below(2);
    with.given_state = (uint8_t)below(3);
    with.given_direction = (uint8_t)below(3);
    with.predicate = (uint8_t)below(4);
    with.now = times[below(3)];
    with.n = counts[below(4)];
    for (int i = 0; i < 8; i++) with.distances[i] = below(258);
    // No hours, or the most, of windows that are open or shut; sometimes a date that is none.
    with.windows = below(2) ? 0 : sizeof windows / sizeof windows[0];
    with.closed = below(2) ? 0 : sizeof closed / sizeof closed[0];
    for (size_t i = 0; i < sizeof windows / sizeof windows[0]; i += 3)
        windows[i] = (uint16_t)(1 + below(7)), windows[i + 1] = (uint16_t)below(720), windows[i + 2] = (uint16_t)(720 + below(721));
    for (size_t i = 0; i < sizeof closed / sizeof closed[0]; i += 3)
        closed[i] = (uint16_t)(2000 + below(400)), closed[i + 1] = (uint16_t)(1 + below(12)), closed[i + 2] = (uint16_t)(1 + below(28));
    with.date[0] = (uint16_t)(2000 + below(400));
    with.date[1] = (uint16_t)(1 + below(12));
    with.date[2] = (uint16_t)(1 + below(31));
    with.minute = (uint16_t)below(1441);
}

static volatile uint32_t answered;
#define STORAGE storage, sizeof storage
#define BUCKET bucket, sizeof bucket
#define KEY with.key, KBUCKETS_KEY_BYTES
#define VALUE with.flag, with.a, with.b, with.c, with.d, with.slot
#define STATUS with.state, with.direction
#define HOURS windows, with.windows, closed, with.closed, with.date[0], with.date[1], with.date[2], with.minute
#define ANSWER answer, sizeof answer
#define OUTPUT output, sizeof output
#define CALLS_OF_THE_LIBRARY(call) \
    call(version, ()) \
    call(new, (STORAGE, KEY, TIMEOUT, 16, 1, 1)) \
    call(update_node_status, (STORAGE, KEY, with.state, with.given_direction, with.now)) \
    call(update_node, (STORAGE, KEY, VALUE, with.given_state, with.now)) \
    call(insert_or_update, (STORAGE, KEY, VALUE, STATUS, with.now, HOURS, ANSWER)) \
    call(remove, (STORAGE, KEY, with.now)) \
    call(entry, (STORAGE, KEY, with.now)) \
    call(present_update, (STORAGE, KEY, with.state, with.given_direction)) \
    call(pending_update, (STORAGE, KEY, STATUS)) \
    call(absent_insert, (STORAGE, KEY, VALUE, STATUS, with.now, HOURS, ANSWER)) \
    call(iter, (STORAGE, with.n, with.now, OUTPUT)) \
    call(nodes_by_distances, (STORAGE, with.distances, 8, with.n, with.now, OUTPUT)) \
    call(closest_keys, (STORAGE, KEY, with.n, with.now, OUTPUT)) \
    call(closest_values, (STORAGE, KEY, with.n, with.now, OUTPUT)) \
    call(closest_values_predicate, (STORAGE, KEY, with.predicate, with.a, with.b, with.c, with.slot, with.n, with.now, OUTPUT)) \
    call(take_applied_pending, (STORAGE, ANSWER)) \
    call(explain_update_node_status, (STORAGE, KEY, with.state, with.given_direction, with.now, OUTPUT)) \
    call(explain_update_node, (STORAGE, KEY, VALUE, with.given_state, with.now, OUTPUT)) \
    call(explain_insert_or_update, (STORAGE, KEY, VALUE, STATUS, with.now, HOURS, OUTPUT)) \
    call(explain_remove, (STORAGE, KEY, with.now, OUTPUT)) \
    call(explain_present_update, (STORAGE, KEY, with.state, with.given_direction, OUTPUT)) \
    call(explain_pending_update, (STORAGE, KEY, STATUS, OUTPUT)) \
    call(explain_absent_insert, (STORAGE, KEY, VALUE, STATUS, with.now, HOURS, OUTPUT)) \
    call(write, (STORAGE, OUTPUT)) \
    call(read, (STORAGE, saved, with.n < 2 ? with.n : saved_bytes)) \
    call(b_new, (BUCKET, TIMEOUT, 16, 1)) \
    call(b_insert, (BUCKET, KEY, VALUE, STATUS, with.now, ANSWER)) \
    call(b_apply_pending, (BUCKET, with.now, ANSWER)) \
    call(b_update_status, (BUCKET, KEY, with.state, with.given_direction)) \
    call(b_update_value, (BUCKET, KEY, VALUE)) \
    call(b_update_pending, (BUCKET, STATUS)) \
    call(b_remove, (BUCKET, KEY, with.now))

#define FUNCTION(name, arguments) static void run_##name(void) { answered = kbuckets_##name arguments; }
CALLS_OF_THE_LIBRARY(FUNCTION)
static void run_nothing(void) {}

// Six arguments are in registers, the others on the stack, whose pointer is a multiple of 16 at a call.
#define NUMBER(a1, a2, a3, a4, a5, a6, a7, a8, a9, a10, a11, a12, a13, a14, a15, a16, a17, a18, a19, a20, a21, a22, a23, number, ...) number
#define COUNT(...) NUMBER(__VA_ARGS__, 23, 22, 21, 20, 19, 18, 17, 16, 15, 14, 13, 12, 11, 10, 9, 8, 7, 6, 5, 4, 3, 2, 1, 0)
#define ON_STACK(...) (COUNT(__VA_ARGS__) > 6 ? (COUNT(__VA_ARGS__) - 5) / 2 * 16 : 0)
static const struct {
    const char *name;
    void (*run)(void);
    size_t arguments;
} calls[] = {
#define LISTED(name, arguments) {"kbuckets_" #name, run_##name, ON_STACK arguments},
    CALLS_OF_THE_LIBRARY(LISTED)
};

static uint8_t stack[STACK] __attribute__((aligned(64)));
static ucontext_t here, there;

static void run_there(void (*run)(void)) {
    getcontext(&there);
    there.uc_stack.ss_sp = stack;
    there.uc_stack.ss_size = sizeof stack;
    there.uc_link = &here;
    makecontext(&there, run, 0);
    swapcontext(&here, &there);
}

// A byte that holds the pattern by chance hides nothing: one of the two patterns differs from it.
static size_t used(void (*run)(void), const uint8_t *table, const uint8_t *alone) {
    size_t most = 0;
    for (int pattern = 0x5a; pattern <= 0xa5; pattern += 0x4b) {
        memcpy(storage, table, sizeof storage);
        memcpy(bucket, alone, sizeof bucket);
        memset(stack, pattern, sizeof stack);
        run_there(run);
        size_t i = 0;
        while (i < sizeof stack && stack[i] == pattern) i++;
        if (i < 4096) abort();
        if (sizeof stack - i > most) most = sizeof stack - i;
    }
    return most;
}

static void ok(uint32_t code) {
    if (code >= KBUCKETS_REFUSED) abort();
}

static uint32_t put(const uint8_t *key, uint8_t state, kbuckets_slot slot) {
    return kbuckets_insert_or_update(
        STORAGE, key, 32, 1, 10, (uint8_t)(slot >> 8), (uint8_t)slot, 1, slot, state, (uint8_t)below(2), 1, windows, 0, closed, 0, 0, 0, 0, 0,
        ANSWER);
}

// Each value in a /24 of its own, so that no filter fails.
static void make_tables(void) {
    static const uint8_t local[KBUCKETS_KEY_BYTES];
    ok(kbuckets_new(STORAGE, local, 32, TIMEOUT, 16, 1, 1));
    memcpy(tables[0], storage, sizeof storage);
    unsigned pendings = 0;
    for (unsigned i = KBUCKETS_NUM_BUCKETS; i-- > 0;) {
        for (unsigned tries = 0, held = 0; tries < 100 && held < KBUCKETS_MAX_NODES_PER_BUCKET; tries++)
            if (put(random_key(i), held >= 8, key_count) == KBUCKETS_INSERT_INSERTED) held++, key_count++;
        if (put(random_key(i), KBUCKETS_CONNECTED, key_count) == KBUCKETS_INSERT_PENDING) pendings++, key_count++;
        random_key(i), key_count++;
    }
    memcpy(tables[1], storage, sizeof storage);
    uint32_t written = kbuckets_write(STORAGE, saved, sizeof saved);
    ok(written);
    saved_bytes = KBUCKETS_NUM_BUCKETS + written * (size_t)KBUCKETS_NODE_BYTES;
    // 64 pendings are applied, and 64 nodes wait anew in their buckets
    uint64_t distances[KBUCKETS_MAX_RECORDS];
    for (unsigned i = 0; i < KBUCKETS_MAX_RECORDS; i++) distances[i] = 100 + i;
    ok(kbuckets_nodes_by_distances(STORAGE, distances, KBUCKETS_MAX_RECORDS, KBUCKETS_MAX_COUNT, TIMEOUT + 1, OUTPUT));
    for (unsigned i = 0; i < KBUCKETS_MAX_RECORDS; i++) put(random_key(99 + i), KBUCKETS_CONNECTED, key_count), key_count++;
    memcpy(tables[2], storage, sizeof storage);
    if (pendings < 240 || tables[2][KBUCKETS_PADDING_OFFSET - 1] != KBUCKETS_MAX_RECORDS) abort();

    // the first 17 keys: those of bucket 255, and its pending
    ok(kbuckets_b_new(BUCKET, TIMEOUT, 16, 1));
    memcpy(buckets[0], bucket, sizeof bucket);
    for (unsigned i = 0; i < KBUCKETS_MAX_NODES_PER_BUCKET + 1; i++)
        if (kbuckets_b_insert(BUCKET, keys[i], 32, 1, 10, 0, (uint8_t)i, 1, i, i >= 8, (uint8_t)below(2), 1, ANSWER)
            != (i < 16 ? KBUCKETS_BUCKET_INSERT_INSERTED : KBUCKETS_BUCKET_INSERT_PENDING))
            abort();
    memcpy(buckets[1], bucket, sizeof bucket);
}

int main(void) {
    make_tables();
    choose();
    size_t nothing = used(run_nothing, tables[0], buckets[0]);
    for (size_t c = 0; c < sizeof calls / sizeof calls[0]; c++) {
        size_t most = 0;
        int in_bucket = strncmp(calls[c].name, "kbuckets_b_", 11) == 0;
        for (unsigned i = 0; i < CALLS; i++) {
            choose();
            if (in_bucket) with.key = keys[below(18)];
            size_t bytes = used(calls[c].run, tables[i % TABLES], buckets[i % BUCKETS]);
            if (bytes > most) most = bytes;
        }
        printf("%s %zu\n", calls[c].name, most - nothing - calls[c].arguments);
    }
    return 0;
}

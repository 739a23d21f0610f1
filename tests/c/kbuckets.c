/* Uses libkbuckets.a through its header: every export, every refusal, and the rows of document 01 that a host can see. */
#define _DEFAULT_SOURCE /* timegm */
#include "kbuckets.h"

#include <stdio.h>
#include <string.h>
#include <time.h>

#ifdef __cplusplus
#define ASSERT_SIZE(n, m) static_assert((n) == (m), #n)
#else
#define ASSERT_SIZE(n, m) _Static_assert((n) == (m), #n)
#endif

ASSERT_SIZE(KBUCKETS_STORAGE_BYTES, 212528);
ASSERT_SIZE(KBUCKETS_BUCKET_BYTES, 820);
ASSERT_SIZE(KBUCKETS_ANSWER_BYTES, 80);
ASSERT_SIZE(KBUCKETS_ITER_ENTRY_BYTES, 47);
ASSERT_SIZE(KBUCKETS_NODES_BY_DISTANCES_ENTRY_BYTES, 47);
ASSERT_SIZE(KBUCKETS_CLOSEST_KEYS_ENTRY_BYTES, 32);
ASSERT_SIZE(KBUCKETS_CLOSEST_VALUES_ENTRY_BYTES, 45);
ASSERT_SIZE(KBUCKETS_CLOSEST_VALUES_PREDICATE_ENTRY_BYTES, 46);
ASSERT_SIZE(KBUCKETS_EXPLANATION_BYTES, 2048);
ASSERT_SIZE(KBUCKETS_SLOT_BYTES, sizeof(kbuckets_slot));
ASSERT_SIZE(KBUCKETS_RECORDS_OFFSET, 48);
ASSERT_SIZE(KBUCKETS_WRITTEN_ENTRY_BYTES, 15);
ASSERT_SIZE(KBUCKETS_MAX_NODES, 4047);
ASSERT_SIZE(KBUCKETS_MAX_WRITTEN_BYTES, 190465);

/* A host may test the header's version while it compiles. */
#if KBUCKETS_VERSION < 0x000700 || KBUCKETS_VERSION >= 0x010000
#error "this program is written for versions from 0.7.0 to below 1.0.0"
#endif

static unsigned checks, failures;

static void check(int line, uint64_t got, uint64_t expected) {
    checks++;
    if (got != expected) {
        failures++;
        printf("line %d: %llx, expected %llx\n", line, (unsigned long long)got, (unsigned long long)expected);
    }
}

#define CHECK(got, expected) check(__LINE__, (uint64_t)(got), (uint64_t)(expected))

static uint8_t table[KBUCKETS_STORAGE_BYTES], before[KBUCKETS_STORAGE_BYTES];
static uint8_t bucket[KBUCKETS_BUCKET_BYTES];
static uint8_t answer[KBUCKETS_ANSWER_BYTES + 1];
static uint8_t output[KBUCKETS_MAX_COUNT * KBUCKETS_NODE_BYTES];
static uint8_t key[KBUCKETS_KEY_BYTES];

enum { TIMEOUT = 60000, UNTOUCHED = 0xA5 };
enum { ANSWER = KBUCKETS_ANSWER_BYTES, SHORT = ANSWER - 1 };

/* No windows: a host without hours. */
static const uint16_t none[1] = {0};
#define EVERY_HOUR none, 0, none, 0, 0, 0, 0, 0

/* The key of a number; with local key zero, a key is its distance. */
static const uint8_t *of(unsigned n) {
    memset(key, 0, sizeof key);
    key[30] = (uint8_t)(n >> 8);
    key[31] = (uint8_t)n;
    return key;
}

static unsigned last(const uint8_t *k) {
    for (int i = 0; i < 30; i++) CHECK(k[i], 0);
    return (unsigned)k[30] << 8 | k[31];
}

static void new_table(void) {
    uint8_t zero[KBUCKETS_KEY_BYTES] = {0};
    CHECK(kbuckets_new(table, sizeof table, zero, sizeof zero, TIMEOUT, 16, KBUCKETS_FILTER_OFF, KBUCKETS_FILTER_OFF), 0);
}

static uint32_t put(unsigned n, uint8_t state, uint8_t direction, uint64_t now) {
    return kbuckets_insert_or_update(
        table, sizeof table, of(n), KBUCKETS_KEY_BYTES, KBUCKETS_NO_ADDRESS, 0, 0, 0, 0, (kbuckets_slot)n, state, direction, now, EVERY_HOUR, answer,
        sizeof answer);
}

static void refusals(void) {
    uint8_t target[KBUCKETS_KEY_BYTES] = {0};
    memset(table, UNTOUCHED, sizeof table);
    CHECK(kbuckets_iter(table, sizeof table, 1, 0, output, sizeof output), KBUCKETS_REFUSED_FORM);
    CHECK(kbuckets_new(table, sizeof table - 1, target, 32, 0, 16, 0, 0), KBUCKETS_REFUSED_SIZE);
    CHECK(kbuckets_new(table, sizeof table, target, 31, 0, 16, 0, 0), KBUCKETS_REFUSED_KEY);
    CHECK(kbuckets_new(table, sizeof table, target, 32, 0, 17, 0, 0), KBUCKETS_REFUSED_CODE);
    for (size_t i = 0; i < sizeof table; i += 997) CHECK(table[i], UNTOUCHED);
    new_table();
    memcpy(before, table, sizeof table);
    CHECK(kbuckets_remove(table, sizeof table, target, 33, 0), KBUCKETS_REFUSED_KEY);
    CHECK(kbuckets_remove(table, sizeof table, target, 32, UINT64_MAX), KBUCKETS_REFUSED_TIME);
    CHECK(kbuckets_entry(table, sizeof table - 1, target, 32, 0), KBUCKETS_REFUSED_SIZE);
    CHECK(kbuckets_update_node_status(table, sizeof table, target, 32, 2, 0, 0), KBUCKETS_REFUSED_CODE);
    CHECK(kbuckets_update_node_status(table, sizeof table, target, 32, 1, 3, 0), KBUCKETS_REFUSED_CODE);
    CHECK(kbuckets_update_node(table, sizeof table, target, 32, 0, 0, 0, 0, 1, 0, 2, 0), KBUCKETS_REFUSED_CODE);
    CHECK(kbuckets_iter(table, sizeof table, 4097, 0, output, sizeof output), KBUCKETS_REFUSED_OUTPUT);
    CHECK(kbuckets_closest_keys(table, sizeof table, target, 32, 3, 0, output, 95), KBUCKETS_REFUSED_OUTPUT);
    CHECK(kbuckets_closest_values(table, sizeof table, target, 32, 1, 0, output, KBUCKETS_CLOSEST_VALUES_ENTRY_BYTES - 1), KBUCKETS_REFUSED_OUTPUT);
    CHECK(
        kbuckets_closest_values_predicate(
            table, sizeof table, target, 32, 4, 0, 0, 0, 0, 1, 0, output, KBUCKETS_CLOSEST_VALUES_PREDICATE_ENTRY_BYTES),
        KBUCKETS_REFUSED_CODE);
    uint64_t distances[1] = {1};
    CHECK(
        kbuckets_nodes_by_distances(table, sizeof table, distances, 1, 0, 0, output, KBUCKETS_NODES_BY_DISTANCES_ENTRY_BYTES - 1),
        KBUCKETS_REFUSED_OUTPUT);
    memset(answer, UNTOUCHED, sizeof answer);
    CHECK(kbuckets_take_applied_pending(table, sizeof table, answer, SHORT), KBUCKETS_REFUSED_OUTPUT);
    CHECK(kbuckets_take_applied_pending(table, 5, answer, SHORT), KBUCKETS_REFUSED_SIZE);
    CHECK(kbuckets_insert_or_update(table, sizeof table, of(4), 32, 0, 0, 0, 0, 0, 4, 1, 0, 0, EVERY_HOUR, answer, SHORT), KBUCKETS_REFUSED_OUTPUT);
    CHECK(kbuckets_insert_or_update(table, sizeof table, of(4), 32, 2, 0, 0, 0, 0, 4, 1, 0, 0, EVERY_HOUR, answer, SHORT), KBUCKETS_REFUSED_CODE);
    CHECK(kbuckets_absent_insert(table, sizeof table, of(4), 32, 0, 0, 0, 0, 0, 4, 1, 0, 0, EVERY_HOUR, answer, SHORT), KBUCKETS_REFUSED_OUTPUT);
    CHECK(kbuckets_present_update(table, sizeof table, of(4), 32, 1, 0), KBUCKETS_REFUSED_KIND);
    CHECK(kbuckets_pending_update(table, sizeof table, of(4), 32, 1, 0), KBUCKETS_REFUSED_KIND);
    CHECK(kbuckets_absent_insert(table, sizeof table, of(0), 32, 0, 0, 0, 0, 0, 4, 1, 0, 0, EVERY_HOUR, answer, ANSWER), KBUCKETS_REFUSED_KIND);
    CHECK(memcmp(before, table, sizeof table), 0);
    for (size_t i = 0; i < sizeof answer; i++) CHECK(answer[i], UNTOUCHED);
}

/* Rows 3, 4 and 11, and the answers on the local key. */
static void listings(void) {
    new_table();
    CHECK(put(0, 1, 0, 0), KBUCKETS_FAILED_INVALID_SELF_UPDATE);
    CHECK(kbuckets_entry(table, sizeof table, of(0), 32, 0), KBUCKETS_ENTRY_SELF);
    CHECK(kbuckets_remove(table, sizeof table, of(0), 32, 0), KBUCKETS_REMOVE_NOT_HELD);
    CHECK(kbuckets_update_node_status(table, sizeof table, of(0), 32, 1, KBUCKETS_NOT_GIVEN, 0), KBUCKETS_UPDATE_NOT_MODIFIED);
    CHECK(put(1, 1, 0, 0), KBUCKETS_INSERT_INSERTED);
    CHECK(put(4, 0, 1, 0), KBUCKETS_INSERT_INSERTED);
    CHECK(put(6, 1, 1, 0), KBUCKETS_INSERT_INSERTED);
    CHECK(kbuckets_entry(table, sizeof table, of(4), 32, 0), KBUCKETS_ENTRY_PRESENT + 1);
    CHECK(kbuckets_entry(table, sizeof table, of(6), 32, 0), KBUCKETS_ENTRY_PRESENT + 3);
    CHECK(kbuckets_entry(table, sizeof table, of(2), 32, 0), KBUCKETS_ENTRY_ABSENT);
    memset(output, UNTOUCHED, sizeof output);
    CHECK(kbuckets_closest_keys(table, sizeof table, of(5), 32, 9, 0, output, sizeof output), 4);
    CHECK(last(output), 4);
    CHECK(last(output + 32), 6);
    CHECK(last(output + 64), 1);
    CHECK(last(output + 96), 1);
    CHECK(output[128], UNTOUCHED);
    CHECK(kbuckets_closest_values(table, sizeof table, of(5), 32, 2, 0, output, sizeof output), 2);
    CHECK(last(output + KBUCKETS_CLOSEST_VALUES_ENTRY_BYTES), 6);
    CHECK(output[KBUCKETS_CLOSEST_VALUES_ENTRY_BYTES - 1], 4);
    CHECK(
        kbuckets_closest_values_predicate(
            table, sizeof table, of(5), 32, KBUCKETS_SLOT_EQUALS, 0, 0, 0, 6, 3, 0, output, sizeof output),
        3);
    CHECK(output[32], 0);
    CHECK(output[KBUCKETS_CLOSEST_VALUES_PREDICATE_ENTRY_BYTES + 32], 1);
    CHECK(kbuckets_iter(table, sizeof table, 9, 0, output, sizeof output), 3);
    CHECK(last(output), 1);
    CHECK(last(output + KBUCKETS_ITER_ENTRY_BYTES), 4);
    CHECK(last(output + 2 * KBUCKETS_ITER_ENTRY_BYTES), 6);
    CHECK(kbuckets_remove(table, sizeof table, of(6), 32, 0), KBUCKETS_REMOVE_REMOVED);
    CHECK(kbuckets_remove(table, sizeof table, of(1), 32, 0), KBUCKETS_REMOVE_REMOVED);
    uint64_t distances[3] = {3, 3, 257};
    CHECK(kbuckets_nodes_by_distances(table, sizeof table, distances, 3, 5, 0, output, sizeof output), 2);
    CHECK(last(output), 4);
    CHECK(last(output + KBUCKETS_NODES_BY_DISTANCES_ENTRY_BYTES), 4);
    CHECK(kbuckets_nodes_by_distances(table, sizeof table, distances, 3, 0, 0, output, KBUCKETS_NODE_BYTES), 1);
}

/* Rows 6 and 9, in a table: a pending, its actions, and its record. */
static void pendings(void) {
    new_table();
    CHECK(put(256, 0, 0, 100), KBUCKETS_INSERT_INSERTED);
    for (unsigned i = 1; i < 16; i++) CHECK(put(256 + i, 1, 0, 100), KBUCKETS_INSERT_INSERTED);
    memset(answer, UNTOUCHED, sizeof answer);
    CHECK(kbuckets_absent_insert(table, sizeof table, of(300), 32, 0, 0, 0, 0, 0, 7, 1, 0, 100, EVERY_HOUR, answer, sizeof answer), KBUCKETS_BUCKET_INSERT_PENDING);
    CHECK(last(answer), 256);
    CHECK(answer[32], UNTOUCHED);
    CHECK(put(301, 1, 0, 100), KBUCKETS_FAILED_BUCKET_FULL);
    CHECK(kbuckets_entry(table, sizeof table, of(300), 32, 60099), KBUCKETS_ENTRY_PENDING + 2);
    CHECK(kbuckets_pending_update(table, sizeof table, of(300), 32, 1, 1), KBUCKETS_UPDATE_UPDATED_PENDING);
    CHECK(kbuckets_update_node(table, sizeof table, of(300), 32, 0, 0, 0, 0, 0, 8, KBUCKETS_NOT_GIVEN, 60099), KBUCKETS_UPDATE_UPDATED_PENDING);
    CHECK(kbuckets_entry(table, sizeof table, of(300), 32, 60100), KBUCKETS_ENTRY_PRESENT + 3);
    CHECK(kbuckets_present_update(table, sizeof table, of(300), 32, 0, KBUCKETS_NOT_GIVEN), KBUCKETS_UPDATE_UPDATED);
    CHECK(kbuckets_present_update(table, sizeof table, of(300), 32, 1, KBUCKETS_OUTGOING), KBUCKETS_UPDATE_UPDATED_AND_PROMOTED);
    CHECK(put(300, 1, 0, 60100), KBUCKETS_INSERT_VALUE_UPDATED);
    CHECK(put(300, 1, 0, 60100), KBUCKETS_INSERT_UPDATED);
    CHECK(put(300, 0, 0, 60100), KBUCKETS_INSERT_STATUS_UPDATED);
    CHECK(put(300, 1, 0, 60100), KBUCKETS_INSERT_STATUS_UPDATED_AND_PROMOTED);
    CHECK(kbuckets_take_applied_pending(table, sizeof table, answer, sizeof answer), KBUCKETS_APPLIED_RECORD);
    CHECK(last(answer), 300);
    CHECK(answer[32], 1);
    CHECK(last(answer + 33), 256);
    CHECK(answer[ANSWER - 1], 0);
    CHECK(answer[ANSWER - 2], 1);
    CHECK(answer[ANSWER], UNTOUCHED);
    CHECK(kbuckets_take_applied_pending(table, sizeof table, answer, sizeof answer), KBUCKETS_APPLIED_NONE);
    CHECK(kbuckets_update_node(table, sizeof table, of(256), 32, 0, 0, 0, 0, 0, 8, 1, 60100), KBUCKETS_FAILED_KEY_NON_EXISTENT);
}

/* Slots that differ in one byte alone, at equal addresses: other values, in updates, filters, the predicate and what is listed. */
static void slots(void) {
    const kbuckets_slot slot = (kbuckets_slot)0x0102030405060708u;
    for (unsigned i = 0; i < KBUCKETS_SLOT_BYTES; i++) {
        const kbuckets_slot twin = slot ^ (kbuckets_slot)0x80 << 8 * i, third = slot ^ (kbuckets_slot)0x40 << 8 * i;
        new_table();
        CHECK(kbuckets_absent_insert(table, sizeof table, of(4), 32, 1, 10, 0, 0, 1, slot, 1, 0, 0, EVERY_HOUR, answer, ANSWER), KBUCKETS_BUCKET_INSERT_INSERTED);
        CHECK(kbuckets_update_node(table, sizeof table, of(4), 32, 1, 10, 0, 0, 1, slot, KBUCKETS_NOT_GIVEN, 0), KBUCKETS_UPDATE_NOT_MODIFIED);
        CHECK(kbuckets_update_node(table, sizeof table, of(4), 32, 1, 10, 0, 0, 1, twin, KBUCKETS_NOT_GIVEN, 0), KBUCKETS_UPDATE_UPDATED);
        CHECK(kbuckets_iter(table, sizeof table, 1, 0, output, sizeof output), 1);
        for (unsigned j = 0; j < KBUCKETS_SLOT_BYTES; j++)
            CHECK(output[KBUCKETS_NODE_BYTES - KBUCKETS_SLOT_BYTES + j], (uint8_t)(twin >> 8 * (KBUCKETS_SLOT_BYTES - 1 - j)));
        const kbuckets_slot asked[3] = {slot, twin, third};
        for (unsigned j = 0; j < 3; j++) {
            CHECK(
                kbuckets_closest_values_predicate(
                    table, sizeof table, of(4), 32, KBUCKETS_SLOT_EQUALS, 0, 0, 0, asked[j], 1, 0, output, sizeof output),
                1);
            CHECK(output[KBUCKETS_KEY_BYTES], asked[j] == twin);
        }
        CHECK(kbuckets_b_new(bucket, sizeof bucket, TIMEOUT, 16, KBUCKETS_FILTER_ON), 0);
        CHECK(kbuckets_b_insert(bucket, sizeof bucket, of(1), 32, 1, 10, 0, 0, 1, slot, 0, 0, 0, answer, ANSWER), KBUCKETS_BUCKET_INSERT_INSERTED);
        CHECK(kbuckets_b_insert(bucket, sizeof bucket, of(2), 32, 1, 10, 0, 0, 1, twin, 0, 0, 0, answer, ANSWER), KBUCKETS_BUCKET_INSERT_INSERTED);
        CHECK(kbuckets_b_insert(bucket, sizeof bucket, of(3), 32, 1, 10, 0, 0, 1, third, 0, 0, 0, answer, ANSWER), KBUCKETS_BUCKET_INSERT_FAILED_FILTER);
        CHECK(kbuckets_b_insert(bucket, sizeof bucket, of(3), 32, 1, 10, 0, 0, 1, slot, 0, 0, 0, answer, ANSWER), KBUCKETS_BUCKET_INSERT_INSERTED);
    }
}

/* The padding before the records is zero, and question 2 asks for it. */
static void padding(void) {
    new_table();
    for (unsigned i = KBUCKETS_PADDING_OFFSET; i < KBUCKETS_RECORDS_OFFSET; i++) {
        CHECK(table[i], 0);
        table[i] = 1;
        CHECK(kbuckets_entry(table, sizeof table, of(1), 32, 0), KBUCKETS_REFUSED_FORM);
        table[i] = 0;
        CHECK(kbuckets_entry(table, sizeof table, of(1), 32, 0), KBUCKETS_ENTRY_ABSENT);
    }
    memset(table, UNTOUCHED, sizeof table);
    new_table();
    for (unsigned i = KBUCKETS_PADDING_OFFSET; i < KBUCKETS_RECORDS_OFFSET; i++) CHECK(table[i], 0);
}

static uint32_t b_put(unsigned n, uint8_t state, uint8_t direction, uint64_t now) {
    return kbuckets_b_insert(bucket, sizeof bucket, of(n), 32, 0, 0, 0, 0, 0, (kbuckets_slot)n, state, direction, now, answer, sizeof answer);
}

/* Rows 6, 8, 9, 10 and 12, on a bucket by itself. */
static void buckets(void) {
    memset(bucket, UNTOUCHED, sizeof bucket);
    CHECK(kbuckets_b_remove(bucket, sizeof bucket, of(1), 32, 0), KBUCKETS_REFUSED_FORM);
    CHECK(kbuckets_b_new(bucket, sizeof bucket + 1, TIMEOUT, 16, 0), KBUCKETS_REFUSED_SIZE);
    CHECK(kbuckets_b_new(bucket, sizeof bucket, TIMEOUT, 17, 0), KBUCKETS_REFUSED_CODE);
    CHECK(bucket[0], UNTOUCHED);
    CHECK(kbuckets_b_new(bucket, sizeof bucket, TIMEOUT, 0, 0), 0);
    CHECK(b_put(1, 1, 1, 0), KBUCKETS_BUCKET_INSERT_TOO_MANY_INCOMING);
    CHECK(b_put(1, 0, 1, 0), KBUCKETS_BUCKET_INSERT_INSERTED);
    CHECK(b_put(1, 0, 1, 0), KBUCKETS_BUCKET_INSERT_NODE_EXISTS);
    CHECK(kbuckets_b_insert(bucket, sizeof bucket, of(2), 31, 2, 0, 0, 0, 0, 0, 0, 0, 0, answer, 0), KBUCKETS_REFUSED_KEY);
    CHECK(kbuckets_b_insert(bucket, sizeof bucket, of(2), 32, 2, 0, 0, 0, 0, 0, 0, 0, 0, answer, 0), KBUCKETS_REFUSED_CODE);
    CHECK(kbuckets_b_insert(bucket, sizeof bucket, of(2), 32, 0, 0, 0, 0, 0, 0, 0, 0, UINT64_MAX, answer, 0), KBUCKETS_REFUSED_TIME);
    CHECK(kbuckets_b_insert(bucket, sizeof bucket, of(2), 32, 0, 0, 0, 0, 0, 0, 0, 0, 0, answer, SHORT), KBUCKETS_REFUSED_OUTPUT);

    CHECK(kbuckets_b_new(bucket, sizeof bucket, TIMEOUT, 16, 0), 0);
    CHECK(b_put(1, 1, 0, 0), 0);
    CHECK(b_put(2, 1, 0, 0), 0);
    CHECK(kbuckets_b_update_status(bucket, sizeof bucket, of(1), 32, 1, KBUCKETS_NOT_GIVEN), KBUCKETS_UPDATE_NOT_MODIFIED);
    CHECK(last(bucket + 2), 2);
    CHECK(last(bucket + 2 + KBUCKETS_NODE_BYTES), 1);
    CHECK(kbuckets_b_update_value(bucket, sizeof bucket, of(1), 32, 1, 10, 0, 0, 1, 1), KBUCKETS_UPDATE_UPDATED);
    CHECK(kbuckets_b_update_value(bucket, sizeof bucket, of(1), 32, 1, 10, 0, 0, 1, 1), KBUCKETS_UPDATE_NOT_MODIFIED);
    CHECK(kbuckets_b_update_value(bucket, sizeof bucket, of(9), 32, 1, 10, 0, 0, 1, 1), KBUCKETS_FAILED_KEY_NON_EXISTENT);
    CHECK(kbuckets_b_remove(bucket, sizeof bucket, of(9), 32, 0), KBUCKETS_REMOVE_NOT_HELD);
    CHECK(kbuckets_b_remove(bucket, sizeof bucket, of(1), 32, 0), KBUCKETS_REMOVE_REMOVED);
    CHECK(bucket[0], 1);

    CHECK(kbuckets_b_new(bucket, sizeof bucket, TIMEOUT, 16, 0), 0);
    CHECK(b_put(1, 0, 0, 100), 0);
    for (unsigned i = 2; i <= 16; i++) CHECK(b_put(i, 1, 0, 100), 0);
    CHECK(b_put(17, 0, 0, 100), KBUCKETS_BUCKET_INSERT_FULL);
    CHECK(b_put(17, 1, 0, 100), KBUCKETS_BUCKET_INSERT_PENDING);
    CHECK(last(answer), 1);
    CHECK(b_put(18, 1, 0, 100), KBUCKETS_BUCKET_INSERT_FULL);
    CHECK(kbuckets_b_update_pending(bucket, sizeof bucket, 2, 0), KBUCKETS_REFUSED_CODE);
    CHECK(kbuckets_b_update_pending(bucket, sizeof bucket, 0, 1), 0);
    CHECK(kbuckets_b_apply_pending(bucket, sizeof bucket, 60099, answer, sizeof answer), KBUCKETS_APPLIED_NONE);
    CHECK(kbuckets_b_apply_pending(bucket, sizeof bucket, 60100, answer, SHORT), KBUCKETS_REFUSED_OUTPUT);
    CHECK(kbuckets_b_apply_pending(bucket, sizeof bucket, 60100, answer, sizeof answer), KBUCKETS_APPLIED_RECORD);
    CHECK(last(answer), 17);
    CHECK(answer[32], 1);
    CHECK(last(answer + 33), 1);
    CHECK(last(bucket + 2), 17);
    bucket[1]++;
    CHECK(kbuckets_b_apply_pending(bucket, sizeof bucket, 0, answer, sizeof answer), KBUCKETS_REFUSED_FORM);

    CHECK(kbuckets_b_new(bucket, sizeof bucket, TIMEOUT, 16, 1), 0);
    CHECK(kbuckets_b_insert(bucket, sizeof bucket, of(1), 32, 1, 10, 1, 2, 3, 1, 0, 0, 0, answer, ANSWER), 0);
    CHECK(kbuckets_b_insert(bucket, sizeof bucket, of(2), 32, 1, 10, 1, 2, 4, 2, 0, 0, 0, answer, ANSWER), 0);
    CHECK(kbuckets_b_insert(bucket, sizeof bucket, of(3), 32, 1, 10, 1, 2, 5, 3, 0, 0, 0, answer, ANSWER), KBUCKETS_BUCKET_INSERT_FAILED_FILTER);
    CHECK(kbuckets_b_insert(bucket, sizeof bucket, of(3), 32, 1, 10, 1, 2, 4, 2, 0, 0, 0, answer, ANSWER), 0);
}

/* A full bucket with one node disconnected, 256, and 300, which waits for its place until 60100. One incoming, the bucket filter on. */
static void waiting(void) {
    uint8_t zero[KBUCKETS_KEY_BYTES] = {0};
    CHECK(kbuckets_new(table, sizeof table, zero, sizeof zero, TIMEOUT, 1, KBUCKETS_FILTER_OFF, KBUCKETS_FILTER_ON), 0);
    for (unsigned i = 0; i < 16; i++) CHECK(put(256 + i, i > 0, 0, 100), KBUCKETS_INSERT_INSERTED);
    CHECK(
        kbuckets_absent_insert(table, sizeof table, of(300), 32, 1, 10, 0, 0, 9, 7, 1, 0, 100, EVERY_HOUR, answer, sizeof answer),
        KBUCKETS_BUCKET_INSERT_PENDING);
}

/* The oldest record is that of 300 with this ending, and no other is there. */
static void ended(int line, uint8_t ending) {
    memset(answer, UNTOUCHED, sizeof answer);
    check(line, kbuckets_take_applied_pending(table, sizeof table, answer, sizeof answer), KBUCKETS_APPLIED_RECORD);
    check(line, last(answer), 300);
    check(line, answer[KBUCKETS_KEY_BYTES], ending);
    if (ending == KBUCKETS_ENDING_REPLACED)
        check(line, last(answer + KBUCKETS_KEY_BYTES + 1), 256);
    else
        for (size_t i = KBUCKETS_KEY_BYTES + 1; i < KBUCKETS_RECORD_BYTES; i++) check(line, answer[i], 0);
    check(line, answer[KBUCKETS_RECORD_BYTES], UNTOUCHED);
    check(line, kbuckets_take_applied_pending(table, sizeof table, answer, sizeof answer), KBUCKETS_APPLIED_NONE);
}

#define ENDED(ending) ended(__LINE__, KBUCKETS_ENDING_##ending)

/* Each ending of a pending, the queue full of them, and an ending that is none. */
static void endings(void) {
    waiting();
    CHECK(kbuckets_entry(table, sizeof table, of(300), 32, 60100), KBUCKETS_ENTRY_PRESENT + 2);
    ENDED(REPLACED);
    waiting();
    CHECK(kbuckets_remove(table, sizeof table, of(257), 32, 60099), KBUCKETS_REMOVE_REMOVED);
    CHECK(kbuckets_entry(table, sizeof table, of(300), 32, 60100), KBUCKETS_ENTRY_PRESENT + 2);
    ENDED(PLACED);
    waiting();
    CHECK(kbuckets_remove(table, sizeof table, of(256), 32, 60099), KBUCKETS_REMOVE_REMOVED);
    CHECK(put(301, 1, 0, 60099), KBUCKETS_INSERT_INSERTED);
    CHECK(kbuckets_entry(table, sizeof table, of(300), 32, 60100), KBUCKETS_ENTRY_ABSENT);
    ENDED(FIRST_CONNECTED);
    waiting();
    CHECK(kbuckets_update_node(table, sizeof table, of(257), 32, 1, 10, 0, 0, 1, 1, KBUCKETS_NOT_GIVEN, 100), KBUCKETS_UPDATE_UPDATED);
    CHECK(kbuckets_update_node(table, sizeof table, of(258), 32, 1, 10, 0, 0, 2, 2, KBUCKETS_NOT_GIVEN, 100), KBUCKETS_UPDATE_UPDATED);
    CHECK(kbuckets_iter(table, sizeof table, 1, 60100, output, sizeof output), 1);
    ENDED(BUCKET_FILTER);
    waiting();
    CHECK(kbuckets_pending_update(table, sizeof table, of(300), 32, 1, 1), KBUCKETS_UPDATE_UPDATED_PENDING);
    CHECK(kbuckets_present_update(table, sizeof table, of(257), 32, 1, 1), KBUCKETS_UPDATE_UPDATED);
    CHECK(kbuckets_remove(table, sizeof table, of(300), 32, 60100), KBUCKETS_REMOVE_NOT_HELD);
    ENDED(TOO_MANY_INCOMING);
    waiting();
    CHECK(kbuckets_remove(table, sizeof table, of(257), 32, 60099), KBUCKETS_REMOVE_REMOVED);
    CHECK(put(300, 1, 0, 60099), KBUCKETS_INSERT_INSERTED);
    ENDED(INSERTED);
    waiting();
    CHECK(kbuckets_present_update(table, sizeof table, of(256), 32, 1, KBUCKETS_NOT_GIVEN), KBUCKETS_UPDATE_UPDATED_AND_PROMOTED);
    ENDED(FIRST_CONFIRMED);
    waiting();
    CHECK(kbuckets_present_update(table, sizeof table, of(257), 32, 1, 1), KBUCKETS_UPDATE_UPDATED);
    CHECK(kbuckets_update_node_status(table, sizeof table, of(256), 32, 1, 1, 100), KBUCKETS_FAILED_TOO_MANY_INCOMING);
    ENDED(FIRST_CONFIRMED);

    waiting();
    for (unsigned i = 0; i < KBUCKETS_MAX_RECORDS; i++) {
        CHECK(kbuckets_present_update(table, sizeof table, of(256), 32, 1, KBUCKETS_NOT_GIVEN), KBUCKETS_UPDATE_UPDATED_AND_PROMOTED);
        CHECK(kbuckets_present_update(table, sizeof table, of(256), 32, 0, KBUCKETS_NOT_GIVEN), KBUCKETS_UPDATE_UPDATED);
        CHECK(put(300, 1, 0, 100), KBUCKETS_INSERT_PENDING);
    }
    memcpy(before, table, sizeof table);
    CHECK(kbuckets_present_update(table, sizeof table, of(256), 32, 1, KBUCKETS_NOT_GIVEN), KBUCKETS_REFUSED_QUEUE);
    CHECK(
        kbuckets_explain_present_update(table, sizeof table, of(256), 32, 1, KBUCKETS_NOT_GIVEN, output, KBUCKETS_EXPLANATION_BYTES),
        KBUCKETS_REFUSED_QUEUE);
    CHECK(kbuckets_entry(table, sizeof table, of(300), 32, 60100), KBUCKETS_REFUSED_QUEUE);
    CHECK(memcmp(before, table, sizeof table), 0);
    CHECK(kbuckets_take_applied_pending(table, sizeof table, answer, sizeof answer), KBUCKETS_APPLIED_RECORD);
    uint8_t *ending = table + KBUCKETS_HEADER_BYTES - 2 * KBUCKETS_RECORD_BYTES + KBUCKETS_KEY_BYTES; /* of the youngest record */
    CHECK(*ending, KBUCKETS_ENDING_FIRST_CONFIRMED);
    *ending = KBUCKETS_ENDING_FIRST_CONFIRMED + 1;
    CHECK(kbuckets_present_update(table, sizeof table, of(256), 32, 1, KBUCKETS_NOT_GIVEN), KBUCKETS_REFUSED_FORM);
    *ending = KBUCKETS_ENDING_FIRST_CONNECTED;
    CHECK(kbuckets_present_update(table, sizeof table, of(256), 32, 1, KBUCKETS_NOT_GIVEN), KBUCKETS_UPDATE_UPDATED_AND_PROMOTED);
}

/* An explanation of this length stands at the front of the output, and no other byte of output or table has changed. A # in the line
 * is a key of three hexadecimal digits. */
static void says(int line, uint32_t length, const char *expected) {
    char text[KBUCKETS_EXPLANATION_BYTES] = {0};
    size_t n = 0, changed = 0;
    for (const char *c = expected; *c; c++) {
        if (*c == '#') {
            memset(text + n, '0', 61);
            n += 61;
        } else {
            text[n++] = *c;
        }
    }
    check(line, length, n);
    check(line, memcmp(output, text, n) != 0, 0);
    for (size_t i = n; i < sizeof output; i++) changed += output[i] != UNTOUCHED;
    check(line, changed, 0);
    check(line, memcmp(before, table, sizeof table) != 0, 0);
    memset(output, UNTOUCHED, n);
}

#define SAYS(length, expected) says(__LINE__, length, expected)

/* Each call explained, and a line of each reason that the C program's tables can give. */
static void explanations(void) {
    enum { ROOM = KBUCKETS_EXPLANATION_BYTES };
    uint8_t zero[KBUCKETS_KEY_BYTES] = {0};
    memset(output, UNTOUCHED, sizeof output);
    CHECK(kbuckets_new(table, sizeof table, zero, sizeof zero, TIMEOUT, 1, KBUCKETS_FILTER_ON, KBUCKETS_FILTER_ON), 0);
    CHECK(kbuckets_absent_insert(table, sizeof table, of(256), 32, 1, 10, 0, 0, 1, 0, 0, 0, 100, EVERY_HOUR, answer, ANSWER), 0);
    CHECK(kbuckets_absent_insert(table, sizeof table, of(257), 32, 1, 10, 0, 0, 2, 0, 1, 1, 100, EVERY_HOUR, answer, ANSWER), 0);
    for (unsigned i = 258; i < 271; i++) CHECK(put(i, 1, 0, 100), KBUCKETS_INSERT_INSERTED);
    memcpy(before, table, sizeof table);
    SAYS(kbuckets_explain_insert_or_update(table, sizeof table, of(271), 32, 0, 0, 0, 0, 0, 0, 1, 0, 100, EVERY_HOUR, output, ROOM), "Inserted none\n");
    SAYS(
        kbuckets_explain_insert_or_update(table, sizeof table, of(271), 32, 1, 10, 0, 0, 3, 0, 1, 0, 100, EVERY_HOUR, output, ROOM),
        "Failed BucketFilter bucket filter #100 #101\n");
    SAYS(
        kbuckets_explain_update_node(table, sizeof table, of(258), 32, 1, 10, 0, 0, 3, 0, KBUCKETS_NOT_GIVEN, 100, output, ROOM),
        "Failed BucketFilter bucket filter #100 #101\n");
    SAYS(
        kbuckets_explain_update_node_status(table, sizeof table, of(258), 32, 1, 1, 100, output, ROOM),
        "Failed TooManyIncoming incoming limit #101\n");
    SAYS(
        kbuckets_explain_present_update(table, sizeof table, of(256), 32, 1, KBUCKETS_NOT_GIVEN, output, ROOM),
        "UpdatedAndPromoted none\n");
    SAYS(kbuckets_explain_insert_or_update(table, sizeof table, of(256), 32, 0, 0, 0, 0, 0, 9, 1, 0, 100, EVERY_HOUR, output, ROOM), "Updated true none\n");
    SAYS(kbuckets_explain_remove(table, sizeof table, of(256), 32, 100, output, ROOM), "true none\n");
    SAYS(kbuckets_explain_remove(table, sizeof table, of(300), 32, 100, output, ROOM), "false no such key\n");
    SAYS(kbuckets_explain_remove(table, sizeof table, zero, 32, 100, output, ROOM), "false local key\n");

    /* Full: the newcomer waits for place 0, and is the reason that another cannot. */
    CHECK(put(271, 1, 0, 100), KBUCKETS_INSERT_INSERTED);
    memcpy(before, table, sizeof table);
    SAYS(kbuckets_explain_absent_insert(table, sizeof table, of(300), 32, 0, 0, 0, 0, 0, 7, 1, 0, 100, EVERY_HOUR, output, ROOM), "Pending #100 none\n");
    SAYS(
        kbuckets_explain_absent_insert(table, sizeof table, of(300), 32, 0, 0, 0, 0, 0, 7, 0, 0, 100, EVERY_HOUR, output, ROOM),
        "Full newcomer disconnected\n");
    CHECK(put(300, 1, 0, 100), KBUCKETS_INSERT_PENDING);
    memcpy(before, table, sizeof table);
    SAYS(
        kbuckets_explain_insert_or_update(table, sizeof table, of(301), 32, 0, 0, 0, 0, 0, 7, 1, 0, 100, EVERY_HOUR, output, ROOM),
        "Failed BucketFull pending #12c\n");
    SAYS(kbuckets_explain_pending_update(table, sizeof table, of(300), 32, 1, 0, output, ROOM), "UpdatedPending none\n");
    CHECK(kbuckets_update_node_status(table, sizeof table, of(256), 32, 1, 0, 100), KBUCKETS_UPDATE_UPDATED_AND_PROMOTED);
    memcpy(before, table, sizeof table);
    SAYS(kbuckets_explain_absent_insert(table, sizeof table, of(301), 32, 0, 0, 0, 0, 0, 7, 1, 0, 100, EVERY_HOUR, output, ROOM), "Full all connected\n");

    /* Refused as the call, and with OUTPUT in its turn. */
    CHECK(kbuckets_explain_remove(table, sizeof table, of(1), 32, 100, output, ROOM - 1), KBUCKETS_REFUSED_OUTPUT);
    CHECK(kbuckets_explain_remove(table, sizeof table - 1, of(1), 31, 100, output, 0), KBUCKETS_REFUSED_SIZE);
    CHECK(kbuckets_explain_remove(table, sizeof table, of(1), 31, UINT64_MAX, output, 0), KBUCKETS_REFUSED_KEY);
    CHECK(kbuckets_explain_remove(table, sizeof table, of(1), 32, UINT64_MAX, output, 0), KBUCKETS_REFUSED_TIME);
    CHECK(kbuckets_explain_update_node_status(table, sizeof table, of(1), 32, 2, 0, UINT64_MAX, output, 0), KBUCKETS_REFUSED_CODE);
    CHECK(kbuckets_explain_update_node(table, sizeof table, of(1), 32, 0, 0, 0, 0, 1, 0, 2, 0, output, ROOM), KBUCKETS_REFUSED_CODE);
    CHECK(kbuckets_explain_present_update(table, sizeof table, of(1), 32, 1, 0, output, ROOM - 1), KBUCKETS_REFUSED_OUTPUT);
    CHECK(kbuckets_explain_present_update(table, sizeof table, of(1), 32, 1, 0, output, ROOM), KBUCKETS_REFUSED_KIND);
    CHECK(kbuckets_explain_pending_update(table, sizeof table, of(1), 32, 1, 0, output, ROOM), KBUCKETS_REFUSED_KIND);
    CHECK(kbuckets_explain_absent_insert(table, sizeof table, zero, 32, 0, 0, 0, 0, 0, 7, 1, 0, 100, EVERY_HOUR, output, ROOM), KBUCKETS_REFUSED_KIND);
    SAYS(0, "");
}

/* A box swap: what is written of one table is read into another, and what does not fit is refused. */
static void box_swap(void) {
    static uint8_t bytes[KBUCKETS_MAX_WRITTEN_BYTES], again[KBUCKETS_MAX_WRITTEN_BYTES];
    uint8_t zero[KBUCKETS_KEY_BYTES] = {0};
    const size_t head = KBUCKETS_NUM_BUCKETS;
    new_table();
    memset(bytes, UNTOUCHED, sizeof bytes);
    CHECK(kbuckets_write(table, sizeof table, bytes, head - 1), KBUCKETS_REFUSED_OUTPUT);
    CHECK(bytes[0], UNTOUCHED);
    CHECK(kbuckets_write(table, sizeof table, bytes, head), 0);
    for (size_t i = 0; i < head; i++) CHECK(bytes[i], 0);
    CHECK(bytes[head], UNTOUCHED);
    CHECK(kbuckets_read(table, sizeof table, bytes, head), 0);

    /* Sixteen nodes in bucket 8, one of them disconnected; one waits. Two more in bucket 2, and a record. */
    CHECK(put(256, 0, 1, 100), KBUCKETS_INSERT_INSERTED);
    for (unsigned i = 1; i < 16; i++) CHECK(put(256 + i, 1, 0, 100), KBUCKETS_INSERT_INSERTED);
    CHECK(put(300, 1, 0, 100), KBUCKETS_INSERT_PENDING);
    CHECK(kbuckets_present_update(table, sizeof table, of(256), 32, 1, KBUCKETS_NOT_GIVEN), KBUCKETS_UPDATE_UPDATED_AND_PROMOTED);
    CHECK(kbuckets_present_update(table, sizeof table, of(257), 32, 0, KBUCKETS_NOT_GIVEN), KBUCKETS_UPDATE_UPDATED);
    CHECK(put(300, 1, 0, 100), KBUCKETS_INSERT_PENDING);
    CHECK(put(5, 1, 1, 100), KBUCKETS_INSERT_INSERTED);
    CHECK(kbuckets_absent_insert(table, sizeof table, of(4), 32, 1, 10, 1, 2, 3, (kbuckets_slot)0x0102030405060708u, 0, 0, 100, EVERY_HOUR, answer, ANSWER), KBUCKETS_BUCKET_INSERT_INSERTED);
    memcpy(before, table, sizeof table);
    const size_t all = head + 18 * KBUCKETS_NODE_BYTES, entries = head + 18 * KBUCKETS_KEY_BYTES;
    memset(bytes, UNTOUCHED, sizeof bytes);
    CHECK(kbuckets_write(table, sizeof table, bytes, all - 1), KBUCKETS_REFUSED_OUTPUT);
    CHECK(kbuckets_write(table, sizeof table - 1, bytes, all), KBUCKETS_REFUSED_SIZE);
    for (size_t i = 0; i < all; i++) CHECK(bytes[i], UNTOUCHED);
    CHECK(kbuckets_write(table, sizeof table, bytes, sizeof bytes), 18);
    CHECK(memcmp(before, table, sizeof table), 0);
    CHECK(bytes[all], UNTOUCHED);
    for (unsigned i = 0; i < head; i++) CHECK(bytes[i], i == 2 ? 2 : i == 8 ? 16 : 0);
    CHECK(last(bytes + head), 4);
    CHECK(last(bytes + head + KBUCKETS_KEY_BYTES), 5);
    CHECK(last(bytes + head + 2 * KBUCKETS_KEY_BYTES), 257);
    CHECK(last(bytes + entries - KBUCKETS_KEY_BYTES), 256);
    const uint8_t entry[KBUCKETS_WRITTEN_ENTRY_BYTES] = {0, 0, 1, 10, 1, 2, 3, 1, 2, 3, 4, 5, 6, 7, 8};
    CHECK(memcmp(bytes + entries, entry, sizeof entry), 0);
    CHECK(bytes[entries + KBUCKETS_WRITTEN_ENTRY_BYTES], KBUCKETS_CONNECTED);
    CHECK(bytes[entries + KBUCKETS_WRITTEN_ENTRY_BYTES + 1], KBUCKETS_INCOMING);

    /* The storage holds nodes; a pending; a record. */
    CHECK(kbuckets_read(table, sizeof table, bytes, all), KBUCKETS_REFUSED_LOAD);
    CHECK(memcmp(before, table, sizeof table), 0);
    for (unsigned i = 256; i < 272; i++) CHECK(kbuckets_remove(table, sizeof table, of(i), 32, 100), KBUCKETS_REMOVE_REMOVED);
    CHECK(kbuckets_remove(table, sizeof table, of(4), 32, 100), KBUCKETS_REMOVE_REMOVED);
    CHECK(kbuckets_remove(table, sizeof table, of(5), 32, 100), KBUCKETS_REMOVE_REMOVED);
    CHECK(kbuckets_read(table, sizeof table, bytes, all), KBUCKETS_REFUSED_LOAD);
    CHECK(kbuckets_remove(table, sizeof table, of(300), 32, 60100), KBUCKETS_REMOVE_REMOVED);
    CHECK(kbuckets_read(table, sizeof table, bytes, all), KBUCKETS_REFUSED_LOAD);
    CHECK(kbuckets_take_applied_pending(table, sizeof table, answer, sizeof answer), KBUCKETS_APPLIED_RECORD);
    CHECK(kbuckets_read(table, sizeof table, bytes, all), KBUCKETS_REFUSED_LOAD);
    CHECK(kbuckets_take_applied_pending(table, sizeof table, answer, sizeof answer), KBUCKETS_APPLIED_RECORD);
    CHECK(kbuckets_read(table, sizeof table, bytes, all), 18);

    /* New storage: the same places, no pending and no record; written again byte for byte. */
    new_table();
    CHECK(kbuckets_read(table, sizeof table - 1, bytes, all), KBUCKETS_REFUSED_SIZE);
    CHECK(kbuckets_read(table, sizeof table, bytes, all - 1), KBUCKETS_REFUSED_LOAD);
    CHECK(kbuckets_read(table, sizeof table, bytes, all + 1), KBUCKETS_REFUSED_LOAD);
    CHECK(kbuckets_read(table, sizeof table, bytes, 0), KBUCKETS_REFUSED_LOAD);
    CHECK(kbuckets_read(table, sizeof table, bytes, all), 18);
    const size_t held = 2 + KBUCKETS_MAX_NODES_PER_BUCKET * KBUCKETS_NODE_BYTES;
    for (size_t i = 0; i < KBUCKETS_NUM_BUCKETS; i++) {
        const size_t at = KBUCKETS_HEADER_BYTES + i * KBUCKETS_STORED_BUCKET_BYTES;
        CHECK(memcmp(before + at, table + at, held), 0);
        for (size_t j = held; j < KBUCKETS_STORED_BUCKET_BYTES; j++) CHECK(table[at + j], 0);
    }
    for (size_t i = KBUCKETS_PADDING_OFFSET - 1; i < KBUCKETS_HEADER_BYTES; i++) CHECK(table[i], 0);
    CHECK(kbuckets_write(table, sizeof table, again, sizeof again), 18);
    CHECK(memcmp(bytes, again, all), 0);

    /* What does not fit: a code, a size, a key of another bucket, the order, another local key, the limit of incoming nodes. */
    const struct { size_t at; uint8_t value; } faults[] = {
        {entries, 2}, {entries + 1, 2}, {entries + 2, 0}, {entries + 2, 2}, {0, 1}, {2, 1}, {8, 17}, {head + 31, 8}, {head + 31, 5}, {entries, 1}};
    for (size_t i = 0; i < sizeof faults / sizeof faults[0]; i++) {
        const uint8_t old = bytes[faults[i].at];
        bytes[faults[i].at] = faults[i].value;
        new_table();
        memcpy(before, table, sizeof table);
        const uint32_t taken = i + 1 == sizeof faults / sizeof faults[0] ? 18 : KBUCKETS_REFUSED_LOAD; /* the last one fits */
        CHECK(kbuckets_read(table, sizeof table, bytes, all), taken);
        if (taken == KBUCKETS_REFUSED_LOAD) CHECK(memcmp(before, table, sizeof table), 0);
        bytes[faults[i].at] = old;
    }
    CHECK(kbuckets_new(table, sizeof table, of(6), 32, TIMEOUT, 16, 0, 0), 0);
    CHECK(kbuckets_read(table, sizeof table, bytes, all), KBUCKETS_REFUSED_LOAD);
    CHECK(kbuckets_new(table, sizeof table, zero, sizeof zero, TIMEOUT, 0, 0, 0), 0);
    CHECK(kbuckets_read(table, sizeof table, bytes, all), KBUCKETS_REFUSED_LOAD);
    table[KBUCKETS_STORAGE_BYTES - 1] = 1;
    CHECK(kbuckets_read(table, sizeof table, bytes, all), KBUCKETS_REFUSED_FORM);
    CHECK(kbuckets_write(table, sizeof table, again, 0), KBUCKETS_REFUSED_FORM);

    /* Values of one /24 in a bucket: three different ones are refused where the bucket filter is on. */
    for (uint8_t third = 1; third <= 3; third++)
        for (uint8_t filter = 0; filter <= 1; filter++) {
            memset(bytes, 0, head + 4 * KBUCKETS_NODE_BYTES);
            bytes[8] = 4;
            for (unsigned i = 0; i < 4; i++) {
                uint8_t *k = bytes + head + i * KBUCKETS_KEY_BYTES, *e = bytes + head + 4 * KBUCKETS_KEY_BYTES + i * KBUCKETS_WRITTEN_ENTRY_BYTES;
                k[30] = 1;
                k[31] = (uint8_t)i;
                e[2] = 1;
                e[3] = 192;
                e[6] = i == 3 ? third : (uint8_t)(1 + i % 2);
            }
            CHECK(kbuckets_new(table, sizeof table, zero, sizeof zero, TIMEOUT, 16, 1, filter), 0);
            CHECK(kbuckets_read(table, sizeof table, bytes, head + 4 * KBUCKETS_NODE_BYTES), filter && third == 3 ? KBUCKETS_REFUSED_LOAD : 4);
        }
}

/* Every bucket but 4 and 5 is malformed: calls that read no other are answered, and leave all others as they are. */
static void malformed_elsewhere(void) {
    enum { FIRST = KBUCKETS_HEADER_BYTES + 4 * KBUCKETS_STORED_BUCKET_BYTES, BEHIND = FIRST + 2 * KBUCKETS_STORED_BUCKET_BYTES };
    uint64_t distances[2] = {5, 6}, third[3] = {5, 6, 7};
    new_table();
    CHECK(put(16, 0, 0, 0), KBUCKETS_INSERT_INSERTED);
    CHECK(put(32, 0, 0, 0), KBUCKETS_INSERT_INSERTED);
    memset(table + KBUCKETS_HEADER_BYTES, UNTOUCHED, FIRST - KBUCKETS_HEADER_BYTES);
    memset(table + BEHIND, UNTOUCHED, sizeof table - BEHIND);
    memcpy(before, table, sizeof table);
    CHECK(put(33, 1, 0, 0), KBUCKETS_INSERT_INSERTED);
    CHECK(kbuckets_entry(table, sizeof table, of(16), 32, 0), KBUCKETS_ENTRY_PRESENT);
    CHECK(kbuckets_entry(table, sizeof table, of(0), 32, 0), KBUCKETS_ENTRY_SELF);
    CHECK(kbuckets_update_node_status(table, sizeof table, of(32), 32, 1, 0, 0), KBUCKETS_UPDATE_UPDATED_AND_PROMOTED);
    CHECK(kbuckets_closest_keys(table, sizeof table, of(32), 32, 2, 0, output, sizeof output), 2);
    CHECK(kbuckets_nodes_by_distances(table, sizeof table, distances, 2, 16, 0, output, sizeof output), 3);
    CHECK(kbuckets_take_applied_pending(table, sizeof table, answer, ANSWER), KBUCKETS_APPLIED_NONE);
    CHECK(kbuckets_remove(table, sizeof table, of(33), 32, 0), KBUCKETS_REMOVE_REMOVED);
    CHECK(memcmp(table, before, FIRST), 0);
    CHECK(memcmp(table + BEHIND, before + BEHIND, sizeof table - BEHIND), 0);
    memcpy(before, table, sizeof table);
    CHECK(put(64, 1, 0, 0), KBUCKETS_REFUSED_FORM);
    CHECK(kbuckets_entry(table, sizeof table, of(64), 31, 0), KBUCKETS_REFUSED_KEY);
    CHECK(kbuckets_pending_update(table, sizeof table, of(64), 32, 1, 0), KBUCKETS_REFUSED_FORM);
    CHECK(kbuckets_pending_update(table, sizeof table, of(34), 32, 1, 0), KBUCKETS_REFUSED_KIND);
    CHECK(kbuckets_explain_remove(table, sizeof table, of(64), 32, 0, output, 2047), KBUCKETS_REFUSED_OUTPUT);
    CHECK(kbuckets_explain_remove(table, sizeof table, of(64), 32, 0, output, 2048), KBUCKETS_REFUSED_FORM);
    CHECK(kbuckets_explain_remove(table, sizeof table, of(32), 32, 0, output, 2048), sizeof "true none\n" - 1);
    CHECK(kbuckets_iter(table, sizeof table, 0, 0, output, sizeof output), 0);
    CHECK(kbuckets_iter(table, sizeof table, 1, 0, output, sizeof output), KBUCKETS_REFUSED_FORM);
    CHECK(kbuckets_closest_keys(table, sizeof table, of(32), 32, 2, 0, output, sizeof output), KBUCKETS_REFUSED_FORM);
    CHECK(kbuckets_nodes_by_distances(table, sizeof table, third, 3, 1, 0, output, sizeof output), KBUCKETS_REFUSED_FORM);
    CHECK(kbuckets_write(table, sizeof table, output, sizeof output), KBUCKETS_REFUSED_FORM);
    table[KBUCKETS_PADDING_OFFSET - 3] = KBUCKETS_FILTER_ON;  /* the table filter */
    before[KBUCKETS_PADDING_OFFSET - 3] = KBUCKETS_FILTER_ON;
    CHECK(put(34, 1, 0, 0), KBUCKETS_REFUSED_FORM);
    CHECK(put(32, 1, 0, 0), KBUCKETS_INSERT_UPDATED);
    CHECK(memcmp(table, before, sizeof table), 0);
    new_table();
    CHECK(kbuckets_iter(table, sizeof table, 16, 0, output, sizeof output), 0);
}

enum { MONDAY = 1, SUNDAY = 7 };

/* What a call that inserts is given of the hours. */
typedef struct {
    const uint16_t *windows;
    size_t windows_len;
    const uint16_t *closed;
    size_t closed_len;
    uint16_t year, month, day, minute;
} hours;
#define HOURS(h) (h).windows, (h).windows_len, (h).closed, (h).closed_len, (h).year, (h).month, (h).day, (h).minute

static hours at(const uint16_t *windows, size_t windows_len, uint16_t year, uint16_t month, uint16_t day, uint16_t minute) {
    const hours h = {windows, windows_len, none, 0, year, month, day, minute};
    return h;
}

/* Both calls that insert: a connected node without an address. */
static uint32_t put_in(hours h, unsigned n, kbuckets_slot slot, uint64_t now, size_t room) {
    return kbuckets_insert_or_update(table, sizeof table, of(n), 32, 0, 0, 0, 0, 0, slot, 1, 0, now, HOURS(h), answer, room);
}
static uint32_t put_absent_in(hours h, unsigned n, kbuckets_slot slot, uint64_t now) {
    return kbuckets_absent_insert(table, sizeof table, of(n), 32, 0, 0, 0, 0, 0, slot, 1, 0, now, HOURS(h), answer, ANSWER);
}

/* A key by both calls that insert, and by their explanations; all answer alike where they refuse, and leave all as it is. */
static uint32_t admitted(unsigned n, hours h) {
    static uint8_t line[KBUCKETS_EXPLANATION_BYTES];
    const size_t size = sizeof table;
    memcpy(before, table, size);
    memset(answer, UNTOUCHED, sizeof answer);
    memset(line, UNTOUCHED, sizeof line);
    const uint32_t told = kbuckets_explain_insert_or_update(
        table, size, of(n), 32, 0, 0, 0, 0, 0, 1, 1, 0, 0, HOURS(h), line, sizeof line);
    const uint32_t absent_told = kbuckets_explain_absent_insert(
        table, size, of(n), 32, 0, 0, 0, 0, 0, 1, 1, 0, 0, HOURS(h), line, sizeof line);
    CHECK(memcmp(before, table, size), 0);
    const uint32_t absent = put_absent_in(h, n, 1, 0);
    if (absent < KBUCKETS_REFUSED) CHECK(kbuckets_remove(table, size, of(n), 32, 0), KBUCKETS_REMOVE_REMOVED);
    CHECK(memcmp(before, table, size), 0);
    const uint32_t inserted = put_in(h, n, 1, 0, ANSWER);
    CHECK(absent, inserted);
    if (inserted < KBUCKETS_REFUSED) {
        CHECK(told, sizeof "Inserted none\n" - 1);
        CHECK(absent_told, sizeof "Inserted none\n" - 1);
        CHECK(kbuckets_remove(table, size, of(n), 32, 0), KBUCKETS_REMOVE_REMOVED);
    } else {
        CHECK(told, inserted);
        CHECK(absent_told, inserted);
        for (size_t i = 0; i < sizeof line; i++) CHECK(line[i], UNTOUCHED);
    }
    for (size_t i = 0; i < sizeof answer; i++) CHECK(answer[i], UNTOUCHED);
    CHECK(memcmp(before, table, size), 0);
    return inserted;
}

/* Windows, closed dates, and what is none of them. 16 November 2026 is a Monday. */
static void session_hours(void) {
    const uint16_t office[6] = {1, 540, 1020, 5, 0, 1440};
    hours h = at(office, 6, 2026, 11, 16, 539);
    new_table();
    CHECK(put(4, 1, 0, 0), KBUCKETS_INSERT_INSERTED);
    CHECK(admitted(5, h), KBUCKETS_REFUSED_CLOSED);
    h.minute = 540;
    CHECK(admitted(5, h), 0);
    h.minute = 1019;
    CHECK(admitted(5, h), 0);
    h.minute = 1020;
    CHECK(admitted(5, h), KBUCKETS_REFUSED_CLOSED);
    h.day = 20;
    CHECK(admitted(5, h), 0);
    h.minute = KBUCKETS_MINUTES - 1;
    CHECK(admitted(5, h), 0);
    h.minute = KBUCKETS_MINUTES;
    CHECK(admitted(5, h), KBUCKETS_REFUSED_HOURS);
    h.minute = 0;
    h.windows_len = 3;
    CHECK(admitted(5, h), KBUCKETS_REFUSED_CLOSED);
    h.windows_len = 0;
    h.year = h.month = 0;
    CHECK(admitted(5, h), 0);

    /* A closed date has no windows; it is one with its year, month and day. */
    const uint16_t closed[9] = {2026, 11, 20, 2026, 11, 16, 2025, 11, 16};
    h = at(office, 6, 2026, 11, 16, 600);
    h.closed = closed;
    for (size_t i = 0; i <= 9; i++) {
        h.closed_len = i;
        CHECK(admitted(5, h), i % 3 ? KBUCKETS_REFUSED_HOURS : i < 6 ? 0 : KBUCKETS_REFUSED_CLOSED);
    }
    h.closed = closed + 6;
    h.closed_len = 3;
    CHECK(admitted(5, h), 0);

    /* Outside all windows the local key is answered and a held key updated; hours that are none are refused, whatever the key. */
    h = at(office, 6, 2026, 11, 17, 600);
    CHECK(put_in(h, 0, 4, 0, ANSWER), KBUCKETS_FAILED_INVALID_SELF_UPDATE);
    CHECK(put_in(h, 4, 5, 0, ANSWER), KBUCKETS_INSERT_VALUE_UPDATED);
    CHECK(put_absent_in(h, 4, 5, 0), KBUCKETS_REFUSED_KIND);
    CHECK(put_in(h, 5, 5, 0, SHORT), KBUCKETS_REFUSED_OUTPUT);
    h.day = 31;
    CHECK(put_in(h, 0, 4, 0, ANSWER), KBUCKETS_REFUSED_HOURS);
    CHECK(put_in(h, 4, 6, 0, ANSWER), KBUCKETS_REFUSED_HOURS);
    CHECK(put_absent_in(h, 4, 5, 0), KBUCKETS_REFUSED_KIND);

    /* Lists: 32 windows and 64 dates, and one more; a rest of one or two numbers. */
    uint16_t windows[3 * (KBUCKETS_MAX_WINDOWS + 1)], dates[3 * (KBUCKETS_MAX_CLOSED_DATES + 1)];
    for (size_t i = 0; i < sizeof windows / sizeof windows[0]; i++) windows[i] = i % 3 == 0 ? 2 : i % 3 == 1 ? 0 : KBUCKETS_MINUTES;
    for (size_t i = 0; i < sizeof dates / sizeof dates[0]; i++) dates[i] = i % 3 == 0 ? 2024 : i % 3 == 1 ? 2 : 29;
    h = at(windows, 3 * KBUCKETS_MAX_WINDOWS, 2026, 11, 17, 600);
    h.closed = dates;
    h.closed_len = 3 * KBUCKETS_MAX_CLOSED_DATES;
    CHECK(admitted(5, h), 0);
    for (size_t more = 1; more <= 3; more++) {
        const uint32_t fewest = more == 3 ? 0 : (uint32_t)KBUCKETS_REFUSED_HOURS;
        h.windows_len = 3 * KBUCKETS_MAX_WINDOWS + more;
        CHECK(admitted(5, h), KBUCKETS_REFUSED_HOURS);
        h.windows_len = more;
        CHECK(admitted(5, h), fewest);
        h.windows_len = 3;
        h.closed_len = 3 * KBUCKETS_MAX_CLOSED_DATES + more;
        CHECK(admitted(5, h), KBUCKETS_REFUSED_HOURS);
        h.closed_len = more;
        CHECK(admitted(5, h), fewest);
        h.closed_len = 3 * KBUCKETS_MAX_CLOSED_DATES;
    }
    /* One window that is none, at each place; then one date. */
    h.windows_len = 3 * KBUCKETS_MAX_WINDOWS;
    const uint16_t bad_windows[][3] = {{0, 0, 1440}, {8, 0, 1440}, {2, 600, 600}, {2, 601, 600}, {2, 0, 1441}, {2, 65535, 0}, {65535, 0, 1}};
    for (size_t i = 0; i < KBUCKETS_MAX_WINDOWS; i++)
        for (size_t j = 0; j < sizeof bad_windows / sizeof bad_windows[0]; j++) {
            uint16_t good[3];
            memcpy(good, windows + 3 * i, sizeof good);
            memcpy(windows + 3 * i, bad_windows[j], sizeof good);
            CHECK(put_absent_in(h, 5, 1, 0), KBUCKETS_REFUSED_HOURS);
            memcpy(windows + 3 * i, good, sizeof good);
        }
    const uint16_t bad_dates[][3] = {{1999, 12, 31}, {2400, 1, 1}, {2026, 0, 1}, {2026, 13, 1}, {2026, 1, 0}, {2026, 1, 32}, {2026, 4, 31},
                                     {2026, 2, 29}, {2100, 2, 29}, {2200, 2, 29}, {2300, 2, 29}, {2000, 2, 30}, {65535, 65535, 65535}};
    for (size_t j = 0; j < sizeof bad_dates / sizeof bad_dates[0]; j++) {
        const hours moment = at(windows, 3, bad_dates[j][0], bad_dates[j][1], bad_dates[j][2], 600);
        CHECK(admitted(5, moment), KBUCKETS_REFUSED_HOURS);
        for (size_t i = 0; i < KBUCKETS_MAX_CLOSED_DATES; i++) {
            uint16_t good[3];
            memcpy(good, dates + 3 * i, sizeof good);
            memcpy(dates + 3 * i, bad_dates[j], sizeof good);
            CHECK(put_absent_in(h, 5, 1, 0), KBUCKETS_REFUSED_HOURS);
            memcpy(dates + 3 * i, good, sizeof good);
        }
    }
    CHECK(admitted(5, h), 0);

    /* The hours come last: a full queue and a due pending, in whose bucket nothing is applied where they refuse. */
    waiting();
    memcpy(before, table, sizeof table);
    h = at(office, 3, 2026, 11, 17, 600);
    CHECK(put_in(h, 301, 7, 60100, ANSWER), KBUCKETS_REFUSED_CLOSED);
    CHECK(memcmp(before, table, sizeof table), 0);
    table[KBUCKETS_PADDING_OFFSET - 1] = KBUCKETS_MAX_RECORDS;
    CHECK(put_in(h, 301, 7, 60100, ANSWER), KBUCKETS_REFUSED_QUEUE);
    h.day = 31;
    CHECK(put_in(h, 301, 7, 60100, ANSWER), KBUCKETS_REFUSED_QUEUE);
    CHECK(put_in(h, 301, 7, 60099, ANSWER), KBUCKETS_REFUSED_HOURS);
    table[KBUCKETS_PADDING_OFFSET - 1] = 0;
    h.day = 17;
    /* 300 is pending as it is stored, 256 held; the call places the one and evicts the other, and neither is new. */
    CHECK(put_in(h, 256, 7, 60100, ANSWER), KBUCKETS_FAILED_BUCKET_FULL);
    ENDED(REPLACED);
    CHECK(put_in(h, 256, 7, 60100, ANSWER), KBUCKETS_REFUSED_CLOSED);
    waiting();
    CHECK(kbuckets_insert_or_update(table, sizeof table, of(300), 32, 1, 10, 0, 0, 9, 7, 1, 0, 60099, HOURS(h), answer, ANSWER), KBUCKETS_FAILED_BUCKET_FULL);
    CHECK(kbuckets_insert_or_update(table, sizeof table, of(300), 32, 1, 10, 0, 0, 9, 7, 1, 0, 60100, HOURS(h), answer, ANSWER), KBUCKETS_INSERT_UPDATED);
    ENDED(REPLACED);
}

/* Every date from 2000 to 2399 has the weekday that the C library gives it: the window of that day admits a new key, and no other does. What
 * the C library takes for another date is none. */
static void calendar(void) {
    unsigned dates = 0;
    new_table();
    for (int year = 1999; year <= 2400; year++)
        for (int month = 0; month <= 13; month++)
            for (int day = 0; day <= 32; day++) {
                struct tm given, back;
                memset(&given, 0, sizeof given);
                given.tm_year = year - 1900;
                given.tm_mon = month - 1;
                given.tm_mday = day;
                const time_t seconds = timegm(&given);
                const struct tm *found = gmtime(&seconds);
                if (!found) {
                    CHECK(0, 1);
                    return;
                }
                back = *found;
                const int is_date = year >= 2000 && year <= 2399 && back.tm_year == year - 1900 && back.tm_mon == month - 1 && back.tm_mday == day;
                dates += (unsigned)is_date;
                const unsigned today = (unsigned)(back.tm_wday + 6) % 7 + 1;
                for (unsigned weekday = MONDAY; weekday <= SUNDAY; weekday++) {
                    const uint16_t all_day[3] = {(uint16_t)weekday, 0, KBUCKETS_MINUTES};
                    const hours h = at(all_day, 3, (uint16_t)year, (uint16_t)month, (uint16_t)day, 720);
                    const uint32_t code = put_in(h, 5, 1, 0, ANSWER);
                    if (is_date && weekday == today) {
                        CHECK(code, KBUCKETS_INSERT_INSERTED);
                        CHECK(kbuckets_remove(table, sizeof table, of(5), 32, 0), KBUCKETS_REMOVE_REMOVED);
                    } else {
                        CHECK(code, is_date ? KBUCKETS_REFUSED_CLOSED : KBUCKETS_REFUSED_HOURS);
                    }
                }
            }
    CHECK(dates, 146097);
}

/* Header and library belong together: what a host asks at its start. */
static inline int same_version(void) { return kbuckets_version() == KBUCKETS_VERSION; }

int main(void) {
    CHECK(same_version(), 1);
    CHECK(kbuckets_version() >> 16, KBUCKETS_VERSION_MAJOR);
    CHECK(kbuckets_version() >> 8 & 0xff, KBUCKETS_VERSION_MINOR);
    CHECK(kbuckets_version() & 0xff, KBUCKETS_VERSION_PATCH);
    refusals();
    listings();
    pendings();
    slots();
    padding();
    buckets();
    endings();
    explanations();
    box_swap();
    malformed_elsewhere();
    session_hours();
    calendar();
    printf("kbuckets.c: %u of %u checks passed\n", checks - failures, checks);
    return failures != 0;
}

/* The layout of a storage, from kbuckets.h; every call of the library with its questions and answers; and the call itself. */
#ifndef CALLS_H
#define CALLS_H

#include <stdbool.h>
#include <stdlib.h>

#include "../../include/kbuckets.h"

enum {
    STORAGE = KBUCKETS_STORAGE_BYTES,
    HEADER = KBUCKETS_HEADER_BYTES,
    STORED = KBUCKETS_STORED_BUCKET_BYTES,
    ALONE = KBUCKETS_BUCKET_BYTES,
    KEY = KBUCKETS_KEY_BYTES,
    NODE = KBUCKETS_NODE_BYTES,
    RECORD = KBUCKETS_RECORD_BYTES,
    PLACES = KBUCKETS_MAX_NODES_PER_BUCKET,
    BUCKETS = KBUCKETS_NUM_BUCKETS,
    RECORDS = KBUCKETS_MAX_RECORDS,
    /* in the header */
    TIMEOUT_AT = KEY,
    MAX_INCOMING_AT = TIMEOUT_AT + KBUCKETS_TIME_BYTES,
    TABLE_FILTER_AT = MAX_INCOMING_AT + 1,
    BUCKET_FILTER_AT = TABLE_FILTER_AT + 1,
    COUNT_AT = BUCKET_FILTER_AT + 1,
    PADDING_AT = COUNT_AT + 1,
    RECORDS_AT = KBUCKETS_RECORDS_OFFSET,
    /* in a node */
    STATE_AT = KEY,
    DIRECTION_AT = STATE_AT + 1,
    VALUE_AT = DIRECTION_AT + 1,
    FLAG_AT = VALUE_AT,
    OCTETS_AT = FLAG_AT + 1,
    SLOT_AT = OCTETS_AT + 4,
    /* in a record */
    ENDING_AT = KEY,
    EVICTED_AT = ENDING_AT + 1,
    /* in a bucket */
    FIRST_AT = 1,
    NODES_AT = 2,
    PENDING_AT = NODES_AT + PLACES * NODE,
    PENDING_NODE_AT = PENDING_AT + 1,
    DEADLINE_AT = PENDING_NODE_AT + NODE,
    /* behind a bucket by itself */
    ALONE_TIMEOUT_AT = STORED,
    ALONE_MAX_AT = ALONE_TIMEOUT_AT + KBUCKETS_TIME_BYTES,
    ALONE_FILTER_AT = ALONE_MAX_AT + 1
};

#define Q(n) (1u << (n))
#define STATUS_UPDATES 0x000B000FULL /* 0 to 3, 16, 17, 19 */
#define NODE_UPDATES 0x000F000FULL /* 0 to 3, 16 to 19 */
#define PRESENT_UPDATES 0x00030007ULL /* 0 to 2, 16, 17 */
#define VALUE_UPDATES 0x000A000BULL /* 0, 1, 3, 17, 19 */
#define INSERTS 0x0037007FULL /* 0 to 6, 16 to 18, 20, 21 */
#define ABSENT_INSERTS 0x1FULL
#define BUCKET_INSERTS 0x3FULL
#define ENTRIES 0x0000000F000F0003ULL /* 0, 1, 16 to 19, 32 to 35 */
/* name, its questions, the bytes of an entry of its output, the answers that the header lists */
#define CALLS(X)                                                                                                                           \
    X(new, Q(1) | Q(3) | Q(4), 0, 1)                                                                                                       \
    X(update_node_status, Q(1) | Q(2) | Q(3) | Q(4) | Q(5) | Q(8), 0, STATUS_UPDATES)                                                      \
    X(update_node, Q(1) | Q(2) | Q(3) | Q(4) | Q(5) | Q(8), 0, NODE_UPDATES)                                                               \
    X(insert_or_update, Q(1) | Q(2) | Q(3) | Q(4) | Q(5) | Q(6) | Q(8) | Q(10) | Q(11), 0, INSERTS)                                        \
    X(remove, Q(1) | Q(2) | Q(3) | Q(5) | Q(8), 0, 3)                                                                                      \
    X(entry, Q(1) | Q(2) | Q(3) | Q(5) | Q(8), 0, ENTRIES)                                                                                 \
    X(present_update, Q(1) | Q(2) | Q(3) | Q(4) | Q(7) | Q(8), 0, PRESENT_UPDATES)                                                         \
    X(pending_update, Q(1) | Q(2) | Q(3) | Q(4) | Q(7), 0, 1 << 3)                                                                         \
    X(absent_insert, Q(1) | Q(2) | Q(3) | Q(4) | Q(5) | Q(6) | Q(7) | Q(10) | Q(11), 0, ABSENT_INSERTS)                                    \
    X(iter, Q(1) | Q(2) | Q(5) | Q(6) | Q(8), KBUCKETS_ITER_ENTRY_BYTES, 0)                                                                \
    X(nodes_by_distances, Q(1) | Q(2) | Q(5) | Q(6) | Q(8), KBUCKETS_NODES_BY_DISTANCES_ENTRY_BYTES, 0)                                    \
    X(closest_keys, Q(1) | Q(2) | Q(3) | Q(5) | Q(6) | Q(8), KBUCKETS_CLOSEST_KEYS_ENTRY_BYTES, 0)                                         \
    X(closest_values, Q(1) | Q(2) | Q(3) | Q(5) | Q(6) | Q(8), KBUCKETS_CLOSEST_VALUES_ENTRY_BYTES, 0)                                     \
    X(closest_values_predicate, Q(1) | Q(2) | Q(3) | Q(4) | Q(5) | Q(6) | Q(8), KBUCKETS_CLOSEST_VALUES_PREDICATE_ENTRY_BYTES, 0)          \
    X(take_applied_pending, Q(1) | Q(2) | Q(6), 0, 3)                                                                                      \
    X(b_new, Q(1) | Q(4), 0, 1)                                                                                                            \
    X(b_insert, Q(1) | Q(2) | Q(3) | Q(4) | Q(5) | Q(6), 0, BUCKET_INSERTS)                                                                \
    X(b_apply_pending, Q(1) | Q(2) | Q(5) | Q(6), 0, 3)                                                                                    \
    X(b_update_status, Q(1) | Q(2) | Q(3) | Q(4), 0, STATUS_UPDATES)                                                                       \
    X(b_update_value, Q(1) | Q(2) | Q(3) | Q(4), 0, VALUE_UPDATES)                                                                         \
    X(b_update_pending, Q(1) | Q(2) | Q(4), 0, 1)                                                                                          \
    X(b_remove, Q(1) | Q(2) | Q(3) | Q(5), 0, 3)

/* A library that lacks a call links all the same. */
#pragma weak kbuckets_new
#pragma weak kbuckets_update_node_status
#pragma weak kbuckets_update_node
#pragma weak kbuckets_insert_or_update
#pragma weak kbuckets_remove
#pragma weak kbuckets_entry
#pragma weak kbuckets_present_update
#pragma weak kbuckets_pending_update
#pragma weak kbuckets_absent_insert
#pragma weak kbuckets_iter
#pragma weak kbuckets_nodes_by_distances
#pragma weak kbuckets_closest_keys
#pragma weak kbuckets_closest_values
#pragma weak kbuckets_closest_values_predicate
#pragma weak kbuckets_take_applied_pending
#pragma weak kbuckets_explain_update_node_status
#pragma weak kbuckets_explain_update_node
#pragma weak kbuckets_explain_insert_or_update
#pragma weak kbuckets_explain_remove
#pragma weak kbuckets_explain_present_update
#pragma weak kbuckets_explain_pending_update
#pragma weak kbuckets_explain_absent_insert
#pragma weak kbuckets_write
#pragma weak kbuckets_b_new
#pragma weak kbuckets_b_insert
#pragma weak kbuckets_b_apply_pending
#pragma weak kbuckets_b_update_status
#pragma weak kbuckets_b_update_value
#pragma weak kbuckets_b_update_pending
#pragma weak kbuckets_b_remove

#define ENUM(name, questions, entry, answers) C_##name,
enum call { CALLS(ENUM) NUM_CALLS, FIRST_B = C_b_new };

#define ROW(name, questions, entry, answers) {#name, questions, entry, answers},
static const struct {
    const char *name;
    unsigned questions;
    unsigned entry;
    uint64_t answers;
} calls[NUM_CALLS] = {CALLS(ROW)};

static bool here[NUM_CALLS];

static void find_calls(void)
{
#define HERE(name, questions, entry, answers) here[C_##name] = kbuckets_##name != NULL;
    CALLS(HERE)
}

struct args {
    enum call call;
    uint8_t *storage; /* or a bucket */
    size_t storage_len;
    uint8_t *key; /* or the target, or the local key */
    size_t key_len;
    uint8_t flag, octet[4];
    kbuckets_slot slot;
    uint8_t state, direction, predicate, max_incoming, table_filter, bucket_filter;
    uint64_t now, timeout;
    uint64_t *distances;
    size_t distances_len, n;
    uint16_t *windows, *closed; /* three numbers each */
    size_t windows_len, closed_len;
    uint16_t date[3], minute; /* year, month, day */
    uint8_t *output; /* or the answer */
    size_t output_len;
};

static uint32_t call(const struct args *a)
{
#define S a->storage, a->storage_len
#define K a->key, a->key_len
#define V a->flag, a->octet[0], a->octet[1], a->octet[2], a->octet[3], a->slot
#define T a->windows, a->windows_len, a->closed, a->closed_len, a->date[0], a->date[1], a->date[2], a->minute
#define O a->output, a->output_len
    switch (a->call) {
    case C_new: return kbuckets_new(S, K, a->timeout, a->max_incoming, a->table_filter, a->bucket_filter);
    case C_update_node_status: return kbuckets_update_node_status(S, K, a->state, a->direction, a->now);
    case C_update_node: return kbuckets_update_node(S, K, V, a->state, a->now);
    case C_insert_or_update: return kbuckets_insert_or_update(S, K, V, a->state, a->direction, a->now, T, O);
    case C_remove: return kbuckets_remove(S, K, a->now);
    case C_entry: return kbuckets_entry(S, K, a->now);
    case C_present_update: return kbuckets_present_update(S, K, a->state, a->direction);
    case C_pending_update: return kbuckets_pending_update(S, K, a->state, a->direction);
    case C_absent_insert: return kbuckets_absent_insert(S, K, V, a->state, a->direction, a->now, T, O);
    case C_iter: return kbuckets_iter(S, a->n, a->now, O);
    case C_nodes_by_distances: return kbuckets_nodes_by_distances(S, a->distances, a->distances_len, a->n, a->now, O);
    case C_closest_keys: return kbuckets_closest_keys(S, K, a->n, a->now, O);
    case C_closest_values: return kbuckets_closest_values(S, K, a->n, a->now, O);
    case C_closest_values_predicate:
        return kbuckets_closest_values_predicate(
            S, K, a->predicate, a->octet[0], a->octet[1], a->octet[2], a->slot, a->n, a->now, O);
    case C_take_applied_pending: return kbuckets_take_applied_pending(S, O);
    case C_b_new: return kbuckets_b_new(S, a->timeout, a->max_incoming, a->bucket_filter);
    case C_b_insert: return kbuckets_b_insert(S, K, V, a->state, a->direction, a->now, O);
    case C_b_apply_pending: return kbuckets_b_apply_pending(S, a->now, O);
    case C_b_update_status: return kbuckets_b_update_status(S, K, a->state, a->direction);
    case C_b_update_value: return kbuckets_b_update_value(S, K, V);
    case C_b_update_pending: return kbuckets_b_update_pending(S, a->state, a->direction);
    case C_b_remove: return kbuckets_b_remove(S, K, a->now);
    default: abort();
    }
#undef O
}

/* The calls that have an explanation, and the explanation in `output`, in place of the call's own. */
static bool is_explained(enum call c)
{
    return c == C_update_node_status || c == C_update_node || c == C_insert_or_update || c == C_remove || c == C_present_update ||
           c == C_pending_update || c == C_absent_insert;
}
static uint32_t explain(const struct args *a, uint8_t *output, size_t output_len)
{
#define O output, output_len
    switch (a->call) {
    case C_update_node_status: return kbuckets_explain_update_node_status(S, K, a->state, a->direction, a->now, O);
    case C_update_node: return kbuckets_explain_update_node(S, K, V, a->state, a->now, O);
    case C_insert_or_update: return kbuckets_explain_insert_or_update(S, K, V, a->state, a->direction, a->now, T, O);
    case C_remove: return kbuckets_explain_remove(S, K, a->now, O);
    case C_present_update: return kbuckets_explain_present_update(S, K, a->state, a->direction, O);
    case C_pending_update: return kbuckets_explain_pending_update(S, K, a->state, a->direction, O);
    case C_absent_insert: return kbuckets_explain_absent_insert(S, K, V, a->state, a->direction, a->now, T, O);
    default: abort();
    }
#undef S
#undef K
#undef V
#undef T
#undef O
}

/* Which of its lent things a call has. */
static bool has_key(enum call c) { return calls[c].questions & Q(3); }
static bool has_output(enum call c) { return calls[c].questions & Q(6); }
static bool has_hours(enum call c) { return calls[c].questions & Q(10); }
static bool is_listing(enum call c) { return calls[c].entry != 0; }

#endif

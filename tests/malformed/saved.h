/* Document 02's slip 6 once more, in plain C: what the writer puts out, what the reader leaves, and their questions. Nothing here is shared
 * with the library. */
#ifndef SAVED_H
#define SAVED_H

#include "questions.h"

enum {
    ENTRY = 15, /* state, direction, address flag, four octets, slot */
    MOST_NODES = 4047,
    MOST_SAVED = 256 + MOST_NODES * 47
};

static size_t saved_size(size_t nodes) { return BUCKETS + nodes * (KEY + ENTRY); }

/* The nodes of all buckets of a well-formed table. */
static size_t held_nodes(const uint8_t *s)
{
    size_t nodes = 0;
    for (int i = 0; i < BUCKETS; i++)
        nodes += bucket_of(s, i)[0];
    return nodes;
}

/* What the writer puts out of a well-formed table; answers the nodes. */
static size_t save(const uint8_t *s, uint8_t *out)
{
    size_t nodes = held_nodes(s);
    uint8_t *keys = out + BUCKETS, *entries = keys + nodes * KEY;
    for (int i = 0; i < BUCKETS; i++) {
        const uint8_t *b = bucket_of(s, i);
        out[i] = b[0];
        for (int k = 0; k < b[0]; k++, keys += KEY, entries += ENTRY) {
            memcpy(keys, b + NODES_AT + k * NODE, KEY);
            memcpy(entries, b + NODES_AT + k * NODE + KEY, ENTRY);
        }
    }
    return nodes;
}

/* The writer's questions: 1, 2, 6; 0 where none fails. */
static unsigned write_refusal(const uint8_t *s, size_t s_len, size_t out_len)
{
    if (s_len != STORAGE)
        return 1;
    if (table_fault(s))
        return 2;
    return out_len < saved_size(held_nodes(s)) ? 6 : 0;
}

/* Why question 9 fails. */
#define REASONS(X)                                                                                                                         \
    X(NODE, "the storage holds a node")                                                                                                    \
    X(PENDING, "the storage holds a pending")                                                                                              \
    X(RECORD, "the storage holds a record")                                                                                                \
    X(SHORT, "fewer than 256 bytes")                                                                                                       \
    X(LENGTH, "a length that does not fit the sizes")                                                                                      \
    X(FORM, "a loaded bucket that is not well-formed")                                                                                     \
    X(THREE, "three different values of one /24")
#define REASON(name, text) R_##name,
#define REASON_TEXT(name, text) text,
enum reason { LOADS, REASONS(REASON) NUM_REASONS };
static const char *const reason_text[NUM_REASONS] = {"none", REASONS(REASON_TEXT)};

static bool of_one_net(const uint8_t *v, const uint8_t *w)
{
    return v[0] && w[0] && memcmp(v + 1, w + 1, 3) == 0 && memcmp(v, w, KBUCKETS_VALUE_BYTES) != 0;
}

/* Three values of one /24 of which no two are equal. */
static bool three_of_a_net(const uint8_t *b)
{
    const uint8_t *values = b + NODES_AT + VALUE_AT;
    for (int i = 0; i < b[0]; i++)
        for (int j = i + 1; j < b[0]; j++)
            if (of_one_net(values + i * NODE, values + j * NODE))
                for (int k = j + 1; k < b[0]; k++)
                    if (of_one_net(values + i * NODE, values + k * NODE) && of_one_net(values + j * NODE, values + k * NODE))
                        return true;
    return false;
}

/* Bucket i of the table that is loaded, whose first node is the `from`-th of all; the bytes have at least what this reads. */
static void load_bucket(uint8_t *b, const uint8_t *bytes, size_t nodes, int i, size_t from)
{
    const uint8_t *keys = bytes + BUCKETS, *entries = keys + nodes * KEY;
    memset(b, 0, STORED);
    b[0] = b[FIRST_AT] = bytes[i];
    for (int k = bytes[i]; k--;) {
        uint8_t *node = b + NODES_AT + k * NODE;
        memcpy(node, keys + (from + (size_t)k) * KEY, KEY);
        memcpy(node + KEY, entries + (from + (size_t)k) * ENTRY, ENTRY);
        if (node[STATE_AT] != 0) /* the first of these is met last */
            b[FIRST_AT] = (uint8_t)k;
    }
}

/* Question 9 of a well-formed table; of what is not well-formed also the fault. `loaded`: the storage that the reader leaves. */
static enum reason load_reason(const uint8_t *s, const uint8_t *bytes, size_t len, enum fault *fault, uint8_t *loaded)
{
    size_t nodes = 0;
    for (int i = 0; i < BUCKETS; i++) {
        if (bucket_of(s, i)[0])
            return R_NODE;
        if (bucket_of(s, i)[PENDING_AT])
            return R_PENDING;
    }
    if (s[COUNT_AT])
        return R_RECORD;
    if (len < BUCKETS)
        return R_SHORT;
    for (int i = 0; i < BUCKETS; i++)
        nodes += bytes[i];
    if (len != saved_size(nodes))
        return R_LENGTH;
    memcpy(loaded, s, HEADER);
    for (int i = 0; i < BUCKETS; i++)
        if (bytes[i] > PLACES) {
            *fault = F_MANY_NODES;
            return R_FORM;
        }
    size_t from = 0;
    bool three = false;
    for (int i = 0; i < BUCKETS; from += bytes[i++]) {
        uint8_t *b = loaded + HEADER + i * STORED;
        load_bucket(b, bytes, nodes, i, from);
        if ((*fault = bucket_fault(b, s, i, s[MAX_INCOMING_AT])))
            return R_FORM;
        three = three || (s[BUCKET_FILTER_AT] && three_of_a_net(b));
    }
    return three ? R_THREE : LOADS;
}

#endif

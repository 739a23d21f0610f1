/* Document 01's questions once more, in plain C, as 02's slips 7 and 8 have them: question 2 of settings and queue, of each bucket and of a
 * bucket by itself, the buckets that a call reads, the other questions in turn, those about session hours at the end, and what an accepted
 * call may write. Nothing here is shared with the library. */
#ifndef QUESTIONS_H
#define QUESTIONS_H

#include <string.h>

#include "calls.h"

/* --- question 2, from document 01 --- */

#define FAULTS(X)                                                                                                                          \
    X(MAX_INCOMING, "max_incoming above 16")                                                                                               \
    X(TABLE_FILTER, "table filter neither 0 nor 1")                                                                                        \
    X(BUCKET_FILTER, "bucket filter neither 0 nor 1")                                                                                      \
    X(PADDING, "padding that is not zero")                                                                                                 \
    X(MANY_RECORDS, "more than 64 records")                                                                                                \
    X(RECORD_ENDING, "record: ending above 6")                                                                                             \
    X(RECORD_STATE, "record: state neither 0 nor 1")                                                                                       \
    X(RECORD_DIRECTION, "record: direction neither 0 nor 1")                                                                               \
    X(RECORD_ADDRESS, "record: address flag neither 0 nor 1")                                                                              \
    X(RECORD_OCTETS, "record: octets without an address")                                                                                  \
    X(RECORD_NODE, "record: a node where none was evicted")                                                                                \
    X(RECORD_UNUSED, "bytes behind the last record")                                                                                       \
    X(MANY_NODES, "more than 16 nodes in a bucket")                                                                                        \
    X(STATE, "node: state neither 0 nor 1")                                                                                                \
    X(DIRECTION, "node: direction neither 0 nor 1")                                                                                        \
    X(ADDRESS, "node: address flag neither 0 nor 1")                                                                                       \
    X(OCTETS, "node: octets without an address")                                                                                           \
    X(INDEX, "node: key of another bucket")                                                                                                \
    X(LOCAL, "node: the local key")                                                                                                        \
    X(ORDER, "disconnected behind connected")                                                                                              \
    X(FIRST, "first connected place not exact")                                                                                            \
    X(TWICE, "a key held twice")                                                                                                           \
    X(INCOMING, "connected incoming above max_incoming")                                                                                   \
    X(PLACE_UNUSED, "bytes behind the last node")                                                                                          \
    X(PENDING_FLAG, "pending: flag neither 0 nor 1")                                                                                       \
    X(PENDING_STATE, "pending: state neither 0 nor 1")                                                                                     \
    X(PENDING_DIRECTION, "pending: direction neither 0 nor 1")                                                                             \
    X(PENDING_ADDRESS, "pending: address flag neither 0 nor 1")                                                                            \
    X(PENDING_OCTETS, "pending: octets without an address")                                                                                \
    X(PENDING_INDEX, "pending: key of another bucket")                                                                                     \
    X(PENDING_LOCAL, "pending: the local key")                                                                                             \
    X(PENDING_HELD, "pending: key held")                                                                                                   \
    X(PENDING_UNUSED, "pending: bytes where there is none")

#define FAULT_NAME(name, text) F_##name,
#define FAULT_TEXT(name, text) text,
enum fault { FORMED, FAULTS(FAULT_NAME) NUM_FAULTS };
static const char *const fault_text[NUM_FAULTS] = {"well-formed", FAULTS(FAULT_TEXT)};

static bool zero(const uint8_t *p, size_t n)
{
    for (; n >= 8; p += 8, n -= 8) {
        uint64_t w;
        memcpy(&w, p, 8);
        if (w)
            return false;
    }
    while (n--)
        if (*p++)
            return false;
    return true;
}
static kbuckets_slot slot_of(const uint8_t *value)
{
    kbuckets_slot r = 0;
    for (int i = 0; i < KBUCKETS_SLOT_BYTES; i++)
        r = (kbuckets_slot)(r << 8 | value[SLOT_AT - VALUE_AT + i]);
    return r;
}
static bool same(const uint8_t *a, const uint8_t *b) { return memcmp(a, b, KEY) == 0; }
static uint64_t number(const uint8_t *p)
{
    uint64_t r = 0;
    for (int i = 0; i < 8; i++)
        r = r << 8 | p[i];
    return r;
}
static void put_number(uint8_t *p, uint64_t v)
{
    for (int i = 7; i >= 0; i--, v >>= 8)
        p[i] = (uint8_t)v;
}

/* 255 less the leading zero bits of the distance; -1 for distance 0. */
static int bucket_index(const uint8_t *a, const uint8_t *b)
{
    for (int i = 0; i < KEY; i++) {
        uint8_t d = a[i] ^ b[i];
        if (d) {
            int bit = 7;
            while (!(d >> bit))
                bit--;
            return 8 * (KEY - 1 - i) + bit;
        }
    }
    return -1;
}

/* The codes of question 4: 0, or which of the four is out of range, counted from 1. */
static int node_codes(const uint8_t *node)
{
    if (node[STATE_AT] > 1)
        return 1;
    if (node[DIRECTION_AT] > 1)
        return 2;
    if (node[FLAG_AT] > 1)
        return 3;
    return node[FLAG_AT] == 0 && !zero(node + OCTETS_AT, 4) ? 4 : 0;
}

/* A bucket's part of question 2. local is null for a bucket by itself, of which the index is not asked. */
static enum fault bucket_fault(const uint8_t *b, const uint8_t *local, int index, unsigned max_incoming)
{
    unsigned count = b[0], first = b[FIRST_AT], incoming = 0;
    if (zero(b, STORED))
        return FORMED;
    if (count > PLACES)
        return F_MANY_NODES;
    unsigned exact = count;
    for (unsigned i = 0; i < count; i++) {
        const uint8_t *node = b + NODES_AT + i * NODE;
        int code = node_codes(node);
        if (code)
            return (enum fault)(F_STATE + code - 1);
        if (local) {
            int at = bucket_index(local, node);
            if (at != index)
                return at < 0 ? F_LOCAL : F_INDEX;
        }
        if (node[STATE_AT] == 1 && exact == count)
            exact = i;
        if (node[STATE_AT] == 0 && exact < count)
            return F_ORDER;
        incoming += node[STATE_AT] == 1 && node[DIRECTION_AT] == 1;
        for (unsigned j = 0; j < i; j++)
            if (same(b + NODES_AT + j * NODE, node))
                return F_TWICE;
    }
    if (first != exact)
        return F_FIRST;
    if (incoming > max_incoming)
        return F_INCOMING;
    if (!zero(b + NODES_AT + count * NODE, (PLACES - count) * NODE))
        return F_PLACE_UNUSED;
    const uint8_t *pending = b + PENDING_NODE_AT;
    if (b[PENDING_AT] > 1)
        return F_PENDING_FLAG;
    if (b[PENDING_AT] == 0)
        return zero(pending, STORED - PENDING_NODE_AT) ? FORMED : F_PENDING_UNUSED;
    int code = node_codes(pending);
    if (code)
        return (enum fault)(F_PENDING_STATE + code - 1);
    if (local) {
        int at = bucket_index(local, pending);
        if (at != index)
            return at < 0 ? F_PENDING_LOCAL : F_PENDING_INDEX;
    }
    for (unsigned i = 0; i < count; i++)
        if (same(b + NODES_AT + i * NODE, pending))
            return F_PENDING_HELD;
    return FORMED;
}

static enum fault record_fault(const uint8_t *record)
{
    const uint8_t *evicted = record + EVICTED_AT;
    if (record[ENDING_AT] > KBUCKETS_ENDING_FIRST_CONFIRMED)
        return F_RECORD_ENDING;
    if (record[ENDING_AT] != KBUCKETS_ENDING_REPLACED)
        return zero(evicted, NODE) ? FORMED : F_RECORD_NODE;
    int code = node_codes(evicted);
    return code ? (enum fault)(F_RECORD_STATE + code - 1) : FORMED;
}

static const uint8_t *bucket_of(const uint8_t *s, int i) { return s + HEADER + i * STORED; }

/* Of the settings and the queue. */
static enum fault header_fault(const uint8_t *s)
{
    unsigned records = s[COUNT_AT];
    enum fault f;
    if (s[MAX_INCOMING_AT] > PLACES)
        return F_MAX_INCOMING;
    if (s[TABLE_FILTER_AT] > 1)
        return F_TABLE_FILTER;
    if (s[BUCKET_FILTER_AT] > 1)
        return F_BUCKET_FILTER;
    if (!zero(s + PADDING_AT, RECORDS_AT - PADDING_AT))
        return F_PADDING;
    if (records > RECORDS)
        return F_MANY_RECORDS;
    for (unsigned i = 0; i < records; i++)
        if ((f = record_fault(s + RECORDS_AT + i * RECORD)))
            return f;
    return zero(s + RECORDS_AT + records * RECORD, (RECORDS - records) * RECORD) ? FORMED : F_RECORD_UNUSED;
}

static enum fault fault_at(const uint8_t *s, int i) { return bucket_fault(bucket_of(s, i), s, i, s[MAX_INCOMING_AT]); }

/* Of all of it. */
static enum fault table_fault(const uint8_t *s)
{
    enum fault f = header_fault(s);
    for (int i = 0; !f && i < BUCKETS; i++)
        f = fault_at(s, i);
    return f;
}

static enum fault alone_fault(const uint8_t *b)
{
    if (b[ALONE_MAX_AT] > PLACES)
        return F_MAX_INCOMING;
    if (b[ALONE_FILTER_AT] > 1)
        return F_BUCKET_FILTER;
    return bucket_fault(b, NULL, 0, b[ALONE_MAX_AT]);
}

/* --- what a call will do, as far as it is checked here --- */

/* The bytes of a call's value. */
static void value_of(const struct args *a, uint8_t *value)
{
    value[0] = a->flag;
    memcpy(value + OCTETS_AT - VALUE_AT, a->octet, 4);
    kbuckets_slot slot = a->slot;
    for (int i = KBUCKETS_SLOT_BYTES; i--; slot = (kbuckets_slot)(slot >> 8))
        value[SLOT_AT - VALUE_AT + i] = (uint8_t)slot;
}

/* The place of a key in a well-formed bucket, -1 where it is not held. */
static int place(const uint8_t *b, const uint8_t *key)
{
    for (int i = 0; i < b[0]; i++)
        if (same(b + NODES_AT + i * NODE, key))
            return i;
    return -1;
}
static bool is_pending(const uint8_t *b, const uint8_t *key) { return b[PENDING_AT] && same(b + PENDING_NODE_AT, key); }

/* The held values of a bucket that ip_filter counts: of the value's /24 and unequal to it. Those of `but`, which may be null, are not seen. */
static unsigned counted(const uint8_t *b, const uint8_t *value, const uint8_t *but)
{
    unsigned near = 0;
    enum { FLAG = FLAG_AT - VALUE_AT, OCTETS = OCTETS_AT - VALUE_AT };
    for (int i = 0; i < b[0] && value[FLAG]; i++) {
        const uint8_t *key = b + NODES_AT + i * NODE, *other = key + VALUE_AT;
        near += other[FLAG] && memcmp(other + OCTETS, value + OCTETS, 3) == 0 && memcmp(other, value, KBUCKETS_VALUE_BYTES) != 0 &&
                !(but && same(key, but));
    }
    return near;
}
static bool bucket_filter_fails(const uint8_t *b, const uint8_t *value, const uint8_t *but) { return counted(b, value, but) >= 2; }

/* A connected incoming node, and max_incoming such nodes held. */
static bool too_many_incoming(const uint8_t *b, unsigned max_incoming, uint8_t state, uint8_t direction)
{
    unsigned incoming = 0;
    for (int i = 0; i < b[0]; i++)
        incoming += b[NODES_AT + i * NODE + STATE_AT] && b[NODES_AT + i * NODE + DIRECTION_AT];
    return state && direction && incoming >= max_incoming;
}

static bool is_due(const uint8_t *b, uint64_t now) { return b[PENDING_AT] && number(b + DEADLINE_AT) <= now; }

/* What becomes of a due pending: dropped on the first ground that holds, or placed. */
static uint8_t due_ending(const uint8_t *b, unsigned max_incoming, bool filter)
{
    const uint8_t *pending = b + PENDING_NODE_AT;
    if (b[0] == PLACES && b[FIRST_AT] == 0)
        return KBUCKETS_ENDING_FIRST_CONNECTED;
    if (filter && bucket_filter_fails(b, pending + VALUE_AT, NULL))
        return KBUCKETS_ENDING_BUCKET_FILTER;
    if (too_many_incoming(b, max_incoming, pending[STATE_AT], pending[DIRECTION_AT]))
        return KBUCKETS_ENDING_TOO_MANY_INCOMING;
    return b[0] == PLACES ? KBUCKETS_ENDING_REPLACED : KBUCKETS_ENDING_PLACED;
}
static bool is_placed(uint8_t ending) { return ending <= KBUCKETS_ENDING_REPLACED; }

struct outlook {
    unsigned refusal; /* 0: accepted */
    enum fault fault;
    int malformed;        /* the bucket of `fault`; -1: settings or queue */
    bool also[2];         /* with a malformed bucket that it reads: the questions 7 and 8 fail too, as far as that can be said */
    unsigned records;     /* that it adds */
    size_t found;         /* by a listing */
    bool read[BUCKETS];    /* up to the first that is malformed */
    bool touched[BUCKETS]; /* buckets that it may write: of those that it reads */
    int visit[2 * BUCKETS];
    int visits; /* of a listing, in order, as far as it reads nodes */
};

/* One more bucket that the call reads; false, and refused with 2, where it is malformed. Nothing of it is looked at before. */
static bool asks_bucket(struct outlook *o, const uint8_t *s, int i)
{
    if (o->read[i])
        return true;
    o->read[i] = true;
    o->fault = fault_at(s, i);
    if (o->fault) {
        o->refusal = 2;
        o->malformed = i;
    }
    return !o->fault;
}

/* The records that a call adds, in order. */
static uint8_t added[BUCKETS][RECORD];

/* The record of bucket b's pending, and of the node at place 0 where that is evicted. */
static void add_record(struct outlook *o, const uint8_t *b, uint8_t ending)
{
    uint8_t *record = added[o->records++];
    memset(record, 0, RECORD);
    memcpy(record, b + PENDING_NODE_AT, KEY);
    record[ENDING_AT] = ending;
    if (ending == KBUCKETS_ENDING_REPLACED)
        memcpy(record + EVICTED_AT, b + NODES_AT, NODE);
}

static uint8_t ending_at(const uint8_t *s, int i) { return due_ending(bucket_of(s, i), s[MAX_INCOMING_AT], s[BUCKET_FILTER_AT]); }

/* The table filter is on and runs: it is skipped where the key is held with an equal value. b: the key's bucket. */
static bool table_filter_runs(const uint8_t *s, const uint8_t *b, const struct args *a)
{
    if (!s[TABLE_FILTER_AT] || (a->call != C_update_node && a->call != C_insert_or_update))
        return false;
    uint8_t value[KBUCKETS_VALUE_BYTES];
    int at = place(b, a->key);
    value_of(a, value);
    return at < 0 || memcmp(b + NODES_AT + at * NODE + VALUE_AT, value, sizeof value) != 0;
}

/* Whether the table filter, which runs, fails for a call on this key: ten of the other held values. */
static bool table_filter_fails(const uint8_t *s, const uint8_t *key, const uint8_t *value)
{
    unsigned near = 0;
    for (int i = 0; i < BUCKETS; i++)
        near += counted(bucket_of(s, i), value, key);
    return near >= 10;
}

/* The ending that the call's own step gives the pending of its bucket, which is not due, or not applied by it; -1 where it gives none. */
static int step_ending(const uint8_t *s, const uint8_t *b, const struct args *a)
{
    int at = place(b, a->key);
    const uint8_t *own = at < 0 ? NULL : b + NODES_AT + at * NODE;
    bool confirms = at == 0 && a->state == KBUCKETS_CONNECTED;
    uint8_t value[KBUCKETS_VALUE_BYTES];
    if (!b[PENDING_AT])
        return -1;
    switch (a->call) {
    case C_update_node_status:
    case C_present_update: return confirms ? KBUCKETS_ENDING_FIRST_CONFIRMED : -1;
    case C_update_node:
    case C_insert_or_update: break;
    default: return -1;
    }
    value_of(a, value);
    if (table_filter_runs(s, b, a) && table_filter_fails(s, a->key, value))
        return -1;
    if (own) {
        /* the value of update_node comes before its status; that of insert_or_update behind it */
        bool fails = a->call == C_update_node && memcmp(own + VALUE_AT, value, sizeof value) != 0 && s[BUCKET_FILTER_AT] &&
                     bucket_filter_fails(b, value, a->key);
        return confirms && !fails ? KBUCKETS_ENDING_FIRST_CONFIRMED : -1;
    }
    bool inserted = a->call == C_insert_or_update && is_pending(b, a->key) && b[0] < PLACES &&
                    !(s[BUCKET_FILTER_AT] && bucket_filter_fails(b, value, NULL)) &&
                    !too_many_incoming(b, s[MAX_INCOMING_AT], a->state, a->direction);
    return inserted ? KBUCKETS_ENDING_INSERTED : -1;
}

/* The buckets in the order of a listing, as far as it may go; answers how many. No more than BUCKETS distances are given here. */
static int visit_order(const uint8_t *s, const struct args *a, int *order)
{
    int count = 0;
    if (a->call == C_iter) {
        while (count < BUCKETS)
            order[count] = count, count++;
    } else if (a->call == C_nodes_by_distances) {
        for (size_t k = 0; k < a->distances_len; k++)
            if (a->distances[k] >= 1 && a->distances[k] <= BUCKETS)
                order[count++] = (int)a->distances[k] - 1;
    } else {
        int high = bucket_index(s, a->key);
        bool set[BUCKETS];
        for (int i = 0; i < BUCKETS; i++)
            set[i] = (s[KEY - 1 - i / 8] ^ a->key[KEY - 1 - i / 8]) >> (i % 8) & 1;
        order[count++] = high < 0 ? 0 : high;
        for (int i = high - 1; i >= 0; i--)
            if (set[i])
                order[count++] = i;
        order[count++] = 0;
        for (int i = 1; i < BUCKETS; i++)
            if (!set[i])
                order[count++] = i;
    }
    return count;
}

/* What bucket i holds once its due pending is applied. */
static int held_then(const uint8_t *s, int i, uint64_t now)
{
    const uint8_t *b = bucket_of(s, i);
    return b[0] + (is_due(b, now) && ending_at(s, i) == KBUCKETS_ENDING_PLACED);
}

/* A bucket that a listing comes to: read, and its due pending ended; false where it is malformed. `ending`: of the pending, -1 for none. */
static bool comes_to(struct outlook *o, const uint8_t *s, int i, const struct args *a, int *ending)
{
    bool first = !o->read[i];
    *ending = -1;
    if (!asks_bucket(o, s, i))
        return false;
    if (first && is_due(bucket_of(s, i), a->now)) {
        *ending = ending_at(s, i);
        add_record(o, bucket_of(s, i), (uint8_t)*ending);
    }
    o->touched[i] = true;
    return true;
}

static void foresee_listing(struct outlook *o, const uint8_t *s, const struct args *a)
{
    int order[2 * BUCKETS], count = visit_order(s, a, order), ending;
    size_t held = 0, most = a->n;
    bool applies[BUCKETS] = {false};
    if (a->call == C_nodes_by_distances) {
        /* the applying pass: a drop neither counts nor stops it */
        for (int k = 0; k < count && (held == 0 || held < a->n); k++) {
            if (!comes_to(o, s, order[k], a, &ending))
                return;
            applies[order[k]] = true;
            held += ending >= 0 && is_placed((uint8_t)ending) ? (size_t)held_then(s, order[k], a->now) : 0;
        }
        most = a->n ? a->n : 1;
        for (int k = 0; k < count && o->found < most; k++) {
            o->visit[o->visits++] = order[k];
            o->found += (size_t)held_then(s, order[k], a->now);
        }
        for (int k = 0; k < o->visits; k++)
            if (!applies[o->visit[k]])
                abort(); /* what is listed was come to by the pass before */
    } else {
        for (int k = 0; k < count && o->found < a->n; k++) {
            if (!comes_to(o, s, order[k], a, &ending))
                return;
            o->visit[o->visits++] = order[k];
            o->found += (size_t)held_then(s, order[k], a->now);
        }
    }
    if (o->found > most)
        o->found = most;
}

static bool value_codes(const struct args *a) { return a->flag == 1 || (a->flag == 0 && zero(a->octet, 4)); }

static bool codes(const struct args *a)
{
    switch (a->call) {
    case C_new: return a->max_incoming <= PLACES && a->table_filter <= 1 && a->bucket_filter <= 1;
    case C_b_new: return a->max_incoming <= PLACES && a->bucket_filter <= 1;
    case C_update_node_status:
    case C_present_update:
    case C_b_update_status: return a->state <= 1 && a->direction <= 2;
    case C_pending_update:
    case C_b_update_pending: return a->state <= 1 && a->direction <= 1;
    case C_update_node: return value_codes(a) && a->state <= 2;
    case C_insert_or_update:
    case C_absent_insert:
    case C_b_insert: return value_codes(a) && a->state <= 1 && a->direction <= 1;
    case C_b_update_value: return value_codes(a);
    case C_closest_values_predicate: return a->predicate <= 3;
    default: abort();
    }
}

static bool room(const struct args *a)
{
    if (!is_listing(a->call))
        return a->output_len >= KBUCKETS_ANSWER_BYTES;
    if (a->n > KBUCKETS_MAX_COUNT)
        return false;
    size_t entries = a->n == 0 && a->call == C_nodes_by_distances ? 1 : a->n;
    return a->output_len >= entries * calls[a->call].entry;
}

/* The entry actions: the key, as it is stored, is of the call's kind. i: its bucket. */
static bool is_of_kind(const uint8_t *s, int i, const struct args *a)
{
    bool held = i >= 0 && place(bucket_of(s, i), a->key) >= 0, pending = i >= 0 && is_pending(bucket_of(s, i), a->key);
    return a->call == C_present_update ? held : a->call == C_pending_update ? pending : i >= 0 && !held && !pending;
}

/* A call on one key from its buckets' part of question 2 on. */
static void foresee_on_key(struct outlook *o, const uint8_t *s, const struct args *a)
{
    unsigned q = calls[a->call].questions;
    int i = bucket_index(s, a->key);
    bool good = i < 0 || asks_bucket(o, s, i), all = good && i >= 0 && table_filter_runs(s, bucket_of(s, i), a);
    for (int j = 0; good && all && j < BUCKETS; j++)
        good = asks_bucket(o, s, j);
    bool sized = i >= 0 && bucket_of(s, i)[0] <= PLACES; /* else nothing can be said of the keys in it */
    if (q & Q(7) && (good || sized) && !is_of_kind(s, i, a)) {
        if (good)
            o->refusal = 7;
        else
            o->also[0] = true;
    }
    if (o->refusal || i < 0)
        return;
    const uint8_t *b = bucket_of(s, i);
    int ending = q & Q(5) && !(q & Q(7)) && is_due(b, a->now) ? ending_at(s, i) : step_ending(s, b, a);
    o->touched[i] = true;
    if (ending >= 0)
        add_record(o, b, (uint8_t)ending);
}

/* --- session hours, from document 02, slip 8 --- */

/* The days of a month; 0 of none from January 2000 to December 2399. */
static unsigned days_of(unsigned year, unsigned month)
{
    if (year < 2000 || year > 2399)
        return 0;
    switch (month) {
    case 2: return year % 4 ? 28 : year % 100 ? 29 : year % 400 ? 28 : 29;
    case 4:
    case 6:
    case 9:
    case 11: return 30;
    default: return month >= 1 && month <= 12 ? 31 : 0;
    }
}
static bool is_date(const uint16_t *date) { return date[2] >= 1 && date[2] <= days_of(date[0], date[1]); }

/* 1, Monday, to 7, Sunday, by Zeller's congruence: January and February count as months 13 and 14 of the year before. */
static unsigned weekday(const uint16_t *date)
{
    unsigned early = date[1] < 3, year = date[0] - early, month = date[1] + 12 * early;
    unsigned from_saturday = (date[2] + 13 * (month + 1) / 5 + year % 100 + year % 100 / 4 + year / 100 / 4 + 5 * (year / 100)) % 7;
    return (from_saturday + 5) % 7 + 1;
}

#define HOUR_FAULTS(X)                                                                                                                     \
    X(WINDOWS_REST, "windows and a rest")                                                                                                  \
    X(WINDOWS_MANY, "more than 32 windows")                                                                                                \
    X(WEEKDAY, "a window's weekday")                                                                                                       \
    X(OPENING, "opening not before closing")                                                                                               \
    X(CLOSING, "closing above 1440")                                                                                                       \
    X(DATES_REST, "closed dates and a rest")                                                                                               \
    X(DATES_MANY, "more than 64 closed dates")                                                                                             \
    X(CLOSED_DATE, "a closed date that is none")                                                                                           \
    X(DATE, "a date that is none")                                                                                                         \
    X(MINUTE, "minute above 1439")
#define HOUR_FAULT(name, text) H_##name,
enum hour_fault { HOURS_FIT, HOUR_FAULTS(HOUR_FAULT) NUM_HOUR_FAULTS };
#undef HOUR_FAULT

/* The first of them that question 10 finds, with a window list that is not empty. */
static enum hour_fault hour_fault(const struct args *a)
{
    if (a->windows_len % 3)
        return H_WINDOWS_REST;
    if (a->windows_len > 3 * 32)
        return H_WINDOWS_MANY;
    for (const uint16_t *w = a->windows; w < a->windows + a->windows_len; w += 3) {
        if (w[0] < 1 || w[0] > 7)
            return H_WEEKDAY;
        if (w[1] >= w[2])
            return H_OPENING;
        if (w[2] > 1440)
            return H_CLOSING;
    }
    if (a->closed_len % 3)
        return H_DATES_REST;
    if (a->closed_len > 3 * 64)
        return H_DATES_MANY;
    for (const uint16_t *c = a->closed; c < a->closed + a->closed_len; c += 3)
        if (!is_date(c))
            return H_CLOSED_DATE;
    if (!is_date(a->date))
        return H_DATE;
    return a->minute > 1439 ? H_MINUTE : HOURS_FIT;
}

static bool is_open(const struct args *a)
{
    for (const uint16_t *c = a->closed; c < a->closed + a->closed_len; c += 3)
        if (memcmp(c, a->date, sizeof a->date) == 0)
            return false;
    for (const uint16_t *w = a->windows; w < a->windows + a->windows_len; w += 3)
        if (w[0] == weekday(a->date) && w[1] <= a->minute && a->minute < w[2])
            return true;
    return false;
}

/* The local key, or held or pending as stored; its bucket is well-formed. */
static bool is_known(const uint8_t *s, const uint8_t *key)
{
    int i = bucket_index(s, key);
    return i < 0 || place(bucket_of(s, i), key) >= 0 || is_pending(bucket_of(s, i), key);
}

/* Questions 10 and 11; 0 where neither refuses. */
static unsigned hours_refuse(const uint8_t *s, const struct args *a)
{
    if (a->windows_len == 0)
        return 0;
    if (hour_fault(a))
        return 10;
    return is_known(s, a->key) || is_open(a) ? 0 : 11;
}

/* The questions in turn on storage s, and what an accepted call may write. `fits`: question 6 holds. */
static void foresee_asking(struct outlook *o, const uint8_t *s, const struct args *a, unsigned q, bool fits)
{
    bool alone = a->call >= FIRST_B;
    memset(o, 0, sizeof *o);
    o->malformed = -1;
    if (a->storage_len != (alone ? ALONE : STORAGE)) {
        o->refusal = 1;
        return;
    }
    if (q & Q(2)) {
        o->fault = alone ? alone_fault(s) : header_fault(s);
        if (o->fault) {
            o->refusal = 2;
            return;
        }
    }
    if (q & Q(3) && a->key_len != KEY) {
        o->refusal = 3;
        return;
    }
    if (q & Q(4) && !codes(a)) {
        o->refusal = 4;
        return;
    }
    if (q & Q(5) && a->now > UINT64_MAX - number(s + (alone ? ALONE_TIMEOUT_AT : TIMEOUT_AT))) {
        o->refusal = 5;
        return;
    }
    if (q & Q(6) && !fits) {
        o->refusal = 6;
        return;
    }
    if (alone || a->call == C_new || a->call == C_take_applied_pending)
        return;
    (is_listing(a->call) ? foresee_listing : foresee_on_key)(o, s, a);
    if (q & Q(8) && s[COUNT_AT] + o->records > RECORDS) {
        if (!o->refusal)
            o->refusal = 8;
        else if (o->refusal == 2)
            o->also[1] = true;
    }
    if (q & Q(10) && !o->refusal)
        o->refusal = hours_refuse(s, a);
}

static void foresee(struct outlook *o, const uint8_t *s, const struct args *a)
{
    foresee_asking(o, s, a, calls[a->call].questions, !has_output(a->call) || room(a));
}

/* Of the explanation of the call: refused as the call is, but that question 6 is about its own output. */
static void foresee_explanation(struct outlook *o, const uint8_t *s, const struct args *a, size_t output_len)
{
    foresee_asking(o, s, a, calls[a->call].questions | Q(6), output_len >= KBUCKETS_EXPLANATION_BYTES);
}

#endif

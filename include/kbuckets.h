/* The routing table (k-buckets) of Discovery v5, on storage lent by the host. Link with libkbuckets.a (x86-64 Linux).
 *
 * Lent memory. Each run of bytes is handed over as a pointer and its length. A pointer is never null, not even with length 0. Runs that
 * are lent to one call do not overlap; while it runs nobody else writes them, nor reads those that it may write. No call keeps a pointer,
 * allocates, blocks or has state of its own: a table is its storage and nothing else.
 *
 * Numbers in the storage are big-endian, and its unused bytes are zero. Keys are 32 bytes. A table's or a bucket's bytes may be copied,
 * written to disk and compared; only the calls write them, and a call finds it where what it reads of them is not well-formed (question 2).
 *
 * What a call returns. KBUCKETS_REFUSED + q: question q failed, the first to fail, and all lent memory keeps its bytes. Otherwise a number
 * below KBUCKETS_REFUSED: the answer's code, the number of entries that a listing found, the number of bytes of an explanation, or the number
 * of nodes written or read. */
#ifndef KBUCKETS_H
#define KBUCKETS_H

#include <stddef.h>
#include <stdint.h>

/* A call's answer is to be looked at: a failed update may have taken the peer out, and a taken record is in the queue no more. A compiler
 * warns where it is dropped. A host that wants no such warning defines this as nothing. */
#ifndef KBUCKETS_MUST_USE
#if defined(__cplusplus) && __cplusplus >= 201703L
#define KBUCKETS_MUST_USE [[nodiscard]]
#elif defined(__STDC_VERSION__) && __STDC_VERSION__ >= 202311L
#define KBUCKETS_MUST_USE [[nodiscard]]
#elif defined(__GNUC__)
#define KBUCKETS_MUST_USE __attribute__((warn_unused_result))
#else
#define KBUCKETS_MUST_USE
#endif
#endif

/* The version of this header: 0x00MMmmpp, a byte each for major, minor and patch. */
#define KBUCKETS_VERSION_MAJOR 0
#define KBUCKETS_VERSION_MINOR 7
#define KBUCKETS_VERSION_PATCH 0
#define KBUCKETS_VERSION (KBUCKETS_VERSION_MAJOR * 0x10000 + KBUCKETS_VERSION_MINOR * 0x100 + KBUCKETS_VERSION_PATCH)

#ifdef __cplusplus
extern "C" {
#endif

/* The version of the linked library. Header and library belong together where this is KBUCKETS_VERSION; a host asks once, at its start. */
KBUCKETS_MUST_USE uint32_t kbuckets_version(void);

/* A slot of the host's record store. */
typedef uint64_t kbuckets_slot;

/* Sizes in bytes, each from the others. */
enum {
    KBUCKETS_KEY_BYTES = 32,
    KBUCKETS_TIME_BYTES = 8,
    KBUCKETS_SLOT_BYTES = 8, /* of a kbuckets_slot */
    /* address flag, four octets, slot */
    KBUCKETS_VALUE_BYTES = 5 + KBUCKETS_SLOT_BYTES,
    /* key, state, direction, value */
    KBUCKETS_NODE_BYTES = KBUCKETS_KEY_BYTES + 2 + KBUCKETS_VALUE_BYTES,
    /* the key of a pending, its ending (KBUCKETS_ENDING_..), the evicted node (zero but for KBUCKETS_ENDING_REPLACED) */
    KBUCKETS_RECORD_BYTES = KBUCKETS_KEY_BYTES + 1 + KBUCKETS_NODE_BYTES,

    KBUCKETS_MAX_NODES_PER_BUCKET = 16,
    KBUCKETS_NUM_BUCKETS = 256,
    KBUCKETS_MAX_RECORDS = 64,

    /* count, first connected place (the count where no node is connected), the places; pending flag, pending node, deadline */
    KBUCKETS_STORED_BUCKET_BYTES =
        2 + KBUCKETS_MAX_NODES_PER_BUCKET * KBUCKETS_NODE_BYTES + 1 + KBUCKETS_NODE_BYTES + KBUCKETS_TIME_BYTES,
    /* local key, pending timeout, max_incoming, table filter, bucket filter, record count */
    KBUCKETS_PADDING_OFFSET = KBUCKETS_KEY_BYTES + KBUCKETS_TIME_BYTES + 4,
    /* padding, four bytes that are zero: the records begin at a multiple of 16, 48 */
    KBUCKETS_RECORDS_OFFSET = KBUCKETS_PADDING_OFFSET + 4,
    /* local key, settings, record count and padding, then the records */
    KBUCKETS_HEADER_BYTES = KBUCKETS_RECORDS_OFFSET + KBUCKETS_MAX_RECORDS * KBUCKETS_RECORD_BYTES,
    /* the storage of a table, 212528: the header, then the buckets 0 to 255 */
    KBUCKETS_STORAGE_BYTES = KBUCKETS_HEADER_BYTES + KBUCKETS_NUM_BUCKETS * KBUCKETS_STORED_BUCKET_BYTES,
    /* a bucket by itself, 820: a bucket, then pending timeout, max_incoming, filter */
    KBUCKETS_BUCKET_BYTES = KBUCKETS_STORED_BUCKET_BYTES + KBUCKETS_TIME_BYTES + 2,

    /* what `answer` must have room for, 80: a record */
    KBUCKETS_ANSWER_BYTES = KBUCKETS_RECORD_BYTES,

    /* one entry of a listing's output: a node; a node; a key; key and value; key, match (0 or 1) and value */
    KBUCKETS_ITER_ENTRY_BYTES = KBUCKETS_NODE_BYTES,
    KBUCKETS_NODES_BY_DISTANCES_ENTRY_BYTES = KBUCKETS_NODE_BYTES,
    KBUCKETS_CLOSEST_KEYS_ENTRY_BYTES = KBUCKETS_KEY_BYTES,
    KBUCKETS_CLOSEST_VALUES_ENTRY_BYTES = KBUCKETS_KEY_BYTES + KBUCKETS_VALUE_BYTES,
    KBUCKETS_CLOSEST_VALUES_PREDICATE_ENTRY_BYTES = KBUCKETS_KEY_BYTES + 1 + KBUCKETS_VALUE_BYTES,

    /* the most entries that a listing may be asked for */
    KBUCKETS_MAX_COUNT = 4096,

    /* the most windows and the most closed dates that a call may be given, and the minutes of a day */
    KBUCKETS_MAX_WINDOWS = 32,
    KBUCKETS_MAX_CLOSED_DATES = 64,
    KBUCKETS_MINUTES = 1440,

    /* what the output of an explanation must have room for, however short its line; no line is longer */
    KBUCKETS_EXPLANATION_BYTES = 2048,

    /* what kbuckets_write puts out of a node behind its key: state, direction, value */
    KBUCKETS_WRITTEN_ENTRY_BYTES = 2 + KBUCKETS_VALUE_BYTES,
    /* the most nodes that a table holds, 4047: bucket i has 2^i keys, so the first four hold 1, 2, 4 and 8 */
    KBUCKETS_MAX_NODES = 15 + 252 * KBUCKETS_MAX_NODES_PER_BUCKET,
    /* the most bytes that kbuckets_write puts out, 190465: of n nodes they are KBUCKETS_NUM_BUCKETS + n * KBUCKETS_NODE_BYTES */
    KBUCKETS_MAX_WRITTEN_BYTES = KBUCKETS_NUM_BUCKETS + KBUCKETS_MAX_NODES * KBUCKETS_NODE_BYTES
};

/* Codes of the arguments. */
enum {
    KBUCKETS_DISCONNECTED = 0, /* state */
    KBUCKETS_CONNECTED = 1,
    KBUCKETS_OUTGOING = 0, /* direction */
    KBUCKETS_INCOMING = 1,
    KBUCKETS_NOT_GIVEN = 2, /* a state or direction, where a call says that it takes this */
    KBUCKETS_NO_ADDRESS = 0, /* address flag; the octets are zero then */
    KBUCKETS_ADDRESS = 1,
    KBUCKETS_FILTER_OFF = 0,
    KBUCKETS_FILTER_ON = 1,
    KBUCKETS_ALWAYS = 0, /* predicate */
    KBUCKETS_HAS_ADDRESS = 1,
    KBUCKETS_ADDRESS_IN_NET = 2, /* the address is in the /24 of a, b, c */
    KBUCKETS_SLOT_EQUALS = 3
};

/* Refusals. The questions are asked in this order; questions about things that a call lacks are skipped.
 *
 * Question 2 of a table has two parts. Settings and queue are asked about in its turn; the buckets that the call reads, and no others, right
 * after question 6. A call on one key reads the key's bucket, and none for the local key; kbuckets_update_node and
 * kbuckets_insert_or_update read all buckets where the table filter is on and runs, which it does but where the key is held with an equal
 * value. An explanation reads what its call reads. A listing reads the buckets that it visits, up to the one that has its n-th entry, and
 * kbuckets_nodes_by_distances those in which it looks for due pendings. kbuckets_write and kbuckets_read read all buckets,
 * kbuckets_take_applied_pending none. A malformed bucket that is not read stops no call, has no part in its answer and keeps its bytes;
 * kbuckets_new alone writes it. */
enum {
    KBUCKETS_REFUSED = 0x10000,
    KBUCKETS_REFUSED_SIZE = KBUCKETS_REFUSED + 1,   /* the storage, or the bucket, has another length */
    KBUCKETS_REFUSED_FORM = KBUCKETS_REFUSED + 2,   /* settings, queue or a bucket that it reads are malformed (not asked by `new`) */
    KBUCKETS_REFUSED_KEY = KBUCKETS_REFUSED + 3,    /* a key is not 32 bytes */
    KBUCKETS_REFUSED_CODE = KBUCKETS_REFUSED + 4,   /* a code is out of range */
    KBUCKETS_REFUSED_TIME = KBUCKETS_REFUSED + 5,   /* now + the pending timeout is above 2^64 - 1 */
    KBUCKETS_REFUSED_OUTPUT = KBUCKETS_REFUSED + 6, /* n is above 4096, or the output or the answer is too short */
    KBUCKETS_REFUSED_KIND = KBUCKETS_REFUSED + 7,   /* the key is not of the kind that the entry action needs */
    KBUCKETS_REFUSED_QUEUE = KBUCKETS_REFUSED + 8,  /* the call would leave more than 64 records in the queue */
    KBUCKETS_REFUSED_LOAD = KBUCKETS_REFUSED + 9,   /* the bytes given to kbuckets_read cannot be loaded, or the table holds something */
    KBUCKETS_REFUSED_HOURS = KBUCKETS_REFUSED + 10, /* windows, closed dates, date or minute are none ("Session hours") */
    KBUCKETS_REFUSED_CLOSED = KBUCKETS_REFUSED + 11 /* a new key outside all windows */
};

/* Why an update or an insert failed: an answer KBUCKETS_FAILED + reason. Each call below lists the answers that can occur, without
 * KBUCKETS_. */
enum {
    KBUCKETS_FAILED = 16,
    KBUCKETS_FAILED_TOO_MANY_INCOMING = KBUCKETS_FAILED + 0,
    KBUCKETS_FAILED_BUCKET_FILTER = KBUCKETS_FAILED + 1,
    KBUCKETS_FAILED_TABLE_FILTER = KBUCKETS_FAILED + 2,
    KBUCKETS_FAILED_KEY_NON_EXISTENT = KBUCKETS_FAILED + 3,
    KBUCKETS_FAILED_BUCKET_FULL = KBUCKETS_FAILED + 4,
    KBUCKETS_FAILED_INVALID_SELF_UPDATE = KBUCKETS_FAILED + 5
};

/* UpdateResult of the updates, or one of KBUCKETS_FAILED_.. */
enum {
    KBUCKETS_UPDATE_NOT_MODIFIED = 0,
    KBUCKETS_UPDATE_UPDATED = 1,
    KBUCKETS_UPDATE_UPDATED_AND_PROMOTED = 2,
    KBUCKETS_UPDATE_UPDATED_PENDING = 3
};

/* InsertResult of kbuckets_insert_or_update, or one of KBUCKETS_FAILED_.. */
enum {
    KBUCKETS_INSERT_INSERTED = 0,
    KBUCKETS_INSERT_PENDING = 1, /* the key at place 0, whose peer is to be checked, is in the first 32 bytes of `answer` */
    KBUCKETS_INSERT_STATUS_UPDATED = 2,
    KBUCKETS_INSERT_STATUS_UPDATED_AND_PROMOTED = 3,
    KBUCKETS_INSERT_VALUE_UPDATED = 4,
    KBUCKETS_INSERT_UPDATED = 5,
    KBUCKETS_INSERT_UPDATED_AND_PROMOTED = 6,
    KBUCKETS_INSERT_UPDATED_PENDING = 7 /* the Rust has it; never answered */
};

/* InsertResult of a bucket: kbuckets_absent_insert, kbuckets_b_insert */
enum {
    KBUCKETS_BUCKET_INSERT_INSERTED = 0,
    KBUCKETS_BUCKET_INSERT_PENDING = 1, /* the key at place 0, whose peer is to be checked, is in the first 32 bytes of `answer` */
    KBUCKETS_BUCKET_INSERT_FAILED_FILTER = 2,
    KBUCKETS_BUCKET_INSERT_TOO_MANY_INCOMING = 3,
    KBUCKETS_BUCKET_INSERT_FULL = 4,
    KBUCKETS_BUCKET_INSERT_NODE_EXISTS = 5
};

/* The kind of an entry. To Present and Pending, 2 * state + direction is added. */
enum {
    KBUCKETS_ENTRY_ABSENT = 0,
    KBUCKETS_ENTRY_SELF = 1,
    KBUCKETS_ENTRY_PRESENT = 16,
    KBUCKETS_ENTRY_PENDING = 32
};

/* kbuckets_remove, kbuckets_b_remove */
enum {
    KBUCKETS_REMOVE_NOT_HELD = 0,
    KBUCKETS_REMOVE_REMOVED = 1
};

/* kbuckets_take_applied_pending, kbuckets_b_apply_pending */
enum {
    KBUCKETS_APPLIED_NONE = 0,
    KBUCKETS_APPLIED_RECORD = 1 /* the record stands in the first KBUCKETS_RECORD_BYTES of `answer` */
};

/* What became of a pending: the byte behind the key of a record, at KBUCKETS_KEY_BYTES. */
enum {
    KBUCKETS_ENDING_PLACED = 0,            /* placed, and no node evicted */
    KBUCKETS_ENDING_REPLACED = 1,          /* placed, and the node at place 0 evicted, which stands behind this byte */
    KBUCKETS_ENDING_FIRST_CONNECTED = 2,   /* dropped: 16 nodes are held, and the one at place 0 is connected */
    KBUCKETS_ENDING_BUCKET_FILTER = 3,     /* dropped by the bucket filter */
    KBUCKETS_ENDING_TOO_MANY_INCOMING = 4, /* dropped by the incoming limit */
    KBUCKETS_ENDING_INSERTED = 5,          /* cleared by a direct insert of its key */
    KBUCKETS_ENDING_FIRST_CONFIRMED = 6    /* cleared: the node at place 0 was given CONNECTED */
};

/* The table. `storage` is KBUCKETS_STORAGE_BYTES; `now` is a count of milliseconds, and may go back. A value is address flag, octets a, b,
 * c, d, and slot.
 *
 * A pending whose deadline has come is applied by the first call about its bucket that is given `now` and is no entry action (an
 * explanation is none): it takes a free place or evicts the node at place 0, or it is dropped, because 16 are held and the node at place 0
 * is connected, by the bucket filter, or by the incoming limit; the first of these that holds is its ending. The call then acts on the
 * bucket as that left it. One thing comes before: the table filter of kbuckets_update_node and kbuckets_insert_or_update looks at the
 * values that were held before the pending was applied. A pending that was not applied (it is not due, or the call is an entry action) is
 * cleared where its key is inserted into a free place, or the node at place 0 given CONNECTED, also where that call fails or changes
 * nothing.
 *
 * However a pending ends, it leaves one record in the queue, of its key and its ending; only kbuckets_new ends pendings without. So the
 * inserts that answered PENDING since then are the records left and the pendings that still wait. A listing may leave several records, in
 * the order of its visit, any other call at most one. A call that would leave more than 64 in the queue is refused with QUEUE.
 *
 * The filters. A value with an address fails the table filter where the table holds 10 values of its /24 that are unequal to it, and the
 * bucket filter where its bucket holds 2; the old value of its own key is not counted. So a held key whose new value keeps the /24 of the old
 * one passes the table filter while at most 10 are held there, its own among them. kbuckets_absent_insert and a pending that is applied are
 * not asked the table filter, so a table may hold more than 10 values of a /24.
 *
 * Session hours. kbuckets_insert_or_update, kbuckets_absent_insert and their explanations are given the hours in which new keys are
 * admitted, and the UTC date (year, month, day) and minute, 0 to 1439. `windows` has three numbers for each weekly window: weekday, 1
 * Monday to 7 Sunday, opening minute and closing minute, both of that day. A window includes its opening minute and excludes its closing
 * minute, which comes after it and is at most 1440. `closed` has three numbers for each date that has no windows: year, month, day.
 * Dates are those of the Gregorian calendar from 2000 to 2399. There are at most KBUCKETS_MAX_WINDOWS windows, which may overlap, and
 * KBUCKETS_MAX_CLOSED_DATES closed dates, which may repeat. windows_len and closed_len count numbers (not entries, not bytes), of 16
 * bits in the machine's byte order, aligned as the machine's uint16_t.
 *
 * A call whose windows, closed dates, date or minute are not such is refused with HOURS, whatever its key. Then a new key is refused
 * with CLOSED outside all windows: one that is neither the local key nor held or pending as stored, before a due pending is applied.
 * Both are asked last, and nothing is applied where they refuse. With windows_len 0 neither is asked, and nothing else of the hours is
 * looked at: a host without hours gives two pointers that are not null, and zeros. */

/* Makes the storage, whatever it held, that of an empty table. max_incoming: 0 to 16. Answers 0. Questions 1, 3, 4. */
KBUCKETS_MUST_USE uint32_t kbuckets_new(
    uint8_t *storage, size_t storage_len, const uint8_t *local_key, size_t local_key_len, uint64_t pending_timeout,
    uint8_t max_incoming, uint8_t table_filter, uint8_t bucket_filter);

/* Sets the status of the key's node, which moves behind the others of its state even where nothing changes, or of the key's pending.
 * direction: also NOT_GIVEN. The node at place 0 given CONNECTED clears the bucket's pending. Where the call fails for another reason than
 * KEY_NON_EXISTENT the node is taken out. The local key answers NOT_MODIFIED. Answers any UPDATE_.., FAILED_TOO_MANY_INCOMING,
 * FAILED_BUCKET_FILTER or FAILED_KEY_NON_EXISTENT. Questions 1 to 5, 8. */
KBUCKETS_MUST_USE uint32_t kbuckets_update_node_status(
    uint8_t *storage, size_t storage_len, const uint8_t *key, size_t key_len, uint8_t state, uint8_t direction, uint64_t now);

/* Sets the value of the key's node or pending, then the state where it is given (state: also NOT_GIVEN), as kbuckets_update_node_status
 * does. Where the call fails for another reason than KEY_NON_EXISTENT the node is taken out. The local key answers NOT_MODIFIED. Answers
 * any UPDATE_.., FAILED_TOO_MANY_INCOMING, FAILED_BUCKET_FILTER, FAILED_TABLE_FILTER or FAILED_KEY_NON_EXISTENT. Questions 1 to 5, 8. */
KBUCKETS_MUST_USE uint32_t kbuckets_update_node(
    uint8_t *storage, size_t storage_len, const uint8_t *key, size_t key_len, uint8_t flag, uint8_t a, uint8_t b, uint8_t c, uint8_t d,
    kbuckets_slot slot, uint8_t state, uint64_t now);

/* Inserts a node, also where the key is only pending, or sets status and value of the key's node. Where setting either fails, or the table
 * filter does, the key's node is taken out; a status that cannot be set answers FAILED_TOO_MANY_INCOMING, whatever the reason. The local
 * key answers FAILED_INVALID_SELF_UPDATE. `answer` is at least KBUCKETS_ANSWER_BYTES; only its first 32 bytes are written, and only where
 * the answer is PENDING. Answers any INSERT_.. but UPDATED_PENDING, or any FAILED_.. but KEY_NON_EXISTENT. Questions 1 to 6, 8, 10, 11. */
KBUCKETS_MUST_USE uint32_t kbuckets_insert_or_update(
    uint8_t *storage, size_t storage_len, const uint8_t *key, size_t key_len, uint8_t flag, uint8_t a, uint8_t b, uint8_t c, uint8_t d,
    kbuckets_slot slot, uint8_t state, uint8_t direction, uint64_t now, const uint16_t *windows, size_t windows_len, const uint16_t *closed,
    size_t closed_len, uint16_t year, uint16_t month, uint16_t day, uint16_t minute, uint8_t *answer, size_t answer_len);

/* Takes the key's node out. A pending of the key that is not due stays. Answers REMOVE_REMOVED, or REMOVE_NOT_HELD, as for the local key.
 * Questions 1, 2, 3, 5, 8. */
KBUCKETS_MUST_USE uint32_t kbuckets_remove(uint8_t *storage, size_t storage_len, const uint8_t *key, size_t key_len, uint64_t now);

/* What the key is in the table. Answers ENTRY_ABSENT, ENTRY_SELF (the local key), ENTRY_PRESENT + 2 * state + direction or
 * ENTRY_PENDING + 2 * state + direction. Questions 1, 2, 3, 5, 8. */
KBUCKETS_MUST_USE uint32_t kbuckets_entry(uint8_t *storage, size_t storage_len, const uint8_t *key, size_t key_len, uint64_t now);

/* The entry actions. Each names the key again, applies no pending, and is refused with KIND where the key, as stored, is not of its kind,
 * as for the local key. */

/* Of a Present key: sets the status, as kbuckets_update_node_status does. direction: also NOT_GIVEN. Answers any UPDATE_.. but
 * UPDATED_PENDING, FAILED_TOO_MANY_INCOMING or FAILED_BUCKET_FILTER. Questions 1 to 4, 7, 8. */
KBUCKETS_MUST_USE uint32_t kbuckets_present_update(
    uint8_t *storage, size_t storage_len, const uint8_t *key, size_t key_len, uint8_t state, uint8_t direction);

/* Of a Pending key: sets the pending's status. Answers UPDATE_UPDATED_PENDING. Questions 1 to 4, 7. */
KBUCKETS_MUST_USE uint32_t kbuckets_pending_update(
    uint8_t *storage, size_t storage_len, const uint8_t *key, size_t key_len, uint8_t state, uint8_t direction);

/* Of an Absent key: inserts a node; the table filter is skipped. `answer` as for kbuckets_insert_or_update. Answers any BUCKET_INSERT_..
 * but NODE_EXISTS. Questions 1 to 7, 10, 11. */
KBUCKETS_MUST_USE uint32_t kbuckets_absent_insert(
    uint8_t *storage, size_t storage_len, const uint8_t *key, size_t key_len, uint8_t flag, uint8_t a, uint8_t b, uint8_t c, uint8_t d,
    kbuckets_slot slot, uint8_t state, uint8_t direction, uint64_t now, const uint16_t *windows, size_t windows_len, const uint16_t *closed,
    size_t closed_len, uint16_t year, uint16_t month, uint16_t day, uint16_t minute, uint8_t *answer, size_t answer_len);

/* The listings. Each writes at most n entries to `output`, one behind the other, and answers how many it found. The output has room for n
 * entries (one, in kbuckets_nodes_by_distances at n = 0); bytes past the entries found stay. The due pendings of the buckets visited are
 * applied first; where one of these buckets is malformed none is. */

/* All nodes, bucket by bucket, each in stored order. Questions 1, 2, 5, 6, 8. */
KBUCKETS_MUST_USE uint32_t kbuckets_iter(uint8_t *storage, size_t storage_len, size_t n, uint64_t now, uint8_t *output, size_t output_len);

/* The nodes of the buckets at these log2 distances, in the order given, repeats included. Distance d is bucket d - 1: the keys whose XOR
 * with the local key is at least 2^(d-1) and below 2^d. `distances` are distances_len numbers (not bytes) of 64 bits in the machine's byte
 * order, aligned as the machine's uint64_t. Distances outside 1 to 256 are dropped; n = 0 still gives one node. It may apply pendings of
 * buckets that it does not list. Questions 1, 2, 5, 6, 8. */
KBUCKETS_MUST_USE uint32_t kbuckets_nodes_by_distances(
    uint8_t *storage, size_t storage_len, const uint64_t *distances, size_t distances_len, size_t n, uint64_t now, uint8_t *output,
    size_t output_len);

/* The keys nearest to the target, nearest first, of a table in which no bucket is malformed. When the local key and the target are equal or
 * their last bits differ, the node of bucket 0 stands a second time right behind itself; so it does in the two calls below. Questions 1, 2, 3,
 * 5, 6, 8. */
KBUCKETS_MUST_USE uint32_t kbuckets_closest_keys(
    uint8_t *storage, size_t storage_len, const uint8_t *target, size_t target_len, size_t n, uint64_t now, uint8_t *output,
    size_t output_len);

/* The same, each key with its value. Questions 1, 2, 3, 5, 6, 8. */
KBUCKETS_MUST_USE uint32_t kbuckets_closest_values(
    uint8_t *storage, size_t storage_len, const uint8_t *target, size_t target_len, size_t n, uint64_t now, uint8_t *output,
    size_t output_len);

/* The same, each with a byte that says whether the value matches the predicate. a, b, c are looked at for ADDRESS_IN_NET only, slot for
 * SLOT_EQUALS only. Questions 1 to 6, 8. */
KBUCKETS_MUST_USE uint32_t kbuckets_closest_values_predicate(
    uint8_t *storage, size_t storage_len, const uint8_t *target, size_t target_len, uint8_t predicate, uint8_t a, uint8_t b, uint8_t c,
    kbuckets_slot slot, size_t n, uint64_t now, uint8_t *output, size_t output_len);

/* Takes the oldest record, whatever its ending, out of the queue. `answer` is at least KBUCKETS_ANSWER_BYTES. Answers APPLIED_RECORD with
 * the record in `answer`, or APPLIED_NONE. Questions 1, 2, 6. */
KBUCKETS_MUST_USE uint32_t kbuckets_take_applied_pending(uint8_t *storage, size_t storage_len, uint8_t *answer, size_t answer_len);

/* Explanations: what a call that inserts, updates or removes a peer would answer on this storage, and why. Each has the call's parameters,
 * but only reads the storage, and an `output` of at least KBUCKETS_EXPLANATION_BYTES in the place of an `answer`. It tells of the bucket as
 * the call would find it, a due pending applied where the call applies it, and leaves all as it is. It writes one line of
 * ASCII to the front of the output and answers its length in bytes; bytes behind the line stay. The line is the answer, the reason and the
 * keys behind it, in bucket and place order; one space parts words and keys, and a line feed ends the line:
 *
 *     Inserted none
 *     Pending KEY none                        the key at place 0
 *     StatusUpdated FLAG none                 FLAG, here and below: true where a disconnected node would be connected, else false
 *     ValueUpdated none
 *     Updated FLAG none                       of insert_or_update; of the updates, without the flag
 *     UpdatedAndPromoted none
 *     UpdatedPending none
 *     NotModified REASON                      none, or local key
 *     Failed WHY REASON                       WHY: TooManyIncoming, BucketFilter, TableFilter, KeyNonExistent, BucketFull or
 *                                             InvalidSelfUpdate
 *     FailedFilter REASON, TooManyIncoming REASON, Full REASON    of absent_insert
 *     true none, false REASON                 of remove: no such key, or local key
 *
 * A KEY is 64 small hexadecimal digits. The reasons:
 *
 *     none                                    the call would not fail
 *     table filter KEY ..                     the first 10 nodes that the filter counts, before a due pending is applied; not the key's own
 *     bucket filter KEY KEY                   the first 2 nodes that the filter counts; also of a status that insert_or_update cannot set,
 *                                             though its answer says TooManyIncoming
 *     incoming limit KEY ..                   all others connected incoming in the bucket, 0 to 16 of them
 *                                             of a full bucket the first of these three that holds:
 *     newcomer disconnected                   a disconnected newcomer cannot wait
 *     all connected                           no node is disconnected, so none can be replaced
 *     pending KEY                             a node waits already; it may be the newcomer itself
 *     no such key                             the key is not held, or a due pending would evict it; for remove also where it only waits
 *     local key
 *
 * Two different explanations never share a line. An explanation is refused as the call would be, and with OUTPUT for an output under 2048
 * bytes, in that question's turn. */

/* Explains kbuckets_update_node_status. Reasons: none, bucket filter, incoming limit, no such key, local key. Questions 1 to 6, 8. */
KBUCKETS_MUST_USE uint32_t kbuckets_explain_update_node_status(
    const uint8_t *storage, size_t storage_len, const uint8_t *key, size_t key_len, uint8_t state, uint8_t direction, uint64_t now,
    uint8_t *output, size_t output_len);

/* Explains kbuckets_update_node. Reasons: none, table filter, bucket filter, incoming limit, no such key, local key. Questions 1 to 6, 8. */
KBUCKETS_MUST_USE uint32_t kbuckets_explain_update_node(
    const uint8_t *storage, size_t storage_len, const uint8_t *key, size_t key_len, uint8_t flag, uint8_t a, uint8_t b, uint8_t c,
    uint8_t d, kbuckets_slot slot, uint8_t state, uint64_t now, uint8_t *output, size_t output_len);

/* Explains kbuckets_insert_or_update. Reasons: all but no such key. Questions 1 to 6, 8, 10, 11. */
KBUCKETS_MUST_USE uint32_t kbuckets_explain_insert_or_update(
    const uint8_t *storage, size_t storage_len, const uint8_t *key, size_t key_len, uint8_t flag, uint8_t a, uint8_t b, uint8_t c,
    uint8_t d, kbuckets_slot slot, uint8_t state, uint8_t direction, uint64_t now, const uint16_t *windows, size_t windows_len,
    const uint16_t *closed, size_t closed_len, uint16_t year, uint16_t month, uint16_t day, uint16_t minute, uint8_t *output,
    size_t output_len);

/* Explains kbuckets_remove. Reasons: none, no such key, local key. Questions 1, 2, 3, 5, 6, 8. */
KBUCKETS_MUST_USE uint32_t kbuckets_explain_remove(
    const uint8_t *storage, size_t storage_len, const uint8_t *key, size_t key_len, uint64_t now, uint8_t *output, size_t output_len);

/* Explains kbuckets_present_update. Reasons: none, bucket filter, incoming limit. Questions 1 to 4, 6 to 8. */
KBUCKETS_MUST_USE uint32_t kbuckets_explain_present_update(
    const uint8_t *storage, size_t storage_len, const uint8_t *key, size_t key_len, uint8_t state, uint8_t direction, uint8_t *output,
    size_t output_len);

/* Explains kbuckets_pending_update. Reasons: none. Questions 1 to 4, 6, 7. */
KBUCKETS_MUST_USE uint32_t kbuckets_explain_pending_update(
    const uint8_t *storage, size_t storage_len, const uint8_t *key, size_t key_len, uint8_t state, uint8_t direction, uint8_t *output,
    size_t output_len);

/* Explains kbuckets_absent_insert. Reasons: none, bucket filter, incoming limit, newcomer disconnected, all connected, pending. Questions
 * 1 to 7, 10, 11. */
KBUCKETS_MUST_USE uint32_t kbuckets_explain_absent_insert(
    const uint8_t *storage, size_t storage_len, const uint8_t *key, size_t key_len, uint8_t flag, uint8_t a, uint8_t b, uint8_t c,
    uint8_t d, kbuckets_slot slot, uint8_t state, uint8_t direction, uint64_t now, const uint16_t *windows, size_t windows_len,
    const uint16_t *closed, size_t closed_len, uint16_t year, uint16_t month, uint16_t day, uint16_t minute, uint8_t *output,
    size_t output_len);

/* A table that survives a change of machine: kbuckets_write puts the held nodes out as bytes, and kbuckets_read loads them into storage that
 * kbuckets_new has just made. The bytes are 256 one-byte sizes, of the buckets 0 to 255; then the keys of all nodes, in bucket and place
 * order; then an entry for each, in the same order, KBUCKETS_WRITTEN_ENTRY_BYTES long: state, direction, address flag, four octets, slot.
 * Local key, settings, pendings and records are not among them. Under the same local key and settings a table that only the calls have
 * written is loaded with the same nodes in the same places, and what was read is written again byte for byte. */

/* Writes the held nodes to the front of the output, and answers how many they are; the bytes are KBUCKETS_NUM_BUCKETS plus
 * KBUCKETS_NODE_BYTES for each, and those behind them stay. It applies no pending and leaves the storage as it is. An output of
 * KBUCKETS_MAX_WRITTEN_BYTES has room for every table; one that is too short for this table is refused with OUTPUT. Questions 1, 2, 6. */
KBUCKETS_MUST_USE uint32_t kbuckets_write(const uint8_t *storage, size_t storage_len, uint8_t *output, size_t output_len);

/* Loads what kbuckets_write put out, each node in its place, and answers how many nodes they are. Refused with LOAD: storage that holds any
 * node, pending or record; a length that does not fit the sizes; bytes that would leave no well-formed table under the storage's local key
 * and max_incoming, by any code, key or order; and, where the bucket filter is on, three different values of one /24 in a bucket. The table
 * filter is not asked. Questions 1, 2, 9. */
KBUCKETS_MUST_USE uint32_t kbuckets_read(uint8_t *storage, size_t storage_len, const uint8_t *bytes, size_t bytes_len);

/* A bucket by itself. `bucket` is KBUCKETS_BUCKET_BYTES: what a table stores of a bucket, then pending timeout, max_incoming and filter.
 * Question 2, all of it in its turn, asks nothing of the index of its keys. It has no queue: what becomes of its pending leaves no record. */

/* Makes the bytes, whatever they were, an empty bucket. max_incoming: 0 to 16. Answers 0. Questions 1, 4. */
KBUCKETS_MUST_USE uint32_t kbuckets_b_new(
    uint8_t *bucket, size_t bucket_len, uint64_t pending_timeout, uint8_t max_incoming, uint8_t filter);

/* Inserts a node, or makes it the pending. `answer` as for kbuckets_insert_or_update. Answers any BUCKET_INSERT_.. Questions 1 to 6. */
KBUCKETS_MUST_USE uint32_t kbuckets_b_insert(
    uint8_t *bucket, size_t bucket_len, const uint8_t *key, size_t key_len, uint8_t flag, uint8_t a, uint8_t b, uint8_t c, uint8_t d,
    kbuckets_slot slot, uint8_t state, uint8_t direction, uint64_t now, uint8_t *answer, size_t answer_len);

/* Applies the pending if its deadline has come. `answer` is at least KBUCKETS_ANSWER_BYTES. Answers APPLIED_RECORD with the record of a
 * pending that was placed in `answer`, or APPLIED_NONE where none is due or it was dropped. Questions 1, 2, 5, 6. */
KBUCKETS_MUST_USE uint32_t kbuckets_b_apply_pending(uint8_t *bucket, size_t bucket_len, uint64_t now, uint8_t *answer, size_t answer_len);

/* Sets the status of the key's node or pending, fails and answers as kbuckets_update_node_status does. direction: also NOT_GIVEN.
 * Questions 1 to 4. */
KBUCKETS_MUST_USE uint32_t kbuckets_b_update_status(
    uint8_t *bucket, size_t bucket_len, const uint8_t *key, size_t key_len, uint8_t state, uint8_t direction);

/* Sets the value of the key's node, which keeps its place, or of the key's pending. Where the bucket filter fails the node is taken out.
 * Answers UPDATE_NOT_MODIFIED, UPDATE_UPDATED, UPDATE_UPDATED_PENDING, FAILED_BUCKET_FILTER or FAILED_KEY_NON_EXISTENT. Questions 1 to 4. */
KBUCKETS_MUST_USE uint32_t kbuckets_b_update_value(
    uint8_t *bucket, size_t bucket_len, const uint8_t *key, size_t key_len, uint8_t flag, uint8_t a, uint8_t b, uint8_t c, uint8_t d,
    kbuckets_slot slot);

/* Sets the status of the pending, if there is one. Answers 0. Questions 1, 2, 4. */
KBUCKETS_MUST_USE uint32_t kbuckets_b_update_pending(uint8_t *bucket, size_t bucket_len, uint8_t state, uint8_t direction);

/* Takes the key's node out, then applies a due pending, without a record. Answers REMOVE_REMOVED or REMOVE_NOT_HELD; with NOT_HELD nothing
 * is applied. Questions 1, 2, 3, 5. */
KBUCKETS_MUST_USE uint32_t kbuckets_b_remove(uint8_t *bucket, size_t bucket_len, const uint8_t *key, size_t key_len, uint64_t now);

#ifdef __cplusplus
}
#endif

#endif

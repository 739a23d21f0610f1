/* Malformed storage at scale: hands the library storages that are well-formed, changed in a few bytes, random, or of another length, with
 * arguments good and bad, and holds each call to the questions and to what a refusal and an accepted call may write. Malformed buckets, one
 * and several, stand among those that the call reads and among the others; where they stand elsewhere, the call is made a second time on a
 * copy in which those are empty, and must do the same. Calls that insert come with session hours of every kind.
 *
 * questions.h asks the questions once more, from documents 01 and 02 and the layout in kbuckets.h, and shares no code with the library.
 *
 *     malformed [--seed N] [--count N] [--seconds N] [--every] [--partial]
 *
 * --every: also every byte of a table changed in turn, which the writer reads, and every byte of four buckets by themselves to every other
 * value.
 * Exit status 1 and a description at the first violation; also where an outcome that must occur did not, unless --partial is given. */
#define _DEFAULT_SOURCE
#include <signal.h>
#include <stdarg.h>
#include <stdbool.h>
#include <stdio.h>
#include <stdlib.h>
#include <string.h>
#include <time.h>
#include <unistd.h>

#include "pool.h"

/* --- violations --- */

static unsigned long done;
static const struct args *current;
static struct change {
    size_t at;
    uint8_t old, new;
} changes[32];
static int num_changes;
enum { MOST_CHANGES = sizeof changes / sizeof changes[0] };

static _Noreturn void violation(const char *form, ...)
{
    va_list v;
    va_start(v, form);
    printf("violation at storage %lu, %s: ", done, current ? calls[current->call].name : "making the pool");
    vprintf(form, v);
    putchar('\n');
    if (current)
        printf("    storage %zu bytes, key %zu, now %llu, n %zu, output %zu, state %u, direction %u, flag %u, predicate %u\n",
               current->storage_len, current->key_len, (unsigned long long)current->now, current->n, current->output_len, current->state,
               current->direction, current->flag, current->predicate);
    if (current && has_hours(current->call)) {
        printf("    windows");
        for (size_t k = 0; k < current->windows_len; k++)
            printf("%c%u", k % 3 ? ':' : ' ', current->windows[k]);
        printf("\n    closed");
        for (size_t k = 0; k < current->closed_len; k++)
            printf("%c%u", k % 3 ? '-' : ' ', current->closed[k]);
        printf("\n    date %u-%u-%u, minute %u\n", current->date[0], current->date[1], current->date[2], current->minute);
    }
    for (int i = 0; i < num_changes; i++)
        printf("    byte %zu was %u, is %u\n", changes[i].at, changes[i].old, changes[i].new);
    fflush(stdout);
    exit(1);
}

static void on_fault(int signal)
{
    static const char *text[3] = {"violation: memory that was not lent is reached by ", "nothing that is known", "\n"};
    (void)signal;
    if (current)
        text[1] = calls[current->call].name;
    for (int i = 0; i < 3; i++)
        if (write(1, text[i], strlen(text[i])) < 0)
            break;
    _exit(1);
}

/* --- what is lent --- */

static struct arena storages[NUM_PLACINGS], alones[NUM_PLACINGS], keys, outputs, distances, windows, closed_dates, cuts;

/* --- tables and buckets --- */

/* Tables from NUM_MADE on are left as calls leave them; in table SWEPT every byte is changed in turn. */
enum { NUM_TABLES = 24, NUM_MADE = 12, SWEPT = 3, NUM_ALONES = 64, SWEPT_ALONES = 4 };
static uint8_t tables[NUM_TABLES + 1][STORAGE]; /* the last one is for random bytes */
static uint8_t buckets[NUM_ALONES + 1][ALONE];

static void make_alone(uint8_t *b, unsigned count, unsigned pending_percent)
{
    b[ALONE_MAX_AT] = (uint8_t)(chance(50) ? below(17) : 1 + below(5));
    b[ALONE_FILTER_AT] = chance(50);
    put_number(b + ALONE_TIMEOUT_AT, random_timeout());
    make_bucket(b, NULL, 0, b[ALONE_MAX_AT], count, pending_percent);
}

/* --- arguments --- */

static uint8_t code(unsigned good) { return (uint8_t)(chance(97) ? below(good) : chance(50) ? good : chance(50) ? 255 : draw()); }

/* A bucket of the table, one that holds nodes, or has a pending, where that is quickly found. */
static int some_bucket(const uint8_t *s)
{
    size_t at = chance(40) ? PENDING_AT : 0;
    int i = (int)below(BUCKETS);
    for (int k = 0; k < 24 && bucket_of(s, i)[at] == 0; k++)
        i = (int)below(BUCKETS);
    return i;
}

static size_t wrong_length(void)
{
    static const size_t lengths[] = {0, 1, 16, 31, 33, 64};
    return chance(70) ? lengths[below(6)] : below(100);
}

static void choose_key(uint8_t *key, const uint8_t *b, const uint8_t *local, int index)
{
    unsigned held = b[0] > PLACES ? PLACES : b[0];
    switch (below(20)) {
    case 0: noise(key, KEY); break;
    case 1:
        if (local)
            memcpy(key, local, KEY);
        else
            noise(key, KEY);
        break;
    case 2:
    case 3:
    case 4:
    case 5: memcpy(key, b + PENDING_NODE_AT, KEY); break;
    case 6:
    case 7:
    case 8:
    case 9: {
        static const uint8_t none[1] = {0};
        random_key(key, none, local, index);
        break;
    }
    default:
        if (held)
            memcpy(key, b + NODES_AT + (chance(20) ? 0 : below(held)) * NODE, KEY);
        else
            noise(key, KEY);
    }
}

enum { MOST_WINDOWS = 33, MOST_DATES = 65 }; /* one more than there may be */

static void some_date(uint16_t *date)
{
    do {
        date[0] = (uint16_t)(chance(20) ? 2000 + 100 * below(4) : 2000 + below(400));
        date[1] = (uint16_t)(chance(20) ? 2 : 1 + below(12));
        date[2] = (uint16_t)(chance(20) ? 28 + below(4) : 1 + below(31));
    } while (!is_date(date));
}

/* One number of a date out of its range, or 29 February of a year that has none. */
static void no_date(uint16_t *date)
{
    static const uint16_t bad[][3] = {{1999, 12, 31}, {2400, 1, 1}, {2026, 0, 1}, {2026, 13, 1}, {2026, 1, 0}, {2026, 1, 32}, {2026, 4, 31},
                                      {2026, 2, 29}, {2100, 2, 29}, {2200, 2, 29}, {2300, 2, 29}, {2000, 2, 30}, {0, 0, 0}};
    if (chance(80))
        memcpy(date, bad[below(13)], 3 * sizeof *date);
    else
        do
            noise((uint8_t *)date, 3 * sizeof *date);
        while (is_date(date));
}

/* A window of this weekday, and a minute: of its first, its last, one between, the one before it or the closing one. */
static uint16_t some_window(uint16_t *w, unsigned weekday)
{
    w[0] = (uint16_t)weekday;
    w[1] = (uint16_t)(chance(20) ? 0 : below(1440));
    w[2] = (uint16_t)(chance(20) ? 1440 : w[1] + 1 + below(1440 - w[1]));
    unsigned minutes[] = {w[1], w[2] - 1u, w[1] + below(w[2] - w[1]), w[1] ? w[1] - 1u : 0, w[2] < 1440 ? w[2] : 1439};
    return (uint16_t)minutes[below(chance(70) ? 3 : 5)];
}

/* The hours of a call. `good`: open, or no windows. */
static void choose_hours(struct args *a, bool good)
{
    a->windows = (uint16_t *)(void *)windows.low;
    a->closed = (uint16_t *)(void *)closed_dates.low;
    if (!has_hours(a->call))
        return;
    unsigned count = chance(30) ? 0 : chance(20) ? 32 : 1 + below(4), dates = chance(60) ? 0 : chance(10) ? 64 : 1 + below(4);
    bool many_windows = !good && chance(3), many_dates = !good && chance(3);
    a->windows_len = 3 * (many_windows ? MOST_WINDOWS : count);
    a->closed_len = 3 * (many_dates ? MOST_DATES : dates);
    if (!good && chance(6))
        a->windows_len += 1 + below(2);
    if (!good && chance(4))
        a->closed_len += 1 + below(2);
    if (chance(50))
        a->windows = (uint16_t *)(void *)windows.high - a->windows_len;
    if (chance(50))
        a->closed = (uint16_t *)(void *)closed_dates.high - a->closed_len;
    some_date(a->date);
    for (size_t k = 0; k < a->closed_len; k++)
        a->closed[k] = (uint16_t)below(3000);
    for (size_t k = 0; k + 3 <= a->closed_len; k += 3) {
        do
            some_date(a->closed + k);
        while (good && memcmp(a->closed + k, a->date, sizeof a->date) == 0);
        if (chance(20)) { /* but for the year, the month or the day, that of the call */
            uint16_t other[3];
            memcpy(other, a->date, sizeof other);
            other[below(3)] = a->closed[k + below(3)];
            if (is_date(other) && memcmp(other, a->date, sizeof other) != 0)
                memcpy(a->closed + k, other, sizeof other);
        }
        if (!good && chance(4))
            memcpy(a->closed + k, a->date, sizeof a->date);
    }
    a->minute = (uint16_t)below(1440);
    for (size_t k = 0; k < a->windows_len; k++)
        a->windows[k] = (uint16_t)below(9);
    size_t own = count ? 3 * below(count) : 0;
    for (size_t k = 0; k + 3 <= a->windows_len; k += 3) {
        bool today = k == own && (good || chance(70));
        uint16_t minute = some_window(a->windows + k, today ? weekday(a->date) : 1 + below(7));
        if (today)
            a->minute = good ? (uint16_t)(a->windows[k + 1]) : minute;
    }
    if (good || !chance(20))
        return;
    uint16_t *w = a->windows + (a->windows_len >= 3 ? 3 * below((unsigned)a->windows_len / 3) : 0);
    uint16_t *c = a->closed + (a->closed_len >= 3 ? 3 * below((unsigned)a->closed_len / 3) : 0);
    switch (a->windows_len < 3 ? 6 : below(7)) {
    case 0: w[0] = (uint16_t)(chance(40) ? 0 : chance(60) ? 8 : draw()); break;
    case 1: w[1] = (uint16_t)(w[2] + (chance(50) ? 0 : below(100))); break;
    case 2: w[2] = (uint16_t)(1441 + (chance(50) ? 0 : below(60000))); break;
    case 3: a->minute = (uint16_t)(1440 + (chance(50) ? 0 : below(60000))); break;
    case 4: no_date(a->date); break;
    case 5:
        if (a->closed_len >= 3)
            no_date(c);
        break;
    default:
        noise((uint8_t *)a->date, sizeof a->date);
        noise((uint8_t *)a->closed, a->closed_len * sizeof *a->closed);
    }
}

/* Arguments for the call, about bucket b. `good`: none that a question refuses by itself. */
static void choose(struct args *a, const uint8_t *b, const uint8_t *local, int index, uint64_t timeout, bool good)
{
    uint8_t key[KEY], value[KBUCKETS_VALUE_BYTES];
    choose_key(key, b, local, index);
    a->key_len = good || chance(95) ? KEY : wrong_length();
    a->key = chance(50) ? keys.high - a->key_len : keys.low;
    memcpy(a->key, key, a->key_len < KEY ? a->key_len : KEY);

    random_value(value);
    if (chance(15) && b[0] && b[0] <= PLACES) /* the value of a held node, perhaps the key's own */
        memcpy(value, b + NODES_AT + below(b[0]) * NODE + VALUE_AT, KBUCKETS_VALUE_BYTES);
    a->flag = value[0];
    memcpy(a->octet, value + 1, 4);
    a->slot = slot_of(value);
    if (!good && chance(8)) {
        a->flag = code(2);
        noise(a->octet, chance(50) ? 4 : 1);
    }
    a->state = good ? (uint8_t)below(2) : code(2);
    if (chance(30) && a->call == C_update_node)
        a->state = KBUCKETS_NOT_GIVEN;
    a->direction = good ? (uint8_t)below(2) : code(2);
    if (chance(30) && (a->call == C_update_node_status || a->call == C_present_update || a->call == C_b_update_status))
        a->direction = KBUCKETS_NOT_GIVEN;
    a->predicate = code(4);
    a->max_incoming = code(17);
    a->table_filter = code(2);
    a->bucket_filter = code(2);
    a->timeout = random_timeout();

    uint64_t last = UINT64_MAX - timeout, deadline = number(b + DEADLINE_AT);
    switch (below(12)) {
    case 0: a->now = last; break;
    case 1: a->now = good ? last : last + 1; break; /* 0 where the timeout is 0 */
    case 2: a->now = good ? 0 : UINT64_MAX - below(2); break;
    case 3: a->now = 0; break;
    case 4: a->now = deadline - 1; break;
    case 5: a->now = deadline; break;
    case 6: a->now = deadline + 1; break;
    case 7: a->now = draw(); break;
    default: a->now = below(220000);
    }
    if (good && a->now > last)
        a->now = last;

    if (!has_output(a->call)) {
        a->output_len = 0;
    } else if (!is_listing(a->call)) {
        static const size_t lengths[] = {0, KBUCKETS_ANSWER_BYTES - 1, KBUCKETS_ANSWER_BYTES - 1, KBUCKETS_ANSWER_BYTES + 1, 1000};
        a->output_len = good || chance(90) ? KBUCKETS_ANSWER_BYTES : lengths[below(5)];
    } else {
        static const size_t numbers[] = {0, 0, 1, 1, 2, 3, 15, 16, 17, 100, 4095, 4096, 4096};
        a->n = chance(60) ? numbers[below(13)] : below(chance(50) ? 50 : 4097);
        size_t entries = a->n == 0 && a->call == C_nodes_by_distances ? 1 : a->n, entry = calls[a->call].entry;
        a->output_len = entries * entry;
        if (!good)
            switch (below(20)) {
            case 0: a->output_len -= a->output_len ? 1 : 0; break;
            case 1: a->output_len += 1 + below(200); break;
            case 2: a->output_len = below((unsigned)a->output_len + 1); break;
            case 3: a->n = 4097, a->output_len = chance(50) ? 4097 * entry : 4096 * entry; break;
            case 4: {
                /* n entries take more bytes than a size can say */
                size_t most[] = {SIZE_MAX, SIZE_MAX / entry + 1, (size_t)1 << 63, (size_t)1 << 32, SIZE_MAX / 2 + 1};
                a->n = most[below(5)];
                break;
            }
            default: break;
            }
    }
    a->output = chance(50) ? outputs.high - a->output_len : outputs.low;

    a->distances_len = 0;
    a->distances = (uint64_t *)(void *)distances.low;
    if (a->call == C_nodes_by_distances) {
        a->distances_len = chance(50) ? below(4) : below(BUCKETS);
        if (chance(50))
            a->distances = (uint64_t *)(void *)(distances.high - 8 * a->distances_len);
        for (size_t k = 0; k < a->distances_len; k++)
            a->distances[k] = chance(10) ? (uint64_t)index + 1 : chance(90) ? 1 + below(BUCKETS) : chance(50) ? below(2) * 257 : draw();
    }
    choose_hours(a, good && chance(80));
}

/* Turns a call to bucket b's pending before its time: its key is inserted, or the node at place 0 given CONNECTED. */
static void aim_at_pending(struct args *a, const uint8_t *b)
{
    bool inserts = a->call == C_insert_or_update && chance(50);
    if (b[PENDING_AT] != 1 || a->key_len != KEY)
        return;
    if (!inserts && a->call != C_update_node_status && a->call != C_present_update && a->call != C_update_node && a->call != C_insert_or_update)
        return;
    memcpy(a->key, b + (inserts ? PENDING_NODE_AT : NODES_AT), KEY);
    a->now = 0;
    if (!inserts)
        a->state = KBUCKETS_CONNECTED;
}

/* --- one call, held to what was foreseen --- */

enum { NUM_OUTCOMES = 64 };
static struct {
    unsigned long refused[12], answered[NUM_OUTCOMES], listed[4]; /* none found, fewer than n, n, more asked than n = 0 gives */
    unsigned long total;
} outcomes[NUM_CALLS];
static unsigned long faults[2][NUM_FAULTS], changed_formed, wrong_lengths;
static unsigned long endings[KBUCKETS_ENDING_FIRST_CONFIRMED + 1];

/* Of calls that no question before 10 refuses: by what it finds first; with windows that fit, by key (local, held, pending, new), shut and open. */
static unsigned long hour_faults[NUM_HOUR_FAULTS], hour_keys[4][2];

/* Malformed buckets beside a call of a table. */
static struct {
    unsigned long settings, bucket;       /* refused with 2: of settings or queue, of a bucket that it reads */
    unsigned long later[2];               /* so refused, and 7 or 8 fails too */
    unsigned long earlier[7];             /* refused with 3 to 6, and a bucket is malformed; with 2 for one, and another is */
    unsigned long elsewhere[2], after[2]; /* accepted, or refused with 7 or later, with one malformed bucket that it does not read; several */
    unsigned long explained[2];           /* its explanation is refused with 2 for a bucket; is given with one elsewhere */
} beside[NUM_CALLS];

static struct outlook outlook;
static struct args args, probing;

static void shut_hours(const struct args *a)
{
    if (!has_hours(a->call))
        return;
    shut(&windows, (uint8_t *)a->windows, sizeof *a->windows * a->windows_len);
    shut(&closed_dates, (uint8_t *)a->closed, sizeof *a->closed * a->closed_len);
}
static void reopen_hours(const struct args *a)
{
    if (!has_hours(a->call))
        return;
    reopen(&windows);
    reopen(&closed_dates);
}

static uint32_t guarded_call(const struct args *a, const struct arena *r)
{
    current = a;
    shut(r, a->storage, a->storage_len);
    if (has_key(a->call))
        shut(&keys, a->key, a->key_len);
    if (has_output(a->call))
        shut(&outputs, a->output, a->output_len);
    if (a->call == C_nodes_by_distances)
        shut(&distances, (uint8_t *)a->distances, 8 * a->distances_len);
    shut_hours(a);
    uint32_t code = call(a);
    reopen(r);
    reopen_hours(a);
    if (has_key(a->call))
        reopen(&keys);
    if (has_output(a->call))
        reopen(&outputs);
    if (a->call == C_nodes_by_distances)
        reopen(&distances);
    return code;
}

static const uint8_t *sorting_target;
static int by_distance(const void *x, const void *y)
{
    const uint8_t *a = x, *b = y;
    for (int i = 0; i < KEY; i++) {
        int d = (a[i] ^ sorting_target[i]) - (b[i] ^ sorting_target[i]);
        if (d)
            return d;
    }
    return 0;
}

static bool matches(const struct args *a, const uint8_t *value)
{
    switch (a->predicate) {
    case KBUCKETS_ALWAYS: return true;
    case KBUCKETS_HAS_ADDRESS: return value[0];
    case KBUCKETS_ADDRESS_IN_NET: return value[0] && memcmp(value + 1, a->octet, 3) == 0;
    default: return slot_of(value) == a->slot;
    }
}

/* The entries of a listing, against the storage as the call left it. */
static void check_entries(const struct args *a, const uint8_t *after)
{
    size_t at = 0, entry = calls[a->call].entry;
    for (int k = 0; k < outlook.visits; k++) {
        const uint8_t *b = bucket_of(after, outlook.visit[k]);
        uint8_t nodes[PLACES * NODE];
        memcpy(nodes, b + NODES_AT, (size_t)b[0] * NODE);
        if (a->call != C_iter && a->call != C_nodes_by_distances) {
            sorting_target = a->key;
            qsort(nodes, b[0], NODE, by_distance);
        }
        for (int i = 0; i < b[0] && at < outlook.found; i++, at++) {
            const uint8_t *node = nodes + i * NODE, *out = a->output + at * entry;
            bool good = memcmp(out, node, KEY) == 0;
            if (entry == NODE && a->call != C_closest_values_predicate)
                good = good && memcmp(out, node, NODE) == 0;
            if (a->call == C_closest_values)
                good = good && memcmp(out + KEY, node + VALUE_AT, KBUCKETS_VALUE_BYTES) == 0;
            if (a->call == C_closest_values_predicate)
                good = good && out[KEY] == matches(a, node + VALUE_AT) && memcmp(out + KEY + 1, node + VALUE_AT, KBUCKETS_VALUE_BYTES) == 0;
            if (!good)
                violation("entry %zu is not the node that stands there", at);
        }
    }
    if (at != outlook.found)
        violation("the storage left by the call has %zu nodes to list, %zu were foreseen", at, outlook.found);
}

/* The parts of a table that an accepted call has no business with are those of `before`, and its queue is as foreseen. */
static void check_table(const struct args *a, const uint8_t *before, uint32_t code)
{
    const uint8_t *after = a->storage;
    if (a->call == C_new) {
        if (!same(after, a->key) || number(after + TIMEOUT_AT) != a->timeout || after[MAX_INCOMING_AT] != a->max_incoming ||
            after[TABLE_FILTER_AT] != a->table_filter || after[BUCKET_FILTER_AT] != a->bucket_filter ||
            !zero(after + COUNT_AT, STORAGE - COUNT_AT))
            violation("the storage is not that of the empty table");
        return;
    }
    if (memcmp(after, before, COUNT_AT) != 0)
        violation("the settings changed");
    for (int i = 0; i < BUCKETS; i++)
        if (!outlook.touched[i] && memcmp(bucket_of(after, i), bucket_of(before, i), STORED) != 0)
            violation("bucket %d changed", i);
    if (a->call == C_take_applied_pending) {
        unsigned old = before[COUNT_AT];
        if (code != (old > 0) || after[COUNT_AT] != old - code ||
            memcmp(after + RECORDS_AT, before + RECORDS_AT + code * RECORD, (old - code) * RECORD) != 0)
            violation("the queue is not the old one without its oldest record");
        if (code && memcmp(a->output, before + RECORDS_AT, RECORD) != 0)
            violation("the answer is not the oldest record");
        return;
    }
    if (after[COUNT_AT] != before[COUNT_AT] + outlook.records ||
        memcmp(after + RECORDS_AT, before + RECORDS_AT, before[COUNT_AT] * RECORD) != 0)
        violation("%u records, %u foreseen, or old ones changed", after[COUNT_AT], before[COUNT_AT] + outlook.records);
    for (unsigned k = 0; k < outlook.records; k++) {
        const uint8_t *record = after + RECORDS_AT + (before[COUNT_AT] + k) * RECORD;
        if (memcmp(record, added[k], RECORD) != 0)
            violation("record %u of those added has ending %u, %u foreseen, or another key or node", k, record[ENDING_AT], added[k][ENDING_AT]);
        endings[record[ENDING_AT]]++;
    }
    if (is_listing(a->call)) {
        if (code != outlook.found)
            violation("%u entries found, %zu foreseen", code, outlook.found);
        check_entries(a, after);
        return;
    }
    int i = bucket_index(after, a->key);
    const uint8_t *b = i < 0 ? NULL : bucket_of(after, i);
    int at = i < 0 ? -1 : place(b, a->key);
    if (a->call == C_entry) {
        const uint8_t *node = i < 0 ? NULL : at >= 0 ? b + NODES_AT + at * NODE : is_pending(b, a->key) ? b + PENDING_NODE_AT : NULL;
        uint32_t kind = i < 0    ? KBUCKETS_ENTRY_SELF
                        : !node  ? KBUCKETS_ENTRY_ABSENT
                        : at >= 0 ? KBUCKETS_ENTRY_PRESENT
                                  : KBUCKETS_ENTRY_PENDING;
        if (code != kind + (node ? 2u * node[STATE_AT] + node[DIRECTION_AT] : 0))
            violation("answers %u for a key that is stored otherwise", code);
    }
    if (a->call == C_remove && at >= 0)
        violation("the key is still held");
    if (code == KBUCKETS_INSERT_PENDING && (a->call == C_insert_or_update || a->call == C_absent_insert) &&
        (!is_pending(b, a->key) || !same(a->output, b + NODES_AT)))
        violation("the key is not pending, or the answer is not the key at place 0");
}

static void check_alone(const struct args *a, const uint8_t *before, uint32_t code)
{
    const uint8_t *after = a->storage;
    if (a->call == C_b_new) {
        if (!zero(after, STORED) || number(after + ALONE_TIMEOUT_AT) != a->timeout || after[ALONE_MAX_AT] != a->max_incoming ||
            after[ALONE_FILTER_AT] != a->bucket_filter)
            violation("the bytes are not those of the empty bucket");
        return;
    }
    if (memcmp(after + STORED, before + STORED, ALONE - STORED) != 0)
        violation("the settings changed");
    bool placed = is_due(before, a->now) && is_placed(due_ending(before, before[ALONE_MAX_AT], before[ALONE_FILTER_AT]));
    if (a->call == C_b_apply_pending && code != placed)
        violation("answers %u for a pending that does otherwise", code);
    if (a->call == C_b_remove && place(after, a->key) >= 0)
        violation("the key is still held");
    if (a->call == C_b_insert && code == KBUCKETS_BUCKET_INSERT_PENDING &&
        (!is_pending(after, a->key) || !same(a->output, after + NODES_AT)))
        violation("the key is not pending, or the answer is not the key at place 0");
}

/* The malformed buckets that the call does not read, in storage of a table's length. */
static int elsewhere(const struct outlook *o, const uint8_t *s, int *list)
{
    int count = 0;
    for (int i = 0; i < BUCKETS; i++)
        if (!o->read[i] && fault_at(s, i))
            list[count++] = i;
    return count;
}

/* How many bytes of its output the call has written. */
static size_t written(const struct args *a, uint32_t code)
{
    if (is_listing(a->call))
        return code * calls[a->call].entry;
    if (a->call == C_take_applied_pending || a->call == C_b_apply_pending)
        return code == KBUCKETS_APPLIED_RECORD ? RECORD : 0;
    return code == KBUCKETS_INSERT_PENDING ? KEY : 0; /* the same number for a bucket's insert */
}

/* The writer without an output, which reads all buckets: refused with 2 or with 6. */
static void probe_writer(const struct args *a, const struct arena *r, const char *what)
{
    if (kbuckets_write == NULL)
        return;
    enum fault f = table_fault(a->storage);
    shut(r, a->storage, STORAGE);
    uint32_t want = KBUCKETS_REFUSED + (f ? 2 : 6), code = kbuckets_write(a->storage, STORAGE, outputs.high, 0);
    reopen(r);
    if (code != want)
        violation("%s: write answers %#x, not %#x (%s)", what, code, want, fault_text[f]);
}

/* Calls that ask question 2, of settings and queue or of all buckets, and are refused by a later one, so that they write nothing. */
static void probe(const struct args *a, const struct arena *r)
{
    bool alone = a->call >= FIRST_B;
    static const enum call table_calls[] = {C_take_applied_pending, C_entry, C_update_node_status, C_remove};
    static const enum call alone_calls[] = {C_b_update_status, C_b_remove, C_b_update_value};
    if (!alone && chance(20))
        probe_writer(a, r, "the storage that it leaves");
    enum call c = alone ? alone_calls[below(3)] : table_calls[below(4)];
    if (!here[c])
        return;
    probing = (struct args){.call = c, .storage = a->storage, .storage_len = a->storage_len, .key = keys.high, .output = outputs.high};
    uint32_t want = KBUCKETS_REFUSED + (c == C_take_applied_pending ? 6 : 3), code = guarded_call(&probing, r);
    current = a;
    if (code != want)
        violation("the storage that it leaves: %s answers %#x, not %#x", calls[c].name, code, want);
}

/* A copy of the storage in which these buckets are empty. */
static uint8_t *cut(const uint8_t *s, const int *list, int count)
{
    uint8_t *copy = cuts.high - STORAGE;
    memcpy(copy, s, STORAGE);
    for (int k = 0; k < count; k++)
        memset(copy + HEADER + list[k] * STORED, 0, STORED);
    return copy;
}

/* The call on the storage `before` with its malformed buckets elsewhere emptied: answer, output, settings, records and every bucket but
 * those are what the call left. */
static void check_cut(const struct args *a, const uint8_t *before, uint32_t code, const int *list, int count)
{
    static uint8_t output[(KBUCKETS_MAX_COUNT + 2) * NODE];
    static struct args again;
    bool emptied[BUCKETS] = {false};
    uint8_t *copy = cut(before, list, count);
    size_t wrote = code >= KBUCKETS_REFUSED || !has_output(a->call) ? 0 : written(a, code);
    memcpy(output, a->output, wrote);
    repair(&outputs, a->output, a->output + wrote);
    again = *a;
    again.storage = copy;
    uint32_t second = guarded_call(&again, &cuts);
    current = a;
    if (second != code)
        violation("answers %#x, and %#x once the %d malformed buckets elsewhere are emptied", code, second, count);
    if (memcmp(output, a->output, wrote) != 0 || !patterned(&outputs, outputs.low, a->output) ||
        !patterned(&outputs, a->output + wrote, outputs.high))
        violation("another output once the malformed buckets elsewhere are emptied");
    for (int k = 0; k < count; k++)
        emptied[list[k]] = true;
    if (memcmp(copy, a->storage, HEADER) != 0)
        violation("other settings or records once the malformed buckets elsewhere are emptied");
    for (int i = 0; i < BUCKETS; i++)
        if (emptied[i] ? !zero(bucket_of(copy, i), STORED) : memcmp(bucket_of(copy, i), bucket_of(a->storage, i), STORED) != 0)
            violation("bucket %d is another once the malformed buckets elsewhere are emptied", i);
}

static uint32_t guarded_explanation(const struct args *a, const struct arena *r, uint8_t *out, size_t out_len)
{
    shut(r, a->storage, a->storage_len);
    shut(&keys, a->key, a->key_len);
    shut(&outputs, out, out_len);
    shut_hours(a);
    uint32_t code = explain(a, out, out_len);
    reopen(r);
    reopen_hours(a);
    reopen(&keys);
    reopen(&outputs);
    return code;
}

/* The explanation of the call that is about to be made: refused as the call is, and it writes nothing but its line. */
static void explain_held(const struct args *a, const struct arena *r, uint8_t *stands, size_t size, const uint8_t *before)
{
    static struct outlook o;
    static uint8_t line[KBUCKETS_EXPLANATION_BYTES];
    static struct args again;
    size_t more = chance(50) ? 0 : below(1000);
    size_t room = chance(85) ? KBUCKETS_EXPLANATION_BYTES + more : KBUCKETS_EXPLANATION_BYTES - 1 - 2 * more;
    uint8_t *out = chance(50) ? outputs.high - room : outputs.low;
    foresee_explanation(&o, stands, a, room);
    uint32_t code = guarded_explanation(a, r, out, room);
    if ((code >= KBUCKETS_REFUSED) != (o.refusal != 0) || (o.refusal && code != KBUCKETS_REFUSED + o.refusal))
        violation("its explanation answers %#x, question %u foreseen (%s)", code, o.refusal, fault_text[o.fault]);
    if (memcmp(stands, before, size) != 0)
        violation("its explanation changes the storage");
    size_t wrote = o.refusal ? 0 : code;
    if (!o.refusal && (code == 0 || code > sizeof line || out[code - 1] != '\n' || memchr(out, '\n', code) != out + code - 1))
        violation("its explanation answers %u, which is no length of a line", code);
    if (!patterned(&outputs, outputs.low, out) || !patterned(&outputs, out + wrote, outputs.high))
        violation("its explanation changes bytes behind or around its line");
    memcpy(line, out, wrote);
    repair(&outputs, out, out + wrote);
    beside[a->call].explained[0] += o.refusal == 2 && o.malformed >= 0;
    int list[BUCKETS], count = o.refusal == 0 ? elsewhere(&o, before, list) : 0;
    if (count == 0)
        return;
    again = *a;
    again.storage = cut(before, list, count);
    uint32_t second = guarded_explanation(&again, &cuts, out, room);
    if (second != code || memcmp(line, out, wrote) != 0)
        violation("another explanation once the malformed buckets elsewhere are emptied");
    repair(&outputs, out, out + wrote);
    beside[a->call].explained[1]++;
}

/* Counts what stood beside a call of a table that has the right length, and holds it to the cut copy. */
static void check_beside(const struct args *a, const uint8_t *before, uint32_t code)
{
    unsigned refusal = outlook.refusal;
    int list[BUCKETS], count;
    if (!(calls[a->call].questions & Q(2)))
        return;
    if (refusal == 2) {
        *(outlook.malformed < 0 ? &beside[a->call].settings : &beside[a->call].bucket) += 1;
        for (int k = 0; k < 2; k++)
            beside[a->call].later[k] += outlook.also[k];
    }
    count = refusal == 2 && outlook.malformed < 0 ? 0 : elsewhere(&outlook, before, list);
    if (count == 0)
        return;
    if (refusal >= 2 && refusal <= 6)
        beside[a->call].earlier[refusal]++;
    else
        (refusal ? beside[a->call].after : beside[a->call].elsewhere)[count > 1]++;
    check_cut(a, before, code, list, count);
}

/* Counts the hours of a call that no question before them refuses. */
static void count_hours(const struct args *a)
{
    const uint8_t *s = a->storage;
    enum hour_fault f = hour_fault(a);
    int i = bucket_index(s, a->key);
    int key = i < 0 ? 0 : place(bucket_of(s, i), a->key) >= 0 ? 1 : is_pending(bucket_of(s, i), a->key) ? 2 : 3;
    hour_faults[f]++;
    if (!f)
        hour_keys[key][is_open(a)]++;
}

/* Makes the call in `args` on bytes that are equal to `before`, and checks all of it. Answers whether it was accepted. */
static bool held_to(const struct arena *r, uint8_t *stands, size_t size, const uint8_t *before)
{
    const struct args *a = &args;
    bool alone = a->call >= FIRST_B;
    uint8_t lent_key[128];
    static uint64_t lent_distances[BUCKETS];
    static uint16_t lent_windows[3 * MOST_WINDOWS + 2], lent_dates[3 * MOST_DATES + 2];
    current = a;
    foresee(&outlook, a->storage, a);
    memcpy(lent_key, a->key, a->key_len);
    memcpy(lent_distances, a->distances, 8 * a->distances_len);
    memcpy(lent_windows, a->windows, sizeof *a->windows * a->windows_len);
    memcpy(lent_dates, a->closed, sizeof *a->closed * a->closed_len);
    if (has_hours(a->call) && (outlook.refusal == 0 || outlook.refusal >= 10) && a->windows_len)
        count_hours(a);
    if (is_explained(a->call) && kbuckets_explain_remove != NULL && chance(40))
        explain_held(a, r, stands, size, before);
    uint32_t code = guarded_call(a, r);
    uint32_t want = outlook.refusal ? KBUCKETS_REFUSED + outlook.refusal : 0;
    bool refused = code >= KBUCKETS_REFUSED;
    outcomes[a->call].total++;
    faults[alone][outlook.fault] += outlook.refusal == 2 || (outlook.refusal != 1 && calls[a->call].questions & Q(2));

    if (refused != (want != 0) || (refused && code != want)) {
        if (want)
            violation("answers %#x, question %u foreseen (%s, bucket %d)", code, outlook.refusal, fault_text[outlook.fault], outlook.malformed);
        violation("answers %#x, no question fails", code);
    }
    if (memcmp(lent_key, a->key, a->key_len) != 0 || memcmp(lent_distances, a->distances, 8 * a->distances_len) != 0)
        violation("a key or the distances changed");
    if (memcmp(lent_windows, a->windows, sizeof *a->windows * a->windows_len) != 0 ||
        memcmp(lent_dates, a->closed, sizeof *a->closed * a->closed_len) != 0)
        violation("the windows or the closed dates changed");
    if (!patterned(r, r->low, stands) || !patterned(r, stands + size, r->high))
        violation("bytes around the storage changed");
    size_t wrote = refused || !has_output(a->call) ? 0 : written(a, code);
    if (wrote > a->output_len)
        violation("answers %#x: more than the output has room for", code);
    if (!patterned(&outputs, outputs.low, a->output) || !patterned(&outputs, a->output + wrote, outputs.high))
        violation("answers %#x: bytes of the output past what it says, or around the output, changed", code);

    if (refused) {
        outcomes[a->call].refused[code - KBUCKETS_REFUSED]++;
        if (memcmp(stands, before, size) != 0)
            violation("refused with %u, and the storage changed", code - KBUCKETS_REFUSED);
        if (!alone && outlook.refusal != 1)
            check_beside(a, before, code);
        return false;
    }
    if (is_listing(a->call)) {
        outcomes[a->call].listed[code == 0 ? 0 : code < a->n ? 1 : code == a->n ? 2 : 3]++;
    } else {
        if (code >= NUM_OUTCOMES || !(calls[a->call].answers >> code & 1))
            violation("answers %u, which the header does not list", code);
        outcomes[a->call].answered[code]++;
    }
    (alone ? check_alone : check_table)(a, before, code);
    if (!alone)
        check_beside(a, before, code);
    repair(&outputs, a->output, a->output + wrote);
    enum fault f = alone ? alone_fault(stands) : a->call == C_new ? table_fault(stands) : header_fault(stands);
    for (int i = 0; !alone && !f && i < BUCKETS; i++)
        f = outlook.touched[i] ? fault_at(stands, i) : FORMED;
    if (f)
        violation("it leaves what is not well-formed: %s", fault_text[f]);
    probe(a, r);
    return true;
}

/* --- changed bytes --- */

/* Changes one byte, to this value or, where it has that already, to another. */
static void change(uint8_t *base, size_t at, uint8_t value)
{
    if (num_changes == MOST_CHANGES)
        return;
    if (value == base[at])
        value ^= (uint8_t)(1 << below(8));
    changes[num_changes++] = (struct change){at, base[at], value};
    base[at] = value;
}

static uint8_t bad_code(uint8_t old)
{
    static const uint8_t values[] = {0, 1, 2, 3, 255};
    return chance(40) ? !old : chance(70) ? values[below(5)] : (uint8_t)draw();
}
static uint8_t bad_ending(void)
{
    static const uint8_t values[] = {0, 1, 2, 6, 7, 8, 255};
    return chance(80) ? values[below(7)] : (uint8_t)draw();
}
static uint8_t bad_count(uint8_t old)
{
    static const uint8_t values[] = {0, 1, 15, 16, 17, 63, 64, 65, 255};
    return chance(50) ? (uint8_t)(old + (chance(50) ? 1 : -1)) : chance(70) ? values[below(9)] : (uint8_t)draw();
}

/* Changes a byte of a node that may be held: a code, an octet, the slot or the key. */
static void change_node(uint8_t *base, size_t at)
{
    switch (below(8)) {
    case 0:
    case 1: change(base, at + STATE_AT, bad_code(base[at + STATE_AT])); break;
    case 2: change(base, at + DIRECTION_AT, bad_code(base[at + DIRECTION_AT])); break;
    case 3: change(base, at + FLAG_AT, bad_code(base[at + FLAG_AT])); break;
    case 4: change(base, at + OCTETS_AT + below(4), (uint8_t)draw()); break;
    case 5: change(base, at + SLOT_AT + below(KBUCKETS_SLOT_BYTES), (uint8_t)draw()); break;
    case 6: change(base, at + KEY - 1, base[at + KEY - 1] ^ (uint8_t)(1 << below(8))); break;
    default: change(base, at + below(KEY), (uint8_t)draw());
    }
}

/* Makes a key of the bucket equal to another, or to the local key, where at most three bytes differ. */
static void equate(uint8_t *base, size_t at, const uint8_t *local)
{
    unsigned held = base[at] > PLACES ? PLACES : base[at];
    if (!held)
        return;
    for (int tries = 0; tries < 24; tries++) {
        size_t x = chance(30) ? at + PENDING_NODE_AT : at + NODES_AT + below(held) * NODE;
        const uint8_t *y = local && chance(20) ? local : base + at + NODES_AT + below(held) * NODE;
        int differ = 0;
        for (int i = 0; i < KEY; i++)
            differ += base[x + i] != y[i];
        if (differ == 0 || differ > 3 || differ > MOST_CHANGES - num_changes)
            continue;
        for (int i = 0; i < KEY; i++)
            if (base[x + i] != y[i])
                change(base, x + i, y[i]);
        return;
    }
}

/* One aimed change in a bucket. */
static void change_bucket(uint8_t *base, size_t at, const uint8_t *local)
{
    unsigned held = base[at] > PLACES ? PLACES : base[at];
    switch (below(10)) {
    case 0: change(base, at, bad_count(base[at])); break;
    case 1: change(base, at + FIRST_AT, bad_count(base[at + FIRST_AT])); break;
    case 2:
    case 3:
        if (held)
            change_node(base, at + NODES_AT + below(held) * NODE);
        break;
    case 4:
        if (held) { /* a step at the first connected place: these often leave a well-formed table */
            unsigned first = base[at + FIRST_AT] % held;
            change(base, at + NODES_AT + first * NODE + STATE_AT, !base[at + NODES_AT + first * NODE + STATE_AT]);
            if (chance(50))
                change(base, at + FIRST_AT, (uint8_t)(first + 1));
        }
        break;
    case 5: equate(base, at, local); break;
    case 6: change(base, at + PENDING_AT, bad_code(base[at + PENDING_AT])); break;
    case 7: change_node(base, at + PENDING_NODE_AT); break;
    case 8:
        if (chance(30))
            change(base, at + DEADLINE_AT + below(KBUCKETS_TIME_BYTES), (uint8_t)draw());
        else if (held < PLACES)
            change(base, at + NODES_AT + held * NODE + below((PLACES - held) * NODE), (uint8_t)draw());
        break;
    default: change(base, at + below(STORED), (uint8_t)draw());
    }
}

static void change_table(uint8_t *s, int index)
{
    unsigned records = s[COUNT_AT] > RECORDS ? RECORDS : s[COUNT_AT];
    size_t record = RECORDS_AT + (records ? below(records) : 0) * RECORD;
    switch (below(21)) {
    case 0: change(s, MAX_INCOMING_AT, bad_count(s[MAX_INCOMING_AT])); break;
    case 1: change(s, chance(50) ? TABLE_FILTER_AT : BUCKET_FILTER_AT, (uint8_t)(chance(50) ? below(2) : bad_code(0))); break;
    case 2: change(s, COUNT_AT, bad_count(s[COUNT_AT])); break;
    case 3:
        if (records)
            change(s, record + ENDING_AT, bad_ending());
        break;
    case 4:
        if (records)
            change_node(s, record + EVICTED_AT);
        break;
    case 5:
        if (records < RECORDS)
            change(s, RECORDS_AT + records * RECORD + below((RECORDS - records) * RECORD), (uint8_t)draw());
        break;
    case 6: change(s, chance(50) ? TIMEOUT_AT + below(KBUCKETS_TIME_BYTES) : KEY - 1 - below(chance(50) ? 1 : KEY), (uint8_t)draw()); break;
    case 7: change(s, below(STORAGE), (uint8_t)draw()); break;
    case 8: change(s, PADDING_AT + below(RECORDS_AT - PADDING_AT), (uint8_t)draw()); break;
    default: change_bucket(s, HEADER + (size_t)index * STORED, s);
    }
}

/* Makes bucket i malformed, or tries to: by its count, which nobody may go by then, or by any byte. */
static void damage(uint8_t *s, int i)
{
    size_t at = HEADER + (size_t)i * STORED;
    if (chance(25))
        change(s, at, (uint8_t)(PLACES + 1 + below(256 - PLACES - 1)));
    for (int tries = 0; tries < 6 && !fault_at(s, i); tries++)
        change_bucket(s, at, s);
}

/* Makes one bucket malformed, or several: around the end of what a listing visits, or any. */
static void damage_some(uint8_t *s, const struct args *a)
{
    static struct outlook o;
    int order[2 * BUCKETS], count = 0;
    if (is_listing(a->call) && (!has_key(a->call) || a->key_len == KEY) && a->storage_len == STORAGE && header_fault(s) == FORMED) {
        foresee(&o, s, a);
        count = visit_order(s, a, order);
    }
    for (int k = chance(50) ? 1 : 2 + (int)below(5); k; k--) {
        int near = o.visits - 3 + (int)below(5);
        near = near < 0 ? 0 : near < count ? near : count - 1;
        damage(s, count && chance(60) ? order[near] : chance(50) ? some_bucket(s) : (int)below(BUCKETS));
    }
}

/* --- rounds --- */

/* `asks`: one that asks question 2. */
static enum call some_call(bool alone, bool asks)
{
    enum call c;
    do
        c = alone ? FIRST_B + below(NUM_CALLS - FIRST_B) : below(FIRST_B);
    while (!here[c] || (!(calls[c].questions & Q(2)) && (asks || !chance(20))));
    return c;
}

static void lend_back(void)
{
    repair(&keys, args.key, args.key + (args.key_len < KEY ? args.key_len : KEY));
    repair(&distances, (uint8_t *)args.distances, (uint8_t *)(args.distances + args.distances_len));
    repair(&windows, (uint8_t *)args.windows, (uint8_t *)(args.windows + args.windows_len));
    repair(&closed_dates, (uint8_t *)args.closed, (uint8_t *)(args.closed + args.closed_len));
}

/* A length that is not `size`: shorter anywhere, longer where the arena goes on. */
static void wrong_size(const struct arena *r, int placing, size_t size)
{
    const size_t near[] = {0, 1, size - 1, size - 1, HEADER, STORED, ALONE, STORAGE, size / 2};
    size_t spare = (size_t)(r->high - (standing(r, placing, size) + size)), len;
    if (spare && chance(50))
        len = size + 1 + (chance(50) ? 0 : below((unsigned)spare));
    else
        len = chance(70) ? near[below(9)] : below((unsigned)size);
    if (len == size || len > size + spare)
        len = size - 1;
    args.storage_len = len;
    if (placing == 1) /* the end is what is lent: a read behind it faults */
        args.storage = r->high - len;
    wrong_lengths++;
}

/* One storage of a table. at: the one byte to change; -1: as it falls. */
static void table_round(long at)
{
    static int placing, table;
    if (chance(6))
        placing = (int)below(NUM_PLACINGS);
    struct arena *r = &storages[placing];
    if (at >= 0)
        table = SWEPT;
    else if (chance(4) || r->holds < 0)
        table = (int)below(NUM_TABLES);
    bool at_random = at < 0 && chance(2);
    uint8_t *base = tables[at_random ? NUM_TABLES : table], *stands = standing(r, placing, STORAGE);
    int index = some_bucket(tables[table]);

    if (at_random) {
        if (chance(50))
            memcpy(base, tables[table], STORAGE);
        else
            memset(base, chance(50) ? 0 : (int)below(256), STORAGE);
        switch (below(6)) {
        case 0: noise(base, STORAGE); break;
        case 1: noise(base, HEADER); break;
        case 2: noise(base + HEADER + below(BUCKETS) * STORED, STORED); break;
        case 3:
        case 4: /* all buckets but a few */
            for (int i = 0; i < BUCKETS; i++)
                if (i != index && !chance(3))
                    noise(base + HEADER + i * STORED, STORED);
            break;
        default: noise(base + below(STORAGE - 64), below(64)); break;
        }
    }
    if (r->holds != table || at_random) {
        memcpy(stands, base, STORAGE);
        r->holds = at_random ? -1 : table;
    }

    num_changes = 0;
    bool others = at < 0 && !at_random && chance(50); /* malformed buckets, behind the choice of the arguments */
    if (at >= 0)
        change(base, (size_t)at, (uint8_t)draw());
    else if (!at_random && chance(others ? 30 : 85))
        for (int k = 1 + (chance(40) ? 1 + (int)below(2) : 0); k; k--)
            change_table(base, index);

    memset(&args, 0, sizeof args);
    args.call = some_call(false, at >= 0);
    args.storage = stands;
    args.storage_len = STORAGE;
    choose(&args, bucket_of(base, index), base, index, number(base + TIMEOUT_AT), at >= 0 || (num_changes == 0 && chance(60)));
    if (chance(40))
        aim_at_pending(&args, bucket_of(base, index));
    if (at < 0 && chance(3))
        wrong_size(r, placing, STORAGE);
    if (others)
        damage_some(base, &args);
    for (int k = 0; k < num_changes; k++)
        stands[changes[k].at] = base[changes[k].at];
    if (at >= 0) {
        current = &args;
        probe_writer(&args, r, "a byte changed");
    }
    bool accepted = held_to(r, stands, STORAGE, base);
    changed_formed += num_changes && outlook.refusal != 1 && outlook.fault == FORMED && calls[args.call].questions & Q(2);

    if (accepted && table >= NUM_MADE && !at_random && args.call != C_new && chance(30) && table_fault(stands) == FORMED) {
        memcpy(base, stands, STORAGE); /* the pool goes on from here */
        num_changes = 0;
        for (int i = 0; i < NUM_PLACINGS; i++)
            if (storages[i].holds == table && i != placing)
                storages[i].holds = -1;
    } else {
        if (accepted) {
            if (args.call == C_new) {
                memcpy(stands, base, STORAGE);
            } else {
                memcpy(stands, base, HEADER);
                for (int i = 0; i < BUCKETS; i++)
                    if (outlook.touched[i])
                        memcpy(stands + HEADER + i * STORED, base + HEADER + i * STORED, STORED);
            }
        }
        while (num_changes) { /* the last first: a byte may have changed twice */
            const struct change *c = &changes[--num_changes];
            base[c->at] = stands[c->at] = c->old;
        }
    }
    lend_back();
}

/* One bucket by itself. at: the one byte of bucket `which` to change, to `value`; -1: as it falls. */
static void alone_round(long at, int which, uint8_t value)
{
    int placing = (int)below(NUM_PLACINGS);
    struct arena *r = &alones[placing];
    uint8_t *stands = standing(r, placing, ALONE), *base = buckets[NUM_ALONES];
    if (at < 0 && chance(3))
        make_alone(buckets[which], chance(40) ? PLACES : below(PLACES + 1), 60);
    memcpy(base, buckets[which], ALONE);
    num_changes = 0;
    if (at >= 0)
        change(base, (size_t)at, value);
    else if (chance(3))
        noise(base, chance(50) ? ALONE : below(ALONE));
    else if (chance(75))
        for (int k = 1 + (chance(40) ? 1 + (int)below(2) : 0); k; k--)
            switch (below(12)) {
            case 0: change(base, ALONE_MAX_AT, bad_count(base[ALONE_MAX_AT])); break;
            case 1: change(base, ALONE_FILTER_AT, bad_code(base[ALONE_FILTER_AT])); break;
            case 2: change(base, below(ALONE), (uint8_t)draw()); break;
            default: change_bucket(base, 0, NULL);
            }
    memcpy(stands, base, ALONE);
    memset(&args, 0, sizeof args);
    args.call = some_call(true, at >= 0);
    args.storage = stands;
    args.storage_len = ALONE;
    choose(&args, base, NULL, 0, number(base + ALONE_TIMEOUT_AT), at >= 0 || (num_changes == 0 && chance(60)));
    if (at < 0 && chance(3))
        wrong_size(r, placing, ALONE);
    bool accepted = held_to(r, stands, ALONE, base);
    changed_formed += num_changes && outlook.refusal != 1 && outlook.fault == FORMED && calls[args.call].questions & Q(2);
    if (accepted && at < 0 && args.call != C_b_new && chance(50))
        memcpy(buckets[which], stands, ALONE);
    lend_back();
}

/* --- the pool --- */

/* A table by calls: new, then inserts and updates, most of them in the far buckets, as in a network. */
static void make_by_calls(uint8_t *s, unsigned steps)
{
    struct arena *r = &storages[1];
    uint8_t *stands = standing(r, 1, STORAGE);
    static const enum call steps_of[] = {C_insert_or_update, C_insert_or_update, C_insert_or_update, C_absent_insert, C_absent_insert,
                                         C_update_node_status, C_update_node, C_entry, C_remove, C_take_applied_pending};
    uint64_t now = below(1000);
    r->holds = -1;
    memset(s, 0, STORAGE);
    memcpy(stands, s, STORAGE);
    memset(&args, 0, sizeof args);
    args.call = C_new;
    args.storage = stands;
    args.storage_len = STORAGE;
    choose(&args, s + HEADER, s, 0, 60000, true);
    args.timeout = 60000;
    args.max_incoming = (uint8_t)below(17);
    args.table_filter = args.bucket_filter = chance(30);
    held_to(r, stands, STORAGE, s);
    lend_back();
    memcpy(s, stands, STORAGE);
    for (unsigned k = 0; k < steps; k++) {
        int index = chance(70) ? 255 - (int)below(8) : (int)below(BUCKETS);
        memset(&args, 0, sizeof args);
        args.call = steps_of[below(10)];
        if (!here[args.call])
            continue;
        args.storage = stands;
        args.storage_len = STORAGE;
        choose(&args, bucket_of(s, index), s, index, 60000, true);
        if (chance(50)) {
            static const uint8_t none[1] = {0};
            random_key(args.key, none, s, index);
        }
        args.now = now += below(300);
        if (held_to(r, stands, STORAGE, s)) {
            memcpy(s, stands, HEADER);
            for (int i = 0; i < BUCKETS; i++)
                if (outlook.touched[i])
                    memcpy(s + HEADER + i * STORED, stands + HEADER + i * STORED, STORED);
        }
        lend_back();
    }
}

static void make_pool(void)
{
    bool by_calls = here[C_new] && here[C_insert_or_update];
    for (unsigned i = 0; i < NUM_TABLES; i++) {
        if (i >= NUM_TABLES - 4 && by_calls)
            make_by_calls(tables[i], 200u << 2 * (i & 1));
        else
            make_table(tables[i], i);
        enum fault f = table_fault(tables[i]);
        if (f)
            violation("table %u of the pool: %s", i, fault_text[f]);
    }
    for (int i = 0; i < NUM_ALONES; i++) {
        make_alone(buckets[i], chance(40) ? PLACES : below(PLACES + 1), 60);
        enum fault f = alone_fault(buckets[i]);
        if (f)
            violation("bucket %d of the pool: %s", i, fault_text[f]);
    }
}

/* --- the program --- */

static double seconds(void)
{
    struct timespec t;
    clock_gettime(CLOCK_MONOTONIC, &t);
    return (double)t.tv_sec + (double)t.tv_nsec / 1e9;
}

/* Malformed buckets beside the calls of a table; answers how many of the cases that must occur did not. */
static int report_beside(void)
{
    int missing = 0;
    printf("malformed buckets: 2 of settings or queue, of a bucket read (another malformed too; 7 or 8 fails too); 3 to 6 before it; elsewhere,\n"
           "one and several: accepted, refused with 7 or later; explanations refused with 2, given\n");
    for (int c = 0; c < FIRST_B; c++) {
        unsigned q = calls[c].questions;
        if (!here[c] || !(q & Q(2)))
            continue;
        bool reads_any = c != C_take_applied_pending;
        printf("    %-25s %lu, %lu (%lu; %lu %lu);", calls[c].name, beside[c].settings, beside[c].bucket, beside[c].earlier[2], beside[c].later[0],
               beside[c].later[1]);
        missing += !beside[c].settings + (reads_any && (!beside[c].bucket || !beside[c].earlier[2]));
        missing += (q & Q(7) && !beside[c].later[0]) + (is_listing((enum call)c) && !beside[c].later[1]);
        for (int n = 3; n <= 6; n++)
            if (q & Q(n)) {
                printf(" %d:%lu", n, beside[c].earlier[n]);
                missing += !beside[c].earlier[n];
            }
        printf("; %lu %lu", beside[c].elsewhere[0], beside[c].elsewhere[1]);
        missing += !beside[c].elsewhere[0] + !beside[c].elsewhere[1];
        if (q & (Q(7) | Q(8))) {
            printf(", %lu %lu", beside[c].after[0], beside[c].after[1]);
            missing += !beside[c].after[0] + !beside[c].after[1];
        }
        if (is_explained((enum call)c) && kbuckets_explain_remove != NULL) {
            printf("; %lu, %lu", beside[c].explained[0], beside[c].explained[1]);
            missing += !beside[c].explained[0] + !beside[c].explained[1];
        }
        putchar('\n');
    }
    return missing;
}

/* What happened; answers how many of the outcomes that must occur did not. */
static int report(bool tables_here, bool alones_here)
{
    int missing = 0;
    for (int c = 0; c < NUM_CALLS; c++) {
        if (!here[c])
            continue;
        printf("%-25s %8lu calls; refused", calls[c].name, outcomes[c].total);
        for (int q = 1; q <= 11; q++)
            if (calls[c].questions & Q(q)) {
                printf(" %d:%lu", q, outcomes[c].refused[q]);
                missing += !outcomes[c].refused[q];
            }
        if (is_listing((enum call)c)) {
            printf("; found none:%lu fewer than n:%lu n:%lu", outcomes[c].listed[0], outcomes[c].listed[1], outcomes[c].listed[2]);
            if (c == C_nodes_by_distances)
                printf(" one at n = 0:%lu", outcomes[c].listed[3]);
        } else {
            printf("; answered");
            for (int k = 0; k < NUM_OUTCOMES; k++)
                if (calls[c].answers >> k & 1) {
                    printf(" %d:%lu", k, outcomes[c].answered[k]);
                    missing += !outcomes[c].answered[k];
                }
        }
        putchar('\n');
    }
    missing += report_beside();
    printf("question 2, by what it found first (tables, buckets by themselves):\n");
    for (int f = 0; f < NUM_FAULTS; f++) {
        bool of_table = f == F_TABLE_FILTER || (f >= F_PADDING && f <= F_RECORD_UNUSED) || f == F_INDEX || f == F_LOCAL ||
                        f == F_PENDING_INDEX || f == F_PENDING_LOCAL;
        printf("    %-42s %8lu", fault_text[f], faults[0][f]);
        missing += tables_here && !faults[0][f];
        if (!of_table) {
            printf(" %8lu", faults[1][f]);
            missing += alones_here && !faults[1][f];
        }
        putchar('\n');
    }
    printf("pendings that ended, by ending:");
    for (int k = 0; k <= KBUCKETS_ENDING_FIRST_CONFIRMED; k++) {
        printf(" %d:%lu", k, endings[k]);
        missing += tables_here && !endings[k];
    }
#define TEXT(name, text) text,
    static const char *const hour_texts[] = {"they fit", HOUR_FAULTS(TEXT)}, *const key_texts[] = {"local", "held", "pending", "new"};
#undef TEXT
    bool with_hours = here[C_insert_or_update];
    printf("\nhours, by what question 10 finds first:");
    for (int f = 0; f < NUM_HOUR_FAULTS; f++) {
        printf("%s %s:%lu", f ? "," : "", hour_texts[f], hour_faults[f]);
        missing += with_hours && !hour_faults[f];
    }
    printf("\nhours that fit, by key, shut and open:");
    for (int k = 0; k < 4; k++) {
        printf(" %s:%lu %lu", key_texts[k], hour_keys[k][0], hour_keys[k][1]);
        missing += with_hours && (!hour_keys[k][0] || !hour_keys[k][1]);
    }
    printf("\nchanged, and nothing malformed that the call asks about: %lu; of another length: %lu\n", changed_formed, wrong_lengths);
    for (int c = 0, first = 1; c < NUM_CALLS; c++)
        if (!here[c]) {
            printf("%s%s", first ? "not in the library: " : ", ", calls[c].name);
            first = 0;
        } else if (c == NUM_CALLS - 1) {
            break;
        }
    bool all = true;
    for (int c = 0; c < NUM_CALLS; c++)
        all = all && here[c];
    puts(all ? "every call of the header is in the library" : "");
    return missing;
}

int main(int argc, char **argv)
{
    uint64_t seed_given = 1;
    unsigned long count = 1000000;
    double limit = 0;
    bool partial = false, every = false;
    for (int i = 1; i < argc; i++) {
        if (strcmp(argv[i], "--partial") == 0) {
            partial = true;
            continue;
        }
        if (strcmp(argv[i], "--every") == 0) {
            every = true;
            continue;
        }
        char *end = NULL;
        uint64_t value = i + 1 < argc ? strtoull(argv[i + 1], &end, 0) : 0;
        bool good = end && *end == 0 && end != argv[i + 1];
        if (good && strcmp(argv[i], "--seed") == 0)
            seed_given = value;
        else if (good && strcmp(argv[i], "--count") == 0)
            count = value;
        else if (good && strcmp(argv[i], "--seconds") == 0)
            limit = (double)value;
        else {
            fprintf(stderr, "usage: malformed [--seed N] [--count N] [--seconds N] [--every] [--partial]\n");
            return 2;
        }
        i++;
    }
    setvbuf(stdout, NULL, _IOLBF, 0);
    signal(SIGSEGV, on_fault);
    signal(SIGBUS, on_fault);
    find_calls();
    seed(seed_given);
    make_pattern();
    for (int i = 0; i < NUM_PLACINGS; i++) {
        storages[i] = arena(STORAGE + 512);
        alones[i] = arena(ALONE + 512);
    }
    keys = arena(128);
    outputs = arena((KBUCKETS_MAX_COUNT + 2) * NODE + 1024);
    distances = arena(8 * BUCKETS);
    windows = arena(sizeof(uint16_t) * (3 * MOST_WINDOWS + 2));
    closed_dates = arena(sizeof(uint16_t) * (3 * MOST_DATES + 2));
    cuts = arena(STORAGE);
    double start = seconds(), told = start;
    make_pool();

    bool tables_here = false, alones_here = false;
    for (int c = 0; c < NUM_CALLS; c++)
        if (here[c])
            *(c < FIRST_B ? &tables_here : &alones_here) = true;
    unsigned long of_tables = 0;
    long swept = every ? 0 : -1;
    for (; done < count && (tables_here || alones_here); done++) {
        if (swept == STORAGE)
            swept = -1;
        if (alones_here && (!tables_here || chance(15))) {
            alone_round(-1, (int)below(NUM_ALONES), 0);
        } else {
            table_round(swept);
            swept += swept >= 0;
            of_tables++;
        }
        if (done % 1024 == 0) {
            double t = seconds();
            if (t - told > 20) {
                printf("%lu storages in %.0f s\n", done, t - start);
                told = t;
            }
            if (limit > 0 && t - start > limit) {
                done++;
                break;
            }
        }
    }
    for (int which = 0; every && alones_here && which < SWEPT_ALONES; which++) {
        make_alone(buckets[which], (unsigned)(PLACES / (SWEPT_ALONES - 1) * which + which / (SWEPT_ALONES - 1)), which % 2 ? 100 : 0);
        for (long at = 0; at < ALONE * 255; at++, done++)
            alone_round(at / 255, which, (uint8_t)(buckets[which][at / 255] + 1 + at % 255));
    }
    if (swept >= 0 && swept < STORAGE)
        printf("of the bytes of a table only %ld were changed in turn: give a larger --count\n", swept);
    current = NULL;
    int missing = report(tables_here, alones_here);
    printf("seed %llu: %lu storages (%lu tables, %lu buckets by themselves) in %.1f s, no violation\n", (unsigned long long)seed_given,
           done, of_tables, done - of_tables, seconds() - start);
    if (missing) {
        printf("%d outcomes that must occur did not\n", missing);
        return partial ? 0 : 1;
    }
    return 0;
}

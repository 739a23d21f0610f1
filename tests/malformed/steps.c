/* The two ways of a step on a bucket, held against each other: the table's calls work on the stored bucket's bytes in place where nothing is
 * pending there, a bucket by itself is loaded, stepped by value and stored. Each random bucket stands once in a table and once by itself; the
 * table's call and the bucket's calls that it consists of must give the same answer and leave the same bytes.
 *
 *     steps [--seed N] [--count N]
 *
 * --count: the buckets. Exit status 1 and a description at the first difference, or where an answer that must occur did not. */
#define _DEFAULT_SOURCE
#include <time.h>

#include "pool.h"

enum step { STATUS, VALUE, BOTH, INSERT_OR_UPDATE, REMOVE, PRESENT_UPDATE, ABSENT_INSERT, NUM_STEPS };
static const enum call of_step[NUM_STEPS] = {
    C_update_node_status, C_update_node, C_update_node, C_insert_or_update, C_remove, C_present_update, C_absent_insert,
};
/* the answers that must occur */
static const uint64_t wanted[NUM_STEPS] = {
    STATUS_UPDATES & ~8ULL, VALUE_UPDATES & ~8ULL, (NODE_UPDATES & ~8ULL) & ~(1ULL << KBUCKETS_FAILED_TABLE_FILTER),
    INSERTS & ~(1ULL << KBUCKETS_FAILED_TABLE_FILTER) & ~(1ULL << KBUCKETS_FAILED_INVALID_SELF_UPDATE), 3, PRESENT_UPDATES, ABSENT_INSERTS,
};
static const char *const step_text[NUM_STEPS] = {
    "update_node_status", "update_node, value", "update_node, value and state", "insert_or_update", "remove", "present_update",
    "absent_insert",
};

static uint8_t storage[STORAGE], before[STORAGE], alone[ALONE], answers[2][KBUCKETS_ANSWER_BYTES];
static unsigned long met[NUM_STEPS][64];
static uint16_t no_hours[1];

static _Noreturn void differs(enum step step, const char *what, uint32_t in_table, uint32_t by_itself)
{
    const uint8_t *b = alone;
    printf("%s: %s; the table answers %#x, the bucket by itself %#x; %u nodes are left there, %u disconnected\n", step_text[step], what,
           in_table, by_itself, b[0], b[FIRST_AT]);
    exit(1);
}

static bool failed(uint32_t code) { return code >= KBUCKETS_FAILED; }

/* The bucket's own calls that make up the table's call; answers what the last that ran answered. */
static uint32_t by_value(enum step step, struct args a, bool held)
{
    uint32_t code;
    a.storage = alone;
    a.storage_len = ALONE;
    a.output = answers[1];
    a.output_len = sizeof answers[1];
    switch (step) {
    case REMOVE: a.call = C_b_remove; return call(&a);
    case VALUE: a.call = C_b_update_value; return call(&a);
    case BOTH:
        a.call = C_b_update_value;
        code = call(&a);
        if (failed(code))
            return code;
        a.call = C_b_update_status;
        a.direction = KBUCKETS_NOT_GIVEN;
        return call(&a);
    case INSERT_OR_UPDATE:
        if (!held) {
            a.call = C_b_insert;
            return call(&a);
        }
        a.call = C_b_update_status;
        code = call(&a);
        if (failed(code))
            return code;
        a.call = C_b_update_value;
        return call(&a);
    case ABSENT_INSERT: a.call = C_b_insert; return call(&a);
    default: a.call = C_b_update_status; return call(&a);
    }
}

/* Where both are one step, their codes are the same numbers; where the table's call is two, failures and what is held tell. */
static bool same_answer(enum step step, bool held, uint32_t in_table, uint32_t by_itself)
{
    if (step == BOTH || (step == INSERT_OR_UPDATE && held))
        return failed(in_table) == failed(by_itself);
    if (step == INSERT_OR_UPDATE) {
        static const uint32_t told[6] = {
            KBUCKETS_INSERT_INSERTED, KBUCKETS_INSERT_PENDING, KBUCKETS_FAILED_BUCKET_FILTER,
            KBUCKETS_FAILED_TOO_MANY_INCOMING, KBUCKETS_FAILED_BUCKET_FULL, KBUCKETS_REFUSED,
        };
        return by_itself < 6 && in_table == told[by_itself];
    }
    return in_table == by_itself;
}

static void one_bucket(void)
{
    int index = (int)(4 + below(BUCKETS - 4));
    uint8_t *b = storage + HEADER + index * STORED;
    unsigned count = chance(30) ? PLACES : below(PLACES + 1);
    bool pending = chance(5), held;
    uint64_t timeout = 60000;
    memset(storage, 0, HEADER);
    noise(storage, KEY);
    put_number(storage + TIMEOUT_AT, timeout);
    storage[MAX_INCOMING_AT] = (uint8_t)(chance(50) ? below(17) : 1 + below(5));
    storage[BUCKET_FILTER_AT] = chance(50);
    make_bucket(b, storage, index, storage[MAX_INCOMING_AT], count, pending ? 100 : 0);
    memcpy(before, storage, STORAGE);
    memcpy(alone, b, STORED);
    put_number(alone + ALONE_TIMEOUT_AT, timeout);
    alone[ALONE_MAX_AT] = storage[MAX_INCOMING_AT];
    alone[ALONE_FILTER_AT] = storage[BUCKET_FILTER_AT];

    uint8_t key[KEY], value[KBUCKETS_VALUE_BYTES];
    int at;
    if (b[0] && chance(75))
        memcpy(key, b + NODES_AT + below(b[0]) * NODE, KEY);
    else
        random_key(key, b, storage, index);
    at = place(b, key);
    held = at >= 0;
    random_value(value);
    if (held && chance(30))
        memcpy(value, b + NODES_AT + at * NODE + VALUE_AT, sizeof value);
    enum step step = (enum step)below(NUM_STEPS);
    if ((step == PRESENT_UPDATE && !held) || (step == ABSENT_INSERT && held))
        step = STATUS;
    /* no pending is due at 0 */
    struct args a = {
        .call = of_step[step], .storage = storage, .storage_len = STORAGE, .key = key, .key_len = KEY, .flag = value[0],
        .octet = {value[1], value[2], value[3], value[4]}, .slot = number(value + SLOT_AT - VALUE_AT),
        .state = (uint8_t)below(2), .direction = (uint8_t)below(step == STATUS || step == PRESENT_UPDATE ? 3 : 2), .now = 0,
        .windows = no_hours, .closed = no_hours, .output = answers[0], .output_len = sizeof answers[0],
    };
    if (step == VALUE)
        a.state = KBUCKETS_NOT_GIVEN;
    if (b[PENDING_AT] && memcmp(b + PENDING_NODE_AT, key, KEY) == 0)
        return; /* the calls on a pending's key are other ones */
    if (b[PENDING_AT])
        put_number(b + DEADLINE_AT, 1), put_number(alone + DEADLINE_AT, 1), put_number(before + HEADER + index * STORED + DEADLINE_AT, 1);
    memset(answers, 0, sizeof answers);
    uint32_t in_table = call(&a), by_itself = by_value(step, a, held);
    if (in_table >= KBUCKETS_REFUSED || by_itself >= KBUCKETS_REFUSED)
        differs(step, "one is refused", in_table, by_itself);
    if (!same_answer(step, held, in_table, by_itself) || memcmp(answers[0], answers[1], KEY) != 0)
        differs(step, "the answers differ", in_table, by_itself);
    if (memcmp(b, alone, STORED) != 0)
        differs(step, "the buckets differ", in_table, by_itself);
    if (!b[PENDING_AT] && !before[HEADER + index * STORED + PENDING_AT] && memcmp(storage, before, HEADER) != 0)
        differs(step, "the header changed", in_table, by_itself);
    memset(b, 0, STORED);
    memset(before + HEADER + index * STORED, 0, STORED);
    if (memcmp(storage + HEADER, before + HEADER, STORAGE - HEADER) != 0)
        differs(step, "another bucket changed", in_table, by_itself);
    met[step][in_table % 64]++;
}

int main(int argc, char **argv)
{
    uint64_t seed_given = 1;
    unsigned long count = 1000000;
    for (int i = 1; i + 1 < argc; i += 2) {
        char *end = NULL;
        uint64_t value = strtoull(argv[i + 1], &end, 0);
        if (*end == 0 && strcmp(argv[i], "--seed") == 0)
            seed_given = value;
        else if (*end == 0 && strcmp(argv[i], "--count") == 0)
            count = value;
        else
            argc = 0;
    }
    if (argc % 2 == 0) {
        fprintf(stderr, "usage: steps [--seed N] [--count N]\n");
        return 2;
    }
    seed(seed_given);
    clock_t start = clock();
    for (unsigned long done = 0; done < count; done++)
        one_bucket();
    int missing = 0;
    for (int step = 0; step < NUM_STEPS; step++) {
        printf("%s:", step_text[step]);
        for (int code = 0; code < 64; code++)
            if (met[step][code])
                printf(" %d %lu", code, met[step][code]);
            else
                missing += wanted[step] >> code & 1;
        printf("\n");
    }
    printf("seed %llu: %lu buckets, both ways the same answers and bytes, %.1f s\n", (unsigned long long)seed_given, count,
           (double)(clock() - start) / CLOCKS_PER_SEC);
    if (missing)
        printf("%d answers that must occur did not\n", missing);
    return missing != 0;
}

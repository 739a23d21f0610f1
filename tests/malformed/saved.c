/* Tables written and read at scale (document 02, slip 6): each is written, read into new storage and written again; then written tables are
 * damaged and read. Every answer, and every byte that a call leaves, is held to saved.h, which says once more what the writer puts out, what
 * the reader takes, and their questions.
 *
 *     saved [--seed N] [--count N] [--damaged N] [--every] [--partial]
 *
 * --count: the tables read back; --damaged: the damaged ones. --every: also every byte of a full table changed in turn, and every byte of
 * small ones to every other value; --partial: random tables alone. Exit status 1 and a description at the first violation; also where an
 * outcome that must occur did not, unless --partial is given. */
#define _DEFAULT_SOURCE
#include <signal.h>
#include <stdarg.h>
#include <time.h>

#include "pool.h"
#include "saved.h"

/* --- violations --- */

static const char *doing = "making a table";

static _Noreturn void violation(const char *form, ...)
{
    va_list v;
    va_start(v, form);
    printf("violation, %s: ", doing);
    vprintf(form, v);
    putchar('\n');
    fflush(stdout);
    exit(1);
}

static void on_fault(int signal)
{
    const char *text[3] = {"violation: memory that was not lent is reached, ", doing, "\n"};
    (void)signal;
    for (int i = 0; i < 3; i++)
        if (write(1, text[i], strlen(text[i])) < 0)
            break;
    _exit(1);
}

/* --- the calls, held to what was foreseen --- */

static struct arena storages, outputs, inputs;
static unsigned long written, wrote[10], reads, took[10], reasons[NUM_REASONS], faults[NUM_FAULTS];
static uint8_t foreseen[MOST_SAVED], loaded[STORAGE];

/* The storage that stands in the arena: at its end, so that a read behind it faults, or at an odd address. */
static uint8_t *stands(size_t len, bool at_end) { return at_end ? storages.high - len : storages.low + 65; }

/* Of a storage that is handed over too short, the rest stands behind it. */
static size_t there(size_t s_len) { return s_len < STORAGE ? STORAGE : s_len; }

/* Writes the table that stands there; answers its nodes, or -1 where it is refused. The bytes are in `foreseen`. */
static long write_held(const uint8_t *s, size_t s_len, size_t out_len)
{
    static uint8_t before[STORAGE + 512];
    uint8_t *out = chance(50) ? outputs.high - out_len : outputs.low + 33;
    unsigned refusal = write_refusal(s, s_len, out_len);
    size_t nodes = refusal ? 0 : save(s, foreseen), size = refusal ? 0 : saved_size(nodes);
    memcpy(before, s, there(s_len));
    doing = "kbuckets_write";
    shut(&storages, s, s_len);
    shut(&outputs, out, out_len);
    uint32_t code = kbuckets_write(s, s_len, out, out_len);
    reopen(&storages);
    reopen(&outputs);
    if (code != (refusal ? KBUCKETS_REFUSED + refusal : nodes))
        violation("answers %#x, not %#zx: storage %zu, output %zu bytes", code, refusal ? KBUCKETS_REFUSED + refusal : nodes, s_len, out_len);
    if (memcmp(before, s, there(s_len)) != 0)
        violation("the storage changed");
    if (!patterned(&outputs, outputs.low, out) || !patterned(&outputs, out + size, outputs.high))
        violation("bytes of the output behind the %zu written, or around it, changed", size);
    if (memcmp(out, foreseen, size) != 0)
        violation("other bytes are written");
    repair(&outputs, out, out + size);
    written++;
    wrote[refusal]++;
    return refusal ? -1 : (long)nodes;
}

/* Reads the bytes into the storage that stands there; answers whether they were taken. What was taken is written again. */
static bool read_held(uint8_t *s, size_t s_len, const uint8_t *bytes, size_t len)
{
    static uint8_t before[STORAGE + 512];
    uint8_t *in = chance(50) ? inputs.high - len : inputs.low + 33;
    enum reason reason = LOADS;
    enum fault fault = FORMED;
    size_t nodes = 0;
    unsigned refusal = s_len != STORAGE ? 1 : table_fault(s) ? 2 : 0;
    memcpy(in, bytes, len);
    if (!refusal && (reason = load_reason(s, in, len, &fault, loaded)))
        refusal = 9;
    for (int i = 0; !refusal && i < BUCKETS; i++)
        nodes += bytes[i];
    memcpy(before, s, there(s_len));
    doing = "kbuckets_read";
    shut(&storages, s, s_len);
    shut(&inputs, in, len);
    uint32_t code = kbuckets_read(s, s_len, in, len);
    reopen(&storages);
    reopen(&inputs);
    if (code != (refusal ? KBUCKETS_REFUSED + refusal : nodes))
        violation("answers %#x, not %#zx: storage %zu, %zu bytes; %s, %s", code, refusal ? KBUCKETS_REFUSED + refusal : nodes, s_len, len,
                  reason_text[reason], fault_text[fault]);
    if (memcmp(in, bytes, len) != 0 || !patterned(&inputs, inputs.low, in) || !patterned(&inputs, in + len, inputs.high))
        violation("the bytes read, or those around them, changed");
    if (!patterned(&storages, storages.low, s) || !patterned(&storages, s + there(s_len), storages.high))
        violation("bytes around the storage changed");
    if (memcmp(s, refusal ? before : loaded, there(s_len)) != 0)
        violation(refusal ? "refused with %u, and the storage changed" : "the storage is not the table that was read", refusal);
    repair(&inputs, in, in + len);
    reads++;
    took[refusal]++;
    reasons[reason] += refusal == 0 || refusal == 9;
    faults[fault] += reason == R_FORM;
    if (!refusal && (write_held(s, s_len, len) != (long)nodes || memcmp(foreseen, bytes, len) != 0))
        violation("what was read is not written again byte for byte");
    return !refusal;
}

/* --- tables --- */

static uint8_t table[STORAGE];

/* The bytes of the empty table with the settings of `table`. */
static void put_new(uint8_t *s)
{
    memset(s, 0, STORAGE);
    memcpy(s, table, COUNT_AT);
}

/* Makes bucket i anew. Where the bucket filter is on it mostly has at most two values of a /24, as calls leave it. */
static void make_again(int i, unsigned count, unsigned pending_percent)
{
    uint8_t *b = table + HEADER + i * STORED;
    make_bucket(b, table, i, table[MAX_INCOMING_AT], count, pending_percent);
    if (table[BUCKET_FILTER_AT] && !chance(1))
        for (int k = 0; three_of_a_net(b); k++)
            memset(b + NODES_AT + k * NODE + FLAG_AT, 0, 5);
}

/* Styles 0 to 4 by how many buckets hold nodes, 5 is full. */
static void make_saved_table(unsigned style)
{
    static const unsigned fill[6] = {0, 2, 4, 10, 40, 100};
    make_table(table, 0); /* settings; no bucket and no record */
    if (chance(40)) {
        static uint8_t others[STORAGE];
        make_table(others, 6 + 1 + below(2)); /* records, of which nothing is written */
        memcpy(table + COUNT_AT, others + COUNT_AT, HEADER - COUNT_AT);
    }
    for (int i = 0; i < BUCKETS; i++)
        if (chance(fill[style]))
            make_again(i, style == 5 ? PLACES : 1 + below(PLACES), 30);
    if (table_fault(table))
        violation("a table of the pool is not well-formed: %s", fault_text[table_fault(table)]);
}

/* --- a round trip --- */

static unsigned long back;

/* The held nodes are where they were, and nothing else is there. */
static void check_places(const uint8_t *s)
{
    if (memcmp(s, table, COUNT_AT) != 0 || !zero(s + COUNT_AT, HEADER - COUNT_AT))
        violation("the settings are others, or there are records");
    for (int i = 0; i < BUCKETS; i++)
        if (memcmp(bucket_of(s, i), bucket_of(table, i), PENDING_AT) != 0 || !zero(bucket_of(s, i) + PENDING_AT, STORED - PENDING_AT))
            violation("bucket %d is another", i);
}

static void round_trip(void)
{
    static uint8_t bytes[MOST_SAVED];
    bool at_end = chance(50);
    uint8_t *s = stands(STORAGE, at_end);
    size_t size = saved_size(held_nodes(table)), room = chance(70) ? size : size + 1 + below(200);
    memcpy(s, table, STORAGE);
    if (chance(3) && write_held(s, STORAGE, size - 1 - (chance(50) ? 0 : below((unsigned)size))) != -1)
        violation("an output that is too short is taken");
    long nodes = write_held(s, STORAGE, room);
    if (nodes < 0 || saved_size((size_t)nodes) != size)
        violation("a well-formed table is not written");
    memcpy(bytes, foreseen, size);
    if (kbuckets_new(s, STORAGE, table, KEY, number(table + TIMEOUT_AT), table[MAX_INCOMING_AT], table[TABLE_FILTER_AT], table[BUCKET_FILTER_AT]))
        violation("new is refused");
    if (read_held(s, STORAGE, bytes, size)) {
        check_places(s);
        back++;
    }
    repair(&storages, s, s + STORAGE);
}

/* --- damage --- */

static uint8_t bytes[MOST_SAVED + 512];
static size_t length;

static uint8_t *key_at(size_t j) { return bytes + BUCKETS + j * KEY; }
static uint8_t *entry_at(size_t nodes, size_t j) { return bytes + BUCKETS + nodes * KEY + j * ENTRY; }

/* A node of all, and another of its bucket where that is quickly found. */
static void two_nodes(size_t nodes, size_t *j, size_t *k)
{
    *j = below((unsigned)nodes);
    *k = *j + 1 < nodes && chance(60) ? *j + 1 : *j > 0 && chance(60) ? *j - 1 : below((unsigned)nodes);
}

static void exchange(uint8_t *a, uint8_t *b, size_t n)
{
    for (; n; a++, b++, n--) {
        uint8_t old = *a;
        *a = *b, *b = old;
    }
}

static void change_node(size_t nodes)
{
    static const uint8_t codes[] = {0, 1, 2, 255};
    size_t j, k;
    two_nodes(nodes, &j, &k);
    uint8_t *entry = entry_at(nodes, j);
    switch (below(14)) {
    case 0: key_at(j)[KEY - 1] ^= (uint8_t)(1 + below(255)); break;
    case 1: key_at(j)[below(KEY)] = (uint8_t)draw(); break;
    case 2: memcpy(key_at(j), key_at(k), KEY); break;
    case 3: memcpy(key_at(j), table, KEY); break;
    case 4: exchange(key_at(j), key_at(k), KEY); break;
    case 5: exchange(entry, entry_at(nodes, k), ENTRY); break;
    case 6: entry[0] = chance(60) ? !entry[0] : codes[below(4)]; break;
    case 7: entry[1] = chance(60) ? !entry[1] : codes[below(4)]; break;
    case 8: entry[2] = codes[below(4)]; break;
    case 9: entry[3 + below(4)] = (uint8_t)draw(); break;
    case 10: entry[7 + below(8)] = (uint8_t)draw(); break;
    case 11: /* connected incoming, from here to the end of the bucket or further */
        for (; j < nodes && !chance(20); j++)
            entry_at(nodes, j)[0] = entry_at(nodes, j)[1] = 1;
        break;
    case 12: /* values of one /24 that differ in one byte, three of them or more, or two that stand there often */
        for (unsigned n = 0; j < nodes && n < 2 + below(6); j++, n++) {
            uint8_t *value = entry_at(nodes, j) + 2;
            memset(value, 0, KBUCKETS_VALUE_BYTES);
            value[0] = 1, value[1] = 10;
            value[chance(50) ? 4 : 5 + below(8)] = (uint8_t)below(chance(50) ? 2 : 4);
        }
        break;
    default: memmove(entry, entry_at(nodes, k), ENTRY);
    }
}

static void change_sizes(void)
{
    int i = (int)below(BUCKETS), k = (int)below(BUCKETS);
    for (int tries = 0; tries < 40 && bytes[i] == 0; tries++)
        i = (int)below(BUCKETS);
    switch (below(5)) {
    case 0: bytes[i]--, bytes[k]++; break; /* the length still fits */
    case 1: exchange(bytes + i, bytes + k, 1); break;
    case 2: bytes[i] = (uint8_t)draw(); break;
    case 3: bytes[i] = (uint8_t)(15 + below(3)); break;
    default: bytes[i] += chance(50) ? 1 : 255;
    }
}

/* Each node's entry behind its key, in place of the two arrays. */
static void put_entries_beside_keys(size_t nodes)
{
    static uint8_t mixed[MOST_SAVED];
    for (size_t j = 0; j < nodes; j++) {
        memcpy(mixed + j * NODE, key_at(j), KEY);
        memcpy(mixed + j * NODE + KEY, entry_at(nodes, j), ENTRY);
    }
    memcpy(bytes + BUCKETS, mixed, nodes * NODE);
}

static void change_bytes(size_t nodes)
{
    switch (below(20)) {
    case 0: length -= length ? 1 + below(length < 48 ? (unsigned)length : 48) : 0; break;
    case 1: {
        size_t more = 1 + below(chance(50) ? 48 : 400);
        noise(bytes + length, more);
        length += more;
        break;
    }
    case 2: length = below((unsigned)length + 1); break;
    case 3: noise(bytes, length); break;
    case 4:
        length = below(600);
        noise(bytes, length);
        break;
    case 5: noise(bytes + below((unsigned)length), 1); break;
    case 6: put_entries_beside_keys(nodes); break;
    case 7: /* sizes and length of a table, the rest random */
        memset(bytes, 0, BUCKETS);
        nodes = below(5);
        for (size_t j = 0; j < nodes; j++)
            bytes[chance(50) ? 255 : below(BUCKETS)]++;
        length = saved_size(nodes);
        noise(bytes + BUCKETS, length - BUCKETS);
        break;
    case 8:
    case 9:
    case 10: change_sizes(); break;
    default:
        if (nodes)
            change_node(nodes);
    }
}

/* Puts something into new storage that it may not hold, or what is not well-formed, or gives it another length. */
static size_t change_storage(uint8_t *s)
{
    static uint8_t others[STORAGE];
    int i = (int)below(BUCKETS);
    switch (below(8)) {
    case 0: make_bucket(s + HEADER + i * STORED, s, i, s[MAX_INCOMING_AT], 1 + below(PLACES), 0); break;
    case 1: make_bucket(s + HEADER + i * STORED, s, i, s[MAX_INCOMING_AT], 0, 100); break;
    case 2:
        make_table(others, 1);
        memcpy(s + COUNT_AT, others + COUNT_AT, HEADER - COUNT_AT);
        break;
    case 3: s[below(STORAGE)] = (uint8_t)draw(); break;
    case 4: s[HEADER + i * STORED + (int)below(STORED)] = 1; break;
    case 5: s[MAX_INCOMING_AT + below(HEADER - MAX_INCOMING_AT)] = (uint8_t)draw(); break;
    case 6: return STORAGE - 1 - (chance(50) ? 0 : below(STORAGE));
    default: return STORAGE + 1 + below(100);
    }
    return STORAGE;
}

static void damaged_round(void)
{
    uint8_t *s = storages.low + 65; /* where it may also be longer */
    size_t nodes = save(table, bytes), s_len = STORAGE;
    length = saved_size(nodes);
    put_new(s);
    if (chance(80))
        for (int n = chance(60) ? 1 : 2 + (int)below(2); n; n--)
            change_bytes(nodes);
    if (chance(10))
        s_len = change_storage(s);
    read_held(s, s_len, bytes, length);
    if (chance(5) && s_len != STORAGE)
        write_held(s, s_len, MOST_SAVED);
    if (chance(3)) { /* the writer, on what question 2 refuses */
        memcpy(s, table, STORAGE);
        change_storage(s);
        write_held(s, STORAGE, MOST_SAVED);
    }
    repair(&storages, s, s + STORAGE);
}

/* --- every length, every byte, and cases by hand --- */

/* Every length around each boundary of this table's bytes, of the output and of what is read. */
static void every_length(void)
{
    uint8_t *s = stands(STORAGE, true);
    size_t nodes = save(table, bytes), size = saved_size(nodes), step = nodes > 32 ? nodes / 4 : 1;
    memset(bytes + size, 0, sizeof bytes - size);
    for (size_t at = 0; at <= size + 64; at++) {
        bool near = at <= BUCKETS + 2 * NODE || at + 2 * NODE >= size;
        for (size_t j = 0; !near && j <= nodes; j += step) {
            size_t key = BUCKETS + j * KEY, entry = BUCKETS + nodes * KEY + j * ENTRY;
            near = (at + 2 >= key && at <= key + 2) || (at + 2 >= entry && at <= entry + 2);
        }
        if (!near)
            continue;
        put_new(s);
        read_held(s, STORAGE, bytes, at);
        memcpy(s, table, STORAGE);
        write_held(s, STORAGE, at);
    }
    repair(&storages, s, s + STORAGE);
}

/* Every byte of this table's bytes changed in turn: to one other value, or to all 255. */
static void every_byte(bool all)
{
    uint8_t *s = stands(STORAGE, true);
    length = saved_size(save(table, bytes));
    put_new(s);
    for (size_t at = 0; at < length; at++) {
        uint8_t old = bytes[at];
        for (unsigned more = all ? 1 : 1 + below(255), last = all ? 255 : more; more <= last; more++) {
            bytes[at] = (uint8_t)(old + more);
            if (read_held(s, STORAGE, bytes, length))
                put_new(s);
        }
        bytes[at] = old;
    }
    repair(&storages, s, s + STORAGE);
}

/* Storage that holds one thing: any of the 256 buckets a node, a pending, or the queue a record. */
static void every_holding(void)
{
    uint8_t *s = stands(STORAGE, true);
    length = saved_size(save(table, bytes));
    for (int i = 0; i < BUCKETS; i++)
        for (int pending = 0; pending < 2; pending++) {
            put_new(s);
            if (pending && i == 0)
                s[COUNT_AT] = 1, s[RECORDS_AT + KEY - 1] = 1;
            else
                make_bucket(s + HEADER + i * STORED, s, i, s[MAX_INCOMING_AT], !pending, pending ? 100 : 0);
            if (read_held(s, STORAGE, bytes, length))
                violation("storage that holds something is taken");
        }
    repair(&storages, s, s + STORAGE);
}

/* Values of one /24 in one bucket, filter on and off. A row is the last octet and the slot of each; taken: with the filter on. */
static void values_of_a_net(void)
{
    static const struct {
        uint8_t count, octet[5], slot[5];
        bool taken;
    } rows[] = {
        {2, {1, 2}, {1, 2}, true},
        {3, {1, 2, 3}, {1, 2, 3}, false},
        {3, {1, 1, 1}, {1, 1, 1}, true},
        {3, {1, 1, 1}, {1, 2, 3}, false},
        {3, {1, 2, 3}, {1, 1, 1}, false},
        {4, {1, 2, 1, 2}, {1, 2, 1, 2}, true},
        {5, {1, 2, 1, 2, 3}, {1, 2, 1, 2, 3}, false},
        {5, {1, 1, 1, 2, 2}, {1, 1, 1, 2, 2}, true},
        {4, {1, 2, 1, 2}, {1, 2, 1, 1}, false},
    };
    uint8_t *s = stands(STORAGE, true);
    for (size_t r = 0; r < sizeof rows / sizeof rows[0]; r++)
        for (unsigned on = 0; on < 2; on++)
            for (unsigned apart = 0; apart < 2; apart++) { /* in one bucket, or the last in the next */
                memset(table, 0, STORAGE);
                table[BUCKET_FILTER_AT] = (uint8_t)on;
                for (unsigned k = 0; k < rows[r].count; k++) {
                    uint8_t *b = table + HEADER + (8 + (apart && k + 1 == rows[r].count)) * STORED;
                    uint8_t *node = b + NODES_AT + b[0] * NODE;
                    node[KEY - 2] = apart && k + 1 == rows[r].count ? 2 : 1;
                    node[KEY - 1] = (uint8_t)k;
                    node[FLAG_AT] = 1, node[OCTETS_AT] = 192, node[OCTETS_AT + 2] = 2;
                    node[OCTETS_AT + 3] = rows[r].octet[k];
                    node[SLOT_AT + r % 8] = rows[r].slot[k];
                    b[FIRST_AT] = ++b[0];
                }
                length = saved_size(save(table, bytes));
                put_new(s);
                bool taken = read_held(s, STORAGE, bytes, length);
                if (!apart && taken != (!on || rows[r].taken))
                    violation("row %zu: filter %u, taken %d", r, on, taken);
            }
    repair(&storages, s, s + STORAGE);
}

/* --- the program --- */

static double seconds(void)
{
    struct timespec t;
    clock_gettime(CLOCK_MONOTONIC, &t);
    return (double)t.tv_sec + (double)t.tv_nsec / 1e9;
}

static int report(void)
{
    static const enum fault of_bytes[] = {F_MANY_NODES, F_STATE, F_DIRECTION, F_ADDRESS, F_OCTETS, F_INDEX, F_LOCAL, F_ORDER, F_TWICE, F_INCOMING};
    int missing = 0;
    printf("write %lu calls; refused 1:%lu 2:%lu 6:%lu; written:%lu\n", written, wrote[1], wrote[2], wrote[6], wrote[0]);
    missing += !wrote[0] + !wrote[1] + !wrote[2] + !wrote[6];
    printf("read  %lu calls; refused 1:%lu 2:%lu 9:%lu; taken, and written again byte for byte:%lu\n", reads, took[1], took[2], took[9], took[0]);
    missing += !took[0] + !took[1] + !took[2] + !took[9];
    printf("question 9, by what it found first:\n");
    for (int r = 1; r < NUM_REASONS; r++) {
        printf("    %-44s %9lu\n", reason_text[r], reasons[r]);
        missing += !reasons[r];
    }
    for (size_t k = 0; k < sizeof of_bytes / sizeof of_bytes[0]; k++) {
        printf("        %-40s %9lu\n", fault_text[of_bytes[k]], faults[of_bytes[k]]);
        missing += !faults[of_bytes[k]];
    }
    return missing;
}

int main(int argc, char **argv)
{
    uint64_t seed_given = 1;
    unsigned long count = 1000000, damaged = 1000000, done = 0;
    bool partial = false, every = false;
    for (int i = 1; i < argc; i++) {
        if (strcmp(argv[i], "--partial") == 0 || strcmp(argv[i], "--every") == 0) {
            *(argv[i][2] == 'p' ? &partial : &every) = true;
            continue;
        }
        char *end = NULL;
        uint64_t value = i + 1 < argc ? strtoull(argv[i + 1], &end, 0) : 0;
        bool good = end && *end == 0 && end != argv[i + 1];
        if (good && strcmp(argv[i], "--seed") == 0)
            seed_given = value;
        else if (good && strcmp(argv[i], "--count") == 0)
            count = value;
        else if (good && strcmp(argv[i], "--damaged") == 0)
            damaged = value;
        else {
            fprintf(stderr, "usage: saved [--seed N] [--count N] [--damaged N] [--every] [--partial]\n");
            return 2;
        }
        i++;
    }
    setvbuf(stdout, NULL, _IOLBF, 0);
    signal(SIGSEGV, on_fault);
    signal(SIGBUS, on_fault);
    seed(seed_given);
    make_pattern();
    storages = arena(STORAGE + 512);
    outputs = arena(MOST_SAVED + 512);
    inputs = arena(sizeof bytes + 512);
    double start = seconds();

    if (!partial)
        values_of_a_net();
    for (unsigned style = 0; !partial && style < (every ? 6 : 4); style++) {
        make_saved_table(style);
        if (style < 3 || every)
            every_length();
        every_byte(every && style < 4);
        if (style == 1)
            every_holding();
    }
    printf("every length, byte and holding: %.1f s\n", seconds() - start);
    for (; back < count; done++) {
        if (done % 64 == 0)
            make_saved_table(done % 2048 == 0 ? 5 : done / 64 % 5);
        else
            for (unsigned n = 1 + below(3); n; n--)
                make_again((int)below(BUCKETS), chance(40) ? 0 : 1 + below(PLACES), 30);
        round_trip();
    }
    printf("%lu tables read back of %lu written: %.1f s\n", back, done, seconds() - start);
    for (done = 0; done < damaged; done++) {
        if (done % 256 == 0)
            make_saved_table(done % 8192 == 0 ? 5 : done / 256 % 5);
        else if (chance(30))
            make_again((int)below(BUCKETS), chance(40) ? 0 : 1 + below(PLACES), 30);
        damaged_round();
    }
    int missing = report();
    printf("seed %llu: %lu tables read back, %lu damaged, in %.1f s, no violation\n", (unsigned long long)seed_given, back, damaged, seconds() - start);
    if (missing) {
        printf("%d outcomes that must occur did not\n", missing);
        return partial ? 0 : 1;
    }
    return 0;
}

// Nanoseconds of writing and of reading a full table, 4,047 nodes, beside a plain copy of its bytes and the questions that the call asks, all
// measured in turn in each round of one run. The questions of the writer: question 2 of the full table, what a write takes that has no
// output and is refused with 6. Those of the reader, with the building that 9 needs: a read of the same bytes whose last node alone does not
// fit, so that all the others are built and asked before it is refused. Least and median of all rounds; the ratios are of the medians.
#include <stdint.h>
#include <stdio.h>
#include <stdlib.h>
#include <string.h>
#include <time.h>
#include "../../include/kbuckets.h"

enum { ROUNDS = 400, BYTES = KBUCKETS_MAX_WRITTEN_BYTES };

static uint8_t full[KBUCKETS_STORAGE_BYTES], other[KBUCKETS_STORAGE_BYTES];
static uint8_t bytes[BYTES], broken[BYTES], copy[BYTES], answer[KBUCKETS_ANSWER_BYTES];
static uint8_t filter;

static double now_ns(void) {
    struct timespec t;
    clock_gettime(CLOCK_MONOTONIC, &t);
    return (double)t.tv_sec * 1e9 + (double)t.tv_nsec;
}

static uint64_t state = 88172645463325252u;
static uint8_t next_byte(void) {
    state ^= state << 13;
    state ^= state >> 7;
    state ^= state << 17;
    return (uint8_t)(state >> 32);
}

static void make_new(uint8_t *storage) {
    static const uint8_t local[32];
    if (kbuckets_new(storage, KBUCKETS_STORAGE_BYTES, local, 32, 60000, 16, 0, filter) != 0) abort();
}

// Each bucket with all the nodes that it can hold: half of them disconnected, each of a /24 of its own.
static void fill(void) {
    static const uint16_t none[1]; // no windows: at every hour
    unsigned nodes = 0;
    make_new(full);
    for (int i = 0; i < 256; i++)
        for (int n = 0, most = i < 4 ? 1 << i : 16; n < most;) {
            uint8_t key[32];
            for (int j = 0; j < 32; j++) key[j] = next_byte();
            int byte = 31 - i / 8, bit = i % 8;
            memset(key, 0, (size_t)byte);
            key[byte] = (uint8_t)((key[byte] & ((1 << bit) - 1)) | (1 << bit));
            uint32_t code = kbuckets_absent_insert(
                full, sizeof full, key, 32, 1, 10, (uint8_t)i, (uint8_t)n, 1, nodes, n % 2 ? 1 : 0, next_byte() & 1, 0, none, 0, none, 0, 0, 0,
                0, 0, answer, sizeof answer);
            if (code == KBUCKETS_BUCKET_INSERT_INSERTED) n++, nodes++;
            else if (code != KBUCKETS_REFUSED_KIND) abort();
        }
    if (nodes != KBUCKETS_MAX_NODES) abort();
}

static volatile uint32_t sink;
static void run_copy(void) { memcpy(copy, bytes, BYTES); __asm__ volatile("" ::"r"(copy) : "memory"); }
static void run_question_2(void) { sink = kbuckets_write(full, sizeof full, bytes, 0); }
static void run_write(void) { sink = kbuckets_write(full, sizeof full, bytes, BYTES); }
static void run_questions_of_read(void) { sink = kbuckets_read(other, sizeof other, broken, BYTES); }
static void run_read(void) { sink = kbuckets_read(other, sizeof other, bytes, BYTES); }

static struct {
    const char *name;
    void (*run)(void);
    uint32_t answer;
    double ns[ROUNDS];
} parts[] = {
    {"plain copy", run_copy, 0, {0}},
    {"question 2 of the table", run_question_2, KBUCKETS_REFUSED_OUTPUT, {0}},
    {"write", run_write, KBUCKETS_MAX_NODES, {0}},
    {"questions 1, 2 and 9 of the reader", run_questions_of_read, KBUCKETS_REFUSED_LOAD, {0}},
    {"read", run_read, KBUCKETS_MAX_NODES, {0}},
};
enum { COPY, QUESTION_2, WRITE, QUESTIONS, READ, PARTS };

static int ascending(const void *a, const void *b) { return (*(const double *)a > *(const double *)b) - (*(const double *)a < *(const double *)b); }

static double median(int part) { return parts[part].ns[ROUNDS / 2]; }

// Whether both calls take at most 3 times the copy and their questions.
static int measure(const char *name) {
    fill();
    if (kbuckets_write(full, sizeof full, bytes, BYTES) != KBUCKETS_MAX_NODES) abort();
    memcpy(broken, bytes, BYTES);
    broken[BYTES - KBUCKETS_VALUE_BYTES] = 2; // the last node's address flag
    for (int r = 0; r < ROUNDS; r++)
        for (int p = 0; p < PARTS; p++) {
            make_new(other);
            double start = now_ns();
            parts[p].run();
            parts[p].ns[r] = now_ns() - start;
            if (p != COPY && sink != parts[p].answer) abort();
        }
    printf("%s: %d nodes, %d bytes; ns, least and median\n", name, KBUCKETS_MAX_NODES, BYTES);
    for (int p = 0; p < PARTS; p++) {
        qsort(parts[p].ns, ROUNDS, sizeof parts[p].ns[0], ascending);
        printf("  %-36s %9.0f %9.0f\n", parts[p].name, parts[p].ns[0], median(p));
    }
    double write = median(WRITE) / (median(COPY) + median(QUESTION_2)), read = median(READ) / (median(COPY) + median(QUESTIONS));
    printf("  write / (copy + question 2) %.2f, read / (copy + its questions) %.2f, wanted at most 3\n", write, read);
    return write <= 3 && read <= 3;
}

int main(void) {
    filter = KBUCKETS_FILTER_OFF;
    int good = measure("bucket filter off");
    filter = KBUCKETS_FILTER_ON;
    good &= measure("bucket filter on");
    return good ? 0 : 1;
}

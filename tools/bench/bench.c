// Nanoseconds per call of the operations that crates/bench runs in rounds: the best of several runs. An insert's round is eight calls, the
// first on a bucket that holds four nodes and each other one on the bucket that the call before it answered, so that every call uses the whole
// bucket of the last. The time of a call is an eighth of the round's: it has the making of the node in it, and an eighth of one copy of the
// first bucket. With two arguments, a name and a number, it runs that many rounds of one operation, for a count of instructions.
#include <stdint.h>
#include <stdio.h>
#include <stdlib.h>
#include <string.h>
#include <time.h>

extern uint64_t bench_insert_sound(uint64_t rounds);
extern uint64_t bench_insert(uint64_t rounds);
extern uint64_t bench_bucket_index(uint64_t rounds);

enum { RUNS = 40, CALLS = 8, ROUNDS = 10000 };

static double now(void) {
    struct timespec t;
    clock_gettime(CLOCK_MONOTONIC, &t);
    return (double)t.tv_sec * 1e9 + (double)t.tv_nsec;
}

// The best of the runs, in nanoseconds per round.
static double best(uint64_t (*f)(uint64_t), uint64_t rounds, uint64_t *answer) {
    double least = 1e18;
    for (int i = 0; i < RUNS; i++) {
        double start = now();
        *answer = f(rounds);
        double took = (now() - start) / (double)rounds;
        if (took < least) least = took;
    }
    return least;
}

int main(int count, char **words) {
    uint64_t a, b, c;
    if (count == 3) {
        uint64_t rounds = strtoull(words[2], NULL, 10);
        uint64_t (*f)(uint64_t) = strcmp(words[1], "insert") == 0 ? bench_insert : bench_insert_sound;
        return f(rounds) == rounds ? 0 : 1;
    }
    double sound = best(bench_insert_sound, ROUNDS, &a) / CALLS;
    double entry = best(bench_insert, ROUNDS, &b) / CALLS;
    double index = best(bench_bucket_index, 1000000, &c);
    printf("insert_sound, half full     %7.1f ns\n", sound);
    printf("insert with its questions   %7.1f ns\n", entry);
    printf("Key::bucket_index           %7.1f ns\n", index);
    printf("insert / insert_sound       %7.2f\n", entry / sound);
    // Every round ends with twelve nodes held.
    return a == ROUNDS && b == ROUNDS && c > 0 ? 0 : 1;
}

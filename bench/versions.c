/* Two versions of the library, each behind a prefix (bench/versions), on the same vectors: build, search and recognise by turns.
 * Prints, with tabs between them, the old version's time in microseconds, the new one's share of it (the median over rounds) and the
 * share of the old one's second turn in each round, which is the noise; and a line for each subject whose answers differ. */
#define _POSIX_C_SOURCE 199309L
#include <alloca.h>
#include <math.h>
#include <stdint.h>
#include <stdio.h>
#include <stdlib.h>
#include <string.h>
#include <time.h>

/* the header once for each version */
#define PREFIXED(prefix) \
    uint32_t prefix##_pipnn_new(uint32_t *, size_t, float *, size_t, uint32_t, uint32_t, uint32_t, double, uint32_t, uint32_t, uint32_t, float, \
                                uint32_t, uint32_t); \
    uint32_t prefix##_pipnn_add(uint32_t *, size_t, float *, size_t, uint32_t, const float *, size_t); \
    uint32_t prefix##_pipnn_build(uint32_t *, size_t, const float *, size_t, uint32_t *, size_t, float *, size_t); \
    struct pipnn_found prefix##_pipnn_search_with_ef(const uint32_t *, size_t, const float *, size_t, const float *, size_t, uint32_t, uint32_t, \
                                                     uint32_t *, size_t, float *, size_t, uint32_t *, size_t, float *, size_t); \
    struct pipnn_recognised prefix##_pipnn_recognise(const uint32_t *, size_t, const float *, size_t, const float *, size_t, uint32_t, float, \
                                                     uint32_t *, size_t, float *, size_t);
#include "pipnn.h"
PREFIXED(old)
PREFIXED(new)

enum { FEATURES = 48, MOST = 1024, DEGREE = 32, QUERIES = 32, ROUNDS = 41 };
static uint32_t words[2][PIPNN_WORDS_SIZE(MOST, DEGREE)], open_words[PIPNN_WORDS_SIZE(MOST, DEGREE)], scratch_words[PIPNN_SCRATCH_WORDS(MOST)];
static float floats[2][PIPNN_FLOATS_SIZE(MOST, FEATURES)], open_floats[PIPNN_FLOATS_SIZE(MOST, FEATURES)], scratch_floats[PIPNN_SCRATCH_FLOATS(MOST)];
static float vectors[MOST * FEATURES], queries[QUERIES * FEATURES];
static uint32_t nodes;
static int swapped; /* the old version works in the second stores, the new one in the first */

static uint64_t state = 1;
static float number(void) {
    state = state * 6364136223846793005u + 1442695040888963407u;
    return (float)(state >> 40) / 8388608.0f - 1.0f;
}

/* random directions, or 16 tight groups; half of the queries are near a stored vector */
static void make(int grouped) {
    static float centres[16 * FEATURES];
    for (int i = 0; i < 16 * FEATURES; i++) centres[i] = number();
    for (uint32_t v = 0; v < nodes; v++)
        for (int j = 0; j < FEATURES; j++)
            vectors[v * FEATURES + j] = grouped ? centres[v % 16 * FEATURES + j] + 0.05f * number() : number();
    for (int q = 0; q < QUERIES; q++)
        for (int j = 0; j < FEATURES; j++)
            queries[q * FEATURES + j] = q % 2 ? number() : vectors[(uint32_t)(q * 37) % nodes * FEATURES + j] + 0.01f * number();
}

#define LENGTH(a) (sizeof(a) / sizeof *(a))
#define SCRATCH scratch_words, LENGTH(scratch_words), scratch_floats, LENGTH(scratch_floats)
#define STORES(s) words[(s) ^ swapped], LENGTH(words[0]), floats[(s) ^ swapped], LENGTH(floats[0])

static void must(uint32_t number) {
    if (number) {
        fprintf(stderr, "refused with %u\n", number);
        exit(1);
    }
}

static void fill(int s) {
    must((s ? new_pipnn_new : old_pipnn_new)(STORES(s), FEATURES, 2048, 64, 0.02, DEGREE, 12, 1, 1.2f, 100, MOST));
    for (uint32_t v = 0; v < nodes; v++) must((s ? new_pipnn_add : old_pipnn_add)(STORES(s), v, vectors + v * FEATURES, FEATURES));
}

static uint32_t k, ef;
static uint64_t answers[2];
static void add_answer(int s, uint32_t x) { answers[s] = (answers[s] ^ x) * 1099511628211u; }

static void build(int s) {
    memcpy(words[s ^ swapped], open_words, sizeof open_words);
    memcpy(floats[s ^ swapped], open_floats, sizeof open_floats);
    must((s ? new_pipnn_build : old_pipnn_build)(STORES(s), SCRATCH));
}

static void search(int s) {
    uint32_t docs[16];
    float distances[16];
    for (int q = 0; q < QUERIES; q++) {
        struct pipnn_found f = (s ? new_pipnn_search_with_ef : old_pipnn_search_with_ef)(STORES(s), queries + q * FEATURES, FEATURES, k, ef, docs, 16,
                                                                                         distances, 16, SCRATCH);
        must(f.number);
        add_answer(s, f.scored);
        for (uint32_t i = 0; i < f.count; i++) {
            uint32_t bits;
            memcpy(&bits, distances + i, 4);
            add_answer(s, docs[i]);
            add_answer(s, bits);
        }
    }
}

static void recognise(int s) {
    for (int q = 0; q < QUERIES; q++) {
        struct pipnn_recognised r =
            (s ? new_pipnn_recognise : old_pipnn_recognise)(STORES(s), queries + q * FEATURES, FEATURES, ef, 0.25f, SCRATCH);
        must(r.number);
        add_answer(s, r.doc + 2048 * r.known);
        add_answer(s, r.score);
    }
}

static double seconds(void) {
    struct timespec t;
    clock_gettime(CLOCK_PROCESS_CPUTIME_ID, &t); /* the time of this process alone, whatever else the machine does */
    return (double)t.tv_sec + 1e-9 * (double)t.tv_nsec;
}

static int rising(const void *a, const void *b) {
    double x = *(const double *)a, y = *(const double *)b;
    return (x > y) - (x < y);
}

static double median(double *x) {
    qsort(x, ROUNDS, sizeof *x, rising);
    return x[ROUNDS / 2];
}

/* `bytes` further down the stack, since where the stack lies has an effect on time too */
static __attribute__((noinline)) double timed(void (*call)(int), int s, int times, size_t bytes) {
    volatile char *room = alloca(bytes);
    room[0] = 0;
    double from = seconds();
    for (int i = 0; i < times; i++) call(s);
    return (seconds() - from) / times;
}

/* each round: the old version, the new one, the old one again, in an order that changes, at one place of the stack */
static void measure(const char *what, const char *data, void (*call)(int), double calls) {
    double once = timed(call, 0, 1, 16), own[ROUNDS], share[ROUNDS], again[ROUNDS];
    int times = once > 2e-3 ? 1 : (int)(2e-3 / once) + 1;
    for (int r = 0; r < ROUNDS; r++) {
        double t[3];
        size_t bytes = 16 + 16 * (size_t)(rand() % 256);
        for (int i = 0; i < 3; i++) {
            int who = (i + r) % 3;
            t[who] = timed(call, who == 1, times, bytes);
        }
        own[r] = t[0], share[r] = t[1] / t[0], again[r] = t[2] / t[0];
    }
    printf("%s\t%s\t%u\t%.2f\t%.4f\t%.4f\n", what, data, nodes, 1e6 * median(own) / calls, median(share), median(again));
}

static void same(const char *what) {
    if (answers[0] != answers[1]) printf("differ\t%s\n", what);
}

int main(int count, char **arguments) {
    swapped = count > 1 && !strcmp(arguments[1], "swapped");
    static const uint32_t sizes[] = {64, 256, 1024};
    for (int grouped = 0; grouped < 2; grouped++)
        for (unsigned i = 0; i < LENGTH(sizes); i++) {
            const char *data = grouped ? "grouped" : "random";
            nodes = sizes[i];
            make(grouped);
            fill(1);
            fill(0);
            if (memcmp(words[0], words[1], sizeof words[0]) || memcmp(floats[0], floats[1], sizeof floats[0])) printf("differ\tadd\n");
            memcpy(open_words, words[0], sizeof open_words);
            memcpy(open_floats, floats[0], sizeof open_floats);
            measure("build", data, build, 1);
            build(0), build(1);
            if (memcmp(words[0], words[1], sizeof words[0])) printf("differ\tbuild\n");
            static const uint32_t efs[] = {10, 50, 100, 1024};
            for (unsigned e = 0; e < LENGTH(efs); e++) {
                char what[32];
                k = e == 2 ? 10 : 1, ef = efs[e];
                snprintf(what, sizeof what, "search k %u ef %u", k, ef);
                answers[0] = answers[1] = 0;
                search(0), search(1);
                same(what);
                measure(what, data, search, QUERIES);
            }
            ef = 50;
            answers[0] = answers[1] = 0;
            recognise(0), recognise(1);
            same("recognise ef 50");
            measure("recognise ef 50", data, recognise, QUERIES);
        }
    return 0;
}

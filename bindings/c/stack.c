/* Runs every call in a thread with a small stack, on the inputs that need most of it. A stack that is too small ends the
 * program by a signal.
 *
 * cc -I include -pthread stack.c libdrintelbok.a -lm; stack KILOBYTES. bindings/check compiles and runs it. */
#include <math.h>
#include <pthread.h>
#include <stdio.h>
#include <stdlib.h>
#include <string.h>

#include "pipnn.h"

enum { PHONES = 1024, FEATURES = 64, DEGREE = 32, SIGHTINGS = 512 };

/* How phones are spread: at random; all alike; or around a hub, so that each is nearest to itself and then to the hub. */
enum spread { RANDOM, ALIKE, HUB };

struct trial {
    const char *name;
    enum spread spread;
    uint32_t features, max_leaf_size, min_leaf_size;
    double leader_fraction;
};

static const struct trial trials[] = {
    {"the usual parameters", RANDOM, FEATURES, 2048, 64, 0.02},
    {"small leaves", RANDOM, FEATURES, 64, 16, 0.02},
    {"phones around a hub, each a leader", HUB, FEATURES, 1, 0, 1.0},
    {"phones all alike: every level deals", ALIKE, FEATURES, 1, 0, 0.02},
    {"small buckets gather: every level deals 2,048 nodes, each a leader", RANDOM, 2, 1, 1024, 1.0},
};

static uint32_t words[PIPNN_WORDS_SIZE(PHONES, DEGREE)], scratch_words[PIPNN_SCRATCH_WORDS(PHONES)], docs[PHONES];
static float floats[PIPNN_FLOATS_SIZE(PHONES, FEATURES)], scratch_floats[PIPNN_SCRATCH_FLOATS(PHONES)];
static float distances[PHONES], phones[PHONES][FEATURES];
static uint64_t seconds[SIGHTINGS];
static uint32_t sighted[SIGHTINGS];

static uint64_t state;

static float random_float(void) {
    state = state * 6364136223846793005u + 1442695040888963407u;
    return (float)(state >> 40) / 8388608.0f - 1.0f;
}

/* Of PHONES nodes the one that is drawn last as a leader at level 0, if all are. */
static uint32_t drawn_last(void) {
    static uint32_t left[PHONES];
    uint64_t r = 42;
    for (uint32_t i = 0; i < PHONES; i++) left[i] = i;
    for (uint32_t n = PHONES; n > 1; n--) {
        r = r * 6364136223846793005u + 1;
        left[(r >> 33) % n] = left[n - 1];
    }
    return left[0];
}

static void spread_phones(const struct trial *t) {
    uint32_t hub = drawn_last();
    state = 1;
    for (uint32_t i = 0; i < PHONES; i++) {
        float square = 0;
        for (uint32_t f = 0; f < t->features; f++) {
            phones[i][f] = t->spread == ALIKE ? 1.0f : random_float();
            square += phones[i][f] * phones[i][f];
        }
        if (t->spread == HUB) {
            for (uint32_t f = 0; f < t->features; f++) phones[i][f] *= i == hub ? 0.0f : 0.5f / sqrtf(square);
            phones[i][0] = 1.0f;
        }
    }
}

static void must(uint32_t number, const char *call) {
    if (number != PIPNN_OK) {
        fprintf(stderr, "%s is refused with %u\n", call, (unsigned)number);
        exit(1);
    }
}

#define LENGTH(x) (sizeof(x) / sizeof *(x))
#define STORES words, LENGTH(words), floats, LENGTH(floats)
#define SCRATCH scratch_words, LENGTH(scratch_words), scratch_floats, LENGTH(scratch_floats)

static void *all_calls(void *trial) {
    const struct trial *t = trial;
    must(pipnn_new(STORES, t->features, t->max_leaf_size, t->min_leaf_size, t->leader_fraction, DEGREE, 12, 1, 1.2f, 1024, PHONES), "pipnn_new");
    for (uint32_t i = 0; i < PHONES; i++) must(pipnn_add(STORES, i, phones[i], t->features), "pipnn_add");
    must(pipnn_build(STORES, SCRATCH), "pipnn_build");
    must(pipnn_search(STORES, phones[0], t->features, 1024, docs, PHONES, distances, PHONES, SCRATCH).number, "pipnn_search");
    must(pipnn_search_with_ef(STORES, phones[0], t->features, 1024, 1024, docs, PHONES, distances, PHONES, SCRATCH).number, "pipnn_search_with_ef");
    must(pipnn_recognise(STORES, phones[0], t->features, 1024, 0.5f, SCRATCH).number, "pipnn_recognise");
    must(pipnn_household_count(0, seconds, SIGHTINGS, sighted, SIGHTINGS).number, "pipnn_household_count");
    return NULL;
}

int main(int argc, char **argv) {
    size_t kilobytes = argc == 2 ? strtoul(argv[1], NULL, 10) : 0;
    if (kilobytes == 0) {
        fprintf(stderr, "usage: stack KILOBYTES\n");
        return 2;
    }
    for (uint32_t i = 0; i < SIGHTINGS; i++) sighted[i] = i;
    for (size_t k = 0; k < LENGTH(trials); k++) {
        struct trial t = trials[k];
        pthread_attr_t attributes;
        pthread_t thread;
        spread_phones(&t);
        if (pthread_attr_init(&attributes) != 0 || pthread_attr_setstacksize(&attributes, 1024 * kilobytes) != 0 ||
            pthread_create(&thread, &attributes, all_calls, &t) != 0 || pthread_join(thread, NULL) != 0) {
            fprintf(stderr, "no thread with a stack of %lu KB\n", (unsigned long)kilobytes);
            return 2;
        }
        printf("%s\n", t.name);
    }
    return 0;
}

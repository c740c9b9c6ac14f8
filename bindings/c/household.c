/* Who was at home? Stores a household's phones, recognises sightings among them and counts a day's phones.
 *
 * cc -I include household.c libdrintelbok.a; bindings/check compiles and runs it. */
#include <inttypes.h>
#include <stdio.h>
#include <stdlib.h>

#include "pipnn.h"

enum { FEATURES = 4, CAPACITY = 16, DEGREE = 8, LENGTH_OF_DAY = 86400 };

struct phone {
    uint32_t doc;
    float features[FEATURES];
};

static const struct phone phones[] = {
    {17, {0.9f, 0.1f, 0.3f, 0.2f}},
    {23, {0.1f, 0.8f, 0.2f, 0.6f}},
    {42, {-0.4f, 0.2f, 0.9f, 0.1f}},
};

struct sighting {
    uint64_t second;
    float features[FEATURES];
};

/* Two days of sightings: the second is the one at 86,400 seconds more. */
static const struct sighting sightings[] = {
    {1793923200, {0.88f, 0.12f, 0.31f, 0.18f}},
    {1793930000, {0.11f, 0.79f, 0.22f, 0.61f}},
    {1793980000, {0.45f, 0.05f, 0.16f, 0.10f}}, /* the first again, at half the power */
    {1794009599, {0.5f, -0.7f, 0.1f, 0.4f}},    /* a visitor */
    {1794009600, {-0.42f, 0.21f, 0.88f, 0.09f}},
};

/* The index: two stores, and scratch for build and search. */
struct index {
    uint32_t *words, *scratch_words;
    float *floats, *scratch_floats;
    size_t words_length, floats_length, scratch_words_length, scratch_floats_length;
};

static void must(uint32_t number, const char *call) {
    if (number != PIPNN_OK) {
        fprintf(stderr, "%s is refused with %" PRIu32 "\n", call, number);
        exit(1);
    }
}

static void *memory(size_t elements, size_t size) {
    void *block = calloc(elements, size);
    if (block == NULL) {
        fprintf(stderr, "out of memory\n");
        exit(1);
    }
    return block;
}

static struct index with_phones(void) {
    struct index x;
    size_t i;
    x.words_length = pipnn_words_size(CAPACITY, DEGREE);
    x.floats_length = pipnn_floats_size(CAPACITY, FEATURES);
    x.scratch_words_length = pipnn_scratch_words(CAPACITY);
    x.scratch_floats_length = pipnn_scratch_floats(CAPACITY);
    x.words = memory(x.words_length, sizeof *x.words);
    x.floats = memory(x.floats_length, sizeof *x.floats);
    x.scratch_words = memory(x.scratch_words_length, sizeof *x.scratch_words);
    x.scratch_floats = memory(x.scratch_floats_length, sizeof *x.scratch_floats);
    must(pipnn_new(x.words, x.words_length, x.floats, x.floats_length, FEATURES, 2048, 64, 0.02, DEGREE, 12, 1, 1.2f, 100, CAPACITY),
         "new");
    for (i = 0; i < sizeof phones / sizeof *phones; i++)
        must(pipnn_add(x.words, x.words_length, x.floats, x.floats_length, phones[i].doc, phones[i].features, FEATURES), "add");
    must(pipnn_build(x.words, x.words_length, x.floats, x.floats_length, x.scratch_words, x.scratch_words_length,
                     x.scratch_floats, x.scratch_floats_length),
         "build");
    return x;
}

int main(void) {
    enum { SIGHTINGS = sizeof sightings / sizeof *sightings };
    struct index x = with_phones();
    uint64_t seconds[SIGHTINGS], day;
    uint32_t docs[SIGHTINGS];
    size_t known = 0, i;
    for (i = 0; i < SIGHTINGS; i++) {
        struct pipnn_recognised r =
            pipnn_recognise(x.words, x.words_length, x.floats, x.floats_length, sightings[i].features, FEATURES, CAPACITY, 0.05f,
                            x.scratch_words, x.scratch_words_length, x.scratch_floats, x.scratch_floats_length);
        must(r.number, "recognise");
        if (r.known) {
            printf("second %" PRIu64 ": phone %" PRIu32 ", score %" PRIu32 "\n", sightings[i].second, r.doc, r.score);
            seconds[known] = sightings[i].second;
            docs[known++] = r.doc;
        } else {
            printf("second %" PRIu64 ": a phone that is not stored; the nearest scores %" PRIu32 "\n", sightings[i].second, r.score);
        }
    }
    for (day = sightings[0].second / LENGTH_OF_DAY; day <= sightings[SIGHTINGS - 1].second / LENGTH_OF_DAY; day++) {
        struct pipnn_household count = pipnn_household_count(day, seconds, known, docs, known);
        must(count.number, "household_count");
        printf("day %" PRIu64 ": %" PRIu32 " of the household's phones\n", day, count.phones);
    }
    /* What is refused changes nothing, and says why. */
    printf("one phone more: refusal %" PRIu32 "\n",
           pipnn_add(x.words, x.words_length, x.floats, x.floats_length, 99, phones[0].features, FEATURES));
    free(x.words);
    free(x.floats);
    free(x.scratch_words);
    free(x.scratch_floats);
    return 0;
}

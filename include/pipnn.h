/* Drintelbok: which phone is this? A nearest-neighbour index for home gateways, over memory that the caller passes in.
 *
 * This header is the manual of the static library libdrintelbok.a ('bindings/archive' writes it to
 * target/staticlib). It is for Linux on any 64-bit Intel or AMD processor (x86-64): its code uses SSE2, which all of them
 * have, and no AVX. A program links the archive and a C library, of which it calls memcpy and memset alone. Every function
 * is proved, for every input, to end, to stay within the memory that is passed in and to do exactly what crates/drintelbok
 * says.
 *
 * HOW IT IS USED
 *
 *   1. Provide two stores and two pieces of scratch, static with the macros PIPNN_WORDS_SIZE and the three after it, or
 *      allocated after asking for the sizes (pipnn_words_size and the three after it).
 *   2. pipnn_new makes the stores an index with no phones; pipnn_add adds one phone at a time, as a vector of
 *      'dimension' features with a doc id; pipnn_build makes the graph that searches walk. After it no phone can be
 *      added; pipnn_new on the same stores starts again.
 *   3. pipnn_recognise: whether a phone that was heard is one of those stored. pipnn_search, pipnn_search_with_ef: the
 *      nearest phones of a query, nearest first.
 *
 * The stores are plain memory: they may be copied, written to a file and read back on a machine of the same byte order,
 * and used again. Nothing in them is an address.
 *
 * WHAT A CALL RETURNS
 *
 * Every call returns 0 or the number of a refusal (enum pipnn_refusal). Nothing needs to be tested beforehand: whatever the
 * buffers hold and however long they are, a call does exactly what it promises or returns a refusal number, and then changes
 * nothing but scratch; the counts returned with a refusal are 0. A call that returns 0 touches nothing past the sizes below.
 *
 * BUFFERS
 *
 * A buffer is a pointer and the number of its elements (not bytes), in that order. For each of them:
 *   - the pointer is not NULL, also where the length is 0, and is aligned as its type is;
 *   - the memory has been written once, with whatever values (calloc's is);
 *   - a buffer that a call may write (one that is not const) overlaps no other buffer of that call. Const buffers may.
 * The caller has to see to these three; no function can test them. A buffer may be longer than it has to be.
 *
 * What each has to hold, for a capacity C, a degree D (max_degree) and a dimension:
 *   words           16 + C * (4 + D)   the word store: header, doc ids, rows of the graph, bridges
 *   floats          C * dimension      the float store: the phones' vectors, scaled to length 1
 *   scratch_words   64 * C             for build and whatever searches. What it holds before never affects an answer, and
 *   scratch_floats  16 * C + 256       what it holds afterwards means nothing; one piece serves all calls, one at a time
 *   docs            min(k, n)          outputs of a search among n phones: doc ids,
 *   distances       min(k, n)          and their distances, 1 - cosine: 0 for the same direction, 2 for opposite ones, up
 *                                      to rounding
 *   vector, query   dimension          exactly; every component finite. They need not be scaled
 *   seconds, docs   one entry for each sighting, at most 512, both equally long (pipnn_household_count)
 *
 * THREADS
 *
 * There is no global state and no allocation. Calls on different stores may run at once. So may searches of one store, each
 * with its own scratch and outputs; while a call writes a store, no other call may use it.
 *
 * STACK
 *
 * Every call fits a stack of 48 KB, whatever its buffers and parameters hold: pipnn_build needs most, the searches and
 * pipnn_recognise 14 KB, every other call 7 KB. bindings/stack adds this up from the archive's machine code, along the
 * longest chain of calls, with 4 KB for memset or memcpy of the C library. What a thread needs for itself comes on
 * top: with a stack of 64 KB every call ran on the inputs that need most (bindings/c/stack.c), and the 128 KB of musl's
 * threads are enough.
 *
 * HOW TO CHOOSE ef
 *
 * A search keeps the b = max(ef, k) nearest phones that it has met. Where b is at least the number of phones in the store,
 * nothing can be missed: the answer is the exact nearest k. Below that the walk stops as the published Rust's does: once it
 * has scored more than 10 * b phones, or when all that is left is far off. It may then miss near phones, and on clustered
 * data, such as many phones of one make, it does: a phone that is stored can be missed by a query for itself. Measured with
 * 1,024 phones (bench/run): in 16 tight clusters 49 of 100 such queries miss at ef 10, 6 at ef 50 and none at ef 100; of
 * random directions 1 of 100 at ef 10 and none at ef 50. So take ef = 1024, or n, where an answer has to be exact, and a
 * smaller one only after trying it on vectors like your own. 'scored' reports how many phones a search looked at, which is
 * what it costs.
 *
 * HOW LONG A BUILD TAKES
 *
 * Processor time measured with 1,024 phones of 64 features, on one core of a server (AMD EPYC): 0.03 s with the usual
 * parameters, and 2 s in the slowest case that was found. That is leader_fraction 1, a max_leaf_size below the number of
 * phones, and min_leaf_size 1024 or phones that are all equal: each of 21 levels then compares every phone with every other,
 * and makes no segment smaller. With leader_fraction 0.02 it takes 0.15 s there. A build cannot be interrupted, and takes
 * longer on a slower core: try it before choosing a large leader_fraction. docs/SPEED.md has the times of searches.
 */
#ifndef PIPNN_H
#define PIPNN_H

#include <stddef.h>
#include <stdint.h>

#ifdef __cplusplus
extern "C" {
#endif

/* The largest value of each number. The smallest is 1 for a dimension, a capacity and max_leaf_size, and 0 for the others. */
#define PIPNN_MOST_DIMENSION 64
#define PIPNN_MOST_CAPACITY 1024
#define PIPNN_MOST_LEAF_SIZE 2048
#define PIPNN_MOST_MIN_LEAF_SIZE 1024
#define PIPNN_MOST_DEGREE 32
#define PIPNN_MOST_HASH_BITS 16
#define PIPNN_MOST_EF 1024        /* ef_search, in pipnn_new */
#define PIPNN_MOST_NODES 1024     /* k, in a search */
#define PIPNN_MOST_BEAM 1024      /* ef, in a search */
#define PIPNN_MOST_SIGHTINGS 512  /* in pipnn_household_count */

/* Why a call was refused, and what it left unchanged. "All" is every buffer, "all but scratch" every buffer but scratch.
 *
 * A call makes its checks in a fixed order, and returns the number of the first that fails:
 *   pipnn_new              1, 2, 3
 *   all others on a store  3 (fewer than 16 words), 4 (words 0 to 15), 3 (the rest of both stores, and scratch where it is
 *                          passed in), 4 (the rest); then
 *     pipnn_add              5, 6, 7, 8
 *     pipnn_build            9 (a store that is built already: success, and nothing changes)
 *     pipnn_search, ..       10, 6, 7, 11, 12
 *     pipnn_recognise        10, 6, 7, 11, 13
 *   pipnn_household_count  14
 */
enum pipnn_refusal {
    PIPNN_OK = 0,                      /* done */
    PIPNN_DIMENSION_OUT_OF_RANGE = 1,  /* the dimension is not 1 to 64. All unchanged */
    PIPNN_PARAMETER_OUT_OF_RANGE = 2,  /* a parameter or the capacity is beyond its limits. All unchanged */
    PIPNN_SLICE_TOO_SHORT = 3,         /* a store or scratch is too short. All but scratch unchanged */
    PIPNN_NOT_WELL_FORMED = 4,         /* the store's content is not that of an index: it was never made by pipnn_new, or
                                          something else wrote to it. All but scratch unchanged */
    PIPNN_ALREADY_BUILT = 5,           /* add on a store that is built. All unchanged */
    PIPNN_DIMENSION_MISMATCH = 6,      /* the vector's length differs from the dimension. All but scratch unchanged */
    PIPNN_NON_FINITE_INPUT = 7,        /* a component is infinite or not a number. All but scratch unchanged */
    PIPNN_FULL = 8,                    /* add to a store that holds as many phones as its capacity. All unchanged */
    PIPNN_EMPTY_INDEX = 9,             /* build of a store with no phones. All but scratch unchanged */
    PIPNN_NOT_BUILT = 10,              /* search in a store that is not built. All but scratch unchanged */
    PIPNN_K_OR_EF_TOO_LARGE = 11,      /* k or ef is above 1024. All but scratch unchanged */
    PIPNN_OUTPUT_TOO_SHORT = 12,       /* docs or distances is shorter than min(k, n). All but scratch unchanged */
    PIPNN_LIMIT_NOT_FINITE = 13,       /* the limit is infinite or not a number. All but scratch unchanged */
    PIPNN_BAD_SIGHTINGS = 14           /* more than 512 sightings, or their two lists differ in length. All unchanged */
};

/* What a search returns besides its two outputs. After a refusal both counts are 0. */
struct pipnn_found {
    uint32_t number; /* 0 or an enum pipnn_refusal */
    uint32_t count;  /* how many entries of docs and distances were written, from the front; the others stay as they were.
                        It is min(k, n) on every store made by these calls */
    uint32_t scored; /* how many phones' distances the walk computed */
};

/* What recognising returns. After a refusal all but the number are 0. */
struct pipnn_recognised {
    uint32_t number; /* 0 or an enum pipnn_refusal */
    uint32_t known;  /* 1: the phone is one of those stored. 0: it is a new one */
    uint32_t doc;    /* the doc id of the phone that it is; 0 for a new one */
    uint32_t score;  /* of the nearest phone that was found: 100 * (1 - distance), rounded down exactly, held to 0 to 100 */
};

/* What the household count returns. */
struct pipnn_household {
    uint32_t number; /* 0 or PIPNN_BAD_SIGHTINGS */
    uint32_t phones; /* how many different doc ids; 0 after a refusal */
};

/* How many elements each buffer has to have (see BUFFERS), as constant expressions for static buffers. Numbers have to be
 * within their limits: a macro does not test it, and pipnn_new refuses them otherwise. */
#define PIPNN_WORDS_SIZE(capacity, max_degree) (16 + (size_t)(capacity) * (4 + (size_t)(max_degree)))
#define PIPNN_FLOATS_SIZE(capacity, dimension) ((size_t)(capacity) * (size_t)(dimension))
#define PIPNN_SCRATCH_WORDS(capacity) (64 * (size_t)(capacity))
#define PIPNN_SCRATCH_FLOATS(capacity) (16 * (size_t)(capacity) + 256)

/* The same sizes as functions. A size is 0 where a number is beyond its limits: pipnn_new then refuses it. */
size_t pipnn_words_size(uint32_t capacity, uint32_t max_degree);
size_t pipnn_floats_size(uint32_t capacity, uint32_t dimension);
size_t pipnn_scratch_words(uint32_t capacity);
size_t pipnn_scratch_floats(uint32_t capacity);

/* Makes the two stores, of whatever content, an open index with no phones, and zeroes them up to their sizes.
 *
 *   words, floats    PIPNN_WORDS_SIZE(capacity, max_degree) words, PIPNN_FLOATS_SIZE(capacity, dimension) floats
 *   dimension        features of a phone: 1 to 64
 *   max_leaf_size    1 to 2048; usually 2048, with which every index here is one leaf
 *   min_leaf_size    0 to 1024; usually 64
 *   leader_fraction  0 to 1; usually 0.02
 *   max_degree       0 to 32; usually 32. The largest number of entries in a row of the graph
 *   num_hash_bits    0 to 16; usually 12
 *   final_prune      0 or 1; usually 1. It changes no graph and no answer within these limits
 *   alpha            finite; usually 1.2. It changes no graph and no answer either
 *   ef_search        0 to 1024; usually 100. The ef of pipnn_search
 *   capacity         1 to 1024: how many phones the index can hold
 *
 * Returns 0, 1, 2 or 3. */
uint32_t pipnn_new(uint32_t *words, size_t words_length,
                   float *floats, size_t floats_length,
                   uint32_t dimension,
                   uint32_t max_leaf_size,
                   uint32_t min_leaf_size,
                   double leader_fraction,
                   uint32_t max_degree,
                   uint32_t num_hash_bits,
                   uint32_t final_prune,
                   float alpha,
                   uint32_t ef_search,
                   uint32_t capacity);

/* Adds a phone to an open index. Its vector is scaled to length 1 as it is stored (one of length 1e-10 or less is stored
 * as it is). Doc ids are the caller's and may repeat.
 *
 *   vector           'dimension' floats, each finite
 *
 * Returns 0, 3, 4, 5, 6, 7 or 8. */
uint32_t pipnn_add(uint32_t *words, size_t words_length,
                   float *floats, size_t floats_length,
                   uint32_t doc,
                   const float *vector, size_t vector_length);

/* Makes an open index that has phones a built one: writes its graph to the word store. Every phone can then be reached.
 *
 *   scratch_words, scratch_floats   PIPNN_SCRATCH_WORDS(capacity) words, PIPNN_SCRATCH_FLOATS(capacity) floats
 *
 * Returns 0, 3, 4 or 9. */
uint32_t pipnn_build(uint32_t *words, size_t words_length,
                     const float *floats, size_t floats_length,
                     uint32_t *scratch_words, size_t scratch_words_length,
                     float *scratch_floats, size_t scratch_floats_length);

/* The nearest k of the phones that a walk with b = max(ef, k) scores, nearest first (see HOW TO CHOOSE ef).
 *
 *   query            'dimension' floats, each finite; it need not be scaled
 *   k, ef            0 to 1024
 *   docs, distances  at least min(k, n) entries each; k is always enough
 *   scratch_words, scratch_floats   PIPNN_SCRATCH_WORDS(capacity) words, PIPNN_SCRATCH_FLOATS(capacity) floats
 *
 * Its number is 0, 3, 4, 10, 6, 7, 11 or 12. */
struct pipnn_found pipnn_search_with_ef(const uint32_t *words, size_t words_length,
                                        const float *floats, size_t floats_length,
                                        const float *query, size_t query_length,
                                        uint32_t k,
                                        uint32_t ef,
                                        uint32_t *docs, size_t docs_length,
                                        float *distances, size_t distances_length,
                                        uint32_t *scratch_words, size_t scratch_words_length,
                                        float *scratch_floats, size_t scratch_floats_length);

/* The same with the ef_search that the index was made with. */
struct pipnn_found pipnn_search(const uint32_t *words, size_t words_length,
                                const float *floats, size_t floats_length,
                                const float *query, size_t query_length,
                                uint32_t k,
                                uint32_t *docs, size_t docs_length,
                                float *distances, size_t distances_length,
                                uint32_t *scratch_words, size_t scratch_words_length,
                                float *scratch_floats, size_t scratch_floats_length);

/* Whether a phone that was heard is one of those stored: known, if the nearest phone that a search with k = 1 finds is at
 * most 'limit' away. With an ef below the number of phones that search can miss a phone, which then counts as new (see HOW TO
 * CHOOSE ef).
 *
 *   query            'dimension' floats, each finite; it need not be scaled
 *   ef               0 to 1024
 *   limit            finite
 *   scratch_words, scratch_floats   PIPNN_SCRATCH_WORDS(capacity) words, PIPNN_SCRATCH_FLOATS(capacity) floats
 *
 * Its number is 0, 3, 4, 10, 6, 7, 11 or 13. */
struct pipnn_recognised pipnn_recognise(const uint32_t *words, size_t words_length,
                                        const float *floats, size_t floats_length,
                                        const float *query, size_t query_length,
                                        uint32_t ef,
                                        float limit,
                                        uint32_t *scratch_words, size_t scratch_words_length,
                                        float *scratch_floats, size_t scratch_floats_length);

/* How many different phones were sighted on a day. A sighting is an entry of both lists: the second since 1970-01-01 UTC
 * and the doc id. It takes no store.
 *
 *   day              a second's day is the second over 86,400, rounded down
 *   seconds, docs    equally long, at most 512 entries
 *
 * Its number is 0 or 14. */
struct pipnn_household pipnn_household_count(uint64_t day,
                                             const uint64_t *seconds, size_t seconds_length,
                                             const uint32_t *docs, size_t docs_length);

#ifdef __cplusplus
}
#endif

#endif

/* The header's macros for sizes against the library's functions, for all numbers within their limits.
 *
 * cc -I include sizes.c libdrintelbok.a. bindings/check compiles and runs it. */
#include <stdio.h>

#include "pipnn.h"

static unsigned long compared, differ;

static void same(size_t macro, size_t function, const char *name, uint32_t capacity, uint32_t other) {
    compared++;
    if (macro != function && differ++ == 0)
        printf("%s of %u and %u: the macro's is %lu, the function's %lu\n", name, (unsigned)capacity, (unsigned)other, (unsigned long)macro,
               (unsigned long)function);
}

/* Sums as arguments, and products of the results: the macros have the parentheses that they need. */
int main(void) {
    for (uint32_t c = 0; c < PIPNN_MOST_CAPACITY; c++) {
        for (uint32_t d = 0; d <= PIPNN_MOST_DEGREE; d++)
            same(3 * PIPNN_WORDS_SIZE(c + 1, 0 + d), 3 * pipnn_words_size(c + 1, d), "words", c + 1, d);
        for (uint32_t f = 0; f < PIPNN_MOST_DIMENSION; f++)
            same(3 * PIPNN_FLOATS_SIZE(c + 1, f + 1), 3 * pipnn_floats_size(c + 1, f + 1), "floats", c + 1, f + 1);
        same(3 * PIPNN_SCRATCH_WORDS(c + 1), 3 * pipnn_scratch_words(c + 1), "scratch words", c + 1, 0);
        same(3 * PIPNN_SCRATCH_FLOATS(c + 1), 3 * pipnn_scratch_floats(c + 1), "scratch floats", c + 1, 0);
    }
    printf("%lu sizes by macro and by function, %lu differ\n", compared, differ);
    return differ != 0;
}

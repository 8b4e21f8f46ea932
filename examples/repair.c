/* Repair by itself: the values that a column has of four, two bytes each, repaired by the check values that a neighbour has sent, and how
 * far the search for wrong places went in each of the two byte planes.
 *
 *     (cd crates/sajowemi && rt lib) && mkdir -p target
 *     gcc -Iinclude -o target/repair examples/repair.c crates/sajowemi/out/libsajowemi.a && target/repair
 */
#include "sajowemi.h"
#include <stdio.h>

enum { COLUMNS = 4, BAD = 1, SIZE = 2, VECTOR = COLUMNS * SIZE, CHECKS = 2 * BAD * SIZE };

/* The vector repaired; how many places were changed; and how many were tried in each plane, up to the last wrong one. */
static void print_repaired(const char *which, const uint8_t *heard, const uint8_t *checks) {
    uint8_t output[VECTOR];
    struct sajowemi_repaired repaired = sajowemi_repair(COLUMNS, BAD, SIZE, heard, VECTOR, checks, CHECKS, output, VECTOR);

    printf("%s:", which);
    if (repaired.answer == SAJOWEMI_DONE)
        for (int k = 0; k < COLUMNS; k++)
            printf(" %d.%d", output[k * SIZE], output[k * SIZE + 1]);
    else
        printf(" %s", sajowemi_says(repaired.answer));
    printf("\n  %u changed, tried", repaired.changed);
    for (int p = 0; p < SIZE; p++)
        printf(" %d", repaired.tried[p]);
    printf("\n");
}

int main(void) {
    const uint8_t sent[VECTOR] = {10, 11, 20, 21, 30, 31, 40, 41};
    const uint8_t one_byte[VECTOR] = {10, 11, 20, 21, 30, 99, 40, 41};
    const uint8_t in_each_plane[VECTOR] = {99, 11, 20, 21, 30, 31, 40, 98};
    const uint8_t two_in_one[VECTOR] = {99, 11, 98, 97, 30, 31, 40, 41};
    uint8_t checks[CHECKS];

    if (sajowemi_check_values(COLUMNS, BAD, SIZE, sent, VECTOR, checks, CHECKS) != SAJOWEMI_DONE)
        return 1;
    print_repaired("all heard as sent", sent, checks);
    print_repaired("one byte of column 3 wrong", one_byte, checks);
    print_repaired("columns 1 and 4 wrong, one in each plane", in_each_plane, checks);
    print_repaired("columns 1 and 2 wrong, both in the first plane", two_in_one, checks);
    return 0;
}

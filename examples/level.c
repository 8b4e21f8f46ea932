/* Four columns on a truck repeat the exchange until the good ones stand level, though the fourth's radio reaches only some of them: whom
 * each holds for blank, what it takes for the level, how far it goes, and how far apart the good ones stand then.
 *
 *     (cd crates/sajowemi && rt lib) && mkdir -p target
 *     gcc -Iinclude -o target/level examples/level.c crates/sajowemi/out/libsajowemi.a && target/level
 */
#include "sajowemi.h"
#include <stdbool.h>
#include <stdio.h>
#include <stdlib.h>

/* Distances are in tenths of a millimetre. One may stay, since a level is rounded down to a whole one. */
enum { GOOD = 3, BAD = 1, COLUMNS = GOOD + BAD, SIZE = 4, FIRST_RUN = 7, MAY_STAY = 1 };

/* Which good columns hear column 4 in rounds one to three. Columns 1 and 2 end with its height at confidence 1 and column 3 with nothing
 * of it: they drop different heights, and their levels differ. */
static const bool hears_column_4[3][GOOD] = {{true, true, false}, {false, true, false}, {true, true, false}};

static void must(uint32_t answer) {
    if (answer != SAJOWEMI_DONE) {
        fprintf(stderr, "refused: %s\n", sajowemi_says(answer));
        exit(1);
    }
}

/* A height is sent as four bytes, high byte first. Height 0 is blank, and refused with 6 in this edition: here all heights are above
 * it, and so are all levels. */
static void open_at(struct sajowemi_column *column, uint32_t number, uint16_t run, int64_t height) {
    uint32_t bits = (uint32_t)height;
    uint8_t own[SIZE] = {bits >> 24, bits >> 16 & 255, bits >> 8 & 255, bits & 255};
    must(sajowemi_column_open(column, COLUMNS, BAD, SIZE, number, run, own, SIZE));
}

/* A column's frame of its round, to the others; of column 4, to those that hear it. */
static void send_to_others(struct sajowemi_column *columns, int sender, int round) {
    uint8_t frame[SAJOWEMI_LONGEST_FRAME];
    size_t size = sajowemi_column_frame_size(&columns[sender]);
    must(sajowemi_column_send(&columns[sender], frame, sizeof frame));
    for (int k = 0; k < COLUMNS; k++)
        if (k != sender && (sender < GOOD || hears_column_4[round][k]))
            must(sajowemi_column_take(&columns[k], sender + 1, frame, size)); /* on the air a refusal is counted: go on */
}

/* One exchange. Each has a run number of its own: a frame that comes late, from the one before, is refused. */
static void exchange(struct sajowemi_column *columns, const int64_t *heights, uint16_t run) {
    for (int k = 0; k < COLUMNS; k++)
        open_at(&columns[k], k + 1, run, heights[k]);
    for (int round = 0; round < 3; round++) {
        for (int k = 0; k < COLUMNS; k++)
            send_to_others(columns, k, round);
        for (int k = 0; k < COLUMNS; k++)
            must(sajowemi_column_close(&columns[k]));
    }
}

/* Whom a column holds for blank. One bad column is borne: with one blank no height is dropped, with none the lowest and the highest are,
 * and with two there is no level. */
static void print_blank(const struct sajowemi_column *column) {
    struct sajowemi_holdings held;
    must(sajowemi_column_result(column, &held));
    for (int of = 0; of < COLUMNS; of++)
        if (held.confidences[of] == 0)
            printf("  column %u holds column %d for blank, at confidence 0: no height of it counts\n", column->who.number, of + 1);
}

static void print_mm(const char *before, int64_t tenths) {
    printf("%s%s%lld.%lld mm", before, tenths < 0 ? "-" : "", llabs(tenths) / 10, llabs(tenths) % 10);
}

/* What a column takes for the level, and the way there, which its motor goes. */
static void go_to_level(const struct sajowemi_column *column, int64_t *height) {
    struct sajowemi_level level;
    must(sajowemi_column_level(column, &level));
    printf("  column %u", column->who.number);
    print_mm(" at ", *height);
    print_mm(": level ", level.level);
    if (level.correction == 0)
        printf(", stays");
    else
        print_mm(level.correction < 0 ? ", down " : ", up ", llabs(level.correction));
    printf("\n");
    *height += level.correction;
}

/* How far the lowest and the highest good column are apart. */
static int64_t spread(const int64_t *heights) {
    int64_t lowest = heights[0], highest = heights[0];
    for (int k = 1; k < GOOD; k++) {
        lowest = heights[k] < lowest ? heights[k] : lowest;
        highest = heights[k] > highest ? heights[k] : highest;
    }
    return highest - lowest;
}

int main(void) {
    int64_t heights[COLUMNS] = {1000, 1006, 1010, 1050}; /* column 4 stands far above the others, and pulls none beyond 101.0 mm */
    int64_t apart = spread(heights);
    for (uint16_t run = FIRST_RUN; apart > MAY_STAY; run++) {
        struct sajowemi_column columns[COLUMNS];
        print_mm("columns 1 to 3 stand within ", apart);
        printf(": exchange of run %d\n", run);
        exchange(columns, heights, run);
        for (int k = 0; k < COLUMNS; k++) { /* column 4 too, which cannot know that it is not heard: nothing is promised of it */
            print_blank(&columns[k]);
            go_to_level(&columns[k], &heights[k]);
        }
        int64_t now = spread(heights);
        if (now > (apart + 1) / 2) { /* at most half is promised, rounded up: so the exchanges come to an end */
            fprintf(stderr, "more columns are bad than are borne, or frames came late\n");
            return 1;
        }
        apart = now;
    }
    print_mm("columns 1 to 3 stand within ", apart);
    printf(": level\n");
    return 0;
}

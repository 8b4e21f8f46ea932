/* Four columns, one of which lies: what the good ones believe at the end, how far off they found each other, and whose frames were
 * refused.
 *
 *     (cd crates/sajowemi && rt lib) && mkdir -p target
 *     gcc -Iinclude -o target/group examples/group.c crates/sajowemi/out/libsajowemi.a && target/group
 */
#include "sajowemi.h"
#include <stdio.h>
#include <stdlib.h>

enum { GOOD = 3, LIAR = 4, BAD = 1, SIZE = 1, RUN = 7 };

/* What column 4 tells columns 1 to 3: heights in round one, check values in rounds two and three. */
static const uint8_t lies[3][GOOD][2] = {{{35}, {35}, {40}}, {{22, 61}, {0, 136}, {121, 143}}, {{87, 61}, {87, 61}, {123, 149}}};
static const uint8_t commands[3] = {0x11, 0x22, 0x33};

/* How often columns 1 to 3 hear each frame of columns 1 to 4: column 1's echoes off the truck, and column 4's radio repeats itself. */
static const int times_heard[GOOD][GOOD + BAD] = {{0, 1, 1, 1}, {1, 0, 1, 2}, {2, 1, 0, 3}};

static void must(uint32_t answer) {
    if (answer != SAJOWEMI_DONE) {
        fprintf(stderr, "refused: %s\n", sajowemi_says(answer));
        exit(1);
    }
}

/* What the radio hands a column in a slot. A frame that is refused 9 to 15 is counted for its slot, and the column goes on; another
 * refusal would be this program's fault. */
static void hear(struct sajowemi_column *column, int slot, const uint8_t *frame, size_t size) {
    for (int times = times_heard[column->who.number - 1][slot - 1]; times > 0; times--) {
        uint32_t answer = sajowemi_column_take(column, slot, frame, size);
        if (answer < SAJOWEMI_FRAME_CUT_SHORT)
            must(answer);
    }
}

/* A column's frame of its round, to the other good ones: those that have not closed the round before keep it for the next. */
static void send_to_others(struct sajowemi_column *columns, int sender) {
    uint8_t frame[SAJOWEMI_LONGEST_FRAME];
    size_t size = sajowemi_column_frame_size(&columns[sender]);
    must(sajowemi_column_send(&columns[sender], frame, sizeof frame));
    for (int k = 0; k < GOOD; k++)
        hear(&columns[k], sender + 1, frame, size);
}

static void hear_lie(struct sajowemi_column *column, int round) {
    const uint8_t *operand = lies[round][column->who.number - 1];
    uint8_t lie[] = {commands[round], LIAR, 0, RUN, operand[0], operand[1]};
    hear(column, LIAR, lie, sajowemi_column_frame_size(column));
}

/* Who was off in a round. A good sender may be off by as many places as there are bad columns, here one; more than t, or a mark, is a
 * radio to look at. */
static void print_told(const char *round, const uint8_t *told) {
    int off = 0;
    printf("  round %s:", round);
    for (int of = 0; of < GOOD + BAD; of++) {
        if (told[of] == 0)
            continue;
        printf("%s column %d ", off++ ? "," : "", of + 1);
        if (told[of] == SAJOWEMI_TOLD_MISSING)
            printf("not heard");
        else if (told[of] == SAJOWEMI_TOLD_NONE)
            printf("too far off to tell");
        else
            printf("off by %d place%s", told[of], told[of] == 1 ? "" : "s");
    }
    printf("%s\n", off ? "" : " nobody off");
}

/* Whose frames were refused: of a frame that is heard more than once, all but the first. */
static void print_refused(const struct sajowemi_column *column) {
    const char *before = ": ";
    printf("  %llu frames refused", (unsigned long long)sajowemi_column_refused(column));
    for (int of = 0; of < GOOD + BAD; of++) {
        if (column->refused[of] == 0)
            continue;
        printf("%s%u of column %d", before, column->refused[of], of + 1);
        before = ", ";
    }
    printf("\n");
}

int main(void) {
    const uint8_t heights[GOOD][SIZE] = {{241}, {86}, {35}};
    struct sajowemi_column columns[GOOD];
    for (int k = 0; k < GOOD; k++)
        must(sajowemi_column_open(&columns[k], GOOD + BAD, BAD, SIZE, k + 1, RUN, heights[k], SIZE));
    for (int round = 0; round < 3; round++)
        for (int k = 0; k < GOOD; k++) { /* column 1 is ahead: its frame comes early to the others */
            if (round > 0)
                must(sajowemi_column_close(&columns[k]));
            send_to_others(columns, k);
            hear_lie(&columns[k], round);
        }
    for (int k = 0; k < GOOD; k++) {
        struct sajowemi_holdings held;
        must(sajowemi_column_close(&columns[k]));
        must(sajowemi_column_result(&columns[k], &held));
        printf("column %d believes:", k + 1);
        for (int of = 0; of < GOOD + BAD; of++)
            printf(" %d/%d", held.values[of], held.confidences[of]);
        printf("\n");
        print_told("two", held.told_two);
        print_told("three", held.told_three);
        print_refused(&columns[k]);
    }
    return 0;
}

/* Sizes and offsets of every struct that crosses the edge, in C: against the numbers, and against what the compiled calls read and write. */
#undef NDEBUG
#include "sajowemi.h"
#include <assert.h>
#include <stdio.h>
#include <string.h>

#define STANDS(type, field, at) _Static_assert(offsetof(struct type, field) == (at), #type "." #field)
#define SIZE(type, size) _Static_assert(sizeof(struct type) == (size), #type)

/* `own` ends at 26: the two bytes before the slots belong to nothing. */
SIZE(sajowemi_identity, 28);
_Static_assert(_Alignof(struct sajowemi_identity) == 4, "alignment");
STANDS(sajowemi_identity, n, 0);
STANDS(sajowemi_identity, t, 4);
STANDS(sajowemi_identity, w, 8);
STANDS(sajowemi_identity, number, 12);
STANDS(sajowemi_identity, run, 16);
STANDS(sajowemi_identity, own, 18);
SIZE(sajowemi_slot, 165);
STANDS(sajowemi_slot, taken, 0);
STANDS(sajowemi_slot, bytes, 1);
SIZE(sajowemi_findings, 864);
STANDS(sajowemi_findings, heard, 0);
STANDS(sajowemi_findings, agreed, 256);
STANDS(sajowemi_findings, values, 512);
STANDS(sajowemi_findings, confidences, 768);
STANDS(sajowemi_findings, told_two, 800);
STANDS(sajowemi_findings, told_three, 832);
SIZE(sajowemi_column, 11584);
_Static_assert(_Alignof(struct sajowemi_column) == 4, "alignment");
STANDS(sajowemi_column, who, 0);
STANDS(sajowemi_column, slots, 28);
STANDS(sajowemi_column, early, 5308);
STANDS(sajowemi_column, found, 10588);
STANDS(sajowemi_column, found.heard, 10588);
STANDS(sajowemi_column, found.agreed, 10844);
STANDS(sajowemi_column, found.values, 11100);
STANDS(sajowemi_column, found.confidences, 11356);
STANDS(sajowemi_column, found.told_two, 11388);
STANDS(sajowemi_column, found.told_three, 11420);
STANDS(sajowemi_column, round, 11452);
STANDS(sajowemi_column, refused, 11456);
STANDS(sajowemi_column, refused[31], 11580);
SIZE(sajowemi_outcome, 11588);
STANDS(sajowemi_outcome, answer, 0);
STANDS(sajowemi_outcome, column, 4);
SIZE(sajowemi_holdings, 356);
STANDS(sajowemi_holdings, answer, 0);
STANDS(sajowemi_holdings, values, 4);
STANDS(sajowemi_holdings, confidences, 260);
STANDS(sajowemi_holdings, told_two, 292);
STANDS(sajowemi_holdings, told_three, 324);
SIZE(sajowemi_level, 24);
STANDS(sajowemi_level, answer, 0);
STANDS(sajowemi_level, level, 8);
STANDS(sajowemi_level, correction, 16);
SIZE(sajowemi_repaired, 16);
_Static_assert(_Alignof(struct sajowemi_repaired) == 4, "alignment");
STANDS(sajowemi_repaired, answer, 0);
STANDS(sajowemi_repaired, changed, 4);
STANDS(sajowemi_repaired, tried, 8);
_Static_assert(SAJOWEMI_TOLD_MISSING == 254 && SAJOWEMI_TOLD_NONE == 255, "marks");

static uint32_t number_at(const struct sajowemi_column *column, size_t at) {
    uint32_t number;
    memcpy(&number, (const uint8_t *)column + at, sizeof number);
    return number;
}

/* A frame that is refused in any slot but the own raises that slot's count, where the numbers above say, and no other. */
static void counted(void) {
    const uint8_t own[] = {61};
    struct sajowemi_outcome outcome = sajowemi_open(32, 0, 1, 5, 0x1234, own, 1);
    uint8_t *counts = (uint8_t *)&outcome.column + 11456;
    uint32_t expected[32];

    for (uint32_t k = 0; k < 32; k++)
        expected[k] = 256 * k + 255; /* one more goes over into the second byte */
    memcpy(counts, expected, 128);
    for (uint32_t slot = 1; slot <= 32; slot++) {
        outcome = sajowemi_take(outcome.column, slot, own, 1);
        assert(outcome.answer == (slot == 5 ? SAJOWEMI_SLOT : SAJOWEMI_FRAME_CUT_SHORT));
        expected[slot - 1] += slot != 5;
        assert(memcmp(counts, expected, 128) == 0);
    }
}

/* Opening, taking, refusing and closing write each field where the numbers above say. In round two only column 4 is heard, and its checks
 * fit nothing; in round three nobody is. */
static void written(void) {
    const uint8_t own[] = {61, 62, 63};
    const uint8_t frame[] = {0x11, 4, 0x12, 0x34, 71, 72, 73};
    const uint8_t checks[] = {0x22, 4, 0x12, 0x34, 1, 2, 3, 4, 5, 6, 7, 8, 9, 10, 11, 12};
    const size_t at[] = {0, 4, 8, 12, 11452};
    const uint32_t expected[] = {7, 2, 3, 5, 1};
    const uint8_t uncounted[128] = {0}, untold[64] = {0};
    const uint8_t two[32] = {254, 254, 254, 255, 0, 254, 254}, three[32] = {254, 254, 254, 254, 0, 254, 254};
    struct sajowemi_outcome outcome = sajowemi_open(7, 2, 3, 5, 0x1234, own, 3);
    const uint8_t *bytes = (const uint8_t *)&outcome.column;
    const size_t slot = 28 + 3 * 165, early = 5308 + 3 * 165;

    assert(outcome.answer == SAJOWEMI_DONE);
    for (size_t k = 0; k < 5; k++)
        assert(number_at(&outcome.column, at[k]) == expected[k]);
    assert(memcmp(bytes + 11456, uncounted, 128) == 0);
    assert(bytes[16] == 0x34 && bytes[17] == 0x12);
    assert(memcmp(bytes + 18, own, 3) == 0);
    outcome = sajowemi_take(outcome.column, 4, frame, sizeof frame);
    assert(outcome.answer == SAJOWEMI_DONE);
    assert(bytes[slot] == 1 && memcmp(bytes + slot + 1, frame, sizeof frame) == 0);
    outcome = sajowemi_take(outcome.column, 4, checks, sizeof checks);
    assert(outcome.answer == SAJOWEMI_DONE);
    assert(bytes[early] == 1 && memcmp(bytes + early + 1, checks, sizeof checks) == 0);
    assert(memcmp(bytes + slot + 1, frame, sizeof frame) == 0);
    outcome = sajowemi_take(outcome.column, 4, frame, sizeof frame);
    assert(outcome.answer == SAJOWEMI_REPEATED && number_at(&outcome.column, 11456 + 3 * 4) == 1);
    outcome = sajowemi_close(outcome.column);
    assert(outcome.answer == SAJOWEMI_DONE && number_at(&outcome.column, 11452) == 2);
    assert(memcmp(bytes + 10588 + 9, frame + 4, 3) == 0 && memcmp(bytes + 10588 + 12, own, 3) == 0);
    assert(bytes[slot] == 1 && memcmp(bytes + slot + 1, checks, sizeof checks) == 0 && bytes[early] == 0);
    assert(memcmp(bytes + 11388, untold, 64) == 0);
    outcome = sajowemi_close(outcome.column);
    assert(memcmp(bytes + 11388, two, 32) == 0 && memcmp(bytes + 11420, untold, 32) == 0);
    outcome = sajowemi_close(outcome.column);
    assert(memcmp(bytes + 11388, two, 32) == 0 && memcmp(bytes + 11420, three, 32) == 0);
    assert(number_at(&outcome.column, 11456 + 3 * 4) == 1);
}

/* Sending and asking read each field where the numbers above say. */
static void read(void) {
    const uint8_t own[] = {61, 62, 63};
    const uint8_t expected[] = {0x11, 5, 0x12, 0x34, 61, 62, 63}, nobody[25] = {0};
    struct sajowemi_column column = sajowemi_open(7, 2, 3, 5, 0x1234, own, 3).column;
    struct sajowemi_holdings held;
    uint8_t *bytes = (uint8_t *)&column;
    uint8_t frame[7];

    assert(sajowemi_send(column, frame, sizeof frame) == SAJOWEMI_DONE);
    assert(memcmp(frame, expected, sizeof frame) == 0);
    column.round = 4;
    for (size_t at = 11100; at < 11452; at++)
        bytes[at] = (uint8_t)(at % 251); /* no two fields alike */
    held = sajowemi_result(column);
    assert(held.answer == SAJOWEMI_DONE);
    assert(memcmp(held.values, bytes + 11100, 21) == 0);
    assert(memcmp(held.confidences, bytes + 11356, 7) == 0);
    assert(memcmp(held.told_two, bytes + 11388, 7) == 0 && memcmp(held.told_two + 7, nobody, 25) == 0);
    assert(memcmp(held.told_three, bytes + 11420, 7) == 0 && memcmp(held.told_three + 7, nobody, 25) == 0);
}

/* A column alone ends with its own value: Y is written in round two, values and confidences in round three. */
static void ended(void) {
    const uint8_t own[] = {8, 7};
    struct sajowemi_column column = sajowemi_open(1, 0, 2, 1, 9, own, 2).column;
    const uint8_t *bytes = (const uint8_t *)&column;

    for (int round = 1; round <= 3; round++)
        column = sajowemi_close(column).column;
    assert(memcmp(bytes + 10588, own, 2) == 0 && memcmp(bytes + 10844, own, 2) == 0);
    assert(memcmp(bytes + 11100, own, 2) == 0 && bytes[11356] == 2);
}

/* Two columns at -5 and -2 tenths: the level is -4, and column 1 goes up by one. */
static void levelled(void) {
    const uint8_t heights[] = {255, 255, 255, 251, 255, 255, 255, 254};
    struct sajowemi_column column = sajowemi_open(2, 0, 4, 1, 9, heights, 4).column;
    struct sajowemi_level level = sajowemi_level(column);

    assert(level.answer == SAJOWEMI_NOT_FINISHED && level.level == 0 && level.correction == 0);
    column.round = 4;
    memcpy(column.found.values, heights, sizeof heights);
    memset(column.found.confidences, 1, 2);
    level = sajowemi_level(column);
    assert(level.answer == SAJOWEMI_DONE && level.level == -4 && level.correction == 1);
}

/* Repair hands back its answer, its count and a number for each plane side by side: four places changed, in six of seven planes; none near
 * in the one that was right; and a refusal. */
static void repaired(void) {
    const uint8_t near[] = {22, 0, 38, 39, 39, 22, 0, 61, 136, 78, 78, 79, 61, 136}, near_tried[] = {2, 3, 5, 0, 6, 2, 3, 0};
    const uint8_t far[] = {22, 0, 38, 22, 39, 22, 0, 61, 136, 78, 77, 79, 61, 136}, far_tried[] = {2, 3, 5, 6, 6, 2, 3, 0};
    const uint8_t refused_tried[8] = {0};
    uint8_t vector[28], output[28];
    struct sajowemi_repaired repaired;

    for (size_t k = 0; k < 28; k++)
        vector[k] = (const uint8_t[]){241, 86, 35, 35}[k / 7];
    repaired = sajowemi_repair(4, 1, 7, vector, 28, near, 14, output, 28);
    assert(repaired.answer == SAJOWEMI_DONE && repaired.changed == 4 && memcmp(repaired.tried, near_tried, 8) == 0);
    repaired = sajowemi_repair(4, 1, 7, vector, 28, far, 14, output, 28);
    assert(repaired.answer == SAJOWEMI_NONE && repaired.changed == 0 && memcmp(repaired.tried, far_tried, 8) == 0);
    repaired = sajowemi_repair(4, 1, 7, vector, 28, far, 13, output, 28);
    assert(repaired.answer == SAJOWEMI_CODE_LENGTH && repaired.changed == 0 && memcmp(repaired.tried, refused_tried, 8) == 0);
}

int main(void) {
    counted();
    written();
    read();
    ended();
    levelled();
    repaired();
    puts("layout: the structs stand in C as the compiled calls read and write them");
    return 0;
}

/* The header's calls in place beside the archive's calls by value: the same answer, the record behind the pointer as the outcome has it
 * whatever the answer, the same bytes lent, and a record that is only read kept. Records are of random bits, many with settings that
 * pass; between two bytes of another kind, so that a byte written beside them is seen. Two bytes of a record belong to nothing. And the
 * header's sum of a record's counts of refused frames. */
#undef NDEBUG
#include "sajowemi.h"
#include <assert.h>
#include <stdio.h>
#include <string.h>

enum { TURNS = 40000, FRONT = 26, REST = 28, GUARD = 64, FILL = 0x5a, ROOM = 200 };

static uint64_t state = 0x9e3779b97f4a7c15;
static unsigned long done, refused;

static uint32_t drawn(void) {
    state ^= state << 13;
    state ^= state >> 7;
    state ^= state << 17;
    return (uint32_t)(state >> 32);
}

static uint32_t below(uint32_t bound) { return drawn() % bound; }

static void draw(void *bytes, size_t count) {
    for (size_t k = 0; k < count; k++)
        ((uint8_t *)bytes)[k] = (uint8_t)drawn();
}

/* A record with bytes of another kind on both sides. */
struct guarded {
    uint8_t before[GUARD];
    struct sajowemi_column column;
    uint8_t after[GUARD];
};

static struct guarded guarded(const struct sajowemi_column *column) {
    struct guarded place;
    memset(&place, FILL, sizeof place);
    place.column = *column;
    return place;
}

static void is_record(const struct guarded *place, const struct sajowemi_column *column) {
    const uint8_t *ours = (const uint8_t *)&place->column, *theirs = (const uint8_t *)column;
    assert(memcmp(ours, theirs, FRONT) == 0);
    assert(memcmp(ours + REST, theirs + REST, sizeof *column - REST) == 0);
    for (size_t k = 0; k < GUARD; k++)
        assert(place->before[k] == FILL && place->after[k] == FILL);
}

static void is_answer(uint32_t in_place, uint32_t by_value) {
    assert(in_place == by_value);
    if (by_value == SAJOWEMI_DONE)
        done++;
    else
        refused++;
}

/* A record of random bits; of seven in eight the settings, number and round pass, and of half of these a value has four bytes. A count of
 * refused frames in four is at its top. */
static struct sajowemi_column made_by_hand(void) {
    struct sajowemi_column column;
    draw(&column, sizeof column);
    if (below(8) > 0) {
        column.who.n = 1 + below(32);
        column.who.t = below((column.who.n - 1) / 3 + 1);
        column.who.w = below(2) ? 4 : 1 + below(8);
        column.who.number = 1 + below(column.who.n);
        column.round = 1 + below(4);
    }
    for (size_t k = 0; k < SAJOWEMI_MOST_COLUMNS; k++) {
        column.slots[k].taken *= below(2);
        column.early[k].taken *= below(2);
        if (below(4) == 0)
            column.refused[k] = UINT32_MAX;
    }
    return column;
}

static void opened(const struct sajowemi_column *column) {
    const struct sajowemi_identity *who = &column->who;
    size_t length = below(8) ? who->w % 9 : below(9);
    struct guarded place = guarded(column);
    struct sajowemi_outcome outcome = sajowemi_open(who->n, who->t, who->w, who->number, who->run, who->own, length);
    is_answer(sajowemi_column_open(&place.column, who->n, who->t, who->w, who->number, who->run, who->own, length), outcome.answer);
    is_record(&place, &outcome.column);
    assert(sajowemi_column_refused(&place.column) == 0);
}

/* A frame of the round or of the one that follows, mostly, in a slot that is mostly one of the group's. */
static void taken(const struct sajowemi_column *column) {
    uint8_t frame[ROOM];
    uint32_t slot = column->who.n < 33 ? 1 + below(column->who.n + 1) : drawn();
    uint32_t round = column->round + below(2);
    size_t size = round == 1 ? 4 + column->who.w : 4 + 2 * column->who.t * column->who.w;
    size_t length = below(8) && size <= ROOM ? size : below(ROOM + 1);
    struct guarded place = guarded(column);
    struct sajowemi_outcome outcome;

    draw(frame, sizeof frame);
    frame[0] = (uint8_t)(0x11 * round);
    frame[1] = (uint8_t)slot;
    if (below(8)) {
        frame[2] = (uint8_t)(column->who.run >> 8);
        frame[3] = (uint8_t)column->who.run;
    }
    outcome = sajowemi_take(*column, slot, frame, length);
    is_answer(sajowemi_column_take(&place.column, slot, frame, length), outcome.answer);
    is_record(&place, &outcome.column);
}

static void sent(const struct sajowemi_column *column) {
    uint8_t in_place[ROOM], by_value[ROOM];
    size_t length = below(4) ? ROOM : below(ROOM);
    struct guarded place = guarded(column);

    draw(in_place, sizeof in_place);
    memcpy(by_value, in_place, sizeof by_value);
    is_answer(sajowemi_column_frame_size(&place.column), sajowemi_frame_size(*column));
    is_answer(sajowemi_column_send(&place.column, in_place, length), sajowemi_send(*column, by_value, length));
    assert(memcmp(in_place, by_value, sizeof in_place) == 0);
    is_record(&place, column);
}

static void closed(const struct sajowemi_column *column) {
    struct guarded place = guarded(column);
    struct sajowemi_outcome outcome = sajowemi_close(*column);
    is_answer(sajowemi_column_close(&place.column), outcome.answer);
    is_record(&place, &outcome.column);
    assert(memcmp(place.column.refused, column->refused, sizeof column->refused) == 0);
}

static void asked(const struct sajowemi_column *column) {
    struct guarded place = guarded(column);
    struct sajowemi_holdings in_place, by_value = sajowemi_result(*column);
    draw(&in_place, sizeof in_place);
    is_answer(sajowemi_column_result(&place.column, &in_place), by_value.answer);
    assert(memcmp(&in_place, &by_value, sizeof in_place) == 0);
    is_record(&place, column);
}

static void levelled(const struct sajowemi_column *column) {
    struct guarded place = guarded(column);
    struct sajowemi_level in_place, by_value = sajowemi_level(*column);
    draw(&in_place, sizeof in_place);
    is_answer(sajowemi_column_level(&place.column, &in_place), by_value.answer);
    assert(in_place.answer == by_value.answer && in_place.level == by_value.level && in_place.correction == by_value.correction);
    is_record(&place, column);
}

/* The sum of all counts, by their upper and lower halves. */
static void summed(const struct sajowemi_column *column) {
    struct guarded place = guarded(column);
    uint64_t upper = 0, lower = 0;
    for (size_t k = 0; k < SAJOWEMI_MOST_COLUMNS; k++) {
        upper += column->refused[k] >> 16;
        lower += column->refused[k] & 0xffff;
    }
    assert(sajowemi_column_refused(&place.column) == (upper << 16) + lower);
    is_record(&place, column);
}

/* Each count alone at its top, beside others of 0 and of 1, and all of them, which is more than 32 bits hold. */
static void summed_at_top(void) {
    struct sajowemi_column column = made_by_hand();
    for (size_t at_top = 0; at_top < SAJOWEMI_MOST_COLUMNS; at_top++)
        for (uint32_t others = 0; others < 2; others++) {
            for (size_t k = 0; k < SAJOWEMI_MOST_COLUMNS; k++)
                column.refused[k] = k == at_top ? UINT32_MAX : others;
            assert(sajowemi_column_refused(&column) == UINT64_C(4294967295) + 31 * others);
        }
    memset(column.refused, 0xff, sizeof column.refused);
    assert(sajowemi_column_refused(&column) == UINT64_C(137438953440));
}

int main(void) {
    for (int turn = 0; turn < TURNS; turn++) {
        struct sajowemi_column column = made_by_hand();
        opened(&column);
        taken(&column);
        sent(&column);
        asked(&column);
        levelled(&column);
        summed(&column);
        if (turn % 8 == 0)
            closed(&column);
    }
    summed_at_top();
    assert(done > TURNS && refused > TURNS);
    printf("in_place: the calls in place leave what the calls by value say: %lu done, %lu refused; and %d sums of counts\n", done, refused,
           TURNS);
    return 0;
}

/* Every length through the edge, from C: frames, values, buffers, vectors and checks in blocks of exactly their length, so that valgrind
 * sees a byte read or written beyond them. The answers are compared too. */
#undef NDEBUG
#include "sajowemi.h"
#include <assert.h>
#include <stdio.h>
#include <stdlib.h>

enum { RUN = 0x0102, FILL = 0x5a };

struct settings {
    uint32_t n, t, w;
};

static const struct settings all_settings[] = {{4, 1, 1}, {7, 2, 3}, {31, 10, 8}, {1, 0, 8}};
static unsigned long calls;

/* A block of so many bytes, which free takes back; NULL for none, which the calls must not follow. */
static uint8_t *block(size_t length) {
    uint8_t *bytes = length == 0 ? NULL : malloc(length);
    assert(bytes != NULL || length == 0);
    for (size_t k = 0; k < length; k++)
        bytes[k] = FILL;
    calls++;
    return bytes;
}

static int is_kept(const uint8_t *bytes, size_t from, size_t to) {
    for (size_t k = from; k < to; k++)
        if (bytes[k] != FILL)
            return 0;
    return 1;
}

static struct sajowemi_column opened(struct settings s, size_t length) {
    uint8_t *own = block(length);
    struct sajowemi_outcome outcome = sajowemi_open(s.n, s.t, s.w, 1, RUN, own, length);
    assert(outcome.answer == (length == s.w ? SAJOWEMI_DONE : SAJOWEMI_OWN_VALUE_LENGTH));
    free(own);
    return outcome.column;
}

/* A frame of a length, from column n to column 1: taken where the command is that of the round or the next, and the length its own. */
static void take(struct settings s, struct sajowemi_column column, uint8_t command, size_t length) {
    const uint8_t header[4] = {command, (uint8_t)s.n, RUN >> 8, RUN & 255};
    size_t right = 4 + (command == 0x11 ? 1 : 2 * s.t) * s.w;
    uint8_t *frame = block(length);
    struct sajowemi_outcome outcome;

    for (size_t k = 0; k < 4 && k < length; k++)
        frame[k] = header[k];
    outcome = sajowemi_take(column, s.n, frame, length);
    if (column.round == 4)
        assert(outcome.answer == SAJOWEMI_NO_OPEN_ROUND);
    else if (s.n == 1)
        assert(outcome.answer == SAJOWEMI_SLOT);
    else if (length < 4)
        assert(outcome.answer == SAJOWEMI_FRAME_CUT_SHORT);
    else if (command == 0)
        assert(outcome.answer == SAJOWEMI_COMMAND);
    else if (length != right)
        assert(outcome.answer == SAJOWEMI_FRAME_LENGTH);
    else if (command == 0x11 * column.round || command == 0x11 * (column.round + 1))
        assert(outcome.answer == SAJOWEMI_DONE);
    else
        assert(outcome.answer == SAJOWEMI_OTHER_ROUND);
    free(frame);
}

static void send(struct settings s, struct sajowemi_column column, size_t length) {
    size_t size = 4 + (column.round == 1 ? 1 : 2 * s.t) * s.w;
    uint8_t *buffer = block(length);
    uint32_t answer = sajowemi_send(column, buffer, length);

    assert(sajowemi_frame_size(column) == (column.round == 4 ? 0 : size));
    if (column.round == 4)
        assert(answer == SAJOWEMI_NO_OPEN_ROUND);
    else
        assert(answer == (length < size ? SAJOWEMI_BUFFER_TOO_SHORT : SAJOWEMI_DONE));
    assert(is_kept(buffer, answer == SAJOWEMI_DONE ? size : 0, length));
    free(buffer);
}

/* The planes are alike: so many places tried in each of w, none behind them. */
static int are_tried(struct settings s, const uint8_t *tried, uint32_t places) {
    for (uint32_t p = 0; p < SAJOWEMI_VALUE_ROOM; p++)
        if (tried[p] != (p < s.w ? places : 0))
            return 0;
    return 1;
}

/* The code calls: vector, checks and output each of their length or so many bytes off it. The bytes are alike: in the settings above no
 * codeword is near such a word, but without checks it is one. */
static void code(struct settings s, int vector_off, int checks_off, int output_off) {
    int vector_right = (int)(s.n * s.w), checks_right = (int)(2 * s.t * s.w);
    size_t vector_length = (size_t)(vector_right + vector_off), checks_length = (size_t)(checks_right + checks_off);
    size_t output_length = (size_t)(vector_right + output_off);
    uint8_t *vector = block(vector_length), *checks = block(checks_length), *output = block(output_length);
    int right = vector_off == 0 && checks_off == 0 && output_off >= 0;
    uint32_t answer = !right ? SAJOWEMI_CODE_LENGTH : s.t > 0 ? SAJOWEMI_NONE : SAJOWEMI_DONE;
    struct sajowemi_repaired repaired;

    repaired = sajowemi_repair(s.n, s.t, s.w, vector, vector_length, checks, checks_length, output, output_length);
    assert(repaired.answer == answer && repaired.changed == 0);
    assert(are_tried(s, repaired.tried, answer == SAJOWEMI_NONE ? s.n + 2 * s.t : 0));
    assert(is_kept(output, answer == SAJOWEMI_DONE ? (size_t)vector_right : 0, output_length));
    answer = sajowemi_check_values(s.n, s.t, s.w, vector, vector_length, checks, checks_length);
    assert(answer == (vector_off == 0 && checks_off >= 0 ? SAJOWEMI_DONE : SAJOWEMI_CODE_LENGTH));
    assert(is_kept(checks, answer == SAJOWEMI_DONE ? (size_t)checks_right : 0, checks_length));
    free(vector);
    free(checks);
    free(output);
}

/* Zeros, which are a codeword, but for one place, from 1 on, the checks behind the columns, that is wrong in every plane; 0 for none. */
static void repair_at(struct settings s, uint32_t place) {
    size_t vector_length = s.n * s.w, checks_length = 2 * s.t * s.w;
    uint8_t *vector = block(vector_length), *checks = block(checks_length), *output = block(vector_length);
    struct sajowemi_repaired repaired;

    for (size_t k = 0; k < vector_length; k++)
        vector[k] = k / s.w + 1 == place ? FILL : 0;
    for (size_t k = 0; k < checks_length; k++)
        checks[k] = s.n + k / s.w + 1 == place ? FILL : 0;
    repaired = sajowemi_repair(s.n, s.t, s.w, vector, vector_length, checks, checks_length, output, vector_length);
    assert(repaired.answer == SAJOWEMI_DONE && repaired.changed == (place > 0));
    assert(are_tried(s, repaired.tried, place));
    for (size_t k = 0; k < vector_length; k++)
        assert(output[k] == 0);
    free(vector);
    free(checks);
    free(output);
}

static void exchange(struct settings s) {
    const uint8_t commands[] = {0, 0x11, 0x22, 0x33};
    struct sajowemi_column column = opened(s, s.w);

    for (uint32_t round = 1; round <= 4; round++) {
        assert(column.round == round);
        for (size_t length = 0; length <= 400; length++)
            for (size_t k = 0; k < sizeof commands; k++)
                take(s, column, commands[k], length);
        for (size_t length = 0; length <= 200; length++)
            send(s, column, length);
        assert(sajowemi_result(column).answer == (round == 4 ? SAJOWEMI_DONE : SAJOWEMI_NOT_FINISHED));
        column = sajowemi_close(column).column;
    }
}

int main(void) {
    for (size_t k = 0; k < sizeof all_settings / sizeof *all_settings; k++) {
        struct settings s = all_settings[k];
        for (size_t length = 0; length <= 20; length++)
            opened(s, length);
        exchange(s);
        for (int off = 0; off < 27; off++)
            if (s.t > 0 || off / 3 % 3 > 0)
                code(s, off / 9 - 1, off / 3 % 3 - 1, off % 3 - 1);
        for (uint32_t place = 0; place <= (s.t > 0 ? s.n + 2 * s.t : 0); place++)
            repair_at(s, place);
    }
    printf("lengths: %lu blocks lent from C, each answered and kept to\n", calls);
    return 0;
}

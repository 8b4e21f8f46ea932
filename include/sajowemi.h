/* The proved radio link of mobile column lifts: one column's part in the exchange, and the code beneath it.
 *
 * Link with libsajowemi.a, which `rt lib` in crates/sajowemi writes to crates/sajowemi/out, for x86-64 Linux. The calls keep no state,
 * take no memory of their own and may be called from any thread. Each answers every input: 0, or the number of the refusal.
 *
 * A record's bits may be anything: each call checks it again. The calls of the archive take it by value and hand it back in the outcome;
 * the `sajowemi_column_` calls below them change it in place. Of a refusal the record comes back as it was, but for the slot's count of
 * refused frames under 9 to 15, and a lent buffer keeps its bytes. What opening, taking and closing leave is fixed to the byte: where
 * nothing is held there are zeros.
 *
 * A length says how many bytes may be read or written at the pointer before it; with length 0 the pointer is not followed. Buffers that
 * are lent to one call must not overlap each other, nor a record that the call changes in place: a vector is not repaired over itself.
 */
#ifndef SAJOWEMI_H
#define SAJOWEMI_H

#include <stddef.h>
#include <stdint.h>

#ifdef __cplusplus
extern "C" {
#endif

/* Answers. */
enum sajowemi_answer {
    SAJOWEMI_DONE = 0,
    SAJOWEMI_COLUMN_COUNT = 1,
    SAJOWEMI_TOO_FEW_COLUMNS = 2,
    SAJOWEMI_VALUE_SIZE = 3,
    SAJOWEMI_OWN_NUMBER = 4,
    SAJOWEMI_OWN_VALUE_LENGTH = 5,
    SAJOWEMI_OWN_VALUE_BLANK = 6,
    SAJOWEMI_NO_OPEN_ROUND = 7,
    SAJOWEMI_SLOT = 8,
    SAJOWEMI_FRAME_CUT_SHORT = 9,
    SAJOWEMI_COMMAND = 10,
    SAJOWEMI_FRAME_LENGTH = 11,
    SAJOWEMI_SENDER = 12,
    SAJOWEMI_RUN = 13,
    SAJOWEMI_OTHER_ROUND = 14,
    SAJOWEMI_REPEATED = 15,
    SAJOWEMI_BUFFER_TOO_SHORT = 16,
    SAJOWEMI_NOT_FINISHED = 17,
    SAJOWEMI_CODE_LENGTH = 18,
    SAJOWEMI_LEVEL_VALUE_SIZE = 21,
    SAJOWEMI_LEVEL_TOO_MANY_BLANK = 22,
    SAJOWEMI_NONE = 256 /* of repair alone: no vector is near enough */
};

/* What a round told of a sender where it is no number of places. A number of places is at most 52. Where at most t columns are bad, and the
 * good columns' frames reach each other in time with nothing else under their slots, what is told of a good sender is no mark, and at most
 * the count of bad columns: these may have sent the two different values. */
enum sajowemi_told {
    SAJOWEMI_TOLD_MISSING = 254, /* no frame of the sender's counted in that round */
    SAJOWEMI_TOLD_NONE = 255     /* "none": its check values fit no vector near */
};

/* The longest frame, header included: the buffer that always suffices. */
#define SAJOWEMI_LONGEST_FRAME 164
/* The most columns, the most bytes of a value, each of which is a plane of the code, and room for a value of every column. */
#define SAJOWEMI_MOST_COLUMNS 32
#define SAJOWEMI_VALUE_ROOM 8
#define SAJOWEMI_VECTOR_ROOM 256

/* Who a column is: n columns, t bad ones borne, w bytes of a value, its own number, 1 to n, the run, and its own value. Two bytes of
 * padding stand behind it, which no call reads. */
struct sajowemi_identity {
    uint32_t n;
    uint32_t t;
    uint32_t w;
    uint32_t number;
    uint16_t run;
    uint8_t own[SAJOWEMI_VALUE_ROOM];
};

/* What came in from one sender for a round: whether its frame was taken, which any number but 0 says, and the frame. */
struct sajowemi_slot {
    uint8_t taken;
    uint8_t bytes[SAJOWEMI_LONGEST_FRAME];
};

/* What a column has found: V after round one, Y after two, values and confidences after three. Values stand one after the other, w
 * bytes each, from their array's front on. Of sender k, told_two[k - 1] and told_three[k - 1] are how far off it was in that round: how
 * many of the n + 2 t places, columns' values and check values together, were changed when its row was repaired; 0 for the own row; or
 * SAJOWEMI_TOLD_MISSING or SAJOWEMI_TOLD_NONE. Opening leaves zeros, which stay until that round is closed; behind n columns there are
 * zeros then too. */
struct sajowemi_findings {
    uint8_t heard[SAJOWEMI_VECTOR_ROOM];
    uint8_t agreed[SAJOWEMI_VECTOR_ROOM];
    uint8_t values[SAJOWEMI_VECTOR_ROOM];
    uint8_t confidences[SAJOWEMI_MOST_COLUMNS];
    uint8_t told_two[SAJOWEMI_MOST_COLUMNS];
    uint8_t told_three[SAJOWEMI_MOST_COLUMNS];
};

/* A column's record: who it is, what came in by slot, for its round and early, for the round that follows, what it has found, its round,
 * of which 4 is the end, and the counts of refused frames. Of sender k, refused[k - 1] is how many of the frames that came in slot k since
 * the opening were refused 9 to 15, up to 4,294,967,295, where it stays. Each such call of sajowemi_take raises its own slot's count by one
 * and no other; nothing else raises any, closing keeps them, and opening leaves zeros. The own slot's and those behind n columns stay 0:
 * there a frame is refused 8, which is not counted. */
struct sajowemi_column {
    struct sajowemi_identity who;
    struct sajowemi_slot slots[SAJOWEMI_MOST_COLUMNS];
    struct sajowemi_slot early[SAJOWEMI_MOST_COLUMNS];
    struct sajowemi_findings found;
    uint32_t round;
    uint32_t refused[SAJOWEMI_MOST_COLUMNS];
};

struct sajowemi_outcome {
    uint32_t answer;
    struct sajowemi_column column;
};

/* Column k's value has w bytes from values + (k - 1) * w on, its confidence is confidences[k - 1], and what rounds two and three told of
 * it is told_two[k - 1] and told_three[k - 1]; behind those of n columns there are zeros. A record that these calls made holds confidences
 * 0, 1 and 2, zeros for a value at 0, and of each sender a number of places or a mark; of any other record, what stands there. */
struct sajowemi_holdings {
    uint32_t answer;
    uint8_t values[SAJOWEMI_VECTOR_ROOM];
    uint8_t confidences[SAJOWEMI_MOST_COLUMNS];
    uint8_t told_two[SAJOWEMI_MOST_COLUMNS];
    uint8_t told_three[SAJOWEMI_MOST_COLUMNS];
};

/* The level of the group, halfway between the lowest and the highest height that are not dropped, and the level less the column's own
 * height: how far to go, down where it is negative. Both in tenths of a millimetre; zeros for a refusal. */
struct sajowemi_level {
    uint32_t answer;
    int64_t level;
    int64_t correction;
};

/* What repair answered, and how many of the n + 2 t places it changed, columns' values and check values together: a place counts once if
 * any byte of it changed. 0 for a refusal and for SAJOWEMI_NONE.
 *
 * Byte plane p, from 0 on, is byte p of every value and check value. Its search for wrong places goes through columns 1 to n, then checks
 * 1 to 2 t, and ends at the last wrong one: tried[p] is how many places that were, 0 where none is wrong, and all n + 2 t where no codeword
 * is within t places of the plane, whatever the other planes have; all n + 2 t are tried too where the last check is wrong. Zeros behind w
 * planes, and for a refusal. */
struct sajowemi_repaired {
    uint32_t answer;
    uint32_t changed;
    uint8_t tried[SAJOWEMI_VALUE_ROOM];
};

/* A column with its settings, number, 1 to n, run and own value of w bytes. Refused 1 to 6, with a record of zeros. */
struct sajowemi_outcome sajowemi_open(uint32_t n, uint32_t t, uint32_t w, uint32_t number, uint16_t run, const uint8_t *own,
                                      size_t own_length);

/* Takes the frame that came in slot k, which is column k's: one of the round, or one of the round that follows, which is kept and counts
 * as taken when that round opens. Refused 1 to 4 or 6 to 15; 9 to 15 are the frame's fault, and counted in refused[k - 1]. */
struct sajowemi_outcome sajowemi_take(struct sajowemi_column column, uint32_t slot, const uint8_t *frame, size_t frame_length);

/* The bytes of the round's frame: 4 + w in round 1, 4 + 2 t w after. 0 where sending is refused for another reason than the buffer. */
uint32_t sajowemi_frame_size(struct sajowemi_column column);

/* Writes the round's frame in front of the buffer. Refused 1 to 4, 6, 7 or 16. */
uint32_t sajowemi_send(struct sajowemi_column column, uint8_t *buffer, size_t buffer_length);

/* Closes the round. The next one opens with the frames that came early for it: their bytes are its slots, and nothing is early then.
 * Refused 1 to 4, 6 or 7. */
struct sajowemi_outcome sajowemi_close(struct sajowemi_column column);

/* What a column in round 4 believes, and what rounds two and three told it of each sender. Refused 1 to 4, 6 or 17, with zeros. */
struct sajowemi_holdings sajowemi_result(struct sajowemi_column column);

/* The level and the correction of a column in round 4 with w = 4: values are heights, signed, high byte first. Where b columns are blank,
 * at confidence 0, the t - b lowest and the t - b highest of the other heights are dropped, and the lowest and the highest left are added
 * and halved, rounded down; 22 where b is above t. Refused 1 to 4, 6, 17, 21 or 22, with zeros.
 *
 * Where at most t columns are bad, and the good columns' frames reach each other in time with nothing else under their slots, no good
 * column in round 4 is refused its level; it lies between the lowest and the highest good height, and the levels of two differ by at most
 * half of the spread of good heights, rounded up. So good columns that go to their levels and exchange again come together, until one tenth
 * or nothing is left of the spread; one that comes to stand at height 0 is refused 6 at its next opening. */
struct sajowemi_level sajowemi_level(struct sajowemi_column column);

/* The 2 t check values of a vector of n values, in front of the output. Refused 1 to 3 or 18. */
uint32_t sajowemi_check_values(uint32_t n, uint32_t t, uint32_t w, const uint8_t *vector, size_t vector_length, uint8_t *output,
                               size_t output_length);

/* The vector repaired by the check values received, in front of the output; or SAJOWEMI_NONE. Refused 1 to 3 or 18. */
struct sajowemi_repaired sajowemi_repair(uint32_t n, uint32_t t, uint32_t w, const uint8_t *vector, size_t vector_length,
                                         const uint8_t *checks, size_t checks_length, uint8_t *output, size_t output_length);

/* The calls of a column on its record in place. Each is the call above with its name, and answers as that does; the record behind the
 * pointer becomes the outcome's, whatever the answer: a refused opening leaves zeros. */

static inline uint32_t sajowemi_column_open(struct sajowemi_column *column, uint32_t n, uint32_t t, uint32_t w, uint32_t number,
                                            uint16_t run, const uint8_t *own, size_t own_length) {
    struct sajowemi_outcome outcome = sajowemi_open(n, t, w, number, run, own, own_length);
    *column = outcome.column;
    return outcome.answer;
}

static inline uint32_t sajowemi_column_take(struct sajowemi_column *column, uint32_t slot, const uint8_t *frame, size_t frame_length) {
    struct sajowemi_outcome outcome = sajowemi_take(*column, slot, frame, frame_length);
    *column = outcome.column;
    return outcome.answer;
}

static inline uint32_t sajowemi_column_frame_size(const struct sajowemi_column *column) {
    return sajowemi_frame_size(*column);
}

static inline uint32_t sajowemi_column_send(const struct sajowemi_column *column, uint8_t *buffer, size_t buffer_length) {
    return sajowemi_send(*column, buffer, buffer_length);
}

static inline uint32_t sajowemi_column_close(struct sajowemi_column *column) {
    struct sajowemi_outcome outcome = sajowemi_close(*column);
    *column = outcome.column;
    return outcome.answer;
}

static inline uint32_t sajowemi_column_result(const struct sajowemi_column *column, struct sajowemi_holdings *holdings) {
    *holdings = sajowemi_result(*column);
    return holdings->answer;
}

static inline uint32_t sajowemi_column_level(const struct sajowemi_column *column, struct sajowemi_level *level) {
    *level = sajowemi_level(*column);
    return level->answer;
}

/* How many frames were refused 9 to 15, whatever slot they came in: the sum of the record's counts, which 64 bits hold. As long as none of
 * them has reached its top, it is how many calls of sajowemi_take since the opening were answered 9 to 15; from then on it may be less. */
static inline uint64_t sajowemi_column_refused(const struct sajowemi_column *column) {
    uint64_t sum = 0;
    for (size_t k = 0; k < SAJOWEMI_MOST_COLUMNS; k++)
        sum += column->refused[k];
    return sum;
}

/* What an answer says, in plain words. */
static inline const char *sajowemi_says(uint32_t answer) {
    switch (answer) {
    case SAJOWEMI_DONE: return "done";
    case SAJOWEMI_COLUMN_COUNT: return "a group has 1 to 32 columns";
    case SAJOWEMI_TOO_FEW_COLUMNS: return "too few columns to bear that many bad ones: three for each and one more are needed";
    case SAJOWEMI_VALUE_SIZE: return "a value has 1 to 8 bytes";
    case SAJOWEMI_OWN_NUMBER: return "the column's own number is not one of the group's";
    case SAJOWEMI_OWN_VALUE_LENGTH: return "the own value has not the length that the settings say";
    case SAJOWEMI_OWN_VALUE_BLANK: return "the own value is blank, all zeros";
    case SAJOWEMI_NO_OPEN_ROUND: return "the column is in none of the three rounds";
    case SAJOWEMI_SLOT: return "the slot is the column's own or none of the group's";
    case SAJOWEMI_FRAME_CUT_SHORT: return "the frame is shorter than its header";
    case SAJOWEMI_COMMAND: return "the frame begins with an unknown command";
    case SAJOWEMI_FRAME_LENGTH: return "the frame has not the length of its command";
    case SAJOWEMI_SENDER: return "the frame names another sender than its slot";
    case SAJOWEMI_RUN: return "the frame is of another run";
    case SAJOWEMI_OTHER_ROUND: return "the frame is of a round that is closed, or two ahead";
    case SAJOWEMI_REPEATED: return "this sender's frame of that round is there already";
    case SAJOWEMI_BUFFER_TOO_SHORT: return "the buffer is shorter than the frame";
    case SAJOWEMI_NOT_FINISHED: return "the column has not finished its three rounds";
    case SAJOWEMI_CODE_LENGTH: return "the vector or the checks have not their length, or the output is too short";
    case SAJOWEMI_LEVEL_VALUE_SIZE: return "a level is there only of values of 4 bytes";
    case SAJOWEMI_LEVEL_TOO_MANY_BLANK: return "more columns are blank, at confidence 0, than may be bad";
    case SAJOWEMI_NONE: return "no vector is near enough";
    default: return "no answer of this library";
    }
}

#ifdef __cplusplus
}
#endif

#endif

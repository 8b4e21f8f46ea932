// Stored vectors for the two code calls, made by libfec, another Reed-Solomon coder, set to this field and these roots.
//
//   make checks  > FILE      records for check_values
//   make repairs > FILE      records for repair
//
// A record: n, t, w (4 bytes each, high byte first); then 2 bytes each, high byte first: the lengths of vector, checks and
// lent output, the answer (256 is "none"), and how many bytes in front of the output the call fills; then vector, checks and
// the filled bytes. Before the call byte i of the output is (7i + 90) mod 256; what is not filled must keep it.
//
// libfec's block has column k at k - 1 and check c at 255 - 2t + c - 1, with zeros between. Its answer counts as "none" where
// it gives up, changes more than t bytes, or changes a byte between. The numbers drawn are the same in every run.
#include <assert.h>
#include <stdint.h>
#include <stdio.h>
#include <string.h>
#include <fec.h>

enum { MOST = 512, PLACES = 52, NONE = 256 };

struct record {
    uint32_t n, t, w;
    unsigned vector_length, checks_length, room, answer, filled;
    uint8_t vector[MOST], checks[MOST], output[MOST];
};

static void *coder[11]; // for each t above 0
static unsigned written[NONE + 1], records;

static uint64_t state = 0x243f6a8885a308d3;

static uint32_t drawn(void) {
    state ^= state << 13;
    state ^= state >> 7;
    state ^= state << 17;
    return (uint32_t)(state >> 32);
}

static unsigned below(unsigned k) { return drawn() % k; }

static unsigned between(unsigned least, unsigned most) { return least + below(most - least + 1); }

static void draw(uint8_t *bytes, unsigned count) {
    for (unsigned i = 0; i < count; i++) bytes[i] = (uint8_t)below(256);
}

static unsigned most_borne(unsigned n) { return (n - 1) / 3; }

// Writing

static void put_number(uint32_t x, unsigned bytes) {
    while (bytes-- > 0) putchar((int)(x >> (8 * bytes) & 255));
}

static void put(const struct record *r) {
    assert(r->vector_length < MOST && r->checks_length < MOST && r->room < MOST && r->filled <= r->room);
    put_number(r->n, 4);
    put_number(r->t, 4);
    put_number(r->w, 4);
    put_number(r->vector_length, 2);
    put_number(r->checks_length, 2);
    put_number(r->room, 2);
    put_number(r->answer, 2);
    put_number(r->filled, 2);
    fwrite(r->vector, 1, r->vector_length, stdout);
    fwrite(r->checks, 1, r->checks_length, stdout);
    fwrite(r->output, 1, r->filled, stdout);
    written[r->answer]++;
    records++;
}

// The two calls, by libfec

static unsigned settings_refusal(const struct record *r) {
    if (r->n < 1 || 32 < r->n) return 1;
    if (r->n < 3 * (uint64_t)r->t + 1) return 2;
    if (r->w < 1 || 8 < r->w) return 3;
    return 0;
}

static void encode(unsigned t, uint8_t block[255]) {
    if (t > 0) encode_rs_char(coder[t], block, block + 255 - 2 * t);
}

static void load(const struct record *r, unsigned plane, uint8_t block[255]) {
    memset(block, 0, 255);
    for (unsigned k = 0; k < r->n; k++) block[k] = r->vector[k * r->w + plane];
    for (unsigned c = 0; c < 2 * r->t; c++) block[255 - 2 * r->t + c] = r->checks[c * r->w + plane];
}

// The check values of the vector, into `checks`.
static void make_checks(const struct record *r, uint8_t *checks) {
    uint8_t block[255];
    for (unsigned p = 0; p < r->w; p++) {
        load(r, p, block);
        encode(r->t, block);
        for (unsigned c = 0; c < 2 * r->t; c++) checks[c * r->w + p] = block[255 - 2 * r->t + c];
    }
}

// The near codeword into the block, or 0.
static int decode(unsigned n, unsigned t, uint8_t block[255]) {
    if (t == 0) return 1;
    uint8_t found[255], again[255];
    memcpy(found, block, 255);
    int changed = decode_rs_char(coder[t], found, NULL, 0);
    if (changed < 0 || (unsigned)changed > t) return 0;
    if (memcmp(found + n, block + n, 255 - 2 * t - n) != 0) return 0;
    memcpy(again, found, 255);
    encode(t, again);
    assert(memcmp(again, found, 255) == 0);
    unsigned differ = 0;
    for (unsigned i = 0; i < 255; i++) differ += found[i] != block[i];
    assert(differ <= t);
    memcpy(block, found, 255);
    return 1;
}

static void answer_checks(struct record *r) {
    r->filled = 0;
    r->answer = settings_refusal(r);
    if (r->answer != 0) return;
    if (r->vector_length != r->n * r->w || r->room < 2 * r->t * r->w) {
        r->answer = 18;
        return;
    }
    make_checks(r, r->output);
    r->filled = 2 * r->t * r->w;
}

static void answer_repair(struct record *r) {
    uint8_t block[255];
    r->filled = 0;
    r->answer = settings_refusal(r);
    if (r->answer != 0) return;
    if (r->vector_length != r->n * r->w || r->checks_length != 2 * r->t * r->w || r->room < r->n * r->w) {
        r->answer = 18;
        return;
    }
    for (unsigned p = 0; p < r->w; p++) {
        load(r, p, block);
        if (!decode(r->n, r->t, block)) {
            r->answer = NONE;
            return;
        }
        for (unsigned k = 0; k < r->n; k++) r->output[k * r->w + p] = block[k];
    }
    r->filled = r->n * r->w;
}

// Records with a random vector and, for a repair, its own checks. The output has room to spare in half of them.

static struct record start(int repair, unsigned n, unsigned t, unsigned w) {
    struct record r = {.n = n, .t = t, .w = w, .vector_length = n * w, .checks_length = repair ? 2 * t * w : 0};
    r.room = repair ? n * w : 2 * t * w;
    if (below(2)) r.room += between(1, 24);
    draw(r.vector, r.vector_length);
    if (repair) make_checks(&r, r.checks);
    return r;
}

static void put_answered(struct record *r, int repair) {
    if (repair) answer_repair(r);
    else answer_checks(r);
    put(r);
}

// Refusals: each number by itself, and every set of faults together, so that the first in the table's order shows

static const uint32_t other_n[] = {0, 33, 34, 255, 256, 257, 260, 288, 65536, 65540, 0x80000000, 0x80000004, 0xffffffff};
static const uint32_t other_w[] = {0, 9, 10, 16, 255, 256, 257, 264, 65536, 65537, 0x20000001, 0x80000001, 0xffffffff};
// of most of these 3t + 1 is at most 32 where it wraps, at 8, 16 or 32 bits
static const uint32_t wrapping_t[] = {85, 86, 90, 21845, 21846, 0x55555555, 0x55555556, 0x5555555f, 0xaaaaaaab, 0xaaaaaaac, 0x80000000, 0xffffffff};

#define ANY(list) (list[below(sizeof list / sizeof *list)])
#define EACH(i, list) (unsigned i = 0; i < sizeof list / sizeof *list; i++)

// A length where a record has room for it.
static unsigned fitting(uint64_t length) { return length <= 300 ? (unsigned)length : 24; }

// Lengths that suit the settings, as far as a record has room for them.
static void suit(struct record *r, int repair) {
    r->vector_length = fitting((uint64_t)r->n * r->w);
    r->checks_length = repair ? fitting(2 * (uint64_t)r->t * r->w) : 0;
    r->room = repair ? r->vector_length : fitting(2 * (uint64_t)r->t * r->w);
    draw(r->vector, r->vector_length);
    draw(r->checks, r->checks_length);
}

static void put_suited(struct record r, int repair) {
    suit(&r, repair);
    put_answered(&r, repair);
}

static void put_refusals(int repair) {
    for EACH (i, other_n) put_suited((struct record){.n = other_n[i], .t = 0, .w = between(1, 8)}, repair);
    for EACH (i, other_w) put_suited((struct record){.n = 4, .t = 1, .w = other_w[i]}, repair);
    for EACH (i, wrapping_t) put_suited((struct record){.n = 32, .t = wrapping_t[i], .w = between(1, 8)}, repair);
    for (unsigned n = 1; n <= 32; n++)
        for (unsigned more = 1; more <= 2; more++) put_suited((struct record){.n = n, .t = most_borne(n) + more, .w = between(1, 8)}, repair);
    for (unsigned faults = 0; faults < 16; faults++)
        for (unsigned turn = 0; turn < 8; turn++) {
            struct record r = {.n = between(4, 32)};
            r.t = between(1, most_borne(r.n));
            r.w = between(1, 8);
            if (faults & 1) r.n = ANY(other_n);
            if (faults & 2) r.t = turn < 4 && r.n < 255 ? r.n / 3 + 1 : ANY(wrapping_t);
            if (faults & 4) r.w = ANY(other_w);
            suit(&r, repair);
            if (faults & 8 && turn % 2 == 0) r.vector_length += 1;
            if (faults & 8 && turn % 2 == 1 && r.room > 0) r.room -= 1;
            put_answered(&r, repair);
        }
    // lengths alone: a byte or a value too few or too many, a length counted in values, none at all, 256 bytes too many
    for (unsigned w = 1; w <= 8; w++) {
        unsigned n = w == 8 ? 31 : between(4, 16), t = most_borne(n);
        struct record whole = start(repair, n, t, w);
        unsigned lengths[3] = {n * w, 2 * t * w, repair ? n * w : 2 * t * w}, counts[3] = {n, 2 * t, repair ? n : 2 * t};
        for (unsigned which = 0; which < 3; which++) {
            if (which == 1 && !repair) continue;
            unsigned right = lengths[which], tried[] = {right - 1, right + 1, right - w, right + w, counts[which], 0, right + 256};
            for EACH (i, tried) {
                struct record r = whole;
                *(which == 0 ? &r.vector_length : which == 1 ? &r.checks_length : &r.room) = tried[i];
                put_answered(&r, repair);
            }
        }
    }
}

// Records of check_values

static void put_known_checks(uint8_t last) {
    struct record r = {.n = 4, .t = 1, .w = 1, .vector_length = 4, .room = 2, .vector = {241, 86, 35, last}};
    put_answered(&r, 0);
}

static void all_checks(void) {
    put_known_checks(35);
    put_known_checks(40);
    put_known_checks(0);
    for (unsigned n = 1; n <= 32; n++)
        for (unsigned t = 0; t <= most_borne(n); t++) {
            for (unsigned w = 1; w <= 8; w++) {
                struct record r = start(0, n, t, w);
                put_answered(&r, 0);
            }
            // one column's byte alone, and every byte the same
            for (unsigned kind = 0; kind < 3; kind++) {
                struct record r = start(0, n, t, between(1, 2));
                memset(r.vector, kind == 0 ? 0 : kind == 1 ? 255 : (int)between(1, 254), r.vector_length);
                if (kind == 0) r.vector[below(r.vector_length)] = (uint8_t)between(1, 255);
                put_answered(&r, 0);
            }
        }
    for (unsigned w = 1; w <= 8; w++)
        for (unsigned turn = 0; turn < 6; turn++) {
            struct record r = start(0, turn % 3 == 0 ? 31 : turn % 3 == 1 ? 32 : 4, turn % 3 == 2 ? 1 : 10, w);
            if (turn >= 3) r.room = 511;
            put_answered(&r, 0);
        }
    put_refusals(0);
}

// Records of repair. Places count from 0: the columns, then the checks.

static unsigned places(const struct record *r) { return r->n + 2 * r->t; }

static uint8_t *byte_at(struct record *r, unsigned place, unsigned plane) {
    return place < r->n ? &r->vector[place * r->w + plane] : &r->checks[(place - r->n) * r->w + plane];
}

static void spoil(struct record *r, unsigned place, unsigned plane) { *byte_at(r, place, plane) ^= (uint8_t)between(1, 255); }

// Different numbers from `least` up to `least + count - 1`, in any order.
static void choose(unsigned *chosen, unsigned least, unsigned count) {
    for (unsigned i = 0; i < count; i++) chosen[i] = least + i;
    for (unsigned i = 0; i < count; i++) {
        unsigned j = between(i, count - 1), other = chosen[j];
        chosen[j] = chosen[i];
        chosen[i] = other;
    }
}

// Spoils so many places of a plane, of those from `least` on.
static void spoil_some(struct record *r, unsigned plane, unsigned many, unsigned least, unsigned count) {
    unsigned chosen[PLACES];
    choose(chosen, least, count);
    for (unsigned i = 0; i < many && i < count; i++) spoil(r, chosen[i], plane);
}

static void spoil_each_plane(struct record *r, unsigned many) {
    for (unsigned p = 0; p < r->w; p++) spoil_some(r, p, many, 0, places(r));
}

// The plane's bytes become those of a codeword with bytes at some of the unused places, which are then lost.
static void spoil_between(struct record *r, unsigned plane, unsigned many) {
    uint8_t block[255];
    unsigned chosen[255];
    load(r, plane, block);
    choose(chosen, r->n, 255 - places(r));
    for (unsigned i = 0; i < many; i++) block[chosen[i]] = (uint8_t)between(1, 255);
    encode(r->t, block);
    for (unsigned c = 0; c < 2 * r->t; c++) r->checks[c * r->w + plane] = block[255 - 2 * r->t + c];
}

// Adds so many of the 2t + 1 bytes of a lightest codeword: from t + 1 on, another codeword is within t places.
static void spoil_towards(struct record *r, unsigned plane, unsigned many) {
    uint8_t block[255] = {0};
    unsigned chosen[PLACES];
    int lost[20];
    choose(chosen, 0, places(r));
    for (unsigned i = 0; i <= 2 * r->t; i++) {
        unsigned at = chosen[i] < r->n ? chosen[i] : 255 - places(r) + chosen[i];
        if (i == 0) block[at] = (uint8_t)between(1, 255); else lost[i - 1] = (int)at;
    }
    int found = decode_rs_char(coder[r->t], block, lost, 2 * (int)r->t);
    assert(found >= 0);
    for (unsigned i = 0; i < many; i++) *byte_at(r, chosen[i], plane) ^= block[chosen[i] < r->n ? chosen[i] : 255 - places(r) + chosen[i]];
}

enum kind {
    IN_CHECKS,      // all wrong in checks
    IN_COLUMNS,     // all wrong in columns
    ONE_PLANE,      // all in one plane
    SAME_PLACES,    // whole values wrong, at the same places in every plane
    EACH_ITS_OWN,   // every plane its own places and its own number, each at most t
    ONE_TOO_MANY,   // one plane with t + 1, the others with at most t
    ADJACENT,       // a run of places
    AT_THE_ENDS,    // first and last column, first and last check
    SAME_CHANGE,    // the same byte added at each wrong place
    UNUSED,         // near a codeword with bytes at unused places
    TOWARDS,        // on the way to another codeword
    NO_CODEWORD,    // checks drawn by themselves
    KINDS
};

static void put_kind(enum kind kind, unsigned n, unsigned t, unsigned w) {
    struct record r = start(1, n, t, w);
    unsigned many = between(1, t + 3), at = below(places(&r)), other = below(w), chosen[PLACES];
    const unsigned ends[4] = {0, n - 1, n, n + 2 * t - 1};
    uint8_t change = (uint8_t)between(1, 255);
    choose(chosen, 0, places(&r));
    for (unsigned p = 0; p < w; p++) switch (kind) {
        case IN_CHECKS: spoil_some(&r, p, many, n, 2 * t); break;
        case IN_COLUMNS: spoil_some(&r, p, many, 0, n); break;
        case ONE_PLANE: if (p == other) spoil_some(&r, p, many, 0, places(&r)); break;
        case SAME_PLACES: for (unsigned i = 0; i < many; i++) spoil(&r, chosen[i], p); break;
        case EACH_ITS_OWN: spoil_some(&r, p, below(t + 1), 0, places(&r)); break;
        case ONE_TOO_MANY: spoil_some(&r, p, p == other ? t + 1 : below(t + 1), 0, places(&r)); break;
        case ADJACENT: for (unsigned i = 0; i < many; i++) spoil(&r, (at + i) % places(&r), p); break;
        case AT_THE_ENDS: for (unsigned i = 0; i < 4 && i < t; i++) spoil(&r, ends[(i + at) % 4], p); break;
        case SAME_CHANGE: for (unsigned i = 0; i < many; i++) *byte_at(&r, chosen[i], p) ^= change; break;
        case UNUSED: if (p == other || below(2)) spoil_between(&r, p, between(1, t)); break;
        case TOWARDS: spoil_towards(&r, p, between(t, 2 * t + 1)); break;
        case NO_CODEWORD: for (unsigned c = n; c < places(&r); c++) spoil(&r, c, p); break;
        case KINDS: break;
        }
    if (kind == UNUSED) spoil_some(&r, other, below(2), 0, places(&r));
    put_answered(&r, 1);
}

static void put_known_repair(uint8_t first, uint8_t second) {
    struct record r = {.n = 4, .t = 1, .w = 1, .vector_length = 4, .checks_length = 2, .room = 4, .vector = {241, 86, 35, 35}, .checks = {first, second}};
    put_answered(&r, 1);
}

static void put_spoilt(unsigned n, unsigned t, unsigned w, unsigned many) {
    struct record r = start(1, n, t, w);
    uint8_t vector[MOST];
    memcpy(vector, r.vector, MOST);
    spoil_each_plane(&r, many);
    answer_repair(&r);
    if (0 < t && many <= t) assert(r.answer == 0 && memcmp(r.output, vector, n * w) == 0);
    put(&r);
}

static void all_repairs(void) {
    put_known_repair(0, 136);
    put_known_repair(22, 61);
    put_known_repair(22, 77);
    for (unsigned n = 1; n <= 32; n++)
        for (unsigned t = 0; t <= most_borne(n); t++) {
            for (unsigned w = 1; w <= 8; w++) put_spoilt(n, t, w, below(t + 4));
            for (unsigned many = 0; many <= t + 3; many++) put_spoilt(n, t, 1, many);
            if (t == 0) continue;
            for (unsigned kind = 0; kind < KINDS; kind++) put_kind(kind, n, t, between(1, 2));
        }
    // the largest settings and the smallest that bear one
    for (unsigned n = 31; n <= 32; n++) {
        for (unsigned many = 0; many <= 13; many++) put_spoilt(n, 10, 8, many);
        for (unsigned kind = 0; kind < KINDS; kind++) put_kind(kind, n, 10, 8);
    }
    for (unsigned kind = 0; kind < KINDS; kind++)
        for (unsigned w = 1; w <= 8; w++) put_kind(kind, 4, 1, w);
    // each place wrong by itself
    for (unsigned t = 1; t <= 10; t += t == 1 ? 2 : 7)
        for (unsigned place = 0; place < 3 * t + 1 + 2 * t; place++) {
            struct record r = start(1, 3 * t + 1, t, 1);
            spoil(&r, place, 0);
            put_answered(&r, 1);
        }
    put_refusals(1);
}

int main(int argc, char **argv) {
    for (int t = 1; t <= 10; t++) {
        coder[t] = init_rs_char(8, 0x187, 120, 1, 2 * t, 0);
        assert(coder[t] != NULL);
    }
    if (argc == 2 && strcmp(argv[1], "checks") == 0) all_checks();
    else if (argc == 2 && strcmp(argv[1], "repairs") == 0) all_repairs();
    else {
        fputs("usage: make checks|repairs > FILE\n", stderr);
        return 2;
    }
    if (fflush(stdout) != 0) return 1;
    fprintf(stderr, "%u", records);
    for (unsigned i = 0; i <= NONE; i++)
        if (written[i] > 0) fprintf(stderr, "%s%u answer %u", i == 0 ? ": " : ", ", written[i], i);
    fputs("\n", stderr);
    return 0;
}

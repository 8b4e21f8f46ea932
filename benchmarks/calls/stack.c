/* The greatest stack use of each call: it runs on a stack of its own, filled with a pattern beforehand, and what it left of that is
 * counted from the far end. */
#include <stdio.h>
#include <string.h>
#include <ucontext.h>

#include "sajowemi.h"

enum { ROOM = 1 << 20, PATTERN = 0xa5 };
static unsigned char stack[ROOM];
static ucontext_t here, there;

/* The calls' arguments and results stand outside of the measured stack, but for the copy of the record that each call is passed. */
static struct sajowemi_column column;
static struct sajowemi_outcome outcome;
static struct sajowemi_holdings holdings;
static struct sajowemi_level level;
static uint8_t frame[SAJOWEMI_LONGEST_FRAME], vector[256], checks[160], output[256];

static void open_call(void) { outcome = sajowemi_open(31, 10, 8, 1, 7, vector, 8); }
static void take_call(void) { outcome = sajowemi_take(column, 2, frame, 12); }
static void send_call(void) { sajowemi_send(column, frame, sizeof frame); }
static void close_call(void) { outcome = sajowemi_close(column); }
static void result_call(void) { holdings = sajowemi_result(column); }
static void level_call(void) { level = sajowemi_level(column); }
static void check_values_call(void) { sajowemi_check_values(31, 10, 8, vector, 248, checks, 160); }
static void repair_call(void) { sajowemi_repair(31, 10, 8, vector, 248, checks, 160, output, 256); }

static size_t used(void (*call)(void)) {
    memset(stack, PATTERN, ROOM);
    getcontext(&there);
    there.uc_stack.ss_sp = stack;
    there.uc_stack.ss_size = ROOM;
    there.uc_link = &here;
    makecontext(&there, call, 0);
    swapcontext(&here, &there);
    size_t kept = 0;
    while (kept < ROOM && stack[kept] == PATTERN) kept++;
    return ROOM - kept;
}

/* Of a call that needs more than a record, how many of them fit in. */
static void line(const char *name, void (*call)(void)) {
    size_t bytes = used(call), records = bytes / sizeof column;
    printf("| %s | %zu |", name, bytes);
    if (records == 0)
        puts(" |");
    else
        printf(" %zu record%s and %zu bytes |\n", records, records == 1 ? "" : "s", bytes % sizeof column);
}

int main(void) {
    memset(vector, 9, sizeof vector);
    printf("Greatest stack use in bytes, n = 31, t = 10, w = 8, a record of %zu bytes passed by value:\n\n", sizeof column);
    puts("| Call | Bytes | In records |\n|---|---|---|");
    line("open", open_call);
    column = outcome.column;
    memcpy(frame, (uint8_t[]){0x11, 2, 0, 7}, 4);
    line("take", take_call);
    line("close round one", close_call);
    column = outcome.column;
    line("send checks", send_call);
    for (int k = 0; k < 30; k++) { /* frames whose checks are wrong in ten places */
        column.slots[k + 1].taken = 1;
        sajowemi_send(column, column.slots[k + 1].bytes, SAJOWEMI_LONGEST_FRAME);
        for (int c = 0; c < 80; c++) column.slots[k + 1].bytes[4 + c] ^= 0x55;
    }
    line("close round two, repairs", close_call);
    column.round = 4;
    line("result", result_call);
    column.who.w = 4;
    memset(column.found.confidences, 1, sizeof column.found.confidences);
    line("level, w = 4", level_call);
    line("check values", check_values_call);
    for (int c = 0; c < 80; c++) checks[c] ^= 0x55;
    line("repair, ten wrong", repair_call);
    return 0;
}

/*
 * A controller's main loop: it starts a sheet, releases each task as soon as it may, runs what the board shows, reports the nodes
 * that have ended, and prints what happens. In place of real work each node runs for a fixed number of ticks.
 *
 *     controller [SHEET]
 *
 * SHEET is a file of bytes, as tools/sheet.py writes it; without it, the bytes of examples/worked.sheet are taken. To build it:
 *
 *     ./build exports
 *     gcc -std=c99 -Wall -Wextra -Werror -Iinclude examples/controller.c -o target/controller target/staticlib/libexports.a
 */
#include <errno.h>
#include <stdio.h>
#include <string.h>

#include "dibwunek.h"

enum { TICKS = 40, TICKS_OF_A_NODE = 4, NODES = 32, SHEET_BYTES = 4096, PROCESSORS = 64 };

/* examples/worked.sheet: 4 processors, a guard of five nodes and a lamp of three. */
static const uint8_t worked[] = {
    4,  2,  10, 0, 32, 0, 42, 0, 24, 0,
    1,  5,  36, 0, 15, 0, 42, 0, 7,  0, 18, 0, 0, 0, 0, 0, 1, 0, 0, 0, 1, 0, 0, 0, 1, 0, 0, 0, 14, 0, 0, 0,
    0,  3,  20, 0, 24, 0, 24, 0, 8,  0, 8,  0, 0, 0, 0, 0, 0, 0, 0, 0, 0, 0, 0, 0,
};

/* The state, zeros at first, and for each node of each task the ticks that it still has to run. */
static uint32_t state[DIBWUNEK_STATE_WORDS];
static unsigned left[DIBWUNEK_ENTRIES][NODES];

static int fail(const char *call, uint32_t answer) {
    fprintf(stderr, "controller: %s is refused with number %u", call, dibwunek_number(answer));
    if (dibwunek_task(answer) != DIBWUNEK_NO_TASK) {
        fprintf(stderr, ", task %u", dibwunek_task(answer));
    }
    fprintf(stderr, "\n");
    return 1;
}

/* Reads a file of at most SHEET_BYTES; returns its length, or -1 after a message. */
static long read_sheet(const char *name, uint8_t *bytes) {
    FILE *file = fopen(name, "rb");
    size_t length;
    if (file == NULL) {
        fprintf(stderr, "controller: %s: %s\n", name, strerror(errno));
        return -1;
    }
    length = fread(bytes, 1, SHEET_BYTES + 1, file);
    if (ferror(file)) {
        fprintf(stderr, "controller: %s: %s\n", name, strerror(errno));
        fclose(file);
        return -1;
    }
    fclose(file);
    if (length > SHEET_BYTES) {
        fprintf(stderr, "controller: %s has more than %d bytes\n", name, SHEET_BYTES);
        return -1;
    }
    return (long)length;
}

/* Releases a task if it is due (else 13); in critical mode a low task that is not kept rests (12), until the return. */
static int release(unsigned tick, unsigned task) {
    uint32_t answer = dibwunek_release(state, DIBWUNEK_STATE_WORDS, task);
    unsigned v;
    switch (dibwunek_number(answer)) {
    case 0:
        printf("tick %2u: task %u is released\n", tick, task);
        for (v = 0; v < NODES; v++) {
            left[task][v] = TICKS_OF_A_NODE;
        }
        return 0;
    case 12:
    case 13:
        return 0;
    default:
        return fail("release", answer);
    }
}

/* Runs for one tick what the board shows; a report for each task says which of its nodes ended. */
static int run(uint32_t *reports) {
    uint8_t board[2 * PROCESSORS];
    size_t length = 2 * state[DIBWUNEK_PROCESSORS], at;
    uint32_t answer = dibwunek_board(state, DIBWUNEK_STATE_WORDS, board, length);
    if (dibwunek_number(answer) != 0) {
        return fail("board", answer);
    }
    memset(reports, 0, DIBWUNEK_ENTRIES * sizeof *reports);
    for (at = 0; at < length; at += 2) {
        unsigned task = board[at], node = board[at + 1];
        if (task != DIBWUNEK_UNUSED && --left[task][node] == 0) {
            reports[task] |= UINT32_C(1) << node;
        }
    }
    return 0;
}

/*
 * Tells the dispatcher that a tick has passed, and says what came of it: a switch before the low jobs that it drops, a return
 * behind the jobs that have ended.
 */
static int pass(unsigned tick, const uint32_t *reports) {
    unsigned count = state[DIBWUNEK_COUNT], task;
    uint32_t alive[DIBWUNEK_ENTRIES], answer;
    for (task = 0; task < count; task++) {
        alive[task] = dibwunek_field(state, task, DIBWUNEK_ALIVE);
    }
    answer = dibwunek_tick(state, DIBWUNEK_STATE_WORDS, reports, count);
    if (dibwunek_number(answer) != 0) {
        return fail("tick", answer);
    }
    if (dibwunek_switched(answer)) {
        printf("tick %2u: the mode turns critical because of task %u\n", tick, dibwunek_task(answer));
    }
    for (task = 0; task < count; task++) {
        if (alive[task] && !dibwunek_field(state, task, DIBWUNEK_ALIVE)) {
            uint32_t nodes = dibwunek_field(state, task, DIBWUNEK_NODES);
            uint32_t all = (uint32_t)((UINT64_C(1) << nodes) - 1);
            int ended = dibwunek_field(state, task, DIBWUNEK_ENDED) == all;
            printf("tick %2u: task %u %s\n", tick, task, ended ? "has ended" : "is dropped");
        }
    }
    if (dibwunek_returned(answer)) {
        printf("tick %2u: the mode turns typical again\n", tick);
    }
    return 0;
}

int main(int count, char **words) {
    uint8_t bytes[SHEET_BYTES + 1];
    uint32_t reports[DIBWUNEK_ENTRIES], answer;
    long length = sizeof worked;
    unsigned tick, task;
    if (count > 2) {
        fprintf(stderr, "usage: controller [SHEET]\n");
        return 2;
    }
    if (dibwunek_state_words() != DIBWUNEK_STATE_WORDS) {
        fprintf(stderr, "controller: the header and the library do not belong together\n");
        return 1;
    }
    memcpy(bytes, worked, sizeof worked);
    if (count == 2 && (length = read_sheet(words[1], bytes)) < 0) {
        return 1;
    }
    answer = dibwunek_start(bytes, (size_t)length, state, DIBWUNEK_STATE_WORDS);
    if (dibwunek_number(answer) != 0) {
        return fail("the sheet", answer);
    }
    for (task = 0; task < state[DIBWUNEK_COUNT]; task++) {
        printf("task %u: shares %u and %u, virtual deadline %u\n", task,
               (unsigned)dibwunek_field(state, task, DIBWUNEK_TYPICAL_SHARE),
               (unsigned)dibwunek_field(state, task, DIBWUNEK_CRITICAL_SHARE),
               (unsigned)dibwunek_field(state, task, DIBWUNEK_VIRTUAL_DEADLINE));
    }
    for (tick = 0; tick < TICKS; tick++) {
        for (task = 0; task < state[DIBWUNEK_COUNT]; task++) {
            if (release(tick, task) != 0) {
                return 1;
            }
        }
        if (run(reports) != 0 || pass(tick + 1, reports) != 0) {
            return 1;
        }
    }
    printf("tick %2u: the mode is %s\n", tick, state[DIBWUNEK_MODE] ? "critical" : "typical");
    if (fflush(stdout) != 0) {
        fprintf(stderr, "controller: standard output: %s\n", strerror(errno));
        return 1;
    }
    return 0;
}

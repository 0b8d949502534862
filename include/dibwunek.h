/*
 * Dibwunek: plan a sheet of tasks, and dispatch their jobs tick by tick. The clauses S1 to S14 are in docs/SPECIFICATION.md.
 *
 * A state is a line of DIBWUNEK_STATE_WORDS words that the caller lends; its words are listed below. It begins as zeros, which
 * no call but dibwunek_start accepts. Every call may be given any bytes, words and numbers: it tests what it gets.
 *
 * A call answers one word. dibwunek_number of it is 0 where the call did what it was asked, and else says why not:
 *
 *    1  the sheet's header                    9  the buffer is too short for the plan
 *    2  the sheet's directory                10  the state is not sound
 *    3  level, k or length of a record       11  there is no task of this number
 *    4  the figures of a record              12  the task is low and not kept, and the mode is critical
 *    5  a mask of a record                   13  the task's job is alive, or came less than D ticks ago
 *    6  the task is not heavy                14  there are not as many reports as tasks
 *    7  the task has no share                15  a report names a node that is not running
 *    8  no choice of shares fits             16  the board's buffer has another length than 2 M
 *
 *   17  dibwunek_import: the text, the level, the percentage, or a buffer that is too short
 *   18  dibwunek_import: more than 32 nodes, none, or a predecessor that is not below its entry
 *   19  dibwunek_import: a figure is not from 1 to 10,000
 *
 *  100  the line is no state: it has another length, or a word that its field can't hold
 *
 * A call whose number is not 0 leaves each word of the line and each byte of the buffer as it was. dibwunek_task of the word is
 * the task at fault, or DIBWUNEK_NO_TASK.
 *
 * A set of nodes is a word: bit v is node v. No call keeps a pointer, allocates memory or calls the system.
 */
#ifndef DIBWUNEK_H
#define DIBWUNEK_H

#include <stddef.h>
#include <stdint.h>

#ifdef __cplusplus
extern "C" {
#endif

/*
 * The words of a state (S13.1): M, n, the mode (0 typical, 1 critical), then for each of 16 entries level, k, 32 masks, D, V,
 * typical share, critical share, age, ended set, alive (0 or 1). D, V and age are at most DIBWUNEK_MOST_TICKS, in an entry that is not
 * wide DIBWUNEK_MOST_TICKS_NARROW. A low task is kept in critical mode if its critical share is not 0 (S7.4).
 */
#define DIBWUNEK_ENTRIES 16
#define DIBWUNEK_ENTRY_WORDS 41
#define DIBWUNEK_STATE_WORDS (3 + DIBWUNEK_ENTRIES * DIBWUNEK_ENTRY_WORDS)

/* The greatest count of ticks in a sheet and in a state (S2.9): in the wide form, and in the narrow one. */
#define DIBWUNEK_MOST_TICKS 1000000
#define DIBWUNEK_MOST_TICKS_NARROW 10000

/* The bytes of a plan for each task (S5.5). */
#define DIBWUNEK_PLAN_BYTES 9

/* The first words of a state. */
enum { DIBWUNEK_PROCESSORS = 0, DIBWUNEK_COUNT = 1, DIBWUNEK_MODE = 2 };

/* The words of an entry; the mask of node v is DIBWUNEK_MASKS + v. */
enum {
    DIBWUNEK_LEVEL = 0,
    DIBWUNEK_NODES = 1,
    DIBWUNEK_MASKS = 2,
    DIBWUNEK_DEADLINE = 34,
    DIBWUNEK_VIRTUAL_DEADLINE = 35,
    DIBWUNEK_TYPICAL_SHARE = 36,
    DIBWUNEK_CRITICAL_SHARE = 37,
    DIBWUNEK_AGE = 38,
    DIBWUNEK_ENDED = 39,
    DIBWUNEK_ALIVE = 40
};

/* The level of an entry is that of the sheet's record (S2.6): low or high, in the narrow or in the wide form. */
enum { DIBWUNEK_LOW = 0, DIBWUNEK_HIGH = 1, DIBWUNEK_LOW_WIDE = 16, DIBWUNEK_HIGH_WIDE = 17 };

static inline int dibwunek_is_high(uint32_t level) { return level == DIBWUNEK_HIGH || level == DIBWUNEK_HIGH_WIDE; }

/* A word of a task's entry; the task is below DIBWUNEK_ENTRIES. */
static inline uint32_t dibwunek_field(const uint32_t *state, size_t task, size_t field) {
    return state[3 + DIBWUNEK_ENTRY_WORDS * task + field];
}

/* The task of an answer that names none, and both bytes of a processor that runs nothing on a board. */
#define DIBWUNEK_NO_TASK 255
#define DIBWUNEK_UNUSED 255

/* The number of the answer to a line that is no state. */
#define DIBWUNEK_NOT_STATE 100

/*
 * What an answer says (S13.4). dibwunek_switched is 1 where a tick turned the mode critical, and dibwunek_task names the cause.
 * dibwunek_returned is 1 where a tick turned it typical again. Else each is 0, and no answer has both.
 */
static inline unsigned dibwunek_number(uint32_t answer) { return answer & 255u; }
static inline unsigned dibwunek_task(uint32_t answer) { return answer >> 8 & 255u; }
static inline unsigned dibwunek_switched(uint32_t answer) { return answer >> 16 & 1u; }
static inline unsigned dibwunek_returned(uint32_t answer) { return answer >> 17 & 1u; }

/* How many words a state has in the linked library: DIBWUNEK_STATE_WORDS, if header and library belong together. */
size_t dibwunek_state_words(void);

/*
 * Plan (S5.5): chooses the shares for a sheet and writes 9 n bytes to the front of the buffer: n pairs of offset and length for the
 * typical mode, n such pairs for the critical mode, n virtual deadlines of four bytes, low byte first, and n remainders of one byte:
 * what was left where the virtual deadlines were rounded down (S4.6). The bytes behind stay. Numbers 1 to 9.
 */
uint32_t dibwunek_plan(const uint8_t *sheet, size_t sheet_length, uint8_t *buffer, size_t buffer_length);

/*
 * Start (S8.1): plans a sheet and writes its fresh state over the line, whose words are not read. Numbers 1 to 8, and 100 where the
 * line has another length.
 */
uint32_t dibwunek_start(const uint8_t *sheet, size_t sheet_length, uint32_t *state, size_t state_length);

/*
 * Release (S8.4): begins a job of a task. In critical mode a low task is refused with 12 unless it is kept; it rests until the mode
 * is typical again. Numbers 10 to 13, 100.
 */
uint32_t dibwunek_release(uint32_t *state, size_t state_length, size_t task);

/*
 * Tick (S8.5, S8.6, S8.9): one tick has passed. There is a report for each task: the set of its nodes that ended with this tick, of
 * those that ran. A tick that turns the mode critical drops the jobs of low tasks that are not kept: they are not alive, and not all
 * of their nodes have ended. High jobs and kept ones go on. A tick that finds the mode critical, and after which no high task has an
 * alive job, turns it typical again; kept jobs go on. Numbers 10, 14, 15, 100.
 */
uint32_t dibwunek_tick(uint32_t *state, size_t state_length, const uint32_t *reports, size_t report_count);

/*
 * Board (S8.8): writes M pairs of bytes, task and node, one for each processor: what runs until the next tick. A job may stand on
 * other processors once the mode has turned, critical or typical. The buffer has just 2 M bytes. Numbers 10, 16, 100.
 */
uint32_t dibwunek_board(const uint32_t *state, size_t state_length, uint8_t *buffer, size_t buffer_length);

/*
 * Replay (S12), for the support line. It is in libreplays.a; a controller's libexports.a has none of it. Replay starts a sheet, runs
 * a log of calls, and writes what each answered and what the state then held to the front of the buffer. It returns how many bytes
 * it wrote, at least 2; 0 says that the buffer is too short, and then nothing is written.
 */
size_t dibwunek_replay(const uint8_t *sheet, size_t sheet_length, const uint8_t *calls, size_t calls_length, uint8_t *buffer,
                       size_t buffer_length);

/*
 * Import (S14), for tools that write sheets. It is in libimporter.a; a controller's libexports.a has none of it. Import takes a text in
 * the Standard Task Graph format, a level (0 low, 1 high), a deadline and the percentage that makes overload times of times (100 to 400,
 * for a low task 100), and writes the task's record of 12 + 4 k bytes, in the narrow form, to the front of the buffer. The bytes behind
 * stay. Numbers 17 to 19.
 */
uint32_t dibwunek_import(const uint8_t *text, size_t text_length, uint32_t level, uint32_t deadline, uint32_t percentage, uint8_t *record,
                         size_t record_length);

#ifdef __cplusplus
}
#endif

#endif

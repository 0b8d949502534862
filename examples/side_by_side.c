/*
 * Two runs of one task, side by side: by itself on a sheet of its own, say, and in a full sheet. S10.14 and S10.15 say when they
 * agree. The last line says that they do, or up to which tick, and what differs then.
 *
 *     side_by_side SHEET LOG TASK SHEET LOG TASK
 *
 * SHEET is a file of bytes, as tools/sheet.py writes it, LOG one of the calls of a run, as tools/log.py writes it, and TASK the
 * task's number in the sheet. Each accepted tick has a line: for each run the nodes that ran on it, and those that have ended and
 * the state after it. Where the two differ it begins with *. The exit status is 0 where the runs agree, 1 where they do not,
 * and 2 where they can't be compared. To build it:
 *
 *     ./build exports
 *     ./build replays
 *     gcc -std=c99 -Wall -Wextra -Werror -Iinclude examples/side_by_side.c -o target/side_by_side \
 *         target/staticlib/libexports.a target/staticlib/libreplays.a
 */
#include <errno.h>
#include <stdio.h>
#include <stdlib.h>
#include <string.h>

#include "dibwunek.h"

enum { SHEET_BYTES = 4096, LOG_BYTES = 65536, PROCESSORS = 64, NODES = 32, NODES_TEXT = 3 * NODES };

/* The first byte of a tick in a log (S12.1). What Replay writes of a call (S12.2): the bytes before its tasks, and of a task. */
enum { TICK = 1, RECORD = 4, RECORD_OF_A_TASK = 9, REFUSED = 2 };
enum { RECORDS = 2 + LOG_BYTES / 2 * (RECORD + RECORD_OF_A_TASK * DIBWUNEK_ENTRIES) };

typedef struct {
    char **words; /* the names of the sheet and of the log, and the task */
    uint8_t sheet[SHEET_BYTES + 1], log[LOG_BYTES + 1], records[RECORDS];
    unsigned long task;
    const uint8_t *call, *record, *end;   /* the next call of the log, what Replay wrote of it, and where that ends */
    uint32_t state[DIBWUNEK_STATE_WORDS]; /* after the calls before it */
    int released;                         /* whether the task was released between the last two ticks */
    uint32_t ran, report;                 /* its nodes that ran on the last tick, and those that ended with it */
} Run;

static Run first, second;

/* Ends the program with a line. */
static void fail(const char *name, const char *message) {
    fprintf(stderr, "side_by_side: %s: %s\n", name, message);
    exit(2);
}

/* The same; the format has a place for the number. */
static void stop(const char *name, const char *format, unsigned long number) {
    char message[80];
    snprintf(message, sizeof message, format, number);
    fail(name, message);
}

static size_t read_file(const char *name, uint8_t *bytes, size_t most) {
    FILE *file = fopen(name, "rb");
    size_t length = file == NULL ? 0 : fread(bytes, 1, most + 1, file);
    if (file == NULL || ferror(file)) {
        fail(name, strerror(errno));
    }
    if (length > most) {
        stop(name, "expected at most %lu bytes", most);
    }
    fclose(file);
    return length;
}

static uint32_t number_at(const uint8_t *bytes) {
    return bytes[0] | (uint32_t)bytes[1] << 8 | (uint32_t)bytes[2] << 16 | (uint32_t)bytes[3] << 24;
}

static size_t call_bytes(const uint8_t *call) { return call[0] == TICK ? 2 + 4 * (size_t)call[1] : 5; }
static size_t record_bytes(const Run *run) { return RECORD + RECORD_OF_A_TASK * (size_t)run->state[DIBWUNEK_COUNT]; }

/* Starts the sheet, and reads the task's number; returns the sheet's length. */
static size_t start(Run *run, const char *name, const char *task) {
    size_t length = read_file(name, run->sheet, SHEET_BYTES);
    unsigned number = dibwunek_number(dibwunek_start(run->sheet, length, run->state, DIBWUNEK_STATE_WORDS));
    char *rest;
    if (number != 0) {
        stop(name, "the sheet is refused with number %lu", number);
    }
    run->task = strtoul(task, &rest, 10);
    if (strspn(task, "0123456789") == 0 || *rest != 0 || run->task >= run->state[DIBWUNEK_COUNT]) {
        stop(name, "expected a task from 0 to %lu", run->state[DIBWUNEK_COUNT] - 1);
    }
    return length;
}

/* Starts the sheet and replays the log, all of which must be calls. */
static void load(Run *run, char **words) {
    size_t sheet = start(run, words[0], words[2]), log = read_file(words[1], run->log, LOG_BYTES), at = 0;
    run->words = words;
    run->end = run->records + dibwunek_replay(run->sheet, sheet, run->log, log, run->records, RECORDS);
    for (run->record = run->records + 2; run->record < run->end; run->record += record_bytes(run)) {
        at += call_bytes(run->log + at);
    }
    if (at != log) {
        stop(words[1], "offset %lu: expected a whole call", at);
    }
    run->call = run->log;
    run->record = run->records + 2;
}

/* The nodes of the task that the board shows. */
static uint32_t running(const Run *run) {
    uint8_t board[2 * PROCESSORS];
    size_t length = 2 * (size_t)run->state[DIBWUNEK_PROCESSORS], at;
    uint32_t nodes = 0;
    if (dibwunek_number(dibwunek_board(run->state, DIBWUNEK_STATE_WORDS, board, length)) != 0) {
        fail(run->words[1], "the board is refused");
    }
    for (at = 0; at < length; at += 2) {
        if (board[at] == run->task) {
            nodes |= UINT32_C(1) << board[at + 1];
        }
    }
    return nodes;
}

/* Passes a call: the state is then what Replay wrote of it. */
static void pass(Run *run) {
    const uint8_t *part = run->record + RECORD;
    uint32_t *entry = run->state + DIBWUNEK_MODE + 1;
    run->state[DIBWUNEK_MODE] = run->record[3];
    run->record += record_bytes(run);
    run->call += call_bytes(run->call);
    for (; part < run->record; part += RECORD_OF_A_TASK, entry += DIBWUNEK_ENTRY_WORDS) {
        entry[DIBWUNEK_ALIVE] = part[0];
        entry[DIBWUNEK_AGE] = number_at(part + 1);
        entry[DIBWUNEK_ENDED] = number_at(part + 5);
    }
}

/* Passes the calls up to the next accepted tick, and that tick; 0 where there is none. */
static int next_tick(Run *run) {
    for (run->released = 0; run->record < run->end; pass(run)) {
        if (run->record[0] != REFUSED && run->call[0] == TICK) {
            run->ran = running(run);
            run->report = number_at(run->call + 2 + 4 * run->task);
            pass(run);
            return 1;
        }
        run->released |= run->record[0] != REFUSED && number_at(run->call + 1) == run->task;
    }
    return 0;
}

static uint32_t field(const Run *run, size_t word) { return dibwunek_field(run->state, run->task, word); }
static int same(size_t word) { return field(&first, word) == field(&second, word); }
static int is_critical(const Run *run) { return run->state[DIBWUNEK_MODE] != 0; }
static int differ(void) { return first.ran != second.ran || !same(DIBWUNEK_ENDED) || is_critical(&first) != is_critical(&second); }

static int same_record(void) {
    const uint8_t *one = first.sheet + 2 + 4 * first.task, *two = second.sheet + 2 + 4 * second.task;
    const uint8_t *records[] = {first.sheet + (one[0] | one[1] << 8), second.sheet + (two[0] | two[1] << 8)};
    return memcmp(one + 2, two + 2, 2) == 0 && memcmp(records[0], records[1], (size_t)(one[2] | one[3] << 8)) == 0;
}

/* What is asked of the sheets and is not so, or NULL. */
static const char *apart_at_first(void) {
    if (!same_record()) {
        return "the records of the task differ";
    }
    return same(DIBWUNEK_TYPICAL_SHARE) ? NULL : "the typical shares differ";
}

/* What is asked of a tick and is not so, or NULL. The critical shares count in the critical state alone. */
static const char *apart(void) {
    if (first.released != second.released) {
        return first.released ? "before tick %lu the task is released in the first run alone"
                              : "before tick %lu the task is released in the second run alone";
    }
    if (first.report != second.report) {
        return "with tick %lu other nodes are reported";
    }
    if (is_critical(&first) != is_critical(&second)) {
        return is_critical(&first) ? "after tick %lu the state is critical in the first run alone"
                                   : "after tick %lu the state is critical in the second run alone";
    }
    if (is_critical(&first) && !same(DIBWUNEK_CRITICAL_SHARE)) {
        return "after tick %lu the state is critical, and the critical shares differ";
    }
    return differ() ? "the nodes of tick %lu differ, which the proof rules out" : NULL;
}

/* A set of nodes, as tools/log.py writes it. */
static const char *nodes_of(uint32_t set, char *text) {
    int length = 0, v;
    strcpy(text, "-");
    for (v = 0; v < NODES; v++) {
        length += set >> v & 1 ? sprintf(text + length, length ? ",%d" : "%d", v) : 0;
    }
    return text;
}

static void print_head(const char *name, const Run *run) {
    unsigned typical = (unsigned)field(run, DIBWUNEK_TYPICAL_SHARE), critical = (unsigned)field(run, DIBWUNEK_CRITICAL_SHARE);
    printf("%s %s, task %lu, shares %u and %u\n", name, run->words[0], run->task, typical, critical);
}

/* The half of a line; its sets of nodes take as much room as all nodes of the task do. */
static void print_half(const Run *run, const char *lead, const char *ran, const char *ended, const char *state) {
    char all[NODES_TEXT];
    int width = (int)strlen(nodes_of(UINT32_MAX >> (NODES - field(run, DIBWUNEK_NODES)), all));
    printf("%s  %-*s  %-*s  %8s", lead, width < 3 ? 3 : width, ran, width < 5 ? 5 : width, ended, state);
}

static void print_run(const Run *run, const char *lead) {
    char ran[NODES_TEXT], ended[NODES_TEXT];
    const char *state = is_critical(run) ? "critical" : "typical";
    print_half(run, lead, nodes_of(run->ran, ran), nodes_of(field(run, DIBWUNEK_ENDED), ended), state);
}

static void print_tick(unsigned long tick) {
    printf("%c%5lu", differ() ? '*' : ' ', tick);
    print_run(&first, "");
    print_run(&second, "  |");
    printf("\n");
}

/* Prints each tick that both runs have, and the closing line; returns whether the runs agree. */
static int agree(void) {
    const char *why = apart_at_first();
    unsigned long tick = 0, since = 1;
    int one, two;
    do {
        one = next_tick(&first);
        two = next_tick(&second);
        tick++;
        if (one && two) {
            print_tick(tick);
        }
        if (why == NULL) {
            since = tick;
            why = one && two ? apart() : one ? "the second run has no tick %lu" : two ? "the first run has no tick %lu" : NULL;
        }
    } while (one && two);
    if (why == NULL) {
        printf("alike after every one of %lu ticks\n", tick - 1);
        return 1;
    }
    printf("alike up to tick %lu: ", since - 1);
    printf(why, since);
    printf("\n");
    return 0;
}

int main(int count, char **words) {
    int agreed;
    if (count != 7) {
        fprintf(stderr, "usage: side_by_side SHEET LOG TASK SHEET LOG TASK\n");
        return 2;
    }
    if (dibwunek_state_words() != DIBWUNEK_STATE_WORDS) {
        fail("include/dibwunek.h", "the library does not belong to it");
    }
    load(&first, words + 1);
    load(&second, words + 4);
    print_head("first run: ", &first);
    print_head("second run:", &second);
    print_half(&first, "  tick", "ran", "ended", "state");
    print_half(&second, "  |", "ran", "ended", "state");
    printf("\n");
    agreed = agree();
    if (fflush(stdout) != 0 || ferror(stdout)) {
        fail("standard output", strerror(errno));
    }
    return agreed ? 0 : 1;
}

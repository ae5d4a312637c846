/* The trace analyser for semaphore recordings, for callers in C and C++. Link libfennrolka.a.
 *
 * Every function answers 0 or the number of a refusal, whatever the bytes of the file and the
 * numbers given. Lent memory passes as a pointer and a length, which counts numbers and not
 * bytes. Three duties are the caller's; C does not check them, and what is proved holds only
 * where they are kept:
 * - a pointer is aligned for its numbers and points to as many as the length says; it is not
 *   NULL, also where the length is 0;
 * - memory that a call may write overlaps no other memory lent to the same call;
 * - nobody else writes any of it while the call runs.
 *
 * Each function puts its numbers from the front of `told`, as many as there is room for; what is
 * behind them stays. After a refusal a number that has no meaning is 0.
 */
#ifndef FENNROLKA_H
#define FENNROLKA_H

#include <stddef.h>
#include <stdint.h>

#ifdef __cplusplus
extern "C" {
#endif

/* The refusals. */
enum {
    FENNROLKA_REFUSED_SHORT = 1,    /* there is no trailer */
    FENNROLKA_REFUSED_EDITION = 2,  /* the edition is not 1, 2 or 3 */
    FENNROLKA_REFUSED_EXTENT = 3,   /* the parts don't meet the length */
    FENNROLKA_REFUSED_COUNT = 4,    /* a count is out of its range, or a post count is 0 */
    FENNROLKA_REFUSED_KIND = 5,     /* a record has an unknown kind */
    FENNROLKA_REFUSED_NAME = 6,     /* a record names something beyond its count */
    FENNROLKA_REFUSED_LIFE = 7,     /* a record breaks a rule on forks and joins */
    FENNROLKA_REFUSED_EMPTY = 8,    /* a record waits on a semaphore that is used up */
    FENNROLKA_REFUSED_WORK = 9,     /* too few work numbers are lent */
    FENNROLKA_REFUSED_LIST = 10,    /* the list is too short for the pairs */
    FENNROLKA_REFUSED_EVENT = 11,   /* the file has no such event */
    FENNROLKA_REFUSED_FLAG = 16     /* a record waits on a flag that is not open */
};

/* The kinds of events. */
enum {
    FENNROLKA_KIND_SIGNAL = 1,
    FENNROLKA_KIND_WAIT = 2,
    FENNROLKA_KIND_FORK = 3,
    FENNROLKA_KIND_JOIN = 4,
    FENNROLKA_KIND_READ = 5,
    FENNROLKA_KIND_WRITE = 6,
    FENNROLKA_KIND_POST = 7,
    FENNROLKA_KIND_FLAG_WAIT = 8,
    FENNROLKA_KIND_SINGLE_READ = 9,  /* a read and a write by the processor's own */
    FENNROLKA_KIND_SINGLE_WRITE = 10 /* single-instruction access */
};

/* What fennrolka_read tells. */
enum {
    FENNROLKA_READ_EDITION,
    FENNROLKA_READ_START,      /* where the first record starts, in bytes */
    FENNROLKA_READ_EVENTS,
    FENNROLKA_READ_TASKS,
    FENNROLKA_READ_SEMAPHORES,
    FENNROLKA_READ_FLAGS,
    FENNROLKA_READ_CELLS,
    FENNROLKA_READ_RECORD,     /* the faulty record of a refusal; 0 where none is at fault */
    FENNROLKA_READ_NUMBERS     /* how many these are */
};

/* Reads a file: its counts, or the first refusal of 1 to 8 and 16. */
uint32_t fennrolka_read(const uint8_t *file, size_t file_length, uint64_t *told, size_t told_length);

/* What fennrolka_event tells. */
enum {
    FENNROLKA_EVENT_TASK,
    FENNROLKA_EVENT_KIND,
    FENNROLKA_EVENT_OBJECT,
    FENNROLKA_EVENT_RECORD,    /* the faulty record of a refusal */
    FENNROLKA_EVENT_NUMBERS
};

/* Looks for event e, counted from 0: the file's refusal, or 11 where it has no such event. */
uint32_t fennrolka_event(const uint8_t *file, size_t file_length, size_t e, uint64_t *told, size_t told_length);

/* What fennrolka_analyse tells. */
enum {
    FENNROLKA_ANALYSE_PASSES,
    FENNROLKA_ANALYSE_SETTLED, /* 1, or 0 where the budget ran out before */
    FENNROLKA_ANALYSE_PAIRS,   /* the listed pairs; after 10 those that the list should hold */
    FENNROLKA_ANALYSE_RECORD,  /* the faulty record of a refusal */
    FENNROLKA_ANALYSE_NUMBERS
};

/* An entry of the list, by its places: two events, and their mark. */
enum {
    FENNROLKA_ENTRY_LOWER,     /* the event of the lower task */
    FENNROLKA_ENTRY_HIGHER,    /* the event of the higher task */
    FENNROLKA_ENTRY_MARK,
    FENNROLKA_ENTRY_NUMBERS
};

/* The marks. */
enum { FENNROLKA_OPEN = 0, FENNROLKA_SURE = 1 };

/* Analyses a file with a budget of passes. `work` needs 2 x events x tasks numbers, else 9; they
 * are left with the safe and then the recorded vectors, events x tasks numbers each, a row of
 * tasks numbers for each event. `list` needs 3 numbers for each pair, else 10; it is left with an
 * entry for each pair. What is behind stays. A refusal leaves both as they were, but 10 leaves
 * `work` filled. */
uint32_t fennrolka_analyse(const uint8_t *file, size_t file_length, uint32_t budget, uint16_t *work, size_t work_length,
                           uint16_t *list, size_t list_length, uint64_t *told, size_t told_length);

#ifdef __cplusplus
}
#endif

#endif

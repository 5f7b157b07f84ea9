/*
 * The doors of the cabinet's ordering software, for C and C++.
 *
 * States are arrays of 64-bit words in the caller's memory, of the lengths stated here. The library has no heap, keeps nothing between calls,
 * writes to less than 32 KiB of stack in any call (measured on x86-64, not proved), and trusts nothing: an array of another length, a table that
 * does not pass the check and a state that lacks what every state under that table has get a refusal of their own (100 and above) and change
 * nothing. No state that the library wrote is refused; words that it never wrote are taken where they are in the ranges of a state, and every call
 * is exact on them too. Of the caller it asks only that each pointer is valid for its length (never NULL, not even with a length of 0) and that an
 * array to be written overlaps no other.
 *
 * Every reply begins with `refusal`: 0 where the call was accepted, else the number; the rest of a refused reply is 0 but for what is said here
 * (2 and 9 name a task; no back-runner is CABINET_NODES). A refusal changes nothing in any lent array. The lent arrays
 * are looked at from left to right, each first for its length and then for what it holds; the refusals of a call stand in the order in which
 * they are tried.
 */
#ifndef EKSHVANUR_CABINET_H
#define EKSHVANUR_CABINET_H

#include <stddef.h>
#include <stdint.h>

#ifdef __cplusplus
extern "C" {
#endif

/* Limits of document 01. */
#define CABINET_NODES 15
#define CABINET_TASKS 64
#define CABINET_PLACES 256
#define CABINET_RELEASES 64

/* Lengths in words. A node's own common record stands in its last CABINET_COMMON_WORDS words, from word CABINET_NODE_COMMON on. */
#define CABINET_TABLE_WORDS 259
#define CABINET_COMMON_WORDS 326
#define CABINET_NODE_WORDS 336
#define CABINET_NODE_COMMON 10

/* A list of releases has two words for each, task and delay; a list of entries four: 0 (missing) or 1, progress, completion time, run. A list whose
 * length is no multiple of these is of a wrong length. */
#define CABINET_RELEASE_WORDS 2
#define CABINET_ENTRY_WORDS 4

/* No written record is longer, in bytes; no written number is longer. */
#define CABINET_RECORD_BYTES 1583
#define CABINET_NUMBER_BYTES 9

/* Refusals of the doors themselves, outside document 01's 1 to 22. */
#define CABINET_WRONG_LENGTH 100 /* a lent array has another length than the call states */
#define CABINET_WRONG_TABLE 101  /* the table does not pass the check: cabinet_check_table says why */
#define CABINET_WRONG_STATE 102  /* the state is out of the ranges of every state that this library writes under this table */
#define CABINET_WRONG_MARK 103   /* an entry's first word is above 1 */
#define CABINET_NO_POSITION 104  /* the common record keeps no such position */

/*
 * The words of a table, filled in by the caller: number of nodes, timeout, number of tasks, then 64 words each of C, T, D and S. Of each 64 the
 * first ones are the tasks', from the highest priority down; nothing is asked of the others.
 */
#define CABINET_TABLE_NODES 0
#define CABINET_TABLE_TIMEOUT 1
#define CABINET_TABLE_TASKS 2
#define CABINET_TABLE_C 3
#define CABINET_TABLE_T 67
#define CABINET_TABLE_D 131
#define CABINET_TABLE_S 195

/* The words of a common record, to be read by the caller and written by the library. Places not used hold 0. */
#define CABINET_COMMON_BASE 0     /* B */
#define CABINET_COMMON_START 1    /* W */
#define CABINET_COMMON_OFFSET 2   /* O */
#define CABINET_COMMON_COUNT 3    /* jobs kept: L is B plus this */
#define CABINET_COMMON_BEGUN 4    /* 1 once a round has been */
#define CABINET_COMMON_LAST 5     /* the last round's time */
#define CABINET_COMMON_EARLIEST 6 /* E, 64 words */
#define CABINET_COMMON_ORDER 70   /* the tasks of the jobs kept, 256 words: the first stands at position B + 1 */

/* The words of a node before its common record. It is left behind where its progress is below its common record's base. */
#define CABINET_NODE_NUMBER 0
#define CABINET_NODE_PROGRESS 1
#define CABINET_NODE_COMPLETED 2
#define CABINET_NODE_RUNNING 3
#define CABINET_NODE_LATEST 4
#define CABINET_NODE_OPEN 5      /* 1 while a round is open; then its time and what was sent follow, else zeros */
#define CABINET_NODE_TIME 6
#define CABINET_NODE_SENT 7      /* progress, completion time, run */

typedef struct {
    uint64_t refusal;
    uint64_t value;
} cabinet_reply;

typedef struct {
    uint64_t refusal;
    uint64_t value;
    uint64_t used; /* bytes */
} cabinet_number_reply;

typedef struct {
    uint64_t refusal;
    uint64_t progress;
    uint64_t completed;
    uint64_t run;
} cabinet_report_reply;

typedef struct {
    uint64_t refusal;
    uint64_t back;       /* the back-runner, CABINET_NODES if none */
    uint64_t majority;   /* 1 where class 0 or 5 is a majority */
    uint64_t left;       /* 1 where the node is left behind now; a station's is 0 */
    uint8_t classes[15]; /* places beyond the number of nodes hold 0 */
} cabinet_close_reply;

typedef struct {
    uint64_t refusal;
    uint64_t time;
    uint64_t releases; /* how many were read */
    uint64_t entries;  /* how many were read */
    uint64_t used;     /* bytes; 0 on a refusal */
} cabinet_record_reply;

/* Whether a table may be used. Refusals: 100; 1; 2, with the first task that breaks a rule as `value`. */
cabinet_reply cabinet_check_table(const uint64_t *table, size_t table_words);

/* A common record at the start, for a station. Refusals: 100. */
cabinet_reply cabinet_fresh_common(uint64_t *common, size_t common_words);

/* A node at the start. Refusals: 100, 101; 100 (the node's); 1. */
cabinet_reply cabinet_fresh_node(const uint64_t *table, size_t table_words, uint64_t *node, size_t node_words, uint64_t number);

/* Start of the next job: `value` is its task. Refusals: 100, 101; 100, 102; 3 to 9; with 9 `value` is the task that breaks the bound. */
cabinet_reply cabinet_start(const uint64_t *table, size_t table_words, uint64_t *node, size_t node_words, uint64_t now);

/* Finish of the job that runs. Refusals: 100, 101; 100, 102; 3, 4, 5, 10. */
cabinet_reply cabinet_finish(const uint64_t *table, size_t table_words, uint64_t *node, size_t node_words, uint64_t now);

/* Report at the round time r. Refusals: 100, 101; 100, 102; 3, 4, 5, 11. */
cabinet_report_reply cabinet_report(const uint64_t *table, size_t table_words, uint64_t *node, size_t node_words, uint64_t r);

/* A node's close of a round record. Refusals: 100, 101; 100, 102; 100 (releases); 100, 103 (entries); 5, 12, 13, 3, 14, 15, 16, 17.
 * (A node's own clock forestalls 3 and 14.) */
cabinet_close_reply cabinet_close(const uint64_t *table, size_t table_words, uint64_t *node, size_t node_words, uint64_t r,
                                  const uint64_t *releases, size_t release_words, const uint64_t *entries, size_t entry_words);

/* A station's close. Refusals: 100, 101; 100, 102; 100 (releases); 100, 103 (entries); 3, 14, 15, 16, 17. */
cabinet_close_reply cabinet_close_station(const uint64_t *table, size_t table_words, uint64_t *common, size_t common_words, uint64_t r,
                                          const uint64_t *releases, size_t release_words, const uint64_t *entries, size_t entry_words);

/* The projection of a position from B to L, as `value`. Refusals: 100, 101; 100, 102; 104. */
cabinet_reply cabinet_projection(const uint64_t *table, size_t table_words, const uint64_t *common, size_t common_words, uint64_t position);

/* Whether the bound holds for a position from B + 1 to L at a time. Refusals: 100, 101; 100, 102; 3; 104; 9, with the task as `value`. */
cabinet_reply cabinet_bound(const uint64_t *table, size_t table_words, const uint64_t *common, size_t common_words, uint64_t position,
                            uint64_t time);

/* The tasks of the jobs kept into a list, from position B + 1 on; `value` is how many. Places past them stay. Refusals: 100, 101; 100, 102;
 * 100 where the list is shorter. */
cabinet_reply cabinet_order(const uint64_t *table, size_t table_words, const uint64_t *common, size_t common_words, uint64_t *order,
                            size_t order_words);

/* The number at the first byte. Refusals: 18, 19. */
cabinet_number_reply cabinet_read_number(const uint8_t *bytes, size_t length);

/* A number into the first bytes; `value` is how many. Refusals: 22, 21. */
cabinet_reply cabinet_write_number(uint8_t *bytes, size_t length, uint64_t number);

/* A task table at the first byte, as a session begins with; `value` is the bytes used. The places past the tasks are written 0. Refusals: 100;
 * 18, 19, 1, 2, which names no task here. */
cabinet_reply cabinet_read_table(const uint8_t *bytes, size_t length, uint64_t *table, size_t table_words);

/* The record at the first byte, into lent lists. Places past the counts stay; behind the 0 of a missing entry stand zeros. Refusals: 100 (releases, entries); 15, 18, 19, 20, 21 as met. */
cabinet_record_reply cabinet_read_record(const uint8_t *bytes, size_t length, uint64_t *releases, size_t release_words, uint64_t *entries,
                                         size_t entry_words);

/* A record into the first bytes; `value` is how many. Refusals: 100 (releases); 100, 103 (entries); 15, 22, 21. */
cabinet_reply cabinet_write_record(uint8_t *bytes, size_t length, uint64_t r, const uint64_t *releases, size_t release_words,
                                   const uint64_t *entries, size_t entry_words);

#ifdef __cplusplus
}
#endif

#endif

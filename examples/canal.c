/*
 * The worked canal of document 01 with three nodes and a station that watches. Nodes 0 and 1 send what the library tells them. Node 2 claims in
 * round 10 what it may not have done: its own library refuses that record, and it falls silent.
 */
#include <inttypes.h>
#include <stdio.h>
#include <stdlib.h>
#include <string.h>

#include "cabinet.h"

enum { NODES = 3, JOBS = 3 };

static const uint64_t table[CABINET_TABLE_WORDS] = {
    [CABINET_TABLE_NODES] = NODES, [CABINET_TABLE_TIMEOUT] = 2, [CABINET_TABLE_TASKS] = 3,
    [CABINET_TABLE_C] = 10, 20, 30,
    [CABINET_TABLE_T] = 100, 200, 400,
    [CABINET_TABLE_D] = 100, 200, 400,
    [CABINET_TABLE_S] = 40, 50, 40,
};
static uint64_t station[CABINET_COMMON_WORDS];
static uint64_t node[NODES][CABINET_NODE_WORDS];
static uint64_t entries[NODES][CABINET_ENTRY_WORDS];

/* The tasks that each node was told to start, for the last lines. */
static uint64_t started[NODES][JOBS];
static int starts[NODES];

static void must(uint64_t refusal, const char *what)
{
    if (refusal != 0) {
        fprintf(stderr, "canal: %s: refused %" PRIu64 "\n", what, refusal);
        exit(1);
    }
}

static void start(int n, uint64_t now)
{
    cabinet_reply reply = cabinet_start(table, CABINET_TABLE_WORDS, node[n], CABINET_NODE_WORDS, now);
    must(reply.refusal, "start");
    started[n][starts[n]++] = reply.value;
}

static void finish(int n, uint64_t now)
{
    must(cabinet_finish(table, CABINET_TABLE_WORDS, node[n], CABINET_NODE_WORDS, now).refusal, "finish");
}

static void put_entry(int n, uint64_t progress, uint64_t completed, uint64_t run)
{
    entries[n][0] = 1;
    entries[n][1] = progress;
    entries[n][2] = completed;
    entries[n][3] = run;
}

static void report(int n, uint64_t r)
{
    cabinet_report_reply sent = cabinet_report(table, CABINET_TABLE_WORDS, node[n], CABINET_NODE_WORDS, r);
    must(sent.refusal, "report");
    put_entry(n, sent.progress, sent.completed, sent.run);
}

/* Node n closes the record of round r, and then has the station's common record as its own. */
static void close_node(int n, uint64_t r, const uint64_t *releases, size_t count)
{
    cabinet_close_reply reply = cabinet_close(table, CABINET_TABLE_WORDS, node[n], CABINET_NODE_WORDS, r, releases,
                                              count * CABINET_RELEASE_WORDS, entries[0], sizeof entries / sizeof(uint64_t));
    if (reply.refusal != 0) {
        printf("node %d refused %" PRIu64 "\n", n, reply.refusal);
    } else if (memcmp(node[n] + CABINET_NODE_COMMON, station, sizeof station) != 0) {
        fprintf(stderr, "canal: node %d has another common record than the station\n", n);
        exit(1);
    }
}

/* The station closes the record and prints its line; then every node that reported for it closes it. */
static void close_round(uint64_t r, const uint64_t *releases, size_t count)
{
    cabinet_close_reply reply =
        cabinet_close_station(table, CABINET_TABLE_WORDS, station, CABINET_COMMON_WORDS, r, releases,
                              count * CABINET_RELEASE_WORDS, entries[0], sizeof entries / sizeof(uint64_t));
    must(reply.refusal, "station");
    printf("round %" PRIu64 " ipo %" PRIu64 " base %" PRIu64 " length %" PRIu64 " toc %" PRIu64 " nodes ", r,
           station[CABINET_COMMON_OFFSET], station[CABINET_COMMON_BASE],
           station[CABINET_COMMON_BASE] + station[CABINET_COMMON_COUNT], station[CABINET_COMMON_START]);
    for (int n = 0; n < NODES; n++)
        printf("%u", (unsigned)reply.classes[n]);
    printf("\n");
    for (int n = 0; n < NODES; n++)
        if (node[n][CABINET_NODE_OPEN] == 1 && node[n][CABINET_NODE_TIME] == r)
            close_node(n, r, releases, count);
}

static void print_order(void)
{
    uint64_t order[CABINET_PLACES];
    cabinet_reply kept = cabinet_order(table, CABINET_TABLE_WORDS, station, CABINET_COMMON_WORDS, order, CABINET_PLACES);
    must(kept.refusal, "order");
    printf("order");
    for (uint64_t k = 0; k < kept.value; k++)
        printf(" %" PRIu64 ":%" PRIu64, station[CABINET_COMMON_BASE] + 1 + k, order[k]);
    printf("\n");
}

int main(void)
{
    const uint64_t tasks_1_and_2[] = {1, 0, 2, 1};
    const uint64_t task_0[] = {0, 0};

    must(cabinet_check_table(table, CABINET_TABLE_WORDS).refusal, "table");
    must(cabinet_fresh_common(station, CABINET_COMMON_WORDS).refusal, "station");
    for (int n = 0; n < NODES; n++)
        must(cabinet_fresh_node(table, CABINET_TABLE_WORDS, node[n], CABINET_NODE_WORDS, n).refusal, "node");

    for (int n = 0; n < NODES; n++)
        report(n, 0);
    close_round(0, tasks_1_and_2, 2);

    start(0, 2);
    start(1, 5);
    finish(0, 8);
    for (int n = 0; n < NODES; n++)
        report(n, 10);
    put_entry(2, 2, 10, 0); /* the lie: both jobs finished, the second over the bound */
    close_round(10, task_0, 1);

    start(0, 12);
    finish(0, 20);
    start(0, 20);
    finish(1, 25);
    start(1, 25);
    finish(1, 35);
    start(1, 35);
    finish(0, 45);
    finish(1, 60);
    report(0, 120);
    report(1, 120);
    entries[2][0] = 0; /* missing */
    close_round(120, task_0, 1);

    print_order();
    for (int n = 0; n < 2; n++) {
        printf("node %d started", n);
        for (int k = 0; k < starts[n]; k++)
            printf(" %" PRIu64, started[n][k]);
        printf("\n");
    }
    return 0;
}

/* A first program: a table of two tasks, a station, one round record, and the order that it gives. */
#include <inttypes.h>
#include <stdio.h>

#include "cabinet.h"

int main(void)
{
    /* Two nodes, timeout 2; C, T, D and S of both tasks. */
    const uint64_t table[CABINET_TABLE_WORDS] = {
        [CABINET_TABLE_NODES] = 2, [CABINET_TABLE_TIMEOUT] = 2, [CABINET_TABLE_TASKS] = 2,
        [CABINET_TABLE_C] = 10, 20, [CABINET_TABLE_T] = 100, 200,
        [CABINET_TABLE_D] = 100, 200, [CABINET_TABLE_S] = 40, 50,
    };
    /* Task 1 is released at once, task 0 a microsecond later; one node reports that it did nothing, one is missing. */
    const uint64_t releases[2 * CABINET_RELEASE_WORDS] = {1, 0, 0, 1};
    const uint64_t entries[2 * CABINET_ENTRY_WORDS] = {1, 0, 0, 0, 0, 0, 0, 0};
    uint64_t station[CABINET_COMMON_WORDS], order[CABINET_PLACES];

    cabinet_fresh_common(station, CABINET_COMMON_WORDS);
    cabinet_close_reply closed = cabinet_close_station(table, CABINET_TABLE_WORDS, station, CABINET_COMMON_WORDS, 0,
                                                       releases, 2 * CABINET_RELEASE_WORDS, entries, 2 * CABINET_ENTRY_WORDS);
    if (closed.refusal != 0) {
        printf("refused %" PRIu64 "\n", closed.refusal);
        return 1;
    }
    cabinet_reply kept = cabinet_order(table, CABINET_TABLE_WORDS, station, CABINET_COMMON_WORDS, order, CABINET_PLACES);
    printf("order");
    for (uint64_t k = 0; k < kept.value; k++)
        printf(" %" PRIu64 ":%" PRIu64, station[CABINET_COMMON_BASE] + 1 + k, order[k]);
    printf("\n");
    return 0;
}

#include <stdio.h>
#include "relay.h"

/* Three records change in this swap, and the pair of levels: four entries and the seal. */
#define LOG_RECORDS 5u

int main(void)
{
    /* case A. 0: 1 (0,1); 1: 0 (0,2); 2: free; root 3; from order 0 1 to 1 0. In a relay, table, order and log lie in memory that
     * keeps its bytes when supply is lost. */
    uint8_t table[24] = {1, 0, 0, 0, 1, 0, 0, 0,
                         0, 0, 0, 0, 2, 0, 0, 0,
                         255, 0, 0, 0, 0, 0, 0, 0};
    uint8_t order[2] = {0, 1};
    uint8_t log[LOG_RECORDS * RELAY_LOG_RECORD_SIZE] = {0};
    const uint8_t roots[2] = {3, 0};
    const uint8_t target[2] = {1, 0};
    uint32_t answer[RELAY_RUN_NUMBERS];

    /* A swap that is cut in its last record: what it stores after that is taken back by hand, the clearing of the seal too. */
    relay_swap(table, sizeof table, roots, sizeof roots, order, sizeof order, log, sizeof log, 0, answer, RELAY_RUN_NUMBERS);
    table[20] = 0;
    order[0] = 0;
    order[1] = 1;
    log[sizeof log - RELAY_LOG_RECORD_SIZE] = RELAY_SEALED;

    /* supply is back */
    relay_recover(table, sizeof table, order, sizeof order, log, sizeof log,
                  answer, RELAY_RECOVER_NUMBERS);
    if (answer[0] != RELAY_PUT_BACK) {
        printf("refused %u place %u\n", (unsigned)answer[0], (unsigned)answer[1]);
        return 1; /* such a store isn't used: load it anew, with an empty log */
    }
    printf("put back %u entries: order %u %u\n",
           (unsigned)answer[1], (unsigned)order[0], (unsigned)order[1]);

    do {
        relay_run(table, sizeof table, roots, sizeof roots, order, sizeof order,
                  target, sizeof target, log, sizeof log, RELAY_BRING_UP, 8,
                  answer, RELAY_RUN_NUMBERS);
        /* the next protection pass goes here */
    } while (answer[0] == RELAY_PAUSED);

    if (answer[0] != RELAY_DONE) { /* no room, log short or refused */
        printf("answer %u\n", (unsigned)answer[0]);
        return 1;
    }
    printf("run done: order %u %u\n", (unsigned)order[0], (unsigned)order[1]);
    return 0;
}

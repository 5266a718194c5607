#include <stdio.h>
#include "relay.h"

/* Three records change in this swap, and the pair of levels: four entries and the seal. */
#define LOG_RECORDS 5u

int main(void)
{
    /* case A. 0: 1 (0,1); 1: 0 (0,2); 2: free; root 3; from order 0 1 to 1 0 */
    uint8_t table[24] = {1, 0, 0, 0, 1, 0, 0, 0,
                         0, 0, 0, 0, 2, 0, 0, 0,
                         255, 0, 0, 0, 0, 0, 0, 0};
    const uint8_t roots[2] = {3, 0};
    uint8_t order[2] = {0, 1};
    const uint8_t target[2] = {1, 0};
    uint8_t log[LOG_RECORDS * RELAY_LOG_RECORD_SIZE] = {0};
    uint32_t answer[RELAY_RUN_NUMBERS];

    relay_check(table, sizeof table, roots, sizeof roots, order, sizeof order, answer, RELAY_RUN_NUMBERS);
    if (answer[0] != RELAY_ACCEPTED) {
        printf("refused %u place %u\n", (unsigned)answer[0], (unsigned)answer[1]);
        return 1;
    }
    do {
        relay_run(table, sizeof table, roots, sizeof roots, order, sizeof order,
                  target, sizeof target, log, sizeof log, RELAY_BRING_UP, 8,
                  answer, RELAY_RUN_NUMBERS);
        /* the next protection pass goes here */
    } while (answer[0] == RELAY_PAUSED);

    if (answer[0] == RELAY_NO_ROOM) {
        printf("no room at level %u: needed %u, free %u\n",
               (unsigned)answer[3], (unsigned)answer[4], (unsigned)answer[5]);
        return 1;
    }
    if (answer[0] == RELAY_LOG_SHORT) {
        printf("log short at level %u: needed %u, held %u\n",
               (unsigned)answer[3], (unsigned)answer[4], (unsigned)answer[5]);
        return 1;
    }
    if (answer[0] != RELAY_DONE) { /* a refusal of the target or of the log, which relay_check hasn't seen */
        printf("refused %u place %u\n", (unsigned)answer[0], (unsigned)answer[1]);
        return 1;
    }
    printf("order %u %u\n", (unsigned)order[0], (unsigned)order[1]);
    return 0;
}

#include <stdio.h>
#include "relay.h"

int main(void)
{
    /* case A. 0: 1 (0,1); 1: 0 (0,2); 2: free; root 3; order 0 1 */
    const uint8_t table[24] = {1, 0, 0, 0, 1, 0, 0, 0,
                               0, 0, 0, 0, 2, 0, 0, 0,
                               255, 0, 0, 0, 0, 0, 0, 0};
    const uint8_t roots[2] = {3, 0};
    const uint8_t order[2] = {0, 1};
    uint32_t answer[RELAY_COUNT_NUMBERS];
    uint64_t count;
    double share;

    relay_count(table, sizeof table, roots, sizeof roots, order, sizeof order, 0,
                &count, 1, &share, 1, answer, RELAY_COUNT_NUMBERS);
    if (answer[0] != RELAY_COUNTED) {
        printf("refused %u place %u\n", (unsigned)answer[0], (unsigned)answer[1]);
        return 1;
    }
    printf("root 0: %llu of %llu combinations trip, share %.17g\n",
           (unsigned long long)count, 1ull << sizeof order, share);
    return 0;
}

#include <stdio.h>
#include "relay.h"

int main(void)
{
    /* the lists of example/: the factory names both inputs of case A, and the site has a name of its own for input 1 */
    const uint8_t site[RELAY_LABEL_SIZE] = "\001" "87G picked up\0";
    const uint8_t factory[2 * RELAY_LABEL_SIZE] = "\000" "52a closed\0\0\0\0\0"
                                                  "\001" "input 2\0\0\0\0\0\0\0";
    uint32_t answer[RELAY_LABEL_NUMBERS];

    for (uint32_t variable = 0; variable < 2; variable++) {
        relay_label(site, sizeof site, factory, sizeof factory, variable,
                    answer, RELAY_LABEL_NUMBERS);
        const uint8_t *list = answer[0] == RELAY_FACTORY_LABEL ? factory : site;
        printf("input %u: %.*s\n", (unsigned)variable, (int)answer[2], (const char *)list + answer[1]);
    }
    return 0;
}

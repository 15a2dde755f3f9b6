/*
 * milestarling_touches_memory over all values of the bits that it reads, 31 to 5, each with some register in the bits below:
 * the inline form says the same, both say it of as many words as Arm's table and the three dc have, and of every word that
 * the library doesn't answer with 2.
 */
#include <stdio.h>

#include "milestarling.h"

int main(void)
{
    uint32_t upper, count = 0;
    for (upper = 0; upper < 1u << 27; upper++) {
        const uint32_t word = upper << 5 | (upper * 2654435761u) >> 27;
        const uint64_t touches = milestarling_touches_memory(word);
        if (touches > 1 || (int)touches != milestarling_touches_memory_inline(word)) {
            printf("%08x: the function says %u\n", (unsigned)word, (unsigned)touches);
            return 1;
        }
        if (!touches && milestarling_classify(word) != MILESTARLING_NOT_IN_SET) {
            printf("%08x: taken, though it touches no memory\n", (unsigned)word);
            return 1;
        }
        count += (uint32_t)touches;
    }
    if (count != (1u << 25) + 3) {
        printf("%u words touch memory\n", (unsigned)count);
        return 1;
    }
    printf("whether a word touches memory: both forms say the same of all values of bits 31 to 5\n");
    return 0;
}

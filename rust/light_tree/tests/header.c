/*
 * What the header answers by itself, for tests/header.rs. Prints its version, the sentence of each refusal's number
 * from 0 on, as many as the argument says, and the draw of each case on standard input: words in hexadecimal, the
 * number m of weights, 3 m of bins, and u.
 */
#include <inttypes.h>
#include <stdio.h>
#include <stdlib.h>

#include "light_tree.h"

static uint32_t bins[LIGHT_BINS_RESERVE(LIGHT_MAX_LAMPS)];

int main(int count, char **words)
{
    const int sentences = count > 1 ? atoi(words[1]) : 0;
    printf("%d\n", LIGHT_VERSION);
    for (int i = 0; i < sentences; i++)
        puts(light_refusal_text((uint32_t)i));
    uint32_t m, u;
    while (scanf("%" SCNx32, &m) == 1 && m <= LIGHT_MAX_LAMPS) {
        for (size_t i = 0; i < light_bins_reserve(m); i++)
            if (scanf("%" SCNx32, &bins[i]) != 1)
                return 1;
        if (scanf("%" SCNx32, &u) != 1)
            return 1;
        printf("%016" PRIx64 "\n", light_alias_draw(bins, m, light_float(u)));
    }
    return 0;
}

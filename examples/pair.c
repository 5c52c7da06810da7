/*
 * Two lamps, at (0,0,0) and (2,0,0), shining alike in all directions, and a point between them,
 * (1,0,1): builds the tree, draws at u = 0.25 and 0.75, and asks for each drawn lamp's chance by its
 * handle. It prints a line a draw, the handle and the bits of both chances, and fails if a line is
 * not the known one.
 *
 *     tools/archives light_c
 *     cc -std=c99 -Iinclude examples/pair.c target/staticlib/liblight_c.a -o pair && ./pair
 *
 * or, where `tools/install PREFIX` put the library, with PKG_CONFIG_PATH=PREFIX/lib/pkgconfig
 *
 *     cc -std=c99 examples/pair.c $(pkg-config --cflags --libs light_tree) -o pair
 */
#include <stdio.h>
#include <stdlib.h>

#include "light_tree.h"

#define LAMPS 2

static void fail(const char *what, uint32_t number)
{
    fprintf(stderr, "%s: refused %u: %s\n", what, (unsigned)number, light_refusal_text(number));
    exit(1);
}

/* A lamp at a point, of power 1: about its direction (0,0,1) it shines every way, one-sided. */
static void put_row(uint32_t *row, uint32_t handle, float x, float y, float z)
{
    const float figures[] = {x, y, z, x, y, z, 0, 0, 1, 1, -1, 0};
    row[0] = handle;
    for (int i = 0; i < 12; i++)
        row[1 + i] = light_word(figures[i]);
    row[13] = 0;
}

int main(void)
{
    /* a renderer may have set its thread otherwise, and answers would not be the promised ones */
    if (!light_floats_ok()) {
        fputs("this thread's floats do not round to nearest, or flush small numbers to zero\n", stderr);
        return 1;
    }
    uint32_t block[LIGHT_BLOCK_WORDS(LAMPS)] = {LAMPS};
    put_row(block + 1, 0, 0, 0, 0);
    put_row(block + 1 + LIGHT_ROW_WORDS, 1, 2, 0, 0);

    uint32_t nodes[LIGHT_NODES_RESERVE(LAMPS)];
    uint32_t table[LIGHT_TABLE_RESERVE(LAMPS)];
    uint32_t work[LIGHT_WORK_RESERVE(LAMPS)];
    uint32_t answer[LIGHT_ANSWER_WORDS];
    uint32_t refused = light_build(LAMPS, block, LIGHT_BLOCK_WORDS(LAMPS),
                                   nodes, LIGHT_NODES_RESERVE(LAMPS),
                                   table, LIGHT_TABLE_RESERVE(LAMPS),
                                   work, LIGHT_WORK_RESERVE(LAMPS),
                                   answer, LIGHT_ANSWER_WORDS);
    if (refused)
        fail("build", refused);

    /* draws read the tree as bytes: 2k - 1 nodes for k powered lamps */
    const uint8_t *tree = (const uint8_t *)nodes;
    const size_t tree_len = light_tree_bytes(answer[0]);
    static const char *const known[] = {"0 3f000000 3f000000", "1 3f000000 3f000000"};
    static const float us[] = {0.25f, 0.75f};
    for (int i = 0; i < 2; i++) {
        uint64_t draw = light_sample(tree, tree_len, 1, 0, 1, 0, 0, 0, us[i]);
        if (light_is_none(draw)) {
            puts("none");
            return 1;
        }
        if (!light_is_drawn(draw))
            fail("draw", light_refusal(draw));
        uint32_t handle = light_handle(draw);
        uint64_t named = light_pmf(tree, tree_len, (const uint8_t *)table, sizeof table,
                                   1, 0, 1, 0, 0, 0, handle);
        if (light_pmf_refusal(named))
            fail("chance", light_pmf_refusal(named));

        char line[40];
        snprintf(line, sizeof line, "%u %08x %08x", (unsigned)handle,
                 (unsigned)light_word(light_chance(draw)), (unsigned)light_word(light_chance(named)));
        puts(line);
        if (strcmp(line, known[i]) != 0) {
            fprintf(stderr, "it should be: %s\n", known[i]);
            return 1;
        }
    }
    return 0;
}

/*
 * Every call of light_tree.h: what it answers and writes on small inputs, what a refusal leaves, how
 * answers are taken apart, what the header tells of chances and sizes, as many lamps as there may be
 * and one more, and that an empty slice may have any pointer. Prints each line that does not hold; the
 * last line counts them.
 */
#include <stdio.h>

#include "light_tree.h"

static int held = 0, failed = 0;

static void hold(bool holds, const char *what, int line)
{
    if (holds) {
        held++;
    } else {
        failed++;
        printf("calls.c:%d: does not hold: %s\n", line, what);
    }
}

#define HOLDS(what) hold((what), #what, __LINE__)
#define WORDS(a) (a), sizeof(a) / sizeof *(a)
#define BYTES(a) (const uint8_t *)(a), sizeof(a)
#define POINT 0, 0, 1
#define NO_NORMAL 0, 0, 0
#define NO_BOX 0, 0, 0, 0, 0, 0, 0

static bool all_are(const uint32_t *words, size_t count, uint32_t word)
{
    while (count > 0 && words[count - 1] == word)
        count--;
    return count == 0;
}

/* A size is that of its macro, and its argument is evaluated once. */
static void sizes(void)
{
    size_t i = 0;
    HOLDS(light_nodes(i++) == 0 && i == 1 && light_nodes(i++) == 1 && i == 2 && light_tree_bytes(i++) == 192 && i == 3);
    HOLDS(light_group_words(i++) == LIGHT_GROUP_WORDS(3) && light_block_words(i++) == LIGHT_BLOCK_WORDS(4) && i == 5);
    HOLDS(light_nodes_reserve(i++) == LIGHT_NODES_RESERVE(5) && i == 6 && light_nodes_reserve(0) == LIGHT_NODES_RESERVE(0));
    HOLDS(light_table_reserve(i++) == LIGHT_TABLE_RESERVE(6) && light_work_reserve(i++) == LIGHT_WORK_RESERVE(7) && i == 8);
    HOLDS(light_packed_words(i++) == LIGHT_PACKED_WORDS(8) && light_packed_words(0) == LIGHT_PACKED_WORDS(0) && i == 9);
    HOLDS(light_packed_bytes(i++) == LIGHT_PACKED_BYTES(9) && light_packed_bytes(0) == 0 && i == 10);
    HOLDS(light_bins_reserve(i++) == LIGHT_BINS_RESERVE(10) && light_alias_work_reserve(i++) == LIGHT_ALIAS_WORK_RESERVE(11));
    HOLDS(LIGHT_NODES_RESERVE(LIGHT_MAX_LAMPS) == LIGHT_NODE_WORDS * (size_t)LIGHT_MAX_NODES && i == 12);
}

/* A row of a lamp at a point, of power phi: about its direction (0,0,1) it shines every way, one-sided. */
static void put_row(uint32_t *row, uint32_t handle, float x, float phi)
{
    const float figures[] = {x, 0, 0, x, 0, 0, 0, 0, 1, phi, -1, 0};
    row[0] = handle;
    for (int i = 0; i < 12; i++)
        row[1 + i] = light_word(figures[i]);
    row[13] = 0;
}

/* The library is this header's; every refusal has a sentence, and no two the same. */
static void versions_and_sentences(void)
{
    HOLDS(light_version() == LIGHT_VERSION);
    for (uint32_t i = 0; i <= LIGHT_TOO_WIDE + 1; i++)
        for (uint32_t j = 0; j < i; j++)
            HOLDS(strlen(light_refusal_text(i)) > 15 && strcmp(light_refusal_text(i), light_refusal_text(j)) != 0);
    HOLDS(strcmp(light_refusal_text(LIGHT_BAD_U), "u is not a number from 0 to 1") == 0);
    HOLDS(strcmp(light_refusal_text(1000), light_refusal_text(UINT32_MAX)) == 0);
}

/* Whether floats are in their first state with these bits of MXCSR changed, which are then changed back. */
static bool floats_ok_with(unsigned changed)
{
    const unsigned first = __builtin_ia32_stmxcsr();
    __builtin_ia32_ldmxcsr(first ^ changed);
    const bool ok = light_floats_ok();
    __builtin_ia32_ldmxcsr(first);
    return ok;
}

/* Flush to zero, denormals are zero, and each other rounding are told; a flag that a sum left is nothing. */
static void floats(void)
{
    HOLDS(floats_ok_with(0) && floats_ok_with(1 << 5));
    HOLDS(!floats_ok_with(1 << 15) && !floats_ok_with(1 << 6));
    HOLDS(!floats_ok_with(1 << 13) && !floats_ok_with(2 << 13) && !floats_ok_with(3 << 13) && light_floats_ok());
}

static void lists(void)
{
    const uint32_t one = light_word(1), four_pi = 0x41490fdb, behind = 0x5eed5eed;
    const uint32_t list[1 + LIGHT_POINT_WORDS + LIGHT_GROUP_WORDS(1)] = {
        2, LIGHT_POINT(0), 0, 0, 0, one, one,                                        /* position, intensity, scale */
        LIGHT_GROUP(1), one, one, 1, 1, 0, 0, 0, one, 0, 0, 0, one, 0, one, 0, 0, one /* both sides, one triangle */
    };
    const uint32_t point_row[] = {0, 0, 0, 0, 0, 0, 0, 0, 0, one, four_pi, light_word(-1), 0xb33bbd2e, 0};
    uint32_t block[LIGHT_BLOCK_WORDS(2) + 1];
    block[LIGHT_BLOCK_WORDS(2)] = behind;
    HOLDS(light_bounds_block(WORDS(list), WORDS(block)) == 0);
    HOLDS(block[0] == 2 && memcmp(block + 1, point_row, sizeof point_row) == 0);
    HOLDS(block[1 + LIGHT_ROW_WORDS] == 1 && block[LIGHT_BLOCK_WORDS(2) - 1] == 1);
    HOLDS(block[LIGHT_BLOCK_WORDS(2)] == behind);

    /* a slice one word short is left as it was; a lamp that is refused zeroes the reserve */
    block[0] = behind;
    HOLDS(light_bounds_block(WORDS(list), block, LIGHT_BLOCK_WORDS(2) - 1) == LIGHT_SHORT_TRAY && block[0] == behind);
    uint32_t no_scale[1 + LIGHT_POINT_WORDS] = {1, LIGHT_POINT(0), 0, 0, 0, one, light_word(-1)};
    HOLDS(light_bounds_block(WORDS(no_scale), WORDS(block)) == LIGHT_OUT_OF_RANGE);
    HOLDS(all_are(block, LIGHT_BLOCK_WORDS(1), 0) && block[LIGHT_BLOCK_WORDS(1)] != 0);
}

/* Packs a tree with k and the box of build's answer. */
static uint64_t pack(const uint8_t *tree, size_t tree_len, const uint32_t *answer, uint8_t *out, size_t out_len)
{
    float box[6];
    for (int i = 0; i < 6; i++)
        box[i] = light_float(answer[1 + i]);
    return light_pack(tree, tree_len, answer[0], answer[0] != 0, box[0], box[1], box[2], box[3], box[4], box[5], out, out_len);
}

static void trees(void)
{
    const uint32_t one = light_word(1), two = light_word(2), minus_one = light_word(-1);
    const uint32_t block[LIGHT_BLOCK_WORDS(3)] = {
        3, 0, 0, 0, 0, 0, 0, 0, 0, 0, one, one, minus_one, 0, 0, /* powered, at (0,0,0) */
        1, two, 0, 0, two, 0, 0, 0, 0, one, one, minus_one, 0, 0, /* powered, at (2,0,0) */
        2, one, 0, 0, one, 0, 0, 0, 0, one, 0, minus_one, 0, 0,   /* not powered */
    };
    uint32_t nodes[LIGHT_NODES_RESERVE(3)], table[LIGHT_TABLE_RESERVE(3)], work[LIGHT_WORK_RESERVE(3)], answer[LIGHT_ANSWER_WORDS];
    HOLDS(light_build(3, WORDS(block), WORDS(nodes), WORDS(table), WORDS(work), WORDS(answer)) == 0);
    const uint32_t box[] = {0, 0, 0, two, 0, 0};
    const size_t k = answer[0], tree_len = light_tree_bytes(k);
    const uint8_t *tree = (const uint8_t *)nodes;
    HOLDS(k == 2 && memcmp(answer + 1, box, sizeof box) == 0);
    HOLDS(light_nodes(k) == 3 && all_are(nodes + 16 * 3, 16 * 2, 0) && all_are(work, LIGHT_WORK_RESERVE(3), 0));
    HOLDS(nodes[0] == 0x80000001 && nodes[1] == 2 && nodes[2] == LIGHT_NO_INDEX);
    HOLDS(table[0] == 1 && table[1] == 2 && table[2] == LIGHT_NO_INDEX);

    /* the answer is lent too: short it is refused, and left; a refusal behind the lengths zeroes it, not the word behind */
    HOLDS(light_build(2, WORDS(block), WORDS(nodes), WORDS(table), WORDS(work), WORDS(answer)) == LIGHT_RAGGED && answer[0] == 2);
    for (size_t len = 0; len < LIGHT_ANSWER_WORDS; len++)
        HOLDS(light_build(3, WORDS(block), WORDS(nodes), WORDS(table), WORDS(work), answer, len) == LIGHT_SHORT_TRAY && answer[0] == 2);
    uint32_t bad[LIGHT_BLOCK_WORDS(1)] = {1}, longer[LIGHT_ANSWER_WORDS + 1] = {7, 7, 7, 7, 7, 7, 7, 7};
    put_row(bad + 1, 0, 0, -1);
    HOLDS(light_build(1, WORDS(bad), nodes + 16 * 3, 16 * 2, work, 1, work + 1, 2, WORDS(longer)) == LIGHT_OUT_OF_RANGE);
    HOLDS(all_are(longer, LIGHT_ANSWER_WORDS, 0) && longer[LIGHT_ANSWER_WORDS] == 7);

    uint64_t draw = light_sample(tree, tree_len, 1, 0, 1, NO_NORMAL, 1);
    HOLDS(light_is_drawn(draw) && !light_is_none(draw) && light_refusal(draw) == 0);
    HOLDS(light_handle(draw) == 1 && light_chance(draw) == 0.5f);
    draw = light_sample(tree, tree_len, 1, 0, 1, NO_NORMAL, 1.5f);
    HOLDS(light_refusal(draw) == LIGHT_BAD_U && !light_is_drawn(draw) && !light_is_none(draw));
    draw = light_sample(tree, 0, 1, 0, 1, NO_NORMAL, 0.5f);
    HOLDS(light_is_none(draw) && !light_is_drawn(draw) && light_refusal(draw) == 0);

    HOLDS(light_chance(light_pmf(tree, tree_len, BYTES(table), 1, 0, 1, NO_NORMAL, 0)) == 0.5f);
    HOLDS(light_pmf(tree, tree_len, BYTES(table), 1, 0, 1, NO_NORMAL, 2) == 0);
    HOLDS(light_pmf(tree, tree_len, BYTES(table), 1, 0, 1, NO_NORMAL, 3) == 0);
    HOLDS(light_pmf_refusal(light_pmf(tree, tree_len - 1, BYTES(table), 1, 0, 1, NO_NORMAL, 0)) == LIGHT_RAGGED);

    uint32_t packed[LIGHT_PACKED_WORDS(3) + 1] = {7, [LIGHT_PACKED_WORDS(3)] = 7};
    const uint32_t lamp_1[] = {0x0000ffff, 0xffff0000, 0, 0x80008000, 0x3f800000, 0x1fff8000, 0x80000001, 0};
    uint64_t answered = pack(tree, tree_len, answer, (uint8_t *)packed, LIGHT_PACKED_BYTES(3) - 1);
    HOLDS(light_pack_refusal(answered) == LIGHT_SHORT_TRAY && light_pack_words(answered) == 0 && packed[0] == 7);
    answered = pack(tree, tree_len, answer, (uint8_t *)packed, sizeof packed);
    HOLDS(light_pack_words(answered) == LIGHT_PACKED_WORDS(3) && light_pack_refusal(answered) == 0 && !light_pack_is_none(answered));
    HOLDS(memcmp(packed, box, 12) == 0 && packed[3] == 0 && memcmp(packed + 4, box + 3, 12) == 0 && packed[7] == 0);
    HOLDS(memcmp(packed + 8 + 8 * 2, lamp_1, sizeof lamp_1) == 0 && packed[LIGHT_PACKED_WORDS(3)] == 7);
    answered = light_pack(tree, 0, 0, NO_BOX, (uint8_t *)packed, sizeof packed);
    HOLDS(light_pack_is_none(answered) && light_pack_words(answered) == 0 && light_pack_refusal(answered) == 0);
    HOLDS(light_pack_refusal(light_pack(tree, tree_len, k, NO_BOX, (uint8_t *)packed, sizeof packed)) == LIGHT_BROKEN_TREE);
    HOLDS(all_are(packed, LIGHT_PACKED_WORDS(3), 0) && packed[LIGHT_PACKED_WORDS(3)] == 7);
}

/* A draw by u from two lamps of these powers, at (0,0,0) and (2,0,0), and the chance of lamp 1 by name. */
static void draw_two(uint32_t phi_0, uint32_t phi_1, float x, float z, float u, uint64_t *draw, uint64_t *named)
{
    uint32_t block[LIGHT_BLOCK_WORDS(2)] = {2};
    put_row(block + 1, 0, 0, light_float(phi_0));
    put_row(block + 1 + LIGHT_ROW_WORDS, 1, 2, light_float(phi_1));
    uint32_t nodes[LIGHT_NODES_RESERVE(2)], table[LIGHT_TABLE_RESERVE(2)], work[LIGHT_WORK_RESERVE(2)], answer[LIGHT_ANSWER_WORDS];
    HOLDS(light_build(2, WORDS(block), WORDS(nodes), WORDS(table), WORDS(work), WORDS(answer)) == 0);
    *draw = light_sample(BYTES(nodes), x, 0, z, NO_NORMAL, u);
    *named = light_pmf(BYTES(nodes), BYTES(table), x, 0, z, NO_NORMAL, 1);
}

/* The chances that the header tells of, as lamp 1's: where weights overflow, and where its share is tiny. */
static void told_chances(void)
{
    const uint32_t one = light_word(1), huge = 0x7f61b1e6;
    const uint64_t lamp_1 = UINT64_C(1) << 32;
    uint64_t draw, named;
    draw_two(huge, one, 0, 0.001f, 0.5f, &draw, &named);
    HOLDS(draw == (lamp_1 | 0x7fc00000) && named == 0);
    draw_two(huge, huge, 1, 0, 0.5f, &draw, &named);
    HOLDS(draw == (lamp_1 | 0x3f800000) && named == 0);
    draw_two(one, light_word(6e-8f), 1, 1, 1, &draw, &named);
    HOLDS(draw == (lamp_1 | 0x34000000) && named == 0x3380d958);
}

/* 4,096 lamps are taken, 4,097 records are not. And without a powered lamp no node is handed on: the whole tray is refused. */
static void limits(void)
{
    enum { MOST = LIGHT_MAX_LAMPS, OVER = LIGHT_MAX_LAMPS + 1 };
    static uint32_t block[LIGHT_BLOCK_WORDS(OVER)], nodes[LIGHT_NODES_RESERVE(OVER)];
    static uint32_t table[LIGHT_TABLE_RESERVE(OVER)], work[LIGHT_WORK_RESERVE(OVER)];
    uint32_t answer[LIGHT_ANSWER_WORDS] = {7};
    for (uint32_t i = 0; i < OVER; i++)
        put_row(block + 1 + LIGHT_ROW_WORDS * i, i, (float)i, 1);
    block[0] = nodes[0] = OVER;
    HOLDS(light_build(OVER, WORDS(block), WORDS(nodes), WORDS(table), WORDS(work), WORDS(answer)) == LIGHT_CROWDED);
    HOLDS(nodes[0] == OVER && answer[0] == 7);
    block[0] = MOST;
    HOLDS(light_build(MOST, block, LIGHT_BLOCK_WORDS(MOST), WORDS(nodes), WORDS(table), WORDS(work), WORDS(answer)) == 0);
    HOLDS(answer[0] == MOST && nodes[0] == 0x80000001 && table[MOST - 1] == LIGHT_MAX_NODES - 1);

    uint32_t dark[LIGHT_BLOCK_WORDS(2)] = {2};
    put_row(dark + 1, 0, 0, 0);
    put_row(dark + 1 + LIGHT_ROW_WORDS, 1, 2, 0);
    HOLDS(light_build(2, WORDS(dark), nodes, LIGHT_NODES_RESERVE(2), WORDS(table), WORDS(work), WORDS(answer)) == 0 && answer[0] == 0);
    const uint8_t *tree = (const uint8_t *)nodes;
    HOLDS(light_is_none(light_sample(tree, light_tree_bytes(answer[0]), POINT, NO_NORMAL, 0.5f)));
    HOLDS(light_refusal(light_sample(tree, light_tree_bytes(2), POINT, NO_NORMAL, 0.5f)) == LIGHT_BROKEN_TREE);
}

/* Draws from the bins of the weights 1 and 3. */
static void alias_draws(const uint32_t *bins)
{
    const uint64_t first = 0x3e800000, second = UINT64_C(1) << 32 | 0x3f400000;
    HOLDS(light_alias_draw(bins, 2, 0) == first && light_alias_draw(bins, 2, -0.0f) == first);
    HOLDS(light_alias_draw(bins, 2, light_float(0x3e7fffff)) == first && light_alias_draw(bins, 2, 0.25f) == second);
    HOLDS(light_alias_draw(bins, 2, 0.5f) == second && light_alias_draw(bins, 2, 1) == second);
    HOLDS(light_handle(second) == 1 && light_chance(second) == 0.75f && light_is_drawn(second));
    const uint32_t wrong[] = {0x3f800001, 0x80000001, 0x7fc00000, 0x7f800000, 0xff800000};
    for (size_t i = 0; i < 5; i++)
        HOLDS(light_refusal(light_alias_draw(bins, 2, light_float(wrong[i]))) == LIGHT_BAD_U);
    HOLDS(light_is_none(light_alias_draw(bins, 0, 0.5f)) && light_refusal(light_alias_draw(bins, 0, 2)) == LIGHT_BAD_U);
}

static void alias_tables(void)
{
    const uint32_t weights[] = {light_word(1), light_word(3)};
    const uint32_t known[] = {light_word(0.5f), light_word(0.25f), 1, light_word(1), light_word(0.75f), LIGHT_NO_INDEX};
    uint32_t bins[LIGHT_BINS_RESERVE(2)], work[LIGHT_ALIAS_WORK_RESERVE(2)];
    HOLDS(light_alias_table(WORDS(weights), WORDS(bins), WORDS(work)) == 0);
    HOLDS(memcmp(bins, known, sizeof known) == 0 && all_are(work, LIGHT_ALIAS_WORK_RESERVE(2), 0));
    HOLDS(light_alias_table(WORDS(weights), WORDS(bins), work, LIGHT_ALIAS_WORK_RESERVE(2) - 1) == LIGHT_SHORT_TRAY);
    alias_draws(bins);

    /* a sum past the largest float: each p is 0, each q 1 */
    const uint32_t largest[] = {0x7f7fffff, 0x7f7fffff}, alike[] = {light_word(1), 0, LIGHT_NO_INDEX};
    HOLDS(light_alias_table(WORDS(largest), WORDS(bins), WORDS(work)) == 0);
    HOLDS(memcmp(bins, alike, sizeof alike) == 0 && memcmp(bins + LIGHT_BIN_WORDS, alike, sizeof alike) == 0);
}

/* NULL, one that is not aligned, one that points at nothing */
static void empty_slices(void *any)
{
    uint32_t *words = (uint32_t *)any;
    uint8_t *bytes = (uint8_t *)any;
    const uint32_t none = 0;
    uint32_t answer[LIGHT_ANSWER_WORDS];
    HOLDS(light_bounds_block(words, 0, words, 0) == LIGHT_RAGGED);
    HOLDS(light_bounds_block(&none, 1, words, 0) == LIGHT_SHORT_TRAY);
    HOLDS(light_build(0, words, 0, words, 0, words, 0, words, 0, words, 0) == LIGHT_RAGGED);
    HOLDS(light_build(0, &none, 1, words, 0, words, 0, words, 0, words, 0) == LIGHT_SHORT_TRAY);
    HOLDS(light_build(0, &none, 1, words, 0, words, 0, words, 0, WORDS(answer)) == 0 && all_are(WORDS(answer), 0));
    HOLDS(light_is_none(light_sample(bytes, 0, POINT, NO_NORMAL, 0.5f)));
    HOLDS(light_pmf(bytes, 0, bytes, 0, POINT, NO_NORMAL, 0) == 0);
    HOLDS(light_pack_is_none(light_pack(bytes, 0, 0, NO_BOX, bytes, 0)));
    HOLDS(light_alias_table(words, 0, words, 0, words, 0) == 0);
}

int main(void)
{
    sizes();
    versions_and_sentences();
    floats();
    lists();
    trees();
    told_chances();
    limits();
    alias_tables();
    empty_slices(NULL);
    empty_slices((void *)(uintptr_t)1);
    empty_slices((void *)UINTPTR_MAX);
    printf("%d passed, %d failed\n", held, failed);
    return failed != 0;
}

/*
 * A light tree: which lamp a point looks at, and with which chance.
 *
 * liblight_c, an archive or a shared library, holds seven functions, for x86-64 Linux; link it with
 * nothing but the C library:
 *
 *     light_bounds_block   a list of lamps to a block of bounds records, one a lamp
 *     light_build          a block to a tree: its nodes, and a table from lamps to leaves
 *     light_sample         draws a lamp for a point
 *     light_pmf            the chance of one lamp by its handle
 *     light_pack           a tree to the words that a graphics card is given
 *     light_alias_table    weights to an alias table, for draws by power alone
 *     light_version        the library's version
 *
 * Each is proved to answer, for every input, what a written definition says, bit for bit; the
 * comments below tell it in words. examples/pair.c is a whole program.
 *
 * WORDS. A word is a uint32_t. A figure in a word is a float's bits (light_word, light_float). A
 * lamp's handle is its place in the list or block, from 0 on. LIGHT_NO_INDEX stands for "none".
 *
 * SLICES. Every slice is two arguments, a pointer and the length behind it.
 *   - `uint32_t *` slices are WORDS: the length counts words, and the pointer is aligned to 4.
 *   - `uint8_t *` slices are BYTES: the length counts bytes, at any alignment. They hold words,
 *     the lowest byte first, so the words that light_build writes are lent as they stand:
 *     (const uint8_t *)nodes, light_tree_bytes(k).
 *   - Of an empty slice, length 0, nothing is read or written, and the pointer may be anything
 *     that was set: NULL, one that dangles, one that is not aligned.
 *   - A slice that is not const is lent for writing and overlaps no other slice of the call.
 *
 * WHAT IS WRITTEN. Each slice that is lent for writing has a reserve, a number of words from its
 * front on; the slice may be longer. Nothing behind the reserve is ever changed. In the reserve:
 *   - an accepted call writes what it has to say, and zeroes what it does not use, work included;
 *   - refusals 1 to 4 change nothing;
 *   - later refusals zero the whole reserve.
 *
 * A refusal carries its number alone (enum light_refusals); light_refusal_text has its sentence. Of
 * several that hold the one given is the first of 2, 1, 4, 3; the others come behind these, in the
 * order of the work.
 *
 * THREADS AND FLOATS. No function keeps anything between calls or allocates, so any number of
 * threads may draw from one tree. Floats must be in the state that a C program starts in: rounding
 * to nearest, and neither "flush to zero" nor "denormals are zero" set in the calling thread
 * (a renderer may set both), else answers are not the promised ones. light_floats_ok tells.
 *
 * STACK. light_build calls itself, 288 bytes for each fork on the way down, so m lamps take at most
 * 288 m bytes: under 1.2 MB for 4,096 of them. Besides, it and the others take under 5 KB.
 */
#ifndef LIGHT_TREE_H
#define LIGHT_TREE_H

#include <stdbool.h>
#include <stddef.h>
#include <stdint.h>
#include <string.h>

#ifdef __cplusplus
extern "C" {
#endif

/* ---- version */

/* Libraries that are alike in major and minor have the same functions and layouts. */
#define LIGHT_VERSION_MAJOR 0
#define LIGHT_VERSION_MINOR 1
#define LIGHT_VERSION_PATCH 0
#define LIGHT_VERSION (10000 * LIGHT_VERSION_MAJOR + 100 * LIGHT_VERSION_MINOR + LIGHT_VERSION_PATCH)

/*
 * The version of the library that is linked, as LIGHT_VERSION tells that of this header. Who loads the
 * shared library by hand compares both, each divided by 100.
 */
uint32_t light_version(void);

/* ---- refusals */

enum light_refusals {
    /* a length or layout is wrong, a kind or side unknown, or lights and records differ in
       number */
    LIGHT_RAGGED = 1,
    /* over 4,096 lamps (columns: 512), weights or table words, 8,191 nodes, or 2^20 words */
    LIGHT_CROWDED = 2,
    /* a slice that is lent for output or for work is shorter than its reserve */
    LIGHT_SHORT_TRAY = 3,
    /* a handle is not its lamp's place */
    LIGHT_MISPLACED = 4,
    /* a coordinate or a value of a record is infinite or NaN, such as a power that overflows */
    LIGHT_NOT_FINITE = 5,
    /* a box has a min above its max */
    LIGHT_INVERTED = 6,
    /* a direction, normal or way from a box's centre to the point has no length to divide by */
    LIGHT_NO_DIRECTION = 7,
    /* an emission, intensity, scale, weight, power or cosine is out of its range */
    LIGHT_OUT_OF_RANGE = 8,
    /* a triangle's area is not a finite number above 0, or a group has no triangle */
    LIGHT_NO_AREA = 9,
    /* bounds of lamps or triangles cannot be joined, since some fail their check */
    LIGHT_LOST_UNION = 10,
    /* u is not a number from 0 to 1 */
    LIGHT_BAD_U = 11,
    /* the nodes are no tree (wrong kind, side, index or child, endless walk), or k or box
       differs */
    LIGHT_BROKEN_TREE = 12,
    /* a packed handle or child is above 2^31 - 1 */
    LIGHT_TOO_WIDE = 13
};

/* The sentence of a refusal's number: ASCII, of one line, without a full stop. */
static inline const char *light_refusal_text(uint32_t number)
{
    switch (number) {
    case 1: return "a length or layout is wrong, a kind or side unknown, or lights and records differ in number";
    case 2: return "over 4,096 lamps (columns: 512), weights or table words, 8,191 nodes, or 2^20 words";
    case 3: return "a slice that is lent for output or for work is shorter than its reserve";
    case 4: return "a handle is not its lamp's place";
    case 5: return "a coordinate or a value of a record is infinite or NaN, such as a power that overflows";
    case 6: return "a box has a min above its max";
    case 7: return "a direction, normal or way from a box's centre to the point has no length to divide by";
    case 8: return "an emission, intensity, scale, weight, power or cosine is out of its range";
    case 9: return "a triangle's area is not a finite number above 0, or a group has no triangle";
    case 10: return "bounds of lamps or triangles cannot be joined, since some fail their check";
    case 11: return "u is not a number from 0 to 1";
    case 12: return "the nodes are no tree (wrong kind, side, index or child, endless walk), or k or box differs";
    case 13: return "a packed handle or child is above 2^31 - 1";
    }
    if (number == 0)
        return "it is not refused";
    return "a reason that light_tree.h does not know: its library is of another version";
}

/* ---- limits and sizes; m is a number of lamps or weights, k of powered lamps, n of nodes */

#define LIGHT_MAX_LAMPS 4096
#define LIGHT_MAX_NODES 8191
#define LIGHT_MAX_WORDS 0x100000
#define LIGHT_NO_INDEX UINT32_C(0xffffffff)

/* The words of a lamp in a list, its head counted, and of a triangle in a group. */
#define LIGHT_POINT_WORDS 6
#define LIGHT_SPOT_WORDS 11
#define LIGHT_TRIANGLE_WORDS 13

/* The words of a bounds record, of a row of a block, of a node, of build's answer, of a bin. */
#define LIGHT_RECORD_WORDS 13
#define LIGHT_ROW_WORDS (1 + LIGHT_RECORD_WORDS)
#define LIGHT_NODE_WORDS 16
#define LIGHT_NODE_BYTES (4 * LIGHT_NODE_WORDS)
#define LIGHT_ANSWER_WORDS 7
#define LIGHT_BIN_WORDS 3

/* The words of a packed tree's header and of a packed node (packed_bvh HEADER_WORDS, NODE_WORDS). */
#define LIGHT_PACKED_HEADER_WORDS 8
#define LIGHT_PACKED_NODE_WORDS 8

/*
 * For the sizes of arrays, where a constant is needed: macros, some of which evaluate their argument
 * twice. Elsewhere call the functions below, whose names are the same in small letters.
 */
#define LIGHT_GROUP_WORDS(triangles) (5 + LIGHT_TRIANGLE_WORDS * (size_t)(triangles))
#define LIGHT_BLOCK_WORDS(m) (1 + LIGHT_ROW_WORDS * (size_t)(m))
#define LIGHT_NODES_RESERVE(m) ((m) == 0 ? (size_t)0 : LIGHT_NODE_WORDS * (2 * (size_t)(m) - 1))
#define LIGHT_TABLE_RESERVE(m) ((size_t)(m))
#define LIGHT_WORK_RESERVE(m) (2 * (size_t)(m))
#define LIGHT_PACKED_WORDS(n) \
    ((n) == 0 ? (size_t)0 : LIGHT_PACKED_HEADER_WORDS + LIGHT_PACKED_NODE_WORDS * (size_t)(n))
#define LIGHT_PACKED_BYTES(n) (4 * LIGHT_PACKED_WORDS(n))
#define LIGHT_BINS_RESERVE(m) (LIGHT_BIN_WORDS * (size_t)(m))
#define LIGHT_ALIAS_WORK_RESERVE(m) (4 * (size_t)(m))

/* The words of a group of so many triangles in a list, its head counted. */
static inline size_t light_group_words(size_t triangles)
{
    return LIGHT_GROUP_WORDS(triangles);
}

/* The words of a block of m lamps. */
static inline size_t light_block_words(size_t m)
{
    return LIGHT_BLOCK_WORDS(m);
}

/* A tree of k powered lamps has 2k - 1 nodes, none for none. */
static inline size_t light_nodes(size_t k)
{
    return k == 0 ? 0 : 2 * k - 1;
}

/* The bytes of these nodes, as draws, chances and packing take them. */
static inline size_t light_tree_bytes(size_t k)
{
    return LIGHT_NODE_BYTES * light_nodes(k);
}

/* The reserves of light_build for m lamps, in words. */
static inline size_t light_nodes_reserve(size_t m)
{
    return LIGHT_NODES_RESERVE(m);
}

static inline size_t light_table_reserve(size_t m)
{
    return LIGHT_TABLE_RESERVE(m);
}

static inline size_t light_work_reserve(size_t m)
{
    return LIGHT_WORK_RESERVE(m);
}

/* A packed tree of n nodes; the reserve of light_pack, in words and in bytes. */
static inline size_t light_packed_words(size_t n)
{
    return LIGHT_PACKED_WORDS(n);
}

static inline size_t light_packed_bytes(size_t n)
{
    return LIGHT_PACKED_BYTES(n);
}

/* The reserves of light_alias_table for m weights, in words. */
static inline size_t light_bins_reserve(size_t m)
{
    return LIGHT_BINS_RESERVE(m);
}

static inline size_t light_alias_work_reserve(size_t m)
{
    return LIGHT_ALIAS_WORK_RESERVE(m);
}

/* The heads of lamps in a list; macros, for constant lists. They evaluate their argument once. */
#define LIGHT_POINT(handle) (UINT32_C(0x40000000) | (uint32_t)(handle))
#define LIGHT_SPOT(handle) (UINT32_C(0x80000000) | (uint32_t)(handle))
#define LIGHT_GROUP(handle) (UINT32_C(0xc0000000) | (uint32_t)(handle))

/* ---- floats as words */

static inline uint32_t light_word(float x)
{
    uint32_t word;
    memcpy(&word, &x, sizeof word);
    return word;
}

static inline float light_float(uint32_t word)
{
    float x;
    memcpy(&x, &word, sizeof x);
    return x;
}

/*
 * Whether the calling thread's floats are in the state that answers are promised for: rounding to
 * nearest (bits 13 and 14 of MXCSR), no "flush to zero" (bit 15), no "denormals are zero" (bit 6).
 */
static inline bool light_floats_ok(void)
{
    return (__builtin_ia32_stmxcsr() & 0xe040) == 0;
}

/* ---- a list of lamps to a block */

/*
 * Writes the bounds block of a lamp list.
 *
 * Takes `list`, words. Word 0 is the number m of lamps; then the lamps, one behind the other, and
 * nothing behind the last. The list of no lamps is the one word 0. A lamp is, figures as floats'
 * bits unless said:
 *
 *     LIGHT_POINT(i)   position 3, intensity, scale
 *     LIGHT_SPOT(i)    position 3, direction 3, intensity, scale, cosine of the angle where the
 *                      falloff starts, cosine of the angle where it ends
 *     LIGHT_GROUP(i)   emission, scale, sides (a whole number: 0 one, 1 both shine), the number of
 *                      triangles (a whole number), and for each triangle three corners of 3, its
 *                      area, its normal 3
 *
 * where i is the lamp's place, from 0 on. Intensity, emission and scale are finite and not below 0.
 *
 * Answers 0, or the refusal's number: 2, 1, 4, 3, then by the first lamp that is refused 5, 7, 8, 9
 * or 10.
 *
 * Writes `block`, words, of which light_block_words(m) are its reserve: m, then a row of
 * LIGHT_ROW_WORDS for each lamp, in the list's order. A row is the handle and a record:
 *
 *     handle | box min 3, max 3 | direction 3 | power phi | cos_theta_o, cos_theta_e | sides
 *
 * The lamp shines within an angle about the direction whose cosine is cos_theta_o, and fades within
 * another angle outside of it, whose cosine is cos_theta_e; sides is 0 or 1, the others floats' bits.
 *
 * Leaves `block` as it was on refusals 1 to 4; zeroes the reserve on later ones.
 */
uint32_t light_bounds_block(const uint32_t *list, size_t list_len, uint32_t *block, size_t block_len);

/* ---- a block to a tree */

/*
 * Builds the tree of a block.
 *
 * Takes `lights`, the number of the caller's light records, which must be the block's m; and
 * `block`, words, exactly light_block_words(m) of them, laid out as light_bounds_block writes them
 * or filled in by the caller. Each record's box and figures are finite, min is not above max, the
 * direction has a length, phi is not below 0, both cosines lie from -1 to 1. A lamp is powered where
 * its phi is above 0; k of the m lamps are.
 *
 * Answers 0, or the refusal's number: 2, 1, 4, 3, then by the first record that fails its check 5,
 * 6, 7 or 8, then 10.
 *
 * Writes `nodes`, words, reserve light_nodes_reserve(m): light_nodes(k) nodes of LIGHT_NODE_WORDS,
 * the root first, a left child right behind its parent; and zeros behind them. A node is
 *
 *     head | right child | parent | record of 13 words
 *
 * The head's top two bits are 01 at a leaf, with the handle below, and 10 at a fork, with the left
 * child's place below. A leaf's right child and the root's parent are LIGHT_NO_INDEX.
 *
 * Writes `table`, words, reserve light_table_reserve(m): at each handle the place of its leaf,
 * LIGHT_NO_INDEX for a lamp that is not powered.
 *
 * Uses `work`, words, reserve light_work_reserve(m), and zeroes it.
 *
 * Writes `answer`, words, reserve LIGHT_ANSWER_WORDS: k, then min 3 and max 3 of the box about the
 * powered lamps, floats' bits; zeros where k is 0.
 *
 * Leaves `nodes`, `table`, `work` and `answer` as they were on refusals 1 to 4; zeroes the four
 * reserves on later ones.
 */
uint32_t light_build(size_t lights,
                     const uint32_t *block, size_t block_len,
                     uint32_t *nodes, size_t nodes_len,
                     uint32_t *table, size_t table_len,
                     uint32_t *work, size_t work_len,
                     uint32_t *answer, size_t answer_len);

/* ---- draws */

/*
 * Draws a lamp for a point.
 *
 * Takes `nodes`, BYTES: those of the tree alone, (const uint8_t *)nodes and light_tree_bytes(k),
 * without the zeros that light_build leaves behind them (for k = 0 and m above 0 the whole tray is
 * refused with 12); a point p; a normal n there, of any length, (0, 0, 0) for none; and u from 0 to
 * 1, -0 as 0. The lamps are drawn in the order of their leaves as u rises.
 *
 * Answers a number to be taken apart by the functions below:
 *
 *     a lamp is drawn   the handle times 2^32, and the bits of the chance with which it is drawn
 *     none is drawn     2^62: there are no nodes, or at a fork neither side shines on the point
 *     refused           2^63 and the refusal's number: 2, 1, 11, then, on the way down, 12 by a node,
 *                       5 to 8 by a record that is weighed, 5 or 7 by the point or the normal
 *
 * A tree of one lamp weighs nothing: it draws the lamp with chance 1, even for a NaN point. Else the
 * chance is the product of the shares taken at the forks. Of weights x at the left child and y at the
 * right the left share is x / (x + y), and the right one 1 less that. Where x + y overflows the right
 * child is taken, with share 1, or with NaN, 7fc00000, where x itself is infinite. So it is with the
 * two lamps of examples/pair.c under other powers, here as floats' bits, by any u:
 *
 *     powers 7f61b1e6, 3f800000   point (0, 0, 0.001)   lamp 1, chance 7fc00000
 *     powers 7f61b1e6, 7f61b1e6   point (1, 0, 0)       lamp 1, chance 3f800000
 *
 * Writes nothing.
 */
uint64_t light_sample(const uint8_t *nodes, size_t nodes_len,
                      float px, float py, float pz,
                      float nx, float ny, float nz, float u);

static inline bool light_is_drawn(uint64_t draw)
{
    return draw >> 62 == 0;
}

static inline bool light_is_none(uint64_t draw)
{
    return draw >> 62 == 1;
}

/* The refusal's number, 0 for none. */
static inline uint32_t light_refusal(uint64_t draw)
{
    return draw >> 63 ? (uint32_t)draw : 0;
}

/* The handle of the lamp that is drawn. */
static inline uint32_t light_handle(uint64_t draw)
{
    return (uint32_t)(draw >> 32);
}

/* The chance, of a lamp that is drawn and of an answer of light_pmf that is no refusal. */
static inline float light_chance(uint64_t answer)
{
    return light_float((uint32_t)answer);
}

/* ---- the chance of a lamp by its handle */

/*
 * The chance with which light_sample draws a lamp for a point, from the lamp's leaf up to the root.
 *
 * Takes `nodes`, BYTES, as light_sample does; `table`, BYTES, those of the table that light_build
 * wrote, 4 m of them; a point and a normal as light_sample does; and the lamp's handle.
 *
 * Answers the chance's bits (light_chance), below 2^32: 0 for a handle past the table, for a lamp
 * that is not powered, and where at a fork on the way neither side shines on the point; or 2^32 and the
 * refusal's number (light_pmf_refusal): 2, 1, then, on the way up, 12 by a node, 5 to 8 by a record
 * that is weighed, 5 or 7 by the point or the normal.
 *
 * Both chances multiply rounded shares, in opposite orders, and by name the right share is
 * y / (x + y). So they part: most of them in the last digits, but by more where a right share is tiny
 * (powers 1 and 6e-8, point (1, 0, 1), u 1: lamp 1 with chance 1.2e-7, and 6e-8 by name). Where
 * x + y overflows the share by name is 0, or NaN for a child whose own weight is infinite: in both
 * examples of light_sample lamp 1 has chance 0 by name.
 *
 * Writes nothing.
 */
uint64_t light_pmf(const uint8_t *nodes, size_t nodes_len,
                   const uint8_t *table, size_t table_len,
                   float px, float py, float pz,
                   float nx, float ny, float nz, uint32_t handle);

/* The refusal's number, 0 for none. */
static inline uint32_t light_pmf_refusal(uint64_t answer)
{
    return answer >> 32 ? (uint32_t)answer : 0;
}

/* ---- a tree to packed words */

/*
 * Packs a tree for a graphics card.
 *
 * Takes `nodes`, BYTES, as light_sample does, n nodes; `k` and the box as light_build answered them:
 * answer[0]; `present`, 0 where there is no box (k is 0), else any other number; and its corners,
 * answer[1] to answer[6] as floats (light_float), which do not count where `present` is 0.
 *
 * Answers how many words were packed, light_packed_words(n) (light_pack_words); 2^32 where there is
 * no tree: no nodes, k 0 and no box (light_pack_is_none); or 2^33 and the refusal's number
 * (light_pack_refusal): 2, 1, 3; 12 where nodes, k and box do not agree; 5 or 6 of the box; then by
 * the first node that is refused 12 of its kind or side, 5 to 8 of its record, 13, or 12 of its parent
 * or of a left child that is not the next node.
 *
 * Writes `out`, BYTES, reserve light_packed_bytes(n): words, the lowest byte first. Eight of header,
 * box min 3, 0, box max 3, 0; then eight a node, the first of a pair in the lower bits:
 *
 *     0   min x, min y, 16 bits each, from 0 to 65535 within the box, rounded down
 *     1   min z, rounded down; max x, rounded up
 *     2   max y, max z, rounded up
 *     3   direction, octahedral, 16 bits each
 *     4   phi
 *     5   cos_theta_o, cos_theta_e, 15 bits each; bit 30 where both sides shine
 *     6   at a leaf 2^31 and the handle, at a fork the right child
 *     7   parent
 *
 * Leaves `out` as it was on refusals 1 to 4; zeroes the reserve on later ones.
 */
uint64_t light_pack(const uint8_t *nodes, size_t nodes_len,
                    size_t k, uint32_t present,
                    float min_x, float min_y, float min_z,
                    float max_x, float max_y, float max_z,
                    uint8_t *out, size_t out_len);

/* How many words were packed, 0 where there is no tree or it is refused. */
static inline uint32_t light_pack_words(uint64_t answer)
{
    return answer >> 32 ? 0 : (uint32_t)answer;
}

static inline bool light_pack_is_none(uint64_t answer)
{
    return answer >> 32 == 1;
}

/* The refusal's number, 0 for none. */
static inline uint32_t light_pack_refusal(uint64_t answer)
{
    return answer >> 33 ? (uint32_t)answer : 0;
}

/* ---- weights to an alias table */

/*
 * Builds the alias table of m weights, as of lamps by their power: a draw then takes one look.
 *
 * Takes `weights`, words, floats' bits, each finite and not below 0. Where their sum is 0 each counts
 * as 1.
 *
 * Answers 0, or the refusal's number: 2, 3, 8.
 *
 * Writes `bins`, words, reserve light_bins_reserve(m): for each weight LIGHT_BIN_WORDS words, q and
 * p, floats' bits, and alias. p is the weight's share of the sum; where that overflows f32 each p is
 * 0 and each q 1 (of the weights 7f7fffff, 7f7fffff both p are 00000000). light_alias_draw draws:
 * it picks a bin, each alike, and a number from 0 to below 1; below q the bin's own place is drawn, else
 * the place `alias`, which is LIGHT_NO_INDEX where q is 1.
 *
 * Uses `work`, words, reserve light_alias_work_reserve(m), and zeroes it.
 *
 * Leaves `bins` and `work` as they were on refusals 2 and 3; zeroes both reserves on 8.
 */
uint32_t light_alias_table(const uint32_t *weights, size_t weights_len,
                           uint32_t *bins, size_t bins_len,
                           uint32_t *work, size_t work_len);

/*
 * Draws a place from an alias table of m weights, by u from 0 to 1, -0 as 0.
 *
 * Takes `bins`, words, light_bins_reserve(m) of them, as light_alias_table wrote them.
 *
 * Answers as light_sample does, to be taken apart by the same functions: the place as the handle, and its
 * p as the chance; none where m is 0; refusal 11 where u is not a number from 0 to 1.
 *
 * The steps are pbrt-v4's, in floats: u times m, cut to a whole number, at most m - 1, is the bin; what
 * is left, at most 3f7fffff, is held against q. This function is C, and not proved.
 */
static inline uint64_t light_alias_draw(const uint32_t *bins, size_t m, float u)
{
    const float below_one = light_float(0x3f7fffff);
    if (!(0 <= u && u <= 1))
        return UINT64_C(1) << 63 | LIGHT_BAD_U;
    if (m == 0)
        return UINT64_C(1) << 62;
    /* volatile: the product is rounded, and not drawn together with the difference below */
    volatile const float scaled = u * (float)m;
    size_t place = (size_t)scaled;
    if (place > m - 1)
        place = m - 1;
    float left = scaled - (float)place;
    if (left > below_one)
        left = below_one;
    if (!(left < light_float(bins[LIGHT_BIN_WORDS * place])))
        place = bins[LIGHT_BIN_WORDS * place + 2];
    return (uint64_t)place << 32 | bins[LIGHT_BIN_WORDS * place + 1];
}

#ifdef __cplusplus
}
#endif

#endif

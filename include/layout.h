/*
 * layout.h: the layout database for an editor in C or C++. Link with -llayout (x86-64).
 *
 * A window is W by H unit squares with a type from 0 to T-1 in each; type 0 is space. A table holds one such picture as words
 * of 16 bits: a header of four words (tiles, W, H, T), then nine words for each tile, then zeros. A layout is three tables of
 * one length: material, errors (1: a rule forbids the square) and waiting (1: to be checked again). The editor owns the words
 * and lends them to each call; the library keeps nothing between calls, allocates nothing and has no globals.
 *
 * A slice is lent as a pointer and its count of words. Slices of one call must not overlap. A slice of no words is not looked at.
 * Every call accepts every content and every count, ends, and returns one number of 64 bits. The functions below take it apart.
 * A refused call changes no slice; two things may still change: the working room, which is all zero after every call, and the
 * tables of a check that meets LAYOUT_FULL, which keeps the pieces done before.
 *
 * An area x1 y1 x2 y2 has the squares with x1 <= x < x2 and y1 <= y < y2. y goes upward.
 */
#ifndef LAYOUT_H
#define LAYOUT_H

#include <stddef.h>
#include <stdint.h>

#ifdef __cplusplus
extern "C" {
#endif

/* The numbers that say no. The lowest that applies is given. */
enum {
    LAYOUT_OK = 0,
    LAYOUT_BAD_LENGTH = 1, /* a slice's count is wrong, tables lent together differ in it, or more rules used than there is room */
    LAYOUT_BAD_SIZE = 2,   /* W or H outside 1 to 4,096, or T outside 2 to 16, as arguments */
    LAYOUT_BAD_TABLE = 3,  /* a table is no picture's table, sizes differ, or errors or waiting have T other than 2 */
    LAYOUT_BAD_RULE = 4,   /* a used rule, or a macro, breaks its ranges; layout_place tells which rule */
    LAYOUT_BAD_TYPE = 5,   /* the painted type is not below T */
    LAYOUT_BAD_PLACE = 6,  /* an area is empty or leaves the window, or a point lies outside it */
    LAYOUT_FULL = 7        /* a resulting table, rule list or listing has more entries than room */
};

/* Sizes. A table with room for so many tiles (1 to 3,600) and a list with room for so many rules (0 to 512), in words. */
#define LAYOUT_MOST_SIDE 4096
#define LAYOUT_MOST_TYPES 16
#define LAYOUT_MOST_TILES 3600
#define LAYOUT_MOST_RULES 512
#define LAYOUT_WORDS(tiles) (4 + 9 * (size_t)(tiles))
#define LAYOUT_RULE_WORDS(rules) (8 * (size_t)(rules))

/* What a stitch says where the neighbouring square lies outside the window. */
#define LAYOUT_OUTSIDE 65535

/* A piece, the unit of checking, is a block of 16 by 16 squares. */
#define LAYOUT_PIECE 16

/* Makes an empty layout: one tile of space in each of the three tables. 1, 2. */
uint64_t layout_create(uint16_t *material, size_t material_words, uint16_t *errors, size_t errors_words,
                       uint16_t *waiting, size_t waiting_words, uint16_t w, uint16_t h, uint16_t t);

/* Sets an area of the material to a type and marks it waiting. Errors stay. 1, 3, 5, 6, 7. */
uint64_t layout_paint(uint16_t *material, size_t material_words, const uint16_t *errors, size_t errors_words,
                      uint16_t *waiting, size_t waiting_words, uint16_t *work, size_t work_words,
                      uint16_t x1, uint16_t y1, uint16_t x2, uint16_t y2, uint16_t type);

/* Checks up to `times` waiting pieces, the lowest first. layout_done, layout_left; both are true also with 7. 1, 3, 4, 7. */
uint64_t layout_check(const uint16_t *material, size_t material_words, uint16_t *errors, size_t errors_words,
                      uint16_t *waiting, size_t waiting_words, uint16_t *work, size_t work_words,
                      const uint16_t *rules, size_t rules_words, uint16_t used, uint16_t times);

/*
 * What is recorded in an area: layout_settled, layout_squares, layout_tiles. The numbers of the error tiles that meet the area
 * are written to `tiles` in order; the rest of `tiles` stays. 1, 3, 4, 6, 7.
 */
uint64_t layout_report(const uint16_t *material, size_t material_words, const uint16_t *errors, size_t errors_words,
                       const uint16_t *waiting, size_t waiting_words, const uint16_t *rules, size_t rules_words, uint16_t used,
                       uint16_t x1, uint16_t y1, uint16_t x2, uint16_t y2, uint16_t *tiles, size_t tiles_words);

/* Which tile of a table holds the square x y: layout_tile_number. 1, 3, 6. */
uint64_t layout_point(const uint16_t *table, size_t table_words, uint16_t x, uint16_t y);

/*
 * Appends the rules of a least width d for the types of a set (bit t for type t) to the first `used` rules: layout_used.
 * The rules that are there are not tested. 1, 2, 4 (place 0), 7.
 */
uint64_t layout_width(uint16_t *rules, size_t rules_words, uint16_t used, uint16_t t, uint16_t set, uint16_t d, uint16_t reason);

/*
 * Appends the rules of a least spacing d between the types of a and those of b, which are equal or have no type in common.
 * touch is 1 where they may touch, 0 where not. 1, 2, 4 (place 0), 7.
 */
uint64_t layout_spacing(uint16_t *rules, size_t rules_words, uint16_t used, uint16_t t, uint16_t a, uint16_t b, uint16_t d,
                        uint16_t touch, uint16_t reason);

/* Bits `low` to `low + width - 1` of an answer. */
static inline unsigned layout_bits(uint64_t answer, unsigned low, unsigned width)
{
    return (unsigned)((answer >> low) & (((uint64_t)1 << width) - 1));
}

/* All calls: LAYOUT_OK, or why not. */
static inline unsigned layout_number(uint64_t answer)
{
    return layout_bits(answer, 0, 8);
}

/* Check and report with LAYOUT_BAD_RULE: the place of the lowest bad rule, from 0. */
static inline unsigned layout_place(uint64_t answer)
{
    return layout_bits(answer, 8, 9);
}

/* Check: pieces done by this call. */
static inline unsigned layout_done(uint64_t answer)
{
    return layout_bits(answer, 17, 16);
}

/* Check: pieces that wait after it. */
static inline unsigned layout_left(uint64_t answer)
{
    return layout_bits(answer, 33, 17);
}

/* Report: 1 if no waiting square lies within the largest rule distance of the area, so that its marks are the rules' own. */
static inline unsigned layout_settled(uint64_t answer)
{
    return layout_bits(answer, 17, 1);
}

/* Report: the error squares recorded in the area. */
static inline unsigned layout_squares(uint64_t answer)
{
    return layout_bits(answer, 18, 25);
}

/* Report: how many error tiles meet the area. */
static inline unsigned layout_tiles(uint64_t answer)
{
    return layout_bits(answer, 43, 13);
}

/* Point: the number of the tile. */
static inline unsigned layout_tile_number(uint64_t answer)
{
    return layout_bits(answer, 17, 12);
}

/* Width and spacing: the new count of used rules. */
static inline unsigned layout_used(uint64_t answer)
{
    return layout_bits(answer, 17, 10);
}

/* A tile of a table: its area, its type, and its stitches, numbers of the tiles at its lower left and upper right corners. */
struct layout_tile {
    uint16_t left, bottom, right, top, type, lb, bl, tr, rt;
};

/* How many tiles a table has. */
static inline uint16_t layout_count(const uint16_t *table)
{
    return table[0];
}

/* The tile with this number, which must be below the count. */
static inline struct layout_tile layout_tile_at(const uint16_t *table, uint16_t number)
{
    const uint16_t *words = table + LAYOUT_WORDS(number);
    struct layout_tile tile;
    tile.left = words[0];
    tile.bottom = words[1];
    tile.right = words[2];
    tile.top = words[3];
    tile.type = words[4];
    tile.lb = words[5];
    tile.bl = words[6];
    tile.tr = words[7];
    tile.rt = words[8];
    return tile;
}

#ifdef __cplusplus
}
#endif

#endif

/* naive_plane.c: pictures as bytes, their strips row by row, and the table that a picture has. */
#include "naive.h"

#include <stdio.h>
#include <stdlib.h>
#include <string.h>

static void *taken(size_t bytes)
{
    void *at = calloc(bytes ? bytes : 1, 1);
    if (!at) {
        fputs("out of memory\n", stderr);
        exit(2);
    }
    return at;
}

/* A window of space. */
struct picture picture_new(int w, int h, int t)
{
    struct picture p = {w, h, t, taken((size_t)w * (size_t)h)};
    return p;
}

struct picture picture_copy(const struct picture *p)
{
    struct picture q = picture_new(p->w, p->h, p->t);
    memcpy(q.kinds, p->kinds, (size_t)p->w * (size_t)p->h);
    return q;
}

void picture_free(struct picture *p)
{
    free(p->kinds);
    p->kinds = NULL;
}

/* The type of a square; outside the window it is space. */
int kind_at(const struct picture *p, int x, int y)
{
    bool inside = 0 <= x && x < p->w && 0 <= y && y < p->h;
    return inside ? p->kinds[(size_t)y * (size_t)p->w + (size_t)x] : 0;
}

/* Sets the squares of an area that lie in the window. */
void picture_set(struct picture *p, struct area a, int kind)
{
    for (int y = a.y1 < 0 ? 0 : a.y1; y < a.y2 && y < p->h; y++)
        for (int x = a.x1 < 0 ? 0 : a.x1; x < a.x2 && x < p->w; x++)
            p->kinds[(size_t)y * (size_t)p->w + (size_t)x] = (unsigned char)kind;
}

/* How many tiles a table of a good length has room for. */
int room_of(struct words table)
{
    return (int)((table.count - 4) / 9);
}

bool good_length(struct words table)
{
    return table.count >= 13 && table.count <= 4 + 9 * MOST_TILES && (table.count - 4) % 9 == 0;
}

/* Where the longest run of one type that begins at x ends. */
static int run_end(const struct picture *p, int x, int y)
{
    int end = x + 1;
    while (end < p->w && kind_at(p, end, y) == kind_at(p, x, y))
        end++;
    return end;
}

/*
 * The strips in order. Goes over the rows from below; `below` has, for each column, the number of the tile that holds its square
 * on the row before. Gives the count, or room + 1 if there are more tiles than room.
 */
int strips_of(const struct picture *p, int room, struct tile *tiles)
{
    uint16_t below[MOST_SIDE];
    int count = 0;
    for (int y = 0; y < p->h; y++)
        for (int x = 0, end; x < p->w; x = end) {
            end = run_end(p, x, y);
            int i = y == 0 ? count : below[x];
            bool goes_on = i < count && tiles[i].left == x && tiles[i].right == end && tiles[i].kind == kind_at(p, x, y);
            if (!goes_on) {
                if (count == room)
                    return room + 1;
                i = count++;
                tiles[i] = (struct tile){x, y, end, y, kind_at(p, x, y)};
            }
            tiles[i].top = y + 1;
            for (int column = x; column < end; column++)
                below[column] = (uint16_t)i;
        }
    return count;
}

/* For each square the number of the tile that holds it. */
static uint16_t *holders_of(const struct picture *p, const struct tile *tiles, int count)
{
    uint16_t *holders = taken((size_t)p->w * (size_t)p->h * sizeof *holders);
    for (int i = 0; i < count; i++)
        for (int y = tiles[i].bottom; y < tiles[i].top; y++)
            for (int x = tiles[i].left; x < tiles[i].right; x++)
                holders[(size_t)y * (size_t)p->w + (size_t)x] = (uint16_t)i;
    return holders;
}

static uint16_t holder_at(const struct picture *p, const uint16_t *holders, int x, int y)
{
    bool inside = 0 <= x && x < p->w && 0 <= y && y < p->h;
    return inside ? holders[(size_t)y * (size_t)p->w + (size_t)x] : OUTSIDE;
}

/* Writes a table of these tiles, which cover the window, with true stitches. */
void write_tiles(const struct picture *p, const struct tile *tiles, int count, struct words table)
{
    uint16_t *holders = holders_of(p, tiles, count);
    memset(table.at, 0, table.count * sizeof *table.at);
    table.at[0] = (uint16_t)count;
    table.at[1] = (uint16_t)p->w;
    table.at[2] = (uint16_t)p->h;
    table.at[3] = (uint16_t)p->t;
    for (int i = 0; i < count; i++) {
        uint16_t *at = table.at + 4 + 9 * i;
        const struct tile *s = &tiles[i];
        at[0] = (uint16_t)s->left;
        at[1] = (uint16_t)s->bottom;
        at[2] = (uint16_t)s->right;
        at[3] = (uint16_t)s->top;
        at[4] = (uint16_t)s->kind;
        at[5] = holder_at(p, holders, s->left, s->bottom - 1);
        at[6] = holder_at(p, holders, s->left - 1, s->bottom);
        at[7] = holder_at(p, holders, s->right, s->top - 1);
        at[8] = holder_at(p, holders, s->right - 1, s->top);
    }
    free(holders);
}

/* Writes the table of a picture; nothing is written and the answer is no if the tiles do not fit. */
bool write_picture(const struct picture *p, struct words table)
{
    struct tile tiles[MOST_TILES];
    int room = room_of(table), count = strips_of(p, room, tiles);
    if (count > room)
        return false;
    write_tiles(p, tiles, count, table);
    return true;
}

bool fits(const struct picture *p, struct words table)
{
    struct tile tiles[MOST_TILES];
    return strips_of(p, room_of(table), tiles) <= room_of(table);
}

/* Is the header in its ranges, is each box in the window with a type below T, and do the areas add up to the window? */
static bool boxes_add_up(struct words table)
{
    const uint16_t *at = table.at;
    unsigned long count = at[0], w = at[1], h = at[2], t = at[3], sum = 0;
    if (count < 1 || count > (unsigned long)room_of(table) || w < 1 || w > MOST_SIDE || h < 1 || h > MOST_SIDE || t < 2 || t > 16)
        return false;
    for (unsigned long i = 0; i < count; i++) {
        const uint16_t *box = at + 4 + 9 * i;
        if (box[0] >= box[2] || box[2] > w || box[1] >= box[3] || box[3] > h || box[4] >= t)
            return false;
        sum += (unsigned long)(box[2] - box[0]) * (unsigned long)(box[3] - box[1]);
    }
    return sum == w * h;
}

/* Paints the boxes on a window where no square has a type yet; no if two share a square. */
static bool boxes_apart(struct words table, struct picture *p)
{
    enum { NONE = 255 };
    memset(p->kinds, NONE, (size_t)p->w * (size_t)p->h);
    for (size_t i = 0; i < table.at[0]; i++) {
        const uint16_t *box = table.at + 4 + 9 * i;
        for (int y = box[1]; y < box[3]; y++)
            for (int x = box[0]; x < box[2]; x++)
                if (kind_at(p, x, y) != NONE)
                    return false;
                else
                    p->kinds[(size_t)y * (size_t)p->w + (size_t)x] = (unsigned char)box[4];
    }
    return true;
}

/* Reads the picture of a table of good length. No, with nothing to free, if it is no picture's table. */
bool read_picture(struct words table, struct picture *p)
{
    if (!boxes_add_up(table))
        return false;
    *p = picture_new(table.at[1], table.at[2], table.at[3]);
    struct words again = {taken(table.count * sizeof *again.at), table.count};
    bool same = boxes_apart(table, p) && write_picture(p, again) && memcmp(table.at, again.at, table.count * sizeof *table.at) == 0;
    free(again.at);
    if (!same)
        picture_free(p);
    return same;
}

/* damage.c: calls made wrong: one word, a tile, a stitch, a count, a length, a rule, an argument. */
#include "cases.h"

#include <string.h>

/* A value near another one, or an extreme one, or any. */
static uint16_t other_value(uint16_t old, struct random *r)
{
    switch (below(r, 6)) {
    case 0:
        return (uint16_t)(old + 1);
    case 1:
        return (uint16_t)(old - 1);
    case 2:
        return one_in(r, 2) ? 0 : 65535;
    case 3:
        return (uint16_t)random_word(r);
    default:
        return (uint16_t)below(r, 70);
    }
}

/* How many tiles the words have, as far as that can be trusted. */
static int tiles_in(struct words table)
{
    int room = table.count < 13 ? 0 : room_of(table);
    int count = table.count < 4 ? 0 : table.at[0];
    return count < room ? count : room;
}

static void change_word(struct words table, struct random *r)
{
    int reach = 4 + 9 * tiles_in(table);
    size_t i = (size_t)(one_in(r, 6) ? below(r, (int)table.count) : one_in(r, 6) ? below(r, 4) : below(r, reach));
    i = i < table.count ? i : 0;
    table.at[i] = other_value(table.at[i], r);
}

static void swap_tiles(struct words table, struct random *r)
{
    int tiles = tiles_in(table), i = below(r, tiles), j = below(r, tiles);
    uint16_t nine[9];
    memcpy(nine, table.at + 4 + 9 * i, sizeof nine);
    memmove(table.at + 4 + 9 * i, table.at + 4 + 9 * j, sizeof nine);
    memcpy(table.at + 4 + 9 * j, nine, sizeof nine);
}

/* A stitch of a tile names the tile itself, or another one. */
static void bend_stitch(struct words table, struct random *r)
{
    int tiles = tiles_in(table), i = below(r, tiles);
    table.at[4 + 9 * i + between(r, 5, 8)] = (uint16_t)(one_in(r, 2) ? i : below(r, tiles));
}

static void change_kind(struct words table, struct random *r)
{
    int i = below(r, tiles_in(table));
    table.at[4 + 9 * i + 4] = (uint16_t)below(r, table.at[3] > 0 && table.at[3] < 17 ? table.at[3] : 2);
}

static void spoil_rest(struct words table, struct random *r)
{
    size_t used = 4 + 9 * (size_t)tiles_in(table);
    if (used < table.count)
        table.at[used + (size_t)below(r, (int)(table.count - used))] = (uint16_t)between(r, 1, 65535);
}

static void spoil_all(struct words table, struct random *r)
{
    for (size_t i = 0; i < table.count; i++)
        table.at[i] = (uint16_t)(one_in(r, 2) ? below(r, 8) : below(r, 65536));
}

/* The tiles of a sound table. */
static int tiles_of(struct words table, struct tile *tiles)
{
    for (int i = 0; i < table.at[0]; i++) {
        const uint16_t *at = table.at + 4 + 9 * i;
        tiles[i] = (struct tile){at[0], at[1], at[2], at[3], at[4]};
    }
    return table.at[0];
}

static bool comes_before(struct tile a, struct tile b)
{
    return a.bottom < b.bottom || (a.bottom == b.bottom && a.left < b.left);
}

/* Cuts a tile in two, in right order and with true stitches: boxes cover the window, but the tiles are no strips. */
static void cut_tile(const struct picture *p, struct words table, struct random *r)
{
    struct tile tiles[MOST_TILES + 1];
    int count = tiles_of(table, tiles), i = below(r, count);
    struct tile cut = tiles[i];
    bool across = one_in(r, 2);
    if (count == room_of(table) || (across ? cut.top - cut.bottom : cut.right - cut.left) < 2)
        return;
    if (across)
        tiles[i].top = cut.bottom = between(r, cut.bottom + 1, cut.top - 1);
    else
        tiles[i].right = cut.left = between(r, cut.left + 1, cut.right - 1);
    int at = count;
    for (; at > 0 && comes_before(cut, tiles[at - 1]); at--)
        tiles[at] = tiles[at - 1];
    tiles[at] = cut;
    write_tiles(p, tiles, count + 1, table);
}

/* Two tiles change places and every stitch follows: all is true but the order. */
static void reorder_tiles(const struct picture *p, struct words table, struct random *r)
{
    struct tile tiles[MOST_TILES];
    int count = tiles_of(table, tiles), i = below(r, count), j = below(r, count);
    struct tile kept = tiles[i];
    tiles[i] = tiles[j];
    tiles[j] = kept;
    write_tiles(p, tiles, count, table);
}

/* A table that is sound by itself, of a window with one column, one row or one type more or less. */
static void resize(const struct picture *p, struct words table, struct random *r)
{
    int what = below(r, 3), by = one_in(r, 2) ? 1 : -1;
    int w = p->w + (what == 0 ? by : 0), h = p->h + (what == 1 ? by : 0), t = p->t + (what == 2 ? by : 0);
    if (w < 1 || w > MOST_SIDE || h < 1 || h > MOST_SIDE || t < 2 || t > 16)
        return;
    struct picture q = picture_new(w, h, t);
    if (one_in(r, 3))
        picture_set(&q, (struct area){0, 0, w, h}, 1);
    write_picture(&q, table);
    picture_free(&q);
}

/* Damage that needs a sound table to begin with. */
static void damage_sound(struct words table, struct random *r)
{
    struct picture p;
    if (!good_length(table) || !read_picture(table, &p))
        return;
    int what = below(r, 4);
    if (what < 2)
        cut_tile(&p, table, r);
    else if (what == 2)
        reorder_tiles(&p, table, r);
    else
        resize(&p, table, r);
    picture_free(&p);
}

static void damage_table(struct words table, struct random *r)
{
    static void (*const ways[])(struct words, struct random *) = {change_word, change_word, change_word,  swap_tiles,
                                                                  bend_stitch, bend_stitch, change_kind,  spoil_rest,
                                                                  spoil_all,   damage_sound, damage_sound, damage_sound};
    if (table.count < 13 || tiles_in(table) == 0)
        return;
    if (one_in(r, 8))
        table.at[0] = (uint16_t)(table.at[0] + (one_in(r, 2) ? 1 : -1));
    else if (one_in(r, 20))
        table.at[below(r, 4)] = other_value(1, r);
    else
        ways[below(r, 12)](table, r);
}

/* A new length for a slice, near the old one or at an end of what is allowed. New words are zero or anything. */
static void change_length(struct request *q, enum slice s, struct random *r)
{
    static const size_t lengths[] = {0, 1, 3, 4, 5, 12, 13, 14, 22, 4 + 9 * 3600, 4 + 9 * 3601, 4 + 9 * 3600 - 1};
    static const int steps[] = {-9, -8, -1, 1, 8, 9};
    size_t old = q->counts[s];
    long near = (long)old + steps[below(r, 6)];
    size_t now = one_in(r, 2) && near >= 0 ? (size_t)near : lengths[below(r, 12)];
    bool garbage = one_in(r, 4);
    now = now > CAPACITY ? CAPACITY : now;
    for (size_t i = old; i < now; i++)
        q->words[s][i] = garbage ? (uint16_t)random_word(r) : 0;
    q->counts[s] = now;
}

/* One table's length, or that of all tables and the working room alike. */
static void damage_lengths(struct request *q, struct random *r)
{
    size_t before[SLICES];
    memcpy(before, q->counts, sizeof before);
    enum slice s = (enum slice)below(r, takes(q->call, WORK) ? 4 : q->call == POINT ? 1 : 3);
    bool alike = one_in(r, 3);
    change_length(q, s, r);
    for (int i = MATERIAL; alike && i <= WORK; i++) {
        if (!takes(q->call, (enum slice)i))
            continue;
        for (size_t k = before[i]; k < q->counts[s]; k++)
            q->words[i][k] = 0;
        q->counts[i] = q->counts[s];
    }
}

/* A rule out of its ranges, among the used ones or behind them, or a list with a wrong length or too many used. */
static void damage_rules(struct request *q, const struct scene *s, struct random *r)
{
    static const size_t lengths[] = {1, 7, 9, 4088, 4096, 4097, 4100, 4104, 4112};
    int rules = (int)(q->counts[RULES] / 8), what = below(r, 8);
    if (what == 0) {
        size_t now = lengths[below(r, 9)];
        for (size_t i = q->counts[RULES]; i < now; i++)
            q->words[RULES][i] = 0;
        q->counts[RULES] = now;
    } else if (what == 1)
        q->used = (uint16_t)(one_in(r, 4) ? random_word(r) : (uint64_t)rules + (uint64_t)below(r, 3));
    else if (rules > 0) {
        uint16_t *rule = q->words[RULES] + 8 * below(r, one_in(r, 4) || q->used == 0 || q->used > rules ? rules : q->used);
        int field = below(r, 8);
        uint16_t wrong[] = {(uint16_t)s->t, (uint16_t)s->t, (uint16_t)(17 * below(r, 2)), (uint16_t)(1u << s->t), (uint16_t)(1u << s->t),
                            17, 2, 0};
        rule[field] = one_in(r, 6) ? (uint16_t)random_word(r) : wrong[field];
        if (one_in(r, 6))
            rule[1] = rule[0];
    }
}

/* An area that is empty, turned round or leaves the window; sometimes it still is none of these. */
static void damage_area(struct request *q, const struct scene *s, struct random *r)
{
    int *sides[] = {&q->area.x1, &q->area.y1, &q->area.x2, &q->area.y2};
    int opposite[] = {q->area.x2, q->area.y2, q->area.x1, q->area.y1};
    int i = below(r, 4);
    switch (below(r, 4)) {
    case 0:
        *sides[i] = opposite[i];
        break;
    case 1:
        *sides[i] = (i % 2 ? s->h : s->w) + below(r, 3);
        break;
    case 2:
        *sides[i] = below(r, 65536);
        break;
    default:
        q->area = (struct area){q->area.x2, q->area.y2, q->area.x1, q->area.y1};
    }
}

/* An argument at or past the end of its range. */
static void damage_numbers(struct request *q, const struct scene *s, struct random *r)
{
    static const uint16_t sides[] = {0, 1, 4095, 4096, 4097, 65535};
    static const uint16_t types[] = {0, 1, 2, 15, 16, 17, 65535};
    static const uint16_t deep[] = {0, 16, 17, 65535};
    switch (below(r, 5)) {
    case 0:
        *(one_in(r, 2) ? &q->w : &q->h) = sides[below(r, 6)];
        q->d = deep[below(r, 4)];
        q->kind = (uint16_t)(s->t + below(r, 3));
        break;
    case 1:
        q->t = types[below(r, 7)];
        q->touch = (uint16_t)(one_in(r, 2) ? 2 : random_word(r));
        break;
    case 2:
        q->kind = one_in(r, 4) ? (uint16_t)random_word(r) : (uint16_t)(s->t - 1 + below(r, 3));
        q->a = (uint16_t)(one_in(r, 3) ? 0 : q->a | 1u << s->t);
        break;
    case 3:
        *(one_in(r, 2) ? &q->x : &q->y) = one_in(r, 2) ? (uint16_t)random_word(r) : (uint16_t)(s->w + below(r, 2));
        q->b = (uint16_t)(one_in(r, 3) ? 0 : one_in(r, 2) ? q->b | 1u << s->t : random_word(r));
        break;
    default:
        damage_area(q, s, r);
    }
}

/* One to three things wrong; now and then the call is sound all the same. */
void request_damage(struct request *q, const struct scene *s, struct random *r)
{
    bool tables = takes(q->call, MATERIAL), rules = takes(q->call, RULES);
    q->damaged = true;
    for (int i = one_in(r, 3) ? between(r, 2, 3) : 1; i > 0; i--) {
        int what = below(r, 8);
        if (what < 3 && tables)
            damage_table(request_slice(q, (enum slice)below(r, q->call == POINT ? 1 : 3)), r);
        else if (what == 3 && tables)
            damage_lengths(q, r);
        else if (what < 6 && rules)
            damage_rules(q, s, r);
        else
            damage_numbers(q, s, r);
    }
}

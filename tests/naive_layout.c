/* naive_layout.c: the calls on a layout. Each reads the pictures of its tables, works on these, and writes tables again. */
#include "naive.h"

#include <string.h>

/* The three pictures of a layout. */
struct layout {
    struct picture material, errors, waiting;
};

struct answer naive_no(unsigned number)
{
    struct answer no = {number, 0, {0, 0, 0}};
    return no;
}

static void clear(struct words work)
{
    if (work.count > 0)
        memset(work.at, 0, work.count * sizeof *work.at);
}

static bool lengths(struct words material, struct words errors, struct words waiting)
{
    return good_length(material) && errors.count == material.count && waiting.count == material.count;
}

static bool flags_of(struct words table, const struct picture *material, struct picture *p)
{
    if (!read_picture(table, p))
        return false;
    if (p->w == material->w && p->h == material->h && p->t == 2)
        return true;
    picture_free(p);
    return false;
}

/* Reads the three pictures; no, with nothing to free, if the tables are no layout. */
static bool read_layout(struct words material, struct words errors, struct words waiting, struct layout *l)
{
    if (!read_picture(material, &l->material))
        return false;
    if (flags_of(errors, &l->material, &l->errors)) {
        if (flags_of(waiting, &l->material, &l->waiting))
            return true;
        picture_free(&l->errors);
    }
    picture_free(&l->material);
    return false;
}

static void layout_free(struct layout *l)
{
    picture_free(&l->material);
    picture_free(&l->errors);
    picture_free(&l->waiting);
}

static bool area_inside(const struct picture *p, struct area a)
{
    return a.x1 < a.x2 && a.y1 < a.y2 && a.x2 <= p->w && a.y2 <= p->h;
}

/* The lowest used rule that breaks its ranges, or `used` if there is none. */
static unsigned bad_rule(struct words rules, unsigned used, int t)
{
    unsigned i = 0;
    while (i < used && rule_sound(rules.at + 8 * i, t))
        i++;
    return i;
}

struct answer naive_create(struct words material, struct words errors, struct words waiting, unsigned w, unsigned h, unsigned t)
{
    if (!lengths(material, errors, waiting))
        return naive_no(1);
    if (w < 1 || w > MOST_SIDE || h < 1 || h > MOST_SIDE || t < 2 || t > 16)
        return naive_no(2);
    struct picture p = picture_new((int)w, (int)h, (int)t);
    write_picture(&p, material);
    p.t = 2;
    write_picture(&p, errors);
    write_picture(&p, waiting);
    picture_free(&p);
    return naive_no(0);
}

/* Paint on a layout that has been read. */
static struct answer paint_on(struct layout *l, struct words material, struct words waiting, struct area a, int kind)
{
    if (kind >= l->material.t)
        return naive_no(5);
    if (!area_inside(&l->material, a))
        return naive_no(6);
    picture_set(&l->material, a, kind);
    picture_set(&l->waiting, a, 1);
    if (!fits(&l->material, material) || !fits(&l->waiting, waiting))
        return naive_no(7);
    write_picture(&l->material, material);
    write_picture(&l->waiting, waiting);
    return naive_no(0);
}

struct answer naive_paint(struct words material, struct words errors, struct words waiting, struct words work, struct area a,
                          int kind)
{
    struct layout l;
    clear(work);
    if (!lengths(material, errors, waiting) || work.count != material.count)
        return naive_no(1);
    if (!read_layout(material, errors, waiting, &l))
        return naive_no(3);
    struct answer answer = paint_on(&l, material, waiting, a, kind);
    layout_free(&l);
    return answer;
}

/* Does an area, cut off at the window, hold a square of type 1? */
static bool holds(const struct picture *p, struct area a)
{
    for (int y = a.y1 < 0 ? 0 : a.y1; y < a.y2 && y < p->h; y++)
        for (int x = a.x1 < 0 ? 0 : a.x1; x < a.x2 && x < p->w; x++)
            if (kind_at(p, x, y) == 1)
                return true;
    return false;
}

/* The area grown by a distance on each side. */
static struct area grown(struct area a, int by)
{
    struct area b = {a.x1 - by, a.y1 - by, a.x2 + by, a.y2 + by};
    return b;
}

/* How many pieces wait, and the lowest of them by row and then column. */
static unsigned long pieces_waiting(const struct picture *waiting, struct area *lowest)
{
    unsigned long count = 0;
    for (int y = 0; y < waiting->h; y += PIECE)
        for (int x = 0; x < waiting->w; x += PIECE) {
            struct area block = {x, y, x + PIECE, y + PIECE};
            if (!holds(waiting, block))
                continue;
            if (count++ == 0)
                *lowest = block;
        }
    return count;
}

/* One piece: the full check's marks within the halo of the block, and the block stops waiting. No if a table would not fit. */
static bool do_piece(struct layout *l, const struct picture *full, struct area block, int halo, struct words errors,
                     struct words waiting)
{
    struct picture e = picture_copy(&l->errors), w = picture_copy(&l->waiting);
    struct area near = grown(block, halo);
    for (int y = near.y1 < 0 ? 0 : near.y1; y < near.y2 && y < e.h; y++)
        for (int x = near.x1 < 0 ? 0 : near.x1; x < near.x2 && x < e.w; x++)
            picture_set(&e, (struct area){x, y, x + 1, y + 1}, kind_at(full, x, y));
    picture_set(&w, block, 0);
    bool room = fits(&e, errors) && fits(&w, waiting);
    struct picture old_e = room ? l->errors : e, old_w = room ? l->waiting : w;
    if (room) {
        l->errors = e;
        l->waiting = w;
    }
    picture_free(&old_e);
    picture_free(&old_w);
    return room;
}

/* The pieces, one by one, on a layout that has been read. */
static struct answer check_on(struct layout *l, struct words errors, struct words waiting, const uint16_t *rules, int used,
                              unsigned times)
{
    struct answer answer = naive_no(0);
    struct picture full = picture_new(l->material.w, l->material.h, 2);
    struct area lowest = {0, 0, 0, 0};
    mark_forbidden(&l->material, rules, used, &full);
    unsigned long left = pieces_waiting(&l->waiting, &lowest);
    while (answer.number == 0 && answer.values[0] < times && left > 0) {
        if (do_piece(l, &full, lowest, halo_of(rules, used), errors, waiting))
            answer.values[0]++;
        else
            answer.number = 7;
        left = pieces_waiting(&l->waiting, &lowest);
    }
    answer.values[1] = left;
    picture_free(&full);
    write_picture(&l->errors, errors);
    write_picture(&l->waiting, waiting);
    return answer;
}

struct answer naive_check(struct words material, struct words errors, struct words waiting, struct words work,
                          struct words rules, unsigned used, unsigned times)
{
    struct layout l;
    clear(work);
    if (!lengths(material, errors, waiting) || work.count != material.count || !good_list(rules, used))
        return naive_no(1);
    if (!read_layout(material, errors, waiting, &l))
        return naive_no(3);
    struct answer answer = naive_no(4);
    answer.place = bad_rule(rules, used, l.material.t);
    if (answer.place == used)
        answer = check_on(&l, errors, waiting, rules.at, (int)used, times);
    layout_free(&l);
    return answer;
}

/* The numbers of the error tiles that meet an area, and how many there are. */
static unsigned long meeting(const struct picture *errors, struct area a, uint16_t *numbers)
{
    struct tile tiles[MOST_TILES];
    unsigned long found = 0;
    int count = strips_of(errors, MOST_TILES, tiles);
    for (int i = 0; i < count; i++)
        if (tiles[i].kind == 1 && tiles[i].left < a.x2 && a.x1 < tiles[i].right && tiles[i].bottom < a.y2 && a.y1 < tiles[i].top)
            numbers[found++] = (uint16_t)i;
    return found;
}

/* Report on a layout that has been read, with rules that are sound. */
static struct answer report_on(struct layout *l, int halo, struct area a, struct words listing)
{
    uint16_t numbers[MOST_TILES];
    if (!area_inside(&l->errors, a))
        return naive_no(6);
    unsigned long tiles = meeting(&l->errors, a, numbers), squares = 0;
    if (tiles > listing.count)
        return naive_no(7);
    for (unsigned long i = 0; i < tiles; i++)
        listing.at[i] = numbers[i];
    for (int y = a.y1; y < a.y2; y++)
        for (int x = a.x1; x < a.x2; x++)
            squares += (unsigned long)kind_at(&l->errors, x, y);
    struct answer yes = {0, 0, {!holds(&l->waiting, grown(a, halo)), squares, tiles}};
    return yes;
}

struct answer naive_report(struct words material, struct words errors, struct words waiting, struct words rules, unsigned used,
                           struct area a, struct words listing)
{
    struct layout l;
    if (!lengths(material, errors, waiting) || !good_list(rules, used))
        return naive_no(1);
    if (!read_layout(material, errors, waiting, &l))
        return naive_no(3);
    struct answer answer = naive_no(4);
    answer.place = bad_rule(rules, used, l.material.t);
    if (answer.place == used)
        answer = report_on(&l, halo_of(rules.at, (int)used), a, listing);
    layout_free(&l);
    return answer;
}

struct answer naive_point(struct words table, int x, int y)
{
    struct picture p;
    struct tile tiles[MOST_TILES];
    struct answer answer = naive_no(6);
    if (!good_length(table))
        return naive_no(1);
    if (!read_picture(table, &p))
        return naive_no(3);
    int count = strips_of(&p, MOST_TILES, tiles);
    for (int i = 0; i < count; i++)
        if (tiles[i].left <= x && x < tiles[i].right && tiles[i].bottom <= y && y < tiles[i].top) {
            answer.number = 0;
            answer.values[0] = (unsigned long)i;
        }
    picture_free(&p);
    return answer;
}

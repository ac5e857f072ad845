/* cases.c: random scenes and random calls on them. */
#include "cases.h"

#include <string.h>

struct words request_slice(struct request *q, enum slice s)
{
    struct words w = {q->words[s], q->counts[s]};
    return w;
}

/* Which slices a call takes. The table of a point is the material's. */
bool takes(enum call call, enum slice s)
{
    static const unsigned sets[CALLS] = {
        1 << MATERIAL | 1 << ERRORS | 1 << WAITING,
        1 << MATERIAL | 1 << ERRORS | 1 << WAITING | 1 << WORK,
        1 << MATERIAL | 1 << ERRORS | 1 << WAITING | 1 << WORK | 1 << RULES,
        1 << MATERIAL | 1 << ERRORS | 1 << WAITING | 1 << RULES | 1 << LISTING,
        1 << MATERIAL,
        1 << RULES,
        1 << RULES,
    };
    return sets[call] >> s & 1;
}

/* An area of the window, often small. */
static struct area area_in(int w, int h, struct random *r)
{
    struct area a;
    a.x1 = below(r, w);
    a.y1 = below(r, h);
    a.x2 = between(r, a.x1 + 1, one_in(r, 2) && a.x1 + 6 < w ? a.x1 + 6 : w);
    a.y2 = between(r, a.y1 + 1, one_in(r, 2) && a.y1 + 6 < h ? a.y1 + 6 : h);
    return a;
}

/* Squares at random, or a chequerboard, or stripes, on part of the window or on all of a small one. */
static void sprinkle(struct picture *p, int kinds, struct random *r)
{
    struct area all = {0, 0, p->w < 64 ? p->w : 64, p->h < 64 ? p->h : 64};
    struct area a = one_in(r, 3) ? all : area_in(all.x2, all.y2, r);
    int style = below(r, 4);
    for (int y = a.y1; y < a.y2; y++)
        for (int x = a.x1; x < a.x2; x++) {
            int kind = style == 0 ? below(r, kinds) : style == 1 ? (x + y) % kinds : style == 2 ? x % kinds : y % kinds;
            picture_set(p, (struct area){x, y, x + 1, y + 1}, kind);
        }
}

/* A random picture that fits its table: paints go on as long as they fit. */
static void random_table(struct words table, int w, int h, int t, int kinds, struct random *r)
{
    struct picture p = picture_new(w, h, t);
    write_picture(&p, table);
    int paints = one_in(r, 4) ? 0 : w * h > 100000 ? 3 : between(r, 1, one_in(r, 4) ? 60 : 12);
    bool fitted = true;
    for (int i = 0; i < paints && fitted; i++) {
        if (one_in(r, 4))
            sprinkle(&p, kinds, r);
        else
            picture_set(&p, area_in(w, h, r), below(r, kinds));
        fitted = write_picture(&p, table);
    }
    picture_free(&p);
}

/* A table whose window has one type. */
static void plain_table(struct words table, int w, int h, int t, int kind)
{
    struct picture p = picture_new(w, h, t);
    picture_set(&p, (struct area){0, 0, w, h}, kind);
    write_picture(&p, table);
    picture_free(&p);
}

static int side(struct random *r)
{
    static const int corners[] = {1, 2, 15, 16, 17, 31, 32, 33, 47, 48, 49, 60};
    return one_in(r, 3) ? corners[below(r, 12)] : between(r, 1, 60);
}

/* Window and room. Most windows have sides up to 60 and room for up to 60 tiles; some are long, a few as large as can be. */
static void choose_sizes(struct scene *s, struct random *r, enum sizes sizes)
{
    int draw = below(r, 1000);
    s->w = side(r);
    s->h = side(r);
    s->room = one_in(r, 4) ? between(r, 1, 8) : between(r, 1, 60);
    s->steps = 24;
    if (sizes == SMALL)
        return;
    if (draw < 150)
        s->room = one_in(r, 4) ? MOST_TILES - below(r, 2) : between(r, 61, 900);
    if (draw < 10)
        s->w = s->h = 60;
    else if (draw < 20)
        *(one_in(r, 2) ? &s->w : &s->h) = MOST_SIDE - below(r, 2);
    else if (draw < 22) {
        s->w = MOST_SIDE - below(r, 40);
        s->h = MOST_SIDE - below(r, 40);
        s->room = one_in(r, 2) ? MOST_TILES : 60;
        s->steps = 6;
    }
}

static uint16_t small_set(int t, int kinds, struct random *r)
{
    int bits = one_in(r, 4) ? t : kinds;
    return (uint16_t)(random_word(r) & ((1u << bits) - 1));
}

static void random_rule(uint16_t *rule, int t, int kinds, struct random *r)
{
    int among = one_in(r, 6) ? t : kinds;
    rule[0] = (uint16_t)below(r, among);
    rule[1] = (uint16_t)((rule[0] + between(r, 1, among - 1)) % among);
    rule[2] = (uint16_t)(one_in(r, 4) ? between(r, 1, 16) : between(r, 1, 4));
    rule[3] = small_set(t, kinds, r);
    rule[4] = small_set(t, kinds, r);
    rule[5] = (uint16_t)(one_in(r, 4) ? between(r, 0, 16) : between(r, 0, 4));
    rule[6] = (uint16_t)below(r, 2);
    rule[7] = (uint16_t)random_word(r);
}

/* Rules that a layout's user would have: macros on random sets, as many as fit. */
static void macro_rules(struct scene *s, struct random *r)
{
    struct words list = {s->words[RULES], s->counts[RULES]};
    for (int i = between(r, 1, 4); i > 0; i--) {
        unsigned a = 1u << below(r, s->kinds), b = 1u << below(r, s->kinds), d = (unsigned)between(r, 1, 5);
        struct answer made = one_in(r, 2) ? naive_width(list, s->used, (unsigned)s->t, a, d, 1)
                                          : naive_spacing(list, s->used, (unsigned)s->t, a, b, d, (unsigned)below(r, 2), 2);
        if (made.number == 0)
            s->used = (uint16_t)made.values[0];
    }
}

/* A rule list: empty, short, or as long as can be. Words behind the used rules are anything. */
static void choose_rules(struct scene *s, struct random *r)
{
    bool large = s->w * s->h > 10000;
    int room = one_in(r, 8) ? 0 : one_in(r, 60) && !large ? MOST_RULES : between(r, 1, large ? 6 : 40);
    s->counts[RULES] = 8 * (size_t)room;
    for (size_t i = 0; i < s->counts[RULES]; i++)
        s->words[RULES][i] = (uint16_t)random_word(r);
    s->used = 0;
    if (one_in(r, 3) && !large) {
        macro_rules(s, r);
        return;
    }
    s->used = (uint16_t)(one_in(r, 3) ? room : large || one_in(r, 2) ? between(r, 0, room < 4 ? room : 4) : between(r, 0, room));
    for (int i = 0; i < s->used; i++)
        random_rule(s->words[RULES] + 8 * i, s->t, s->kinds, r);
}

/* A sound layout with any picture in each table; often nothing is marked yet and all waits. */
void scene_make(struct scene *s, struct random *r, enum sizes sizes)
{
    choose_sizes(s, r, sizes);
    s->t = one_in(r, 3) ? 2 : one_in(r, 4) ? 16 : between(r, 2, 16);
    s->kinds = s->t < 4 ? s->t : one_in(r, 4) ? s->t : between(r, 2, 4);
    struct words tables[3];
    for (int i = MATERIAL; i <= WAITING; i++) {
        s->counts[i] = 4 + 9 * (size_t)s->room;
        tables[i] = (struct words){s->words[i], s->counts[i]};
        random_table(tables[i], s->w, s->h, i == MATERIAL ? s->t : 2, i == MATERIAL ? s->kinds : 2, r);
    }
    if (one_in(r, 2))
        plain_table(tables[ERRORS], s->w, s->h, 2, 0);
    if (one_in(r, 3))
        plain_table(tables[WAITING], s->w, s->h, 2, 1);
    choose_rules(s, r);
}

/* A set for a macro, seldom empty and seldom too large. */
static uint16_t macro_set(int t, struct random *r)
{
    return one_in(r, 8) ? (uint16_t)random_word(r) : (uint16_t)(random_word(r) & ((1u << (t < 16 ? t : 16)) - 1));
}

static void choose_macro(struct request *q, const struct scene *s, struct random *r)
{
    q->t = (uint16_t)s->t;
    q->a = macro_set(s->t, r);
    q->b = one_in(r, 3) ? q->a : one_in(r, 6) ? macro_set(s->t, r) : (uint16_t)(macro_set(s->t, r) & ~q->a);
    if (one_in(r, 2)) {
        q->a = (uint16_t)(1 << below(r, s->t));
        q->b = (uint16_t)(1 << below(r, s->t));
    }
    q->d = (uint16_t)between(r, 1, 16);
    q->touch = (uint16_t)below(r, 2);
    q->reason = (uint16_t)random_word(r);
    q->used = one_in(r, 4) ? q->used : one_in(r, 2) ? 0 : (uint16_t)between(r, 0, (int)(q->counts[RULES] / 8));
}

/* The slices of a call: the scene's, garbage in working room and listing, and garbage where create writes. */
static void take_slices(struct request *q, const struct scene *s, struct random *r)
{
    for (int i = 0; i < SLICES; i++) {
        q->counts[i] = !takes(q->call, (enum slice)i) ? 0 : i == WORK ? s->counts[MATERIAL] : i == LISTING ? 0 : s->counts[i];
        memcpy(q->words[i], s->words[i], q->counts[i] * sizeof **q->words);
    }
    if (q->call == REPORT)
        q->counts[LISTING] = (size_t)(one_in(r, 2) ? between(r, 0, 4) : between(r, 0, s->room + 4));
    for (int i = 0; i < SLICES; i++)
        if (i == WORK || i == LISTING || (q->call == CREATE && one_in(r, 2)))
            for (size_t k = 0; k < q->counts[i]; k++)
                q->words[i][k] = (uint16_t)random_word(r);
}

/* Nothing is marked and all waits, so that a check has a long way to go. */
static void start_afresh(struct request *q, const struct scene *s)
{
    plain_table(request_slice(q, ERRORS), s->w, s->h, 2, 0);
    plain_table(request_slice(q, WAITING), s->w, s->h, 2, 1);
}

/* How many pieces a check is asked for; few on large windows, which the naive implementation takes long for. */
static uint16_t some_times(const struct scene *s, struct random *r)
{
    int times = one_in(r, 4) ? 65535 - below(r, 2) : one_in(r, 3) ? below(r, 40) : below(r, 5);
    return (uint16_t)(s->w * s->h > 20000 && times > 2 ? 2 : times);
}

/* A sound call on the scene. */
void request_make(struct request *q, const struct scene *s, struct random *r)
{
    static const enum call calls[] = {CREATE, PAINT,  PAINT,  PAINT, PAINT, CHECK, CHECK, CHECK,
                                      CHECK,  REPORT, REPORT, POINT, WIDTH, WIDTH, SPACING, SPACING};
    q->call = calls[below(r, 16)];
    q->damaged = false;
    take_slices(q, s, r);
    q->area = area_in(s->w, s->h, r);
    q->kind = (uint16_t)below(r, one_in(r, 4) ? s->t : s->kinds);
    q->x = (uint16_t)below(r, s->w);
    q->y = (uint16_t)below(r, s->h);
    q->used = s->used;
    q->times = some_times(s, r);
    q->w = (uint16_t)s->w;
    q->h = (uint16_t)s->h;
    q->t = (uint16_t)s->t;
    if (q->call == WIDTH || q->call == SPACING)
        choose_macro(q, s, r);
    if (q->call == CHECK && one_in(r, 3))
        start_afresh(q, s);
}

/* The scene takes over what a sound paint or check left. */
void scene_follow(struct scene *s, const struct request *q)
{
    for (int i = MATERIAL; i <= WAITING; i++)
        if ((q->call == PAINT || q->call == CHECK) && !q->damaged)
            memcpy(s->words[i], q->words[i], q->counts[i] * sizeof **q->words);
}

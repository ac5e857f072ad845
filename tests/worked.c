/*
 * worked.c: the worked squares of the specification through the C entries. Each case has a window, rules, paints and the error
 * squares that a full check must find; the last one has room for two tiles only.
 */
#include "layout.h"

#include <stdio.h>
#include <string.h>

enum { ROOM = 100, WORDS = LAYOUT_WORDS(ROOM), RULES = LAYOUT_RULE_WORDS(64) };

enum rules { GAP, WIDE, CORNER };

/* Paints of x1 y1 x2 y2 type, ended by one with x2 = 0; the error squares as text, row by row. */
struct worked {
    uint16_t w, h, t;
    enum rules rules;
    uint16_t paints[4][5];
    const char *errors;
};

static const struct worked cases[] = {
    {8, 8, 2, GAP, {{1, 1, 3, 6, 1}, {4, 1, 6, 6, 1}}, " 4,1 4,2 4,3 4,4 4,5"},
    {8, 8, 2, GAP, {{1, 1, 3, 6, 1}, {5, 1, 7, 6, 1}}, ""},
    {8, 8, 2, GAP, {{0, 0, 2, 2, 1}, {3, 3, 5, 5, 1}}, " 3,3"},
    {8, 8, 2, GAP, {{0, 0, 2, 2, 1}, {4, 4, 6, 6, 1}}, ""},
    {8, 8, 2, GAP, {{3, 0, 5, 2, 1}, {0, 3, 2, 5, 1}}, " 1,3"},
    {8, 8, 2, WIDE, {{2, 2, 3, 5, 1}}, " 3,2 3,3 3,4"},
    {8, 8, 2, WIDE, {{0, 0, 1, 8, 1}}, " 1,0 1,1 1,2 1,3 1,4 1,5 1,6 1,7"},
    {8, 8, 2, WIDE, {{7, 0, 8, 8, 1}}, ""},
    {8, 8, 3, CORNER, {{2, 0, 4, 4, 1}, {1, 4, 2, 5, 2}, {0, 3, 1, 4, 2}}, " 0,0 1,0"},
};

struct layout {
    uint16_t material[WORDS], errors[WORDS], waiting[WORDS], work[WORDS], rules[RULES], used;
};

static uint64_t create(struct layout *l, size_t words, uint16_t w, uint16_t h, uint16_t t)
{
    return layout_create(l->material, words, l->errors, words, l->waiting, words, w, h, t);
}

static uint64_t paint(struct layout *l, size_t words, const uint16_t *p)
{
    return layout_paint(l->material, words, l->errors, words, l->waiting, words, l->work, words, p[0], p[1], p[2], p[3], p[4]);
}

static uint64_t check(struct layout *l, uint16_t times)
{
    return layout_check(l->material, WORDS, l->errors, WORDS, l->waiting, WORDS, l->work, WORDS, l->rules, RULES, l->used, times);
}

static void load(struct layout *l, enum rules rules)
{
    static const uint16_t corner[8] = {0, 1, 1, 2, 1, 2, 0, 0};
    if (rules == GAP)
        l->used = (uint16_t)layout_used(layout_spacing(l->rules, RULES, 0, 2, 2, 2, 2, 1, 0));
    else if (rules == WIDE)
        l->used = (uint16_t)layout_used(layout_width(l->rules, RULES, 0, 2, 2, 2, 0));
    else {
        memcpy(l->rules, corner, sizeof corner);
        l->used = 1;
    }
}

/* The error squares as text. */
static void errors_text(const struct layout *l, uint16_t w, uint16_t h, char *text)
{
    *text = 0;
    for (uint16_t y = 0; y < h; y++)
        for (uint16_t x = 0; x < w; x++) {
            uint64_t at = layout_point(l->errors, WORDS, x, y);
            if (layout_tile_at(l->errors, (uint16_t)layout_tile_number(at)).type == 1)
                text += sprintf(text, " %u,%u", x, y);
        }
}

/* Says whether what must hold does; gives how many failures that is. */
static int must(int holds, const char *what, int number)
{
    if (!holds)
        printf("worked: case %d: %s\n", number, what);
    return !holds;
}

static int run(const struct worked *c, int number)
{
    static struct layout l;
    char text[1024];
    int failures = must(create(&l, WORDS, c->w, c->h, c->t) == 0, "create", number);
    load(&l, c->rules);
    for (int i = 0; i < 4 && c->paints[i][2] > 0; i++)
        failures += must(paint(&l, WORDS, c->paints[i]) == 0, "paint", number);
    failures += must(layout_number(check(&l, 9)) == 0, "check", number);
    errors_text(&l, c->w, c->h, text);
    return failures + must(strcmp(text, c->errors) == 0, text, number);
}

/* The tables of the first two lines of the specification's list. */
static int run_tables(void)
{
    static struct layout l;
    static const uint16_t bar[5] = {1, 0, 2, 2, 1}, corner[5] = {0, 1, 1, 2, 1};
    static const uint16_t bars[31] = {3, 4, 2, 2, 0, 0, 1, 2, 0, 65535, 65535, 1, 65535, 1, 0, 2, 2, 1, 65535, 0, 2, 65535,
                                      2, 0, 4, 2, 0, 65535, 1, 65535, 65535};
    int failures = must(create(&l, WORDS, 4, 2, 2) == 0 && paint(&l, WORDS, bar) == 0, "paint", 10);
    failures += must(memcmp(l.material, bars, sizeof bars) == 0, "table of a bar", 10);
    failures += must(create(&l, WORDS, 3, 2, 2) == 0 && paint(&l, WORDS, corner) == 0, "paint", 11);
    failures += must(layout_count(l.material) == 3 && layout_tile_at(l.material, 0).rt == 2 && layout_tile_at(l.material, 1).lb == 0,
                     "table of a corner", 11);
    return failures;
}

/* Two pieces wait, one check does one, and a check of none does nothing. */
static int run_pieces(void)
{
    static struct layout l, before;
    static const uint16_t across[5] = {15, 0, 17, 1, 1};
    l.used = 0;
    int failures = must(create(&l, WORDS, 40, 20, 2) == 0 && paint(&l, WORDS, across) == 0, "paint", 12);
    before = l;
    failures += must(layout_left(check(&l, 0)) == 2 && memcmp(&before, &l, sizeof l) == 0, "check 0", 12);
    uint64_t one = check(&l, 1);
    return failures + must(layout_done(one) == 1 && layout_left(one) == 1, "check 1", 12);
}

static int run_room(void)
{
    static struct layout l;
    static const uint16_t middle[5] = {1, 0, 2, 2, 1}, left[5] = {0, 0, 2, 2, 1};
    int failures = must(create(&l, LAYOUT_WORDS(2), 4, 2, 2) == 0, "create", 13);
    failures += must(paint(&l, LAYOUT_WORDS(2), middle) == LAYOUT_FULL, "three tiles in room for two", 13);
    return failures + must(paint(&l, LAYOUT_WORDS(2), left) == LAYOUT_OK, "two tiles in room for two", 13);
}

int main(void)
{
    int failures = run_tables() + run_pieces() + run_room(), count = sizeof cases / sizeof *cases;
    for (int i = 0; i < count; i++)
        failures += run(&cases[i], i + 1);
    printf("worked squares: %d cases, %d failures\n", count + 4, failures);
    return failures > 0;
}

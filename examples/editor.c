/*
 * editor.c: the core of a small layout editor over layout.h. It makes a layout, loads the nMOS rules, paints, checks a few pieces
 * whenever it is idle, asks what is settled, lists the errors and draws the window as text, errors marked with a star.
 *
 *   cc editor.c $(pkg-config --cflags --libs layout)
 */
#include "layout.h"

#include <stdbool.h>
#include <stdio.h>

enum { WIDTH = 30, HEIGHT = 24, ROOM = 400, IDLE_PIECES = 2 };

enum { TABLE_WORDS = LAYOUT_WORDS(ROOM), LIST_WORDS = LAYOUT_RULE_WORDS(LAYOUT_MOST_RULES) };

/* The polysilicon-diffusion plane of an nMOS process. */
enum type { SPACE, DIFFUSION, POLY, DIFFUSION_CONTACT, POLY_CONTACT, BURIED_CONTACT, ENHANCEMENT, DEPLETION, TYPES };

static const char letters[] = ".dpDPbet";

/* All that the editor keeps of a cell. The library works in these words and has none of its own. */
struct cell {
    uint16_t material[TABLE_WORDS], errors[TABLE_WORDS], waiting[TABLE_WORDS];
    uint16_t work[TABLE_WORDS];
    uint16_t rules[LIST_WORDS];
    uint16_t used;
};

/* What to tell the user about a call that was refused. */
static const char *reason_of(uint64_t answer)
{
    static const char *const reasons[] = {"done",         "bad length", "bad size",           "damaged table",
                                          "bad rule",     "no such type", "outside the window", "out of room"};
    return layout_number(answer) <= LAYOUT_FULL ? reasons[layout_number(answer)] : "unknown";
}

/* Did the call go through? Says so if not. */
static bool accepted(const char *what, uint64_t answer)
{
    if (layout_number(answer) != LAYOUT_OK)
        printf("%s refused: %s\n", what, reason_of(answer));
    return layout_number(answer) == LAYOUT_OK;
}

/* A width rule, or a spacing rule between two sets of types. */
struct design_rule {
    bool spacing;
    uint16_t a, b, d, touch;
};

/* The widths and spacings of the process; a set has bit t for type t. */
static const struct design_rule nmos[] = {
    {false, 234, 0, 2, 0}, {false, 244, 0, 2, 0},  {false, 8, 0, 4, 0},    {false, 16, 0, 4, 0},
    {false, 32, 0, 2, 0},  {false, 64, 0, 2, 0},   {false, 128, 0, 2, 0},  {true, 192, 24, 1, 0},
    {true, 64, 128, 3, 0}, {true, 32, 64, 3, 0},   {true, 234, 234, 3, 1}, {true, 244, 244, 2, 1},
};

/* Loads the rules. Each macro appends to the list and tells how many rules there are now. */
static bool load_rules(struct cell *c)
{
    for (uint16_t i = 0; i < sizeof nmos / sizeof *nmos; i++) {
        const struct design_rule *n = &nmos[i];
        uint64_t answer = n->spacing ? layout_spacing(c->rules, LIST_WORDS, c->used, TYPES, n->a, n->b, n->d, n->touch, i)
                                     : layout_width(c->rules, LIST_WORDS, c->used, TYPES, n->a, n->d, i);
        if (!accepted("rule", answer))
            return false;
        c->used = (uint16_t)layout_used(answer);
    }
    printf("%u rules\n", c->used);
    return true;
}

static bool start(struct cell *c)
{
    c->used = 0;
    return accepted("create", layout_create(c->material, TABLE_WORDS, c->errors, TABLE_WORDS, c->waiting, TABLE_WORDS, WIDTH, HEIGHT,
                                            TYPES)) &&
           load_rules(c);
}

static void paint(struct cell *c, uint16_t x1, uint16_t y1, uint16_t x2, uint16_t y2, enum type type)
{
    accepted("paint", layout_paint(c->material, TABLE_WORDS, c->errors, TABLE_WORDS, c->waiting, TABLE_WORDS, c->work, TABLE_WORDS, x1,
                                   y1, x2, y2, (uint16_t)type));
}

/* What the editor does while the user does nothing: a few pieces, and then it looks for input again. Yes if more is to do. */
static bool idle(struct cell *c)
{
    uint64_t answer = layout_check(c->material, TABLE_WORDS, c->errors, TABLE_WORDS, c->waiting, TABLE_WORDS, c->work, TABLE_WORDS,
                                   c->rules, LIST_WORDS, c->used, IDLE_PIECES);
    printf("idle: %u pieces checked, %u left\n", layout_done(answer), layout_left(answer));
    return accepted("check", answer) && layout_left(answer) > 0;
}

/* Is the window settled, and which rectangles are in error? */
static void list_errors(const struct cell *c)
{
    uint16_t tiles[ROOM];
    uint64_t answer = layout_report(c->material, TABLE_WORDS, c->errors, TABLE_WORDS, c->waiting, TABLE_WORDS, c->rules, LIST_WORDS,
                                    c->used, 0, 0, WIDTH, HEIGHT, tiles, ROOM);
    if (!accepted("report", answer))
        return;
    printf("%s: %u error squares in %u tiles\n", layout_settled(answer) ? "settled" : "not settled", layout_squares(answer),
           layout_tiles(answer));
    for (unsigned i = 0; i < layout_tiles(answer); i++) {
        struct layout_tile t = layout_tile_at(c->errors, tiles[i]);
        printf("  error %u %u %u %u\n", t.left, t.bottom, t.right, t.top);
    }
}

/* What lies under the pointer. */
static void point_at(const struct cell *c, uint16_t x, uint16_t y)
{
    uint64_t answer = layout_point(c->material, TABLE_WORDS, x, y);
    if (!accepted("point", answer))
        return;
    struct layout_tile t = layout_tile_at(c->material, (uint16_t)layout_tile_number(answer));
    printf("at %u %u: '%c', tile %u %u %u %u\n", x, y, letters[t.type], t.left, t.bottom, t.right, t.top);
}

/* Puts the mark of its type on the squares of each tile; a blank mark leaves them as they are. */
static void draw_table(char screen[HEIGHT][WIDTH], const uint16_t *table, const char *marks)
{
    for (uint16_t i = 0; i < layout_count(table); i++) {
        struct layout_tile t = layout_tile_at(table, i);
        for (int y = t.bottom; y < t.top; y++)
            for (int x = t.left; x < t.right; x++)
                if (marks[t.type] != ' ')
                    screen[y][x] = marks[t.type];
    }
}

static void draw(const struct cell *c)
{
    char screen[HEIGHT][WIDTH];
    draw_table(screen, c->material, letters);
    draw_table(screen, c->errors, " *");
    for (int y = HEIGHT - 1; y >= 0; y--)
        printf("%.*s\n", WIDTH, screen[y]);
}

/* An inverter: pull-down and pull-up on one strip of diffusion, the input from the left, and a wire that comes too close. */
static void paint_inverter(struct cell *c)
{
    paint(c, 16, 2, 20, 6, DIFFUSION_CONTACT);
    paint(c, 17, 6, 19, 18, DIFFUSION);
    paint(c, 4, 8, 21, 10, POLY);
    paint(c, 2, 7, 6, 11, POLY_CONTACT);
    paint(c, 17, 8, 19, 10, ENHANCEMENT);
    paint(c, 15, 14, 21, 16, POLY);
    paint(c, 17, 14, 19, 16, DEPLETION);
    paint(c, 16, 18, 20, 22, DIFFUSION_CONTACT);
    paint(c, 24, 5, 26, 20, DIFFUSION);
    paint(c, 8, 11, 13, 12, POLY);
}

int main(void)
{
    static struct cell cell;
    if (!start(&cell))
        return 1;
    paint_inverter(&cell);
    list_errors(&cell);
    while (idle(&cell))
        ;
    list_errors(&cell);
    draw(&cell);
    point_at(&cell, 18, 9);

    puts("the wire is moved away and made wider");
    paint(&cell, 8, 11, 13, 12, SPACE);
    paint(&cell, 8, 12, 13, 14, POLY);
    while (idle(&cell))
        ;
    list_errors(&cell);
    draw(&cell);

    paint(&cell, 28, 10, WIDTH + 1, 12, POLY);
    point_at(&cell, WIDTH, 0);
    return 0;
}

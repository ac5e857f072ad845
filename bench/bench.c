/* Times the library on one layout: bench WIDTH HEIGHT RULES LAYOUT EDITS [ROUNDS]
 * Prints the first paints of a layout that make at most so many tiles: bench fit WIDTH HEIGHT LAYOUT TILES
 *
 * RULES has `width` and `spacing` lines as session reads them, LAYOUT and EDITS have a paint a line, x1 y1 x2 y2 type.
 * Paints the layout, checks it until nothing waits, then paints each edit and checks again until nothing waits. After that it asks
 * for points and reports. Prints a name and a number a line: counts, and microseconds, the best of ROUNDS rounds.
 * Each phase is a function of its own, so that valgrind --tool=callgrind --toggle-collect=PHASE counts its instructions. */
#define _POSIX_C_SOURCE 199309L
#include "layout.h"
#include <stdio.h>
#include <stdlib.h>
#include <string.h>
#include <time.h>

#define ROOM 3600
#define WORDS (4 + 9 * ROOM)
#define RULES 512
#define PAINTS 20000
#define KINDS 8
#define ASKED 200

typedef struct { uint16_t x1, y1, x2, y2, kind; } paint_t;
typedef struct { paint_t list[PAINTS]; int count; } paints_t;
typedef struct { uint16_t material[WORDS], errors[WORDS], waiting[WORDS]; } layout_t;
typedef struct { uint16_t words[8 * RULES]; uint16_t used; } rules_t;

static uint16_t work[WORDS], listing[ROOM];

static void stop(const char *what) {
    fprintf(stderr, "bench: %s\n", what);
    exit(1);
}

static double now_us(void) {
    struct timespec t;
    clock_gettime(CLOCK_MONOTONIC, &t);
    return t.tv_sec * 1e6 + t.tv_nsec / 1e3;
}


/* The macros of the specification: one rule, the rules of a width line, the rules of a spacing line. */
static void add_rule(rules_t *r, int type1, int type2, int d, int allowed, int corners, int reason) {
    if (r->used == RULES) stop("too many rules");
    uint16_t rule[8] = {type1, type2, d, allowed, corners, d, 0, reason};
    memcpy(r->words + 8 * r->used++, rule, sizeof rule);
}

static void add_rules(rules_t *r, int firsts, int seconds, int d, int allowed, int corners, int reason) {
    for (int a = 0; a < KINDS; a++)
        for (int b = 0; b < KINDS; b++)
            if (firsts >> a & 1 && seconds >> b & 1) add_rule(r, a, b, d, allowed, corners, reason);
}

static void add_width(rules_t *r, int set, int d, int reason) {
    int all = (1 << KINDS) - 1;
    add_rules(r, all & ~set, set, d, set, set, reason);
}

static void add_spacing(rules_t *r, int a, int b, int d, int touch, int reason) {
    int all = (1 << KINDS) - 1;
    int beside = touch ? all & ~(a | b) : all & ~a;
    add_rules(r, a, beside, d, all & ~b, beside, reason);
    if (a == b) return;
    beside = touch ? all & ~(a | b) : all & ~b;
    add_rules(r, b, beside, d, all & ~a, beside, reason);
}

static void read_rules(const char *path, rules_t *r) {
    char word[16];
    int n[5];
    FILE *f = fopen(path, "r");
    if (!f) stop("no rules");
    r->used = 0;
    while (fscanf(f, "%15s", word) == 1)
        if (!strcmp(word, "width") && fscanf(f, "%d %d %d", n, n + 1, n + 2) == 3)
            add_width(r, n[0], n[1], n[2]);
        else if (!strcmp(word, "spacing") && fscanf(f, "%d %d %d %d %d", n, n + 1, n + 2, n + 3, n + 4) == 5)
            add_spacing(r, n[0], n[1], n[2], n[3], n[4]);
        else
            stop("a line of the rules is neither width nor spacing");
    fclose(f);
}

static void read_paints(const char *path, paints_t *p) {
    int n[5];
    FILE *f = fopen(path, "r");
    if (!f) stop("no paints");
    for (p->count = 0; fscanf(f, "%d %d %d %d %d", n, n + 1, n + 2, n + 3, n + 4) == 5; p->count++) {
        if (p->count == PAINTS) stop("too many paints");
        p->list[p->count] = (paint_t){n[0], n[1], n[2], n[3], n[4]};
    }
    fclose(f);
}

static void paint_one(layout_t *l, const paint_t *p) {
    uint64_t r = layout_paint(l->material, WORDS, l->errors, WORDS, l->waiting, WORDS, work, WORDS, p->x1, p->y1, p->x2, p->y2, p->kind);
    if (layout_number(r)) stop("a paint is refused");
}

static unsigned check_all(layout_t *l, const rules_t *r) {
    unsigned done = 0;
    for (;;) {
        uint64_t a = layout_check(l->material, WORDS, l->errors, WORDS, l->waiting, WORDS, work, WORDS, r->words, 8 * RULES, r->used, 65535);
        if (layout_number(a)) stop("a check is refused");
        done += layout_done(a);
        if (!layout_left(a)) return done;
    }
}

/* The phases. */
__attribute__((noinline)) void paint_layout(layout_t *l, const paints_t *p, uint16_t w, uint16_t h) {
    if (layout_create(l->material, WORDS, l->errors, WORDS, l->waiting, WORDS, w, h, KINDS)) stop("create is refused");
    for (int i = 0; i < p->count; i++) paint_one(l, p->list + i);
}

__attribute__((noinline)) unsigned full_check(layout_t *l, const rules_t *r) { return check_all(l, r); }

__attribute__((noinline)) unsigned run_edits(layout_t *l, const rules_t *r, const paints_t *edits) {
    unsigned done = 0;
    for (int i = 0; i < edits->count; i++) {
        paint_one(l, edits->list + i);
        done += check_all(l, r);
    }
    return done;
}

__attribute__((noinline)) void ask_points(const layout_t *l, const paints_t *p) {
    for (int i = 0; i < ASKED; i++)
        if (layout_number(layout_point(l->material, WORDS, p->list[i % p->count].x1, p->list[i % p->count].y1))) stop("a point is refused");
}

__attribute__((noinline)) void ask_vets(const layout_t *l) {
    for (int i = 0; i < ASKED; i++)
        if (layout_number(layout_point(l->material, WORDS, 0, 0))) stop("a point is refused");
}

__attribute__((noinline)) void ask_reports(const layout_t *l, const rules_t *r, const paints_t *p) {
    for (int i = 0; i < ASKED; i++) {
        const paint_t *a = p->list + i % p->count;
        if (layout_number(layout_report(l->material, WORDS, l->errors, WORDS, l->waiting, WORDS, r->words, 8 * RULES, r->used,
                                    a->x1, a->y1, a->x2, a->y2, listing, ROOM)))
            stop("a report is refused");
    }
}

/* Is a square settled? A report on one square says so, and little else. */
__attribute__((noinline)) void ask_settled(const layout_t *l, const rules_t *r, const paints_t *p) {
    for (int i = 0; i < ASKED; i++) {
        const paint_t *a = p->list + i % p->count;
        if (!layout_settled(layout_report(l->material, WORDS, l->errors, WORDS, l->waiting, WORDS, r->words, 8 * RULES, r->used,
                                          a->x1, a->y1, a->x1 + 1, a->y1 + 1, listing, ROOM)))
            stop("a square is not settled");
    }
}

/* The longest single call on the checked layout: a paint of each edit, of the whole window and of its lower half, a check of one piece, a report on the window.
 * Each is timed twice and the shorter time counts, so that another process on the machine is not taken for a slow call. */
static double timed_paint(const layout_t *l, const paint_t *p) {
    static layout_t copy;
    double least = -1;
    for (int i = 0; i < 2; i++) {
        copy = *l;
        double t = now_us();
        layout_paint(copy.material, WORDS, copy.errors, WORDS, copy.waiting, WORDS, work, WORDS, p->x1, p->y1, p->x2, p->y2, p->kind);
        t = now_us() - t;
        if (least < 0 || t < least) least = t;
    }
    return least;
}

static double timed_piece(const layout_t *l, const rules_t *r, const paint_t *p) {
    static layout_t copy;
    double least = -1;
    for (int i = 0; i < 2; i++) {
        copy = *l;
        paint_one(&copy, p);
        double t = now_us();
        layout_check(copy.material, WORDS, copy.errors, WORDS, copy.waiting, WORDS, work, WORDS, r->words, 8 * RULES, r->used, 1);
        t = now_us() - t;
        if (least < 0 || t < least) least = t;
    }
    return least;
}

static double timed_report(const layout_t *l, const rules_t *r, uint16_t w, uint16_t h) {
    double least = -1;
    for (int i = 0; i < 2; i++) {
        double t = now_us();
        layout_report(l->material, WORDS, l->errors, WORDS, l->waiting, WORDS, r->words, 8 * RULES, r->used, 0, 0, w, h, listing, ROOM);
        t = now_us() - t;
        if (least < 0 || t < least) least = t;
    }
    return least;
}

static double longest_call(const layout_t *l, const rules_t *r, const paints_t *edits, uint16_t w, uint16_t h) {
    const paint_t wide[] = {{0, 0, w, h, 1}, {0, 0, w, h, 0}, {0, 0, w, h / 2, 1}, {0, h / 2, w, h, 0}, {0, 0, 1, h, 1}, {w / 2, 0, w / 2 + 1, h, 2}};
    double most = timed_report(l, r, w, h);
    for (int i = 0; i < edits->count; i++) {
        double t = timed_paint(l, edits->list + i), u = timed_piece(l, r, edits->list + i);
        most = t > most ? t : most;
        most = u > most ? u : most;
    }
    for (unsigned i = 0; i < sizeof wide / sizeof *wide; i++) {
        double t = timed_paint(l, wide + i);
        most = t > most ? t : most;
    }
    return most;
}

/* The best time of each phase over the rounds. */
enum { PAINT, FULL, EDIT, POINT, VET, SETTLED, REPORT, LONGEST, PHASES };
static const char *names[PHASES] = {"paint_us", "full_us", "edit_us", "point_us", "vet_us", "settled_us", "report_us", "longest_us"};

static void keep_least(double *best, int phase, double since, int parts) {
    double t = (now_us() - since) / parts;
    if (best[phase] < 0 || t < best[phase]) best[phase] = t;
}

static void one_round(layout_t *l, const rules_t *r, const paints_t *p, const paints_t *edits, uint16_t w, uint16_t h, double *best,
                      unsigned *full, unsigned *pieces) {
    double t = now_us();
    paint_layout(l, p, w, h);
    keep_least(best, PAINT, t, p->count);
    t = now_us();
    *full = full_check(l, r);
    keep_least(best, FULL, t, 1);
    t = now_us();
    *pieces = run_edits(l, r, edits);
    keep_least(best, EDIT, t, edits->count);
    t = now_us();
    ask_points(l, p);
    keep_least(best, POINT, t, ASKED);
    t = now_us();
    ask_vets(l);
    keep_least(best, VET, t, ASKED);
    t = now_us();
    ask_settled(l, r, p);
    keep_least(best, SETTLED, t, ASKED);
    t = now_us();
    ask_reports(l, r, p);
    keep_least(best, REPORT, t, ASKED);
    double longest = longest_call(l, r, edits, w, h);
    if (best[LONGEST] < 0 || longest < best[LONGEST]) best[LONGEST] = longest;
}

static int print_fitting(layout_t *l, uint16_t w, uint16_t h, const paints_t *p, int tiles) {
    if (layout_create(l->material, WORDS, l->errors, WORDS, l->waiting, WORDS, w, h, KINDS)) stop("create is refused");
    for (int i = 0; i < p->count; i++) {
        const paint_t *a = p->list + i;
        paint_one(l, a);
        if (l->material[0] > tiles) break;
        printf("%u %u %u %u %u\n", a->x1, a->y1, a->x2, a->y2, a->kind);
    }
    return 0;
}

int main(int argc, char **argv) {
    static layout_t l;
    static rules_t r;
    static paints_t p, edits;
    double best[PHASES] = {-1, -1, -1, -1, -1, -1, -1, -1};
    unsigned full = 0, pieces = 0;
    if (argc == 6 && !strcmp(argv[1], "fit")) {
        read_paints(argv[4], &p);
        return print_fitting(&l, atoi(argv[2]), atoi(argv[3]), &p, atoi(argv[5]));
    }
    if (argc < 6) stop("usage: bench WIDTH HEIGHT RULES LAYOUT EDITS [ROUNDS]");
    read_rules(argv[3], &r);
    read_paints(argv[4], &p);
    read_paints(argv[5], &edits);
    for (int i = argc > 6 ? atoi(argv[6]) : 5; i > 0; i--)
        one_round(&l, &r, &p, &edits, atoi(argv[1]), atoi(argv[2]), best, &full, &pieces);
    printf("rules %u\ntiles %u\nerror_tiles %u\npieces %u\nedit_pieces %.2f\n", r.used, l.material[0], l.errors[0], full,
           edits.count ? (double)pieces / edits.count : 0.0);
    for (int i = 0; i < PHASES; i++) printf("%s %.2f\n", names[i], best[i]);
    return 0;
}

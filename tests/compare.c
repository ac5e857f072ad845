/*
 * compare.c: the library against the naive implementation, through the C entries, on random and damaged inputs.
 *
 *   compare SEED CASES [small]
 *
 * Scene after scene, from the seed on, until so many calls have been compared: the answer, every word of every slice, and the
 * guard words around them. Where something differs it prints the call and stops; `compare SEED 1` with the printed seed
 * goes through that scene again. `small` leaves out the large windows.
 */
#include "cases.h"
#include "layout.h"
#include "lent.h"

#include <inttypes.h>
#include <stdio.h>
#include <stdlib.h>
#include <string.h>

static const char *const call_names[CALLS] = {"create", "paint", "check", "report", "point", "width", "spacing"};
static const char *const slice_names[SLICES] = {"material", "errors", "waiting", "work", "rules", "listing"};

enum { NUMBERS = 8 };

struct counts {
    unsigned long cases, answers[CALLS][NUMBERS];
    unsigned long full_first, full_later; /* checks that met 7 at their first piece, and at a later one */
    unsigned long unharmed;               /* damaged calls that were sound all the same */
    unsigned long wide, dense, ruled;     /* sound calls on a side of 4,000 and more, a table of 1,000 tiles and more, 100 rules and more */
};

struct driver {
    uint64_t seed;
    int step;
    struct fence fences[SLICES];
    struct request now, before;
    struct counts counts;
};

/* Calls the library with the lent slices. */
static uint64_t ask_library(const struct request *q, uint16_t *const *at)
{
    const size_t *n = q->counts;
    const uint16_t x1 = (uint16_t)q->area.x1, y1 = (uint16_t)q->area.y1, x2 = (uint16_t)q->area.x2, y2 = (uint16_t)q->area.y2;
    uint16_t *m = at[MATERIAL], *e = at[ERRORS], *w = at[WAITING], *work = at[WORK], *rules = at[RULES];
    switch (q->call) {
    case CREATE:
        return layout_create(m, n[MATERIAL], e, n[ERRORS], w, n[WAITING], q->w, q->h, q->t);
    case PAINT:
        return layout_paint(m, n[MATERIAL], e, n[ERRORS], w, n[WAITING], work, n[WORK], x1, y1, x2, y2, q->kind);
    case CHECK:
        return layout_check(m, n[MATERIAL], e, n[ERRORS], w, n[WAITING], work, n[WORK], rules, n[RULES], q->used, q->times);
    case REPORT:
        return layout_report(m, n[MATERIAL], e, n[ERRORS], w, n[WAITING], rules, n[RULES], q->used, x1, y1, x2, y2, at[LISTING],
                             n[LISTING]);
    case POINT:
        return layout_point(m, n[MATERIAL], q->x, q->y);
    case WIDTH:
        return layout_width(rules, n[RULES], q->used, q->t, q->a, q->d, q->reason);
    default:
        return layout_spacing(rules, n[RULES], q->used, q->t, q->a, q->b, q->d, q->touch, q->reason);
    }
}

/* The same by the naive implementation, in the request's own words. */
static struct answer ask_naive(struct request *q)
{
    struct words m = request_slice(q, MATERIAL), e = request_slice(q, ERRORS), w = request_slice(q, WAITING);
    struct words work = request_slice(q, WORK), rules = request_slice(q, RULES), listing = request_slice(q, LISTING);
    switch (q->call) {
    case CREATE:
        return naive_create(m, e, w, q->w, q->h, q->t);
    case PAINT:
        return naive_paint(m, e, w, work, q->area, q->kind);
    case CHECK:
        return naive_check(m, e, w, work, rules, q->used, q->times);
    case REPORT:
        return naive_report(m, e, w, rules, q->used, q->area, listing);
    case POINT:
        return naive_point(m, q->x, q->y);
    case WIDTH:
        return naive_width(rules, q->used, q->t, q->a, q->d, q->reason);
    default:
        return naive_spacing(rules, q->used, q->t, q->a, q->b, q->d, q->touch, q->reason);
    }
}

/* An answer in one number, as docs/C-INTERFACE.md lays it out. */
static uint64_t packed(enum call call, struct answer a)
{
    uint64_t all = a.number | (uint64_t)a.place << 8, one = a.values[0], two = a.values[1], three = a.values[2];
    if (call == CHECK)
        return all | one << 17 | two << 33;
    if (call == REPORT)
        return all | one << 17 | two << 18 | three << 43;
    return all | one << 17;
}

/* Do the functions of layout.h take the answer apart as it was? */
static bool unpacks(enum call call, struct answer a, uint64_t got)
{
    bool same = layout_number(got) == a.number && layout_place(got) == a.place;
    switch (call) {
    case CHECK:
        return same && layout_done(got) == a.values[0] && layout_left(got) == a.values[1];
    case REPORT:
        return same && layout_settled(got) == a.values[0] && layout_squares(got) == a.values[1] && layout_tiles(got) == a.values[2];
    case POINT:
        return same && layout_tile_number(got) == a.values[0];
    case WIDTH:
    case SPACING:
        return same && layout_used(got) == a.values[0];
    default:
        return same;
    }
}

static void print_request(const struct request *q)
{
    printf("area %d %d %d %d, type %u, used %u, times %u, size %u %u %u, point %u %u, sets %u %u, d %u, touch %u, reason %u\n", q->area.x1,
           q->area.y1, q->area.x2, q->area.y2, q->kind, q->used, q->times, q->w, q->h, q->t, q->x, q->y, q->a, q->b, q->d, q->touch,
           q->reason);
    for (int i = 0; i < SLICES; i++) {
        if (!takes(q->call, (enum slice)i))
            continue;
        printf("%s, %zu words:", slice_names[i], q->counts[i]);
        for (size_t k = 0; k < q->counts[i] && k < 400; k++)
            printf(" %u", q->words[i][k]);
        printf("\n");
    }
}

/* Prints what differs and ends the program. */
static void fail(const struct driver *d, const char *what, uint64_t want, uint64_t got)
{
    printf("DIFFERS: seed %" PRIu64 ", step %d, %s: %s: naive %#" PRIx64 ", library %#" PRIx64 "\n", d->seed, d->step,
           call_names[d->before.call], what, want, got);
    print_request(&d->before);
    exit(1);
}

static void compare_slice(const struct driver *d, enum slice s, const uint16_t *at)
{
    char what[80];
    for (size_t i = 0; i < d->now.counts[s]; i++)
        if (at[i] != d->now.words[s][i]) {
            snprintf(what, sizeof what, "%s, word %zu", slice_names[s], i);
            fail(d, what, d->now.words[s][i], at[i]);
        }
    if (!fence_kept(&d->fences[s])) {
        snprintf(what, sizeof what, "guard words of %s", slice_names[s]);
        fail(d, what, 0, 0);
    }
}

static void count_case(struct counts *c, const struct request *q, struct answer a)
{
    c->cases++;
    c->answers[q->call][a.number]++;
    if (q->call == CHECK && a.number == 7)
        *(a.values[0] == 0 ? &c->full_first : &c->full_later) += 1;
    if (a.number != 0)
        return;
    c->unharmed += q->damaged;
    c->ruled += takes(q->call, RULES) && q->used >= 100;
    if (!takes(q->call, MATERIAL))
        return;
    c->wide += q->words[MATERIAL][1] >= 4000 || q->words[MATERIAL][2] >= 4000;
    c->dense += q->words[MATERIAL][0] >= 1000 || (q->call != POINT && q->words[ERRORS][0] >= 1000);
}

/* One call both ways. Leaves what the call left in d->now. */
static void run_case(struct driver *d, struct random *r)
{
    uint16_t *at[SLICES];
    d->before = d->now;
    for (int i = 0; i < SLICES; i++) {
        at[i] = fence_lend(&d->fences[i], d->now.words[i], d->now.counts[i], !one_in(r, 4));
        if (d->now.counts[i] == 0 && one_in(r, 4))
            at[i] = NULL;
    }
    uint64_t got = ask_library(&d->now, at);
    struct answer a = ask_naive(&d->now);
    if (got != packed(d->now.call, a) || !unpacks(d->now.call, a, got))
        fail(d, "answer", packed(d->now.call, a), got);
    for (int i = 0; i < SLICES; i++)
        if (takes(d->now.call, (enum slice)i))
            compare_slice(d, (enum slice)i, at[i]);
    count_case(&d->counts, &d->now, a);
}

/* A layout's life: a number of calls, about every third one damaged. */
static void run_scene(struct driver *d, struct scene *s, enum sizes sizes)
{
    struct random r = {d->seed};
    scene_make(s, &r, sizes);
    for (d->step = 0; d->step < s->steps; d->step++) {
        request_make(&d->now, s, &r);
        if (one_in(&r, 3))
            request_damage(&d->now, s, &r);
        run_case(d, &r);
        scene_follow(s, &d->now);
    }
}

static void print_counts(const struct counts *c)
{
    printf("%lu calls compared\n        ", c->cases);
    for (int n = 0; n < NUMBERS; n++)
        printf("%8d", n);
    printf("\n");
    for (int i = 0; i < CALLS; i++) {
        printf("%-8s", call_names[i]);
        for (int n = 0; n < NUMBERS; n++)
            printf("%8lu", c->answers[i][n]);
        printf("\n");
    }
    printf("checks that met 7 at their first piece %lu, at a later one %lu; damaged calls that were sound all the same %lu\n",
           c->full_first, c->full_later, c->unharmed);
    printf("accepted with a side of 4,000 and more %lu, with 1,000 tiles and more %lu, with 100 rules and more %lu\n", c->wide, c->dense,
           c->ruled);
}

int main(int argc, char **argv)
{
    if (argc < 3 || argc > 4 || (argc == 4 && strcmp(argv[3], "small") != 0)) {
        fputs("usage: compare SEED CASES [small]\n", stderr);
        return 2;
    }
    struct driver *d = calloc(1, sizeof *d);
    struct scene *s = calloc(1, sizeof *s);
    if (!d || !s)
        return 2;
    for (int i = 0; i < SLICES; i++)
        fence_open(&d->fences[i], CAPACITY);
    unsigned long cases = strtoul(argv[2], NULL, 10);
    for (d->seed = strtoull(argv[1], NULL, 10); d->counts.cases < cases; d->seed++)
        run_scene(d, s, argc == 4 ? SMALL : ALL);
    print_counts(&d->counts);
    free(s);
    free(d);
    return 0;
}

/*
 * cases.h: random calls. A scene is a sound layout with its rules, which lives through a sequence of calls. A request is one call
 * with copies of all its slices, made from a scene and then, often, damaged.
 */
#ifndef CASES_H
#define CASES_H

#include "naive.h"
#include "random.h"

enum { CAPACITY = 4 + 9 * (MOST_TILES + 2) };

enum call { CREATE, PAINT, CHECK, REPORT, POINT, WIDTH, SPACING, CALLS };

enum slice { MATERIAL, ERRORS, WAITING, WORK, RULES, LISTING, SLICES };

/* How large the windows of a run are. */
enum sizes { SMALL, ALL };

struct request {
    enum call call;
    uint16_t words[SLICES][CAPACITY];
    size_t counts[SLICES];
    struct area area;
    uint16_t used, times, w, h, t, kind, x, y, a, b, d, touch, reason;
    bool damaged;
};

struct scene {
    uint16_t words[SLICES][CAPACITY]; /* material, errors, waiting and rules */
    size_t counts[SLICES];
    int room, w, h, t, kinds, steps;
    uint16_t used;
};

struct words request_slice(struct request *r, enum slice s);
bool takes(enum call call, enum slice s);

/* cases.c */
void scene_make(struct scene *s, struct random *r, enum sizes sizes);
void request_make(struct request *q, const struct scene *s, struct random *r);
void scene_follow(struct scene *s, const struct request *q);

/* damage.c */
void request_damage(struct request *q, const struct scene *s, struct random *r);

#endif

/*
 * naive.h: the specification done the slow way, square by square, to compare the library with. It shares no code with it:
 * pictures are bytes, strips and runs are gone over as the text defines them, and a table is tested by writing it again.
 */
#ifndef NAIVE_H
#define NAIVE_H

#include <stdbool.h>
#include <stddef.h>
#include <stdint.h>

enum { MOST_SIDE = 4096, MOST_TILES = 3600, MOST_RULES = 512, OUTSIDE = 65535, PIECE = 16 };

/* A slice of words as a caller lends it. */
struct words {
    uint16_t *at;
    size_t count;
};

/* The type of each square of a window, row by row from the bottom. */
struct picture {
    int w, h, t;
    unsigned char *kinds;
};

struct tile {
    int left, bottom, right, top, kind;
};

struct area {
    int x1, y1, x2, y2;
};

/* The number, the place of a bad rule, and a call's other numbers in the order in which the text names them. */
struct answer {
    unsigned number, place;
    unsigned long values[3];
};

/* naive_plane.c: pictures, strips and tables. */
struct picture picture_new(int w, int h, int t);
struct picture picture_copy(const struct picture *p);
void picture_free(struct picture *p);
int kind_at(const struct picture *p, int x, int y);
void picture_set(struct picture *p, struct area a, int kind);
int room_of(struct words table);
int strips_of(const struct picture *p, int room, struct tile *tiles);
void write_tiles(const struct picture *p, const struct tile *tiles, int count, struct words table);
bool write_picture(const struct picture *p, struct words table);
bool fits(const struct picture *p, struct words table);
bool good_length(struct words table);
bool read_picture(struct words table, struct picture *p);

/* naive_rules.c: rules, what they forbid, and the macros. */
bool rule_sound(const uint16_t *rule, int t);
int halo_of(const uint16_t *rules, int used);
void mark_forbidden(const struct picture *p, const uint16_t *rules, int used, struct picture *marks);
bool good_list(struct words rules, unsigned used);
struct answer naive_width(struct words rules, unsigned used, unsigned t, unsigned set, unsigned d, unsigned reason);
struct answer naive_spacing(struct words rules, unsigned used, unsigned t, unsigned a, unsigned b, unsigned d, unsigned touch,
                            unsigned reason);

/* naive_layout.c: the calls. */
struct answer naive_no(unsigned number);
struct answer naive_create(struct words material, struct words errors, struct words waiting, unsigned w, unsigned h, unsigned t);
struct answer naive_paint(struct words material, struct words errors, struct words waiting, struct words work, struct area a,
                          int kind);
struct answer naive_check(struct words material, struct words errors, struct words waiting, struct words work,
                          struct words rules, unsigned used, unsigned times);
struct answer naive_report(struct words material, struct words errors, struct words waiting, struct words rules, unsigned used,
                           struct area a, struct words listing);
struct answer naive_point(struct words table, int x, int y);

#endif

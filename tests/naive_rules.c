/* naive_rules.c: the edge rules. Runs are looked for and walked along one by one, for each rule and each direction. */
#include "naive.h"

#include <string.h>

/* The words of a rule. */
enum { FIRST, SECOND, D, ALLOWED, CORNERS, CE, FOURWAY, REASON };

/* A direction of crossing (cx, cy), and the direction (ax, ay) along the run in which a one-way rule tests the end. */
struct way {
    int cx, cy, ax, ay;
};

/* Left to right with the top end, and its turned images: bottom to top with the left end, and the two that only fourway rules cross. */
static const struct way ways[4] = {{1, 0, 0, 1}, {0, 1, -1, 0}, {-1, 0, 0, -1}, {0, -1, 1, 0}};

static bool in_set(unsigned set, int kind)
{
    return set >> kind & 1;
}

static bool within(unsigned set, unsigned t)
{
    return set >> t == 0;
}

bool rule_sound(const uint16_t *rule, int t)
{
    return rule[FIRST] < t && rule[SECOND] < t && rule[FIRST] != rule[SECOND] && rule[D] >= 1 && rule[D] <= 16 &&
           within(rule[ALLOWED], (unsigned)t) && within(rule[CORNERS], (unsigned)t) && rule[CE] <= 16 && rule[FOURWAY] <= 1;
}

/* The largest d or ce. */
int halo_of(const uint16_t *rules, int used)
{
    int halo = 0;
    for (int i = 0; i < used; i++) {
        const uint16_t *rule = rules + 8 * i;
        halo = rule[D] > halo ? rule[D] : halo;
        halo = rule[CE] > halo ? rule[CE] : halo;
    }
    return halo;
}

/* Is there a unit edge of the rule's pair with its second side at x y? */
static bool is_edge(const struct picture *p, const uint16_t *rule, struct way w, int x, int y)
{
    return kind_at(p, x, y) == rule[SECOND] && kind_at(p, x - w.cx, y - w.cy) == rule[FIRST];
}

/* Marks the d squares from x y on, in the direction of crossing, that lie in the window and are not allowed. */
static void mark_deep(const struct picture *p, const uint16_t *rule, struct way w, int x, int y, struct picture *marks)
{
    for (int k = 0; k < rule[D]; k++) {
        int sx = x + k * w.cx, sy = y + k * w.cy;
        if (!in_set(rule[ALLOWED], kind_at(p, sx, sy)))
            picture_set(marks, (struct area){sx, sy, sx + 1, sy + 1}, 1);
    }
}

/* At the end of a run, whose last unit is at x y: past it in the direction dx dy, if the first-side square there says so. */
static void mark_past(const struct picture *p, const uint16_t *rule, struct way w, int x, int y, int dx, int dy, struct picture *marks)
{
    if (!in_set(rule[CORNERS], kind_at(p, x + dx - w.cx, y + dy - w.cy)))
        return;
    for (int e = 1; e <= rule[CE]; e++)
        mark_deep(p, rule, w, x + e * dx, y + e * dy, marks);
}

/* A run from its first unit, at x y, along a: every unit, its far end, and its near end for a fourway rule. */
static void mark_run(const struct picture *p, const uint16_t *rule, struct way w, int x, int y, struct picture *marks)
{
    int n = 0;
    while (is_edge(p, rule, w, x + n * w.ax, y + n * w.ay)) {
        mark_deep(p, rule, w, x + n * w.ax, y + n * w.ay, marks);
        n++;
    }
    mark_past(p, rule, w, x + (n - 1) * w.ax, y + (n - 1) * w.ay, w.ax, w.ay, marks);
    if (rule[FOURWAY])
        mark_past(p, rule, w, x, y, -w.ax, -w.ay, marks);
}

/* The full check: marks the squares of the window that some rule forbids. An edge may have one side just outside. */
void mark_forbidden(const struct picture *p, const uint16_t *rules, int used, struct picture *marks)
{
    for (int i = 0; i < used; i++)
        for (int k = 0; k < (rules[8 * i + FOURWAY] ? 4 : 2); k++)
            for (int y = -1; y <= p->h; y++)
                for (int x = -1; x <= p->w; x++) {
                    const uint16_t *rule = rules + 8 * i;
                    struct way w = ways[k];
                    if (is_edge(p, rule, w, x, y) && !is_edge(p, rule, w, x - w.ax, y - w.ay))
                        mark_run(p, rule, w, x, y, marks);
                }
}

bool good_list(struct words rules, unsigned used)
{
    return rules.count % 8 == 0 && rules.count <= 8 * MOST_RULES && 8 * (size_t)used <= rules.count;
}

/* Rules that a macro makes, before it is known whether they fit. */
struct made {
    uint16_t words[8 * MOST_RULES];
    unsigned count;
};

/* The rules for all pairs of two sets, in rising type 1 and then type 2. */
static void make_pairs(struct made *made, unsigned firsts, unsigned seconds, unsigned allowed, unsigned corners, unsigned d,
                       unsigned reason)
{
    for (int first = 0; first < 16; first++)
        for (int second = 0; second < 16; second++)
            if (in_set(firsts, first) && in_set(seconds, second)) {
                uint16_t *rule = made->words + 8 * made->count++;
                rule[FIRST] = (uint16_t)first;
                rule[SECOND] = (uint16_t)second;
                rule[D] = (uint16_t)d;
                rule[ALLOWED] = (uint16_t)allowed;
                rule[CORNERS] = (uint16_t)corners;
                rule[CE] = (uint16_t)d;
                rule[FOURWAY] = 0;
                rule[REASON] = (uint16_t)reason;
            }
}

/* Puts the made rules behind the used ones, if they fit. */
static struct answer append(struct words rules, unsigned used, const struct made *made)
{
    if (8 * (size_t)(used + made->count) > rules.count)
        return naive_no(7);
    if (made->count > 0)
        memcpy(rules.at + 8 * used, made->words, 8 * made->count * sizeof *rules.at);
    struct answer yes = {0, 0, {used + made->count, 0, 0}};
    return yes;
}

struct answer naive_width(struct words rules, unsigned used, unsigned t, unsigned set, unsigned d, unsigned reason)
{
    struct made made = {{0}, 0};
    if (!good_list(rules, used))
        return naive_no(1);
    if (t < 2 || t > 16)
        return naive_no(2);
    if (set == 0 || !within(set, t) || d < 1 || d > 16)
        return naive_no(4);
    unsigned all = (1u << t) - 1;
    make_pairs(&made, all & ~set, set, set, set, d, reason);
    return append(rules, used, &made);
}

struct answer naive_spacing(struct words rules, unsigned used, unsigned t, unsigned a, unsigned b, unsigned d, unsigned touch,
                            unsigned reason)
{
    struct made made = {{0}, 0};
    if (!good_list(rules, used))
        return naive_no(1);
    if (t < 2 || t > 16)
        return naive_no(2);
    if (a == 0 || b == 0 || !within(a, t) || !within(b, t) || (a != b && (a & b) != 0) || d < 1 || d > 16 || touch > 1)
        return naive_no(4);
    unsigned all = (1u << t) - 1;
    unsigned others_a = touch ? all & ~a & ~b : all & ~a, others_b = touch ? all & ~a & ~b : all & ~b;
    make_pairs(&made, a, others_a, all & ~b, others_a, d, reason);
    if (a != b)
        make_pairs(&made, b, others_b, all & ~a, others_b, d, reason);
    return append(rules, used, &made);
}

/*
 * scripts.c: writes a random script for the program `session`, the same for the same seed.
 *
 *   scripts SEED [pieces]
 *
 * Sound commands and every kind of line that is none. With `pieces` the text is written in short pieces of random length, so that
 * the reader on the other end of a pipe gets lines cut anywhere.
 */
#define _POSIX_C_SOURCE 200809L
#include "random.h"

#include <stdio.h>
#include <stdlib.h>
#include <string.h>
#include <unistd.h>

enum { MOST_TEXT = 1 << 20, MOST_LINE = 20000 };

/* The script so far, the random numbers, the window that the last `new` asked for, and whether it is to be filled to the full. */
struct script {
    struct random random;
    char *text;
    size_t length;
    int w, h, t;
    bool dense;
};

static void put(struct script *s, const char *bytes, size_t count)
{
    if (s->length + count < MOST_TEXT) {
        memcpy(s->text + s->length, bytes, count);
        s->length += count;
    }
}

/* A sound `new`, mostly for a small window; now and then one whose numbers are out of range. */
static int new_line(struct script *s, char *line)
{
    struct random *r = &s->random;
    if (!s->dense && one_in(r, 6))
        return sprintf(line, "new %d %d %d", below(r, 3) * 4096 + below(r, 2), s->h, one_in(r, 3) ? 1 + 16 * below(r, 2) : s->t);
    s->w = s->dense ? 60 : one_in(r, 60) ? 4096 : between(r, 1, 60);
    s->h = s->dense ? 60 : one_in(r, 60) && s->w < 100 ? 4096 : between(r, 1, 60);
    s->t = s->dense ? 16 : one_in(r, 2) ? 2 : between(r, 2, 16);
    return sprintf(line, "new %d %d %d", s->w, s->h, s->t);
}

static int rule_line(struct script *s, char *line)
{
    struct random *r = &s->random;
    int all = (1 << s->t) - 1, wrong = one_in(r, 5) ? below(r, 8) : -1;
    int n[8] = {below(r, s->t), 0, between(r, 1, 4), below(r, all + 1), below(r, all + 1), between(r, 0, 4), below(r, 2), below(r, 65536)};
    n[1] = (n[0] + between(r, 1, s->t - 1)) % s->t;
    if (wrong >= 0)
        n[wrong] = one_in(r, 2) ? 17 : below(r, 65536);
    return sprintf(line, "rule %d %d %d %d %d %d %d %d", n[0], n[1], n[2], n[3], n[4], n[5], n[6], n[7]);
}

static int macro_line(struct script *s, char *line)
{
    struct random *r = &s->random;
    int all = (1 << s->t) - 1, a = one_in(r, 2) ? 1 << below(r, s->t) : below(r, all + 1);
    int b = one_in(r, 3) ? a : one_in(r, 6) ? below(r, 65536) : below(r, all + 1) & ~a;
    int d = one_in(r, 8) ? below(r, 20) : between(r, 1, 4), touch = one_in(r, 10) ? 2 : below(r, 2);
    return one_in(r, 2) ? sprintf(line, "width %d %d %d", a, d, below(r, 65536))
                        : sprintf(line, "spacing %d %d %d %d %d", a, b, d, touch, below(r, 65536));
}

/* An area of the window, or one that is empty or leaves it. */
static int area_text(struct script *s, char *line, const char *keyword)
{
    struct random *r = &s->random;
    int x1 = below(r, s->w), y1 = below(r, s->h), x2 = between(r, x1 + 1, s->w), y2 = between(r, y1 + 1, s->h);
    if (s->dense && !one_in(r, 20)) {
        x2 = x1 + 1;
        y2 = y1 + 1;
    } else if (one_in(r, 2)) {
        x2 = x1 + 8 < x2 ? x1 + between(r, 1, 8) : x2;
        y2 = y1 + 8 < y2 ? y1 + between(r, 1, 8) : y2;
    }
    if (one_in(r, 12))
        *(one_in(r, 2) ? &x2 : &y2) = one_in(r, 2) ? x1 : s->w + 1;
    return sprintf(line, "%s %d %d %d %d", keyword, x1, y1, x2, y2);
}

static int command_line(struct script *s, char *line)
{
    struct random *r = &s->random;
    int what = s->dense ? between(r, 1, 200) : below(r, 40), length;
    if (what == 0)
        return new_line(s, line);
    if (what < 3)
        return one_in(r, 2) ? rule_line(s, line) : macro_line(s, line);
    if (what < 12)
        return sprintf(line, "check %d", one_in(r, 6) ? 65535 : below(r, 6));
    if (what < 18)
        return area_text(s, line, "report");
    length = area_text(s, line, "paint");
    return length + sprintf(line + length, " %d", below(r, one_in(r, 12) ? s->t + 2 : s->t));
}

/* A byte put in at a place of the line, or taken out of it. */
static int insert(char *line, int length, int at, char byte)
{
    memmove(line + at + 1, line + at, (size_t)(length - at));
    line[at] = byte;
    return length + 1;
}

static int drop(char *line, int length, int at)
{
    memmove(line + at, line + at + 1, (size_t)(length - at - 1));
    return length - 1;
}

/* The line filled up with blanks, or with zeros before its first number, to a length near 200 or far above. */
static int stretch(char *line, int length, struct random *r)
{
    int to = one_in(r, 4) ? between(r, 300, 9000) : between(r, 198, 202);
    bool zeros = one_in(r, 2);
    char *blank = memchr(line, ' ', (size_t)length);
    int at = !zeros ? (one_in(r, 2) ? length : 0) : blank ? (int)(blank - line) + 1 : length;
    while (length < to)
        length = insert(line, length, at, zeros ? '0' : ' ');
    return length;
}

/* Other words for a command, or no command at all. */
static int odd_words(char *line, struct random *r)
{
    static const char *const lines[] = {
        "",           " ",         "   ",        "new",         "new 8 8",       "new 8 8 2 1",  "NEW 8 8 2",  "check",
        "check -1",   "check +1",  "check 65536", "check 65535", "check 1 1",     "check x",      "check 0x1",  "check 1.",
        "checks 1",   "chec 1",    "rule",       "rule 0 1 1 2 1 2 0", "rule 0 1 1 2 1 2 0 0 0", "width 2 2",  "width 2 2 1 1",
        "spacing 2 2 2 1", "paint 0 0 1 1", "report 0 0 1", "report 0 0 1 1 1", "hello", "8", "new  8 8 2", "new 8 8 02",
        "check 99999999999999999999999", "check 18446744073709551617", "check 4294967297", "check 000000000000000000000000001",
        "new 65536 8 2", "new 0 8 2", "new 8 4097 2", "new 8 8 17", "report 0 0 65536 1", "check 1\t", "\tcheck 1", "check\t1",
        "check 1\r", "check 00065536", "why 1 1", "paint 0 0 1 1 65536", "paint 1 1 1 1 1", "new8 8 2", "check1",
    };
    return sprintf(line, "%s", lines[below(r, (int)(sizeof lines / sizeof *lines))]);
}

/* Something done to a line that may leave it a command. */
static int spoil(char *line, int length, struct random *r)
{
    switch (below(r, 9)) {
    case 0:
        return odd_words(line, r);
    case 1:
        return stretch(line, length, r);
    case 2:
        return insert(line, length, 0, ' ');
    case 3:
        return insert(line, length, length, ' ');
    case 4:
        return insert(line, length, below(r, length + 1), ' ');
    case 5:
        return insert(line, length, below(r, length + 1), (char)below(r, 256));
    case 6:
        return insert(line, length, below(r, length + 1), (char)('0' + below(r, 10)));
    case 7:
        return length > 0 ? drop(line, length, below(r, length)) : length;
    default:
        line[below(r, length > 0 ? length : 1)] = (char)below(r, 256);
        return length;
    }
}

static void script_make(struct script *s)
{
    struct random *r = &s->random;
    char line[MOST_LINE];
    s->dense = one_in(r, 12);
    int lines = s->dense ? between(r, 300, 700) : one_in(r, 40) ? 0 : one_in(r, 10) ? between(r, 300, 900) : between(r, 1, 80);
    int early = one_in(r, 8) ? between(r, 1, 5) : 0, rules = s->dense && one_in(r, 2) ? 40 : below(r, 8);
    for (int i = 0; i < lines; i++) {
        int length = i == early                 ? new_line(s, line)
                     : i > early && i <= early + rules ? (one_in(r, 2) ? rule_line(s, line) : macro_line(s, line))
                                                : command_line(s, line);
        if (one_in(r, 7))
            length = spoil(line, length, r);
        put(s, line, (size_t)length);
        if (i + 1 < lines || !one_in(r, 4))
            put(s, "\n", 1);
    }
}

/* Writes the text at once, or in pieces of up to 40 bytes. */
static int script_write(struct script *s, bool pieces)
{
    for (size_t at = 0; at < s->length;) {
        size_t count = pieces ? (size_t)between(&s->random, 1, 40) : s->length;
        count = count < s->length - at ? count : s->length - at;
        ssize_t done = write(1, s->text + at, count);
        if (done < 0)
            return 1;
        at += (size_t)done;
    }
    return 0;
}

int main(int argc, char **argv)
{
    struct script s = {{argc > 1 ? strtoull(argv[1], NULL, 10) : 1}, malloc(MOST_TEXT), 0, 8, 8, 2, false};
    if (!s.text)
        return 2;
    script_make(&s);
    int status = script_write(&s, argc > 2 && strcmp(argv[2], "pieces") == 0);
    free(s.text);
    return status;
}

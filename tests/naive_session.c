/*
 * naive_session.c: the program `session` done the slow way, as a filter from standard input to standard output. It takes the
 * whole input, cuts it into lines, and answers each by the naive calls.
 */
#include "naive.h"

#include <stdio.h>
#include <stdlib.h>
#include <string.h>

enum { ROOM = 400, TABLE_WORDS = 4 + 9 * ROOM, MOST_LINE = 200, MOST_PARTS = 9, NO_COMMAND = -1 };

/* A command: its keyword's place in `forms`, or NO_COMMAND, and its numbers. */
struct command {
    int form;
    unsigned numbers[MOST_PARTS];
};

struct desk {
    uint16_t material[TABLE_WORDS], errors[TABLE_WORDS], waiting[TABLE_WORDS], work[TABLE_WORDS], rules[8 * MOST_RULES];
    unsigned used, t;
    bool ready, painted;
};

enum { NEW, RULE, WIDTH, SPACING, PAINT, CHECK, REPORT, FORMS };

static const struct {
    const char *keyword;
    int numbers;
} forms[FORMS] = {{"new", 3}, {"rule", 8}, {"width", 3}, {"spacing", 5}, {"paint", 5}, {"check", 1}, {"report", 4}};

/* A number of decimal digits up to 65535; no if the part is anything else. */
static bool number_of(const char *part, size_t length, unsigned *number)
{
    *number = 0;
    for (size_t i = 0; i < length; i++) {
        if (part[i] < '0' || part[i] > '9')
            return false;
        *number = *number * 10 + (unsigned)(part[i] - '0');
        if (*number > 65535)
            return false;
    }
    return length > 0;
}

static int form_of(const char *part, size_t length)
{
    for (int i = 0; i < FORMS; i++)
        if (strlen(forms[i].keyword) == length && memcmp(forms[i].keyword, part, length) == 0)
            return i;
    return NO_COMMAND;
}

/* The command that a line is. Parts are cut at every blank, so two blanks leave an empty part, which is no number. */
static struct command command_of(const char *line, size_t length)
{
    struct command c = {NO_COMMAND, {0}};
    const struct command none = c;
    if (length > MOST_LINE)
        return none;
    while (length > 0 && line[length - 1] == ' ')
        length--;
    while (length > 0 && line[0] == ' ')
        line++, length--;
    int parts = 0;
    for (size_t at = 0, end; at <= length; at = end + 1, parts++) {
        for (end = at; end < length && line[end] != ' ';)
            end++;
        if (parts == 0)
            c.form = form_of(line, end);
        else if (parts > 8 || !number_of(line + at, end - at, &c.numbers[parts - 1]))
            return none;
    }
    return c.form != NO_COMMAND && forms[c.form].numbers == parts - 1 ? c : none;
}

static struct words table(uint16_t *at)
{
    struct words w = {at, TABLE_WORDS};
    return w;
}

/* A rule put behind the used ones. */
static struct answer put_rule(struct desk *d, const unsigned *n)
{
    uint16_t rule[8];
    for (int i = 0; i < 8; i++)
        rule[i] = (uint16_t)n[i];
    if (!rule_sound(rule, (int)d->t))
        return naive_no(4);
    if (d->used == MOST_RULES)
        return naive_no(7);
    memcpy(d->rules + 8 * d->used, rule, sizeof rule);
    struct answer yes = {0, 0, {d->used + 1, 0, 0}};
    return yes;
}

/* Rule, width or spacing: judged by its own numbers first, and then refused with 8 after an accepted paint. */
static struct answer more_rules(struct desk *d, const struct command *c)
{
    const unsigned *n = c->numbers;
    struct words rules = {d->rules, 8 * MOST_RULES};
    struct answer a = c->form == RULE    ? put_rule(d, n)
                      : c->form == WIDTH ? naive_width(rules, d->used, d->t, n[0], n[1], n[2])
                                         : naive_spacing(rules, d->used, d->t, n[0], n[1], n[2], n[3], n[4]);
    if (a.number == 0 && d->painted)
        return naive_no(8);
    if (a.number == 0)
        d->used = (unsigned)a.values[0];
    return a;
}

static struct answer start(struct desk *d, const unsigned *n)
{
    struct answer a = naive_create(table(d->material), table(d->errors), table(d->waiting), n[0], n[1], n[2]);
    if (a.number == 0) {
        d->used = 0;
        d->t = n[2];
        d->ready = true;
        d->painted = false;
    }
    return a;
}

static struct answer paint(struct desk *d, const unsigned *n)
{
    struct area a = {(int)n[0], (int)n[1], (int)n[2], (int)n[3]};
    struct answer answer = naive_paint(table(d->material), table(d->errors), table(d->waiting), table(d->work), a, (int)n[4]);
    d->painted = d->painted || answer.number == 0;
    return answer;
}

static struct answer report(struct desk *d, const unsigned *n)
{
    uint16_t listing[ROOM];
    struct area a = {(int)n[0], (int)n[1], (int)n[2], (int)n[3]};
    struct words rules = {d->rules, 8 * MOST_RULES}, list = {listing, ROOM};
    return naive_report(table(d->material), table(d->errors), table(d->waiting), rules, d->used, a, list);
}

static struct answer check(struct desk *d, unsigned times)
{
    struct words rules = {d->rules, 8 * MOST_RULES};
    return naive_check(table(d->material), table(d->errors), table(d->waiting), table(d->work), rules, d->used, times);
}

static struct answer answer_of(struct desk *d, const struct command *c)
{
    if (!d->ready && c->form != NEW)
        return naive_no(8);
    switch (c->form) {
    case NO_COMMAND:
        return naive_no(9);
    case NEW:
        return start(d, c->numbers);
    case PAINT:
        return paint(d, c->numbers);
    case CHECK:
        return check(d, c->numbers[0]);
    case REPORT:
        return report(d, c->numbers);
    default:
        return more_rules(d, c);
    }
}

/* Answers one line. */
static void reply(struct desk *d, const char *line, size_t length, unsigned long number)
{
    struct command c = command_of(line, length);
    bool ready = d->ready;
    struct answer a = answer_of(d, &c);
    if (ready && c.form == CHECK)
        printf("check %u %lu %lu\n", a.number, a.values[0], a.values[1]);
    else if (a.number != 0)
        printf("no %u %lu\n", a.number, number);
    else if (c.form == REPORT)
        printf("report %lu %lu %lu\n", a.values[0], a.values[1], a.values[2]);
    else
        puts("ok");
}

/* The whole of standard input. */
static char *all_input(size_t *length)
{
    size_t room = 4096;
    char *text = malloc(room);
    *length = 0;
    while (text && !feof(stdin) && !ferror(stdin)) {
        *length += fread(text + *length, 1, room - *length, stdin);
        if (*length == room)
            text = realloc(text, room *= 2);
    }
    return text;
}

int main(void)
{
    size_t length, at = 0;
    unsigned long number = 0;
    char *text = all_input(&length);
    struct desk *d = calloc(1, sizeof *d);
    if (!text || !d)
        return 2;
    while (at < length) {
        const char *end = memchr(text + at, '\n', length - at);
        size_t line = end ? (size_t)(end - (text + at)) : length - at;
        reply(d, text + at, line, ++number);
        at += line + 1;
    }
    free(text);
    free(d);
    return 0;
}

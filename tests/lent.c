/* lent.c: slices between guard words and closed pages. */
#define _DEFAULT_SOURCE
#include "lent.h"

#include <stdio.h>
#include <stdlib.h>
#include <string.h>
#include <sys/mman.h>
#include <unistd.h>

enum { GUARDS = 64, GUARD = 0xa55a };

/* Takes memory for slices of up to so many words. */
void fence_open(struct fence *f, size_t words)
{
    size_t page = (size_t)sysconf(_SC_PAGESIZE);
    size_t inner = ((words + GUARDS) * sizeof *f->first + page - 1) / page * page;
    char *all = mmap(NULL, inner + 2 * page, PROT_NONE, MAP_PRIVATE | MAP_ANONYMOUS, -1, 0);
    if (all == MAP_FAILED || mprotect(all + page, inner, PROT_READ | PROT_WRITE) != 0) {
        perror("fence");
        exit(2);
    }
    f->first = (uint16_t *)(void *)(all + page);
    f->count = inner / sizeof *f->first;
    f->at = f->first;
    f->lent = 0;
}

/* Lends a copy of these words at one of the two closed pages. */
uint16_t *fence_lend(struct fence *f, const uint16_t *words, size_t count, bool at_the_end)
{
    f->at = at_the_end ? f->first + (f->count - count) : f->first;
    f->lent = count;
    uint16_t *guards = at_the_end ? f->at - GUARDS : f->at + count;
    for (int i = 0; i < GUARDS; i++)
        guards[i] = GUARD;
    if (count > 0)
        memcpy(f->at, words, count * sizeof *words);
    return f->at;
}

/* Are the guard words as they were? */
bool fence_kept(const struct fence *f)
{
    const uint16_t *guards = f->at == f->first ? f->at + f->lent : f->at - GUARDS;
    for (int i = 0; i < GUARDS; i++)
        if (guards[i] != GUARD)
            return false;
    return true;
}

/*
 * lent.h: memory for the slices that the tests lend. A slice lies between guard words on one side and a page that can be neither
 * read nor written on the other, so that a step over its end stops the test and a step over its other end is seen afterwards.
 */
#ifndef LENT_H
#define LENT_H

#include "naive.h"

struct fence {
    uint16_t *first; /* the words between the two closed pages */
    size_t count;
    uint16_t *at; /* the slice that is lent now */
    size_t lent;
};

void fence_open(struct fence *f, size_t words);
uint16_t *fence_lend(struct fence *f, const uint16_t *words, size_t count, bool at_the_end);
bool fence_kept(const struct fence *f);

#endif

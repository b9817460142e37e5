/* The earliest of many deadlines: a binary heap with a fixed number of entries, each with one deadline. */
#ifndef DEADLINES_H
#define DEADLINES_H

#include <stddef.h>
#include <stdint.h>

struct deadlines {
    uint64_t *moments; /* the deadline of each entry */
    size_t *heap;      /* entries: the parent of place `n` is at `(n - 1) / 2`, and is not later */
    size_t *places;    /* the place of each entry in the heap */
    size_t count;
};

/* Makes `count` entries, all at MQ_NONE. */
void deadlines_open(struct deadlines *deadlines, size_t count);
void deadlines_set(struct deadlines *deadlines, size_t entry, uint64_t moment);
/* Returns the entry with the earliest deadline. */
size_t deadlines_first(const struct deadlines *deadlines);

#endif

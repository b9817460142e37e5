/* The merged filter of a group: what all links together want of it (RFC 4605 section 4.1). */
#ifndef MERGE_H
#define MERGE_H

#include "filter.h"

enum { GREATEST_MERGED = PAGE_SOURCES };

/* A merged filter. It begins as zeros: no link wants anything. */
struct merged {
    enum mode mode;
    size_t count;
    bool is_wider; /* the union had more than GREATEST_MERGED sources: then the filter has all sources */
    uint8_t sources[GREATEST_MERGED][LONG_ADDRESS];
};

/* Adds the filter of one more link. If any filter is of EXCLUDE mode, the merged filter excludes what all of these exclude and none
   of INCLUDE mode includes. Else it includes the union. The order of calls does not matter, unless the union is too large. */
void merge_add(struct merged *merged, const struct filter *filter);
/* Returns a merged filter as a filter, whose sources stand as long as it. */
struct filter merge_filter(const struct merged *merged);

#endif

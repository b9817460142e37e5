/* The filter of a group: the sources that are forwarded to a link (RFC 3376 section 6.3, RFC 3810 section 7.3). */
#ifndef FILTER_H
#define FILTER_H

#include "link.h"

#include <stdbool.h>
#include <stddef.h>
#include <stdint.h>

enum mode {
    MODE_NONE,    /* no source is forwarded; the list is empty */
    MODE_INCLUDE, /* only these sources */
    MODE_EXCLUDE  /* all but these sources */
};

/* A filter, with its sources in ascending order. */
struct filter {
    enum mode mode;
    size_t count;
    const uint8_t (*sources)[LONG_ADDRESS];
};

/* Returns the filter of a group after the last call on a link. Its sources stand until the next call. */
struct filter filter_of(const mq_link *link, const uint8_t *group);
/* Returns the filter that forwards what either of two filters forwards. Its sources stand until the next call. The two have at most
   PAGE_SOURCES sources together. */
struct filter filter_join(const struct filter *one, const struct filter *other);
bool filter_equal(const struct filter *one, const struct filter *other);

#endif

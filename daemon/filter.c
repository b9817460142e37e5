#include "filter.h"

#include <string.h>

struct filter filter_of(const mq_link *link, const uint8_t *address) {
    static uint8_t filtered[PAGE_SOURCES][LONG_ADDRESS];
    struct filter filter = {MODE_NONE, 0, (const uint8_t(*)[LONG_ADDRESS])filtered};
    mq_group group;
    if (!link_group_at(link, address, &group))
        return filter;
    bool is_include = group.deadline == MQ_NONE;
    for (size_t at = 0; at < group.count; at++) /* in INCLUDE mode the sources whose timers run, in EXCLUDE mode the others */
        if ((group.sources[at].deadline != MQ_NONE) == is_include)
            memcpy(filtered[filter.count++], group.sources[at].address, LONG_ADDRESS);
    if (!is_include)
        filter.mode = MODE_EXCLUDE;
    else if (filter.count > 0)
        filter.mode = MODE_INCLUDE;
    return filter;
}

/* Merges two ascending lists. The flags choose the sources of `one` alone, of both, and of `other` alone. Returns how many it
   wrote. */
static size_t merge(const struct filter *one, const struct filter *other, bool of_one, bool of_both, bool of_other,
                    uint8_t (*to)[LONG_ADDRESS]) {
    size_t count = 0, at = 0, beside = 0;
    while (at < one->count || beside < other->count) {
        int order = at == one->count         ? 1
                    : beside == other->count ? -1
                                             : memcmp(one->sources[at], other->sources[beside], LONG_ADDRESS);
        const uint8_t *source = order <= 0 ? one->sources[at] : other->sources[beside];
        if (order < 0 ? of_one : order == 0 ? of_both : of_other)
            memcpy(to[count++], source, LONG_ADDRESS);
        at += order <= 0;
        beside += order >= 0;
    }
    return count;
}

struct filter filter_join(const struct filter *one, const struct filter *other) {
    static uint8_t joined[2 * PAGE_SOURCES][LONG_ADDRESS];
    bool excludes = one->mode == MODE_EXCLUDE, other_excludes = other->mode == MODE_EXCLUDE;
    struct filter filter = {MODE_INCLUDE, 0, (const uint8_t(*)[LONG_ADDRESS])joined};
    if (excludes && other_excludes) /* excludes what both exclude */
        filter.count = merge(one, other, false, true, false, joined);
    else if (excludes || other_excludes) /* excludes what one excludes and the other does not include */
        filter.count = merge(one, other, excludes, false, other_excludes, joined);
    else
        filter.count = merge(one, other, true, true, true, joined);
    if (excludes || other_excludes)
        filter.mode = MODE_EXCLUDE;
    else if (filter.count == 0)
        filter.mode = MODE_NONE;
    return filter;
}

bool filter_equal(const struct filter *one, const struct filter *other) {
    return one->mode == other->mode && one->count == other->count
           && (one->count == 0 || memcmp(one->sources, other->sources, one->count * LONG_ADDRESS) == 0);
}

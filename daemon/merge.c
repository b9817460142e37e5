#include "merge.h"

#include <string.h>

/* The lists from which a source is kept. */
struct rule {
    bool of_one, of_both, of_other;
};

static struct rule rule_of(enum mode one, enum mode other) {
    bool excludes = one == MODE_EXCLUDE, other_excludes = other == MODE_EXCLUDE;
    if (excludes && other_excludes)
        return (struct rule){.of_both = true};
    if (excludes || other_excludes)
        return (struct rule){.of_one = excludes, .of_other = other_excludes};
    return (struct rule){true, true, true};
}

/* Merges two ascending lists by a rule. Returns the number of sources, or GREATEST_MERGED + 1 if there are more. */
static size_t merge_lists(const struct merged *one, const struct filter *other, struct rule rule, uint8_t (*to)[LONG_ADDRESS]) {
    size_t count = 0, at = 0, beside = 0;
    while (at < one->count || beside < other->count) {
        int order = at == one->count         ? 1
                    : beside == other->count ? -1
                                             : memcmp(one->sources[at], other->sources[beside], LONG_ADDRESS);
        const uint8_t *source = order <= 0 ? one->sources[at] : other->sources[beside];
        if (order < 0 ? rule.of_one : order == 0 ? rule.of_both : rule.of_other) {
            if (count == GREATEST_MERGED)
                return GREATEST_MERGED + 1;
            memcpy(to[count++], source, LONG_ADDRESS);
        }
        at += order <= 0;
        beside += order >= 0;
    }
    return count;
}

void merge_add(struct merged *it, const struct filter *filter) {
    static uint8_t list[GREATEST_MERGED][LONG_ADDRESS];
    if (filter->mode == MODE_NONE)
        return;
    size_t count = merge_lists(it, filter, rule_of(it->mode, filter->mode), list);
    if (it->mode != MODE_EXCLUDE)
        it->mode = filter->mode;
    if (count > GREATEST_MERGED) {
        it->mode = MODE_EXCLUDE;
        it->is_wider = true;
        count = 0;
    }
    it->count = count;
    memcpy(it->sources, list, count * sizeof *list);
}

struct filter merge_filter(const struct merged *it) {
    return (struct filter){it->mode, it->count, it->sources};
}

/* The merged wishes of all links for a group (RFC 4605 section 4.1), which are asked for upstream. */
#include "faults.h"
#include "merge.h"
#include "route.h"

#include <string.h>

void wishes_merge(const struct querier *querier, bool is_mld, const uint8_t *group, struct merged *merged) {
    merged->mode = MODE_NONE;
    merged->count = 0;
    merged->is_wider = false;
    for (size_t at = 0; at < querier->room; at++) {
        const struct served *served = &querier->ports[at].served[is_mld];
        if (querier->ports[at].index == 0 || !served->is_on)
            continue;
        struct filter filter = filter_of(&served->link, group);
        merge_add(merged, &filter);
    }
}

void wishes_update(struct querier *querier, bool is_mld, const uint8_t *group) {
    static struct merged merged;
    struct route *route = querier->route;
    struct wish wish = {.is_mld = is_mld};
    memcpy(wish.group, group, LONG_ADDRESS);
    struct join *join = joins_find(&route->joins, &wish);
    size_t vif = route_upstream(querier, is_mld, group);
    wishes_merge(querier, is_mld, group, &merged);
    if (vif == NO_VIF)
        merged.mode = MODE_NONE, merged.count = 0;
    else if (join != NULL && join->is_inherited)
        joins_add(&route->joins, join, &merged);
    if (merged.is_wider)
        fault(FAULT_WIDER, "upstream", "links want more sources of a group than memory is for: all are asked for");
    struct filter filter = merge_filter(&merged);
    joins_set(&route->joins, &wish, vif == NO_VIF ? 0 : route->vifs[vif].index, &filter);
    if ((join = joins_find(&route->joins, &wish)) == NULL)
        return;
    join->is_seen = true;
    route->is_stale[is_mld] |= join->is_failed; /* it is tried again in a second */
}

/* Merges each group that a link has. */
static void renew_link(struct querier *querier, const mq_link *link) {
    mq_group groups[PAGE_GROUPS];
    for (size_t first = 0, count = 1; count > 0; first += count) {
        count = link_groups(link, first, groups);
        for (size_t at = 0; at < count; at++)
            wishes_update(querier, link->is_mld, groups[at].address);
    }
}

void wishes_renew(struct querier *querier, bool is_mld) {
    struct table *joins = &querier->route->joins.table;
    for (size_t at = 0; at < joins->count; at++)
        ((struct join *)table_at(joins, at))->is_seen = false;
    for (size_t at = 0; at < querier->room; at++)
        if (querier->ports[at].index != 0 && querier->ports[at].served[is_mld].is_on)
            renew_link(querier, &querier->ports[at].served[is_mld].link);
    for (size_t left = joins->count; left > 0; left--) { /* from the last one on, because a group that nobody wants is removed */
        struct join *join = table_at(joins, left - 1);
        uint8_t group[LONG_ADDRESS];
        memcpy(group, join->wish.group, sizeof group);
        if (join->wish.is_mld == is_mld && !join->is_seen)
            wishes_update(querier, is_mld, group);
    }
}

void wishes_gathered(struct querier *querier, bool is_mld) {
    struct table *joins = &querier->route->joins.table;
    for (size_t at = 0; at < joins->count; at++) {
        struct join *join = table_at(joins, at);
        if (join->wish.is_mld == is_mld)
            join->is_inherited = false;
    }
    querier->route->is_stale[is_mld] = true;
}

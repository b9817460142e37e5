/* The forwarding entries: made when the kernel reports a new sender, and changed with the filters of the links. */
#include "faults.h"
#include "reverse.h"
#include "route.h"

#include <string.h>

/* An upcall is read in slices of time, so that a flood of senders leaves time for hosts. */
enum { SLICE_MS = 10, SLICES = 1000 / SLICE_MS, TRIES = 64 };

/* Returns the interface from which a flow is forwarded: that of the route to its source if it is downstream, else the upstream one of
   its group. */
static unsigned parent_of(const struct querier *querier, const struct flow *flow, unsigned arrived) {
    const struct route *route = querier->route;
    int index = reverse_find(querier->netlink, flow->is_mld, flow->source);
    size_t upstream = prefixes_find(&querier->options->upstream, flow->is_mld, flow->group);
    for (unsigned vif = 0; vif < route->downstream && index != 0; vif++)
        if (route->vifs[vif].index == index)
            return vif;
    return upstream == NO_UPSTREAM ? arrived : (unsigned)(route->downstream + upstream);
}

/* Returns whether a flow from `parent` is forwarded to an interface downstream. A router forwards to a link only as its querier. */
static bool wants(const struct querier *querier, const struct flow *flow, unsigned parent, size_t vif) {
    bool is_from_upstream = parent >= querier->route->downstream;
    if (vif == parent || route_is_of_link(flow->is_mld, flow->source))
        return false;
    if (is_from_upstream && route_upstream(querier, flow->is_mld, flow->group) == NO_VIF)
        return false;
    for (size_t at = 0; at < querier->room; at++) {
        const struct port *port = querier->ports + at;
        const struct served *served = &port->served[flow->is_mld];
        if (port->index != 0 && route_vif_of(querier, port) == vif && served->is_on && mq_link_is_querier(&served->link)
            && mq_link_forwards(&served->link, flow->group, flow->source))
            return true;
    }
    return false;
}

/* Returns the interfaces to which an entry forwards by the links now. */
static uint32_t wanted(const struct querier *querier, const struct route_entry *entry) {
    const struct flow *flow = &entry->flow;
    size_t upstream = route_upstream(querier, flow->is_mld, flow->group);
    bool is_from_upstream = entry->parent >= querier->route->downstream;
    uint32_t to = 0;
    for (size_t vif = 0; vif < querier->route->downstream; vif++)
        to |= (uint32_t)wants(querier, flow, entry->parent, vif) << vif;
    if (!is_from_upstream && upstream != NO_VIF && !route_is_of_link(flow->is_mld, flow->source))
        to |= UINT32_C(1) << upstream;
    return to;
}

/* Returns the entry's interfaces downstream. */
static uint32_t downstream_of(const struct route *route, uint32_t vifs) {
    return vifs & ((UINT32_C(1) << route->downstream) - 1);
}

static void drop(struct route *route, struct route_entry *entry) {
    mroute_remove(&route->tables[entry->flow.is_mld], &entry->flow, entry->parent);
    entries_remove(&route->entries, entry);
}

/* Reads the usage of an entry, and returns whether it was used since the last time. */
static bool is_used(struct route *route, struct route_entry *entry, uint64_t now) {
    struct usage usage = entry->usage;
    bool is_there = mroute_usage(&route->tables[entry->flow.is_mld], &entry->flow, &entry->usage);
    bool is_other = is_there && usage.packets != entry->usage.packets;
    entry->is_lost |= !is_there;
    if (is_other)
        entries_use(&route->entries, entry, now);
    return is_other;
}

/* Removes entries until there is room for another. An entry that was used lately is spared, for a number of tries. */
static void make_room(struct route *route, uint64_t now) {
    struct route_entry *entry;
    for (int tries = 0; (entry = entries_victim(&route->entries)) != NULL; tries++) {
        if (tries < TRIES && is_used(route, entry, now))
            continue;
        fault_counts[FAULT_EVICTED]++;
        drop(route, entry);
    }
}

/* Makes an entry forward to some interfaces, and to those that it keeps. */
static void direct(struct route *route, struct route_entry *entry, uint32_t to) {
    to |= entry->kept & ~(UINT32_C(1) << entry->parent);
    if (to == entry->to && !entry->is_lost)
        return;
    int error = mroute_set(&route->tables[entry->flow.is_mld], &entry->flow, entry->parent, to);
    if (error != 0)
        fault(FAULT_ROUTES, "entry", strerror(error));
    entry->is_lost = error != 0;
    route->is_stale[entry->flow.is_mld] |= error != 0; /* it is tried again in a second */
    entry->to = to;
    entries_want(&route->entries, entry, downstream_of(route, to) != 0);
}

void forward_group(struct querier *querier, const struct port *port, bool is_mld, const uint8_t *group, uint64_t now) {
    struct route *route = querier->route;
    size_t vif = route_vif_of(querier, port);
    struct route_entry *entry;
    for (size_t at = entries_of(&route->entries, is_mld, group); (entry = entries_at(&route->entries, at)) != NULL; at++) {
        if (entry->flow.is_mld != is_mld || memcmp(entry->flow.group, group, FLOW_ADDRESS) != 0)
            break;
        uint32_t others = entry->to & ~(UINT32_C(1) << vif);
        direct(route, entry, others | (uint32_t)wants(querier, &entry->flow, entry->parent, vif) << vif);
    }
    make_room(route, now);
}

void forward_all(struct querier *querier, bool is_mld, bool is_lost, uint64_t now) {
    struct route *route = querier->route;
    struct route_entry *entry;
    for (size_t at = 0; (entry = entries_at(&route->entries, at)) != NULL; at++) {
        if (entry->flow.is_mld != is_mld)
            continue;
        entry->is_lost |= is_lost;
        direct(route, entry, wanted(querier, entry));
    }
    make_room(route, now);
}

/* Makes the entry of a flow that has none, or that the kernel lost. */
static void meet(struct querier *querier, const struct flow *flow, unsigned arrived, uint64_t now) {
    struct route *route = querier->route;
    struct route_entry *entry = entries_find(&route->entries, flow);
    if (entry == NULL) {
        make_room(route, now);
        entry = entries_put(&route->entries, flow, now);
    }
    entry->parent = (uint8_t)parent_of(querier, flow, arrived);
    entry->is_lost = true;
    if (entry->parent != arrived)
        fault(FAULT_ELSEWHERE, route->vifs[arrived].name, "a sender is not where the route to it leads");
    direct(route, entry, wanted(querier, entry));
    is_used(route, entry, now); /* its first datagram is not a use that spares it */
    make_room(route, now);
}

bool forward_hear(struct querier *querier, const struct mroute *table, uint64_t now) {
    struct route *route = querier->route;
    struct flow flow;
    unsigned vif;
    if (now >= route->slice_ends) {
        route->slice_ends = now + SLICE_MS;
        route->slice_left = querier->options->upcalls / SLICES + 1;
    }
    for (; route->slice_left > 0; route->slice_left--) {
        if (!mroute_next(table, &flow, &vif))
            return false;
        route->upcalls++;
        if (vif < route->count)
            meet(querier, &flow, vif, now);
    }
    fault_counts[FAULT_UPCALLS]++;
    return true;
}

void forward_poll(struct querier *querier, size_t count, uint64_t now) {
    struct route *route = querier->route;
    for (; count > 0; count--) {
        struct route_entry *entry = entries_at(&route->entries, route->polled);
        if (entry == NULL) {
            route->polled = 0;
            return;
        }
        route->polled++;
        if (is_used(route, entry, now))
            continue;
        if (now - entry->used_at >= 1000 * (uint64_t)querier->options->unused) {
            drop(route, entry);
            route->polled--;
        } else if (entry->is_lost) {
            direct(route, entry, wanted(querier, entry));
        }
    }
}

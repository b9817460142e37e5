#define _GNU_SOURCE
#include "route.h"

#include "faults.h"
#include "holder.h"
#include "inherit.h"
#include "status.h"
#include "sysctls.h"

#include <errno.h>
#include <net/if.h>
#include <stdio.h>
#include <stdlib.h>
#include <string.h>
#include <sys/resource.h>
#include <sys/stat.h>

enum { SECOND_MS = 1000, POLLS = 16 };
static const char *const family_names[2] = {"IPv4 multicast routing", "IPv6 multicast routing"};

/* Returns the scope of a group: 2 is its link, which the kernel keeps it to, 14 is everywhere. All of 239.0.0.0/8 has 8. */
static unsigned scope_of(bool is_mld, const uint8_t *group) {
    if (is_mld)
        return group[1] & 15;
    if (group[0] == 224 && group[1] == 0 && group[2] == 0)
        return 2;
    return group[0] == 239 ? 8 : 14;
}

bool route_is_of_link(bool is_mld, const uint8_t *source) {
    return is_mld ? source[0] == 0xfe && (source[1] & 0xc0) == 0x80 : source[0] == 169 && source[1] == 254;
}

size_t route_upstream(const struct querier *querier, bool is_mld, const uint8_t *group) {
    unsigned scope = scope_of(is_mld, group);
    size_t found = prefixes_find(&querier->options->upstream, is_mld, group);
    if (found == NO_UPSTREAM || scope < querier->options->scope)
        return NO_VIF;
    return querier->route->downstream + found;
}

size_t route_vif_of(const struct querier *querier, const struct port *port) {
    return (size_t)(port->bridge - querier->bridges);
}

static void wake(struct querier *querier, uint64_t at) {
    deadlines_set(&querier->deadlines, 2 * querier->room + DEADLINE_ROUTE, at);
}

void route_renew(struct querier *querier, uint64_t now) {
    querier->route->is_stale[false] = querier->route->is_stale[true] = true;
    querier->route->next_second = now;
    wake(querier, now);
}

/* Opens the kernel's table of a family. Without it, the family is not served. */
static void open_table(struct querier *querier, bool is_mld) {
    struct mroute *table = &querier->route->tables[is_mld];
    int error = table->file >= 0 ? 0 : mroute_open(table, is_mld);
    if (error == EADDRINUSE)
        fail(STATUS_FAILED, family_names[is_mld], "another multicast router runs here, and there can be one only");
    if (error == EPERM || error == EACCES)
        fail(STATUS_FAILED, family_names[is_mld], strerror(error));
    if (error != 0)
        tell(family_names[is_mld], strerror(error));
    querier->options->serves[is_mld] &= error == 0;
}

/* Allows as many open files as may be: there is a socket for 16 groups upstream. */
static void allow_files(void) {
    struct rlimit files;
    if (getrlimit(RLIMIT_NOFILE, &files) < 0)
        return;
    files.rlim_cur = files.rlim_max;
    setrlimit(RLIMIT_NOFILE, &files);
}

/* Opens both tables, and returns how many groups all links can have. */
static size_t open_tables(struct querier *querier) {
    const bool *serves = querier->options->serves;
    size_t groups = 0;
    for (int at = 0; at < 2; at++) {
        if (serves[at])
            open_table(querier, at == 1);
        groups += serves[at] ? querier->families[at].configuration.groups * querier->room : 0;
    }
    if (!serves[0] && !serves[1])
        fail(STATUS_FAILED, "route", "the kernel routes multicast of neither family");
    return groups;
}

/* Opens what is in the folder of its files. */
static void open_folder(struct querier *querier) {
    const char *run = querier->options->run, *name = querier->options->upstream.names[0];
    char folder[4096];
    snprintf(folder, sizeof folder, "%s/%s", run, name);
    if (mkdir(folder, 0755) < 0 && errno != EEXIST)
        fail(STATUS_FAILED, folder, strerror(errno));
    sysctls_open(querier);
    inherit_hold(querier);
    atexit(holder_end);
    querier->route->listening = status_listen(run, name);
}

void route_open(struct querier *querier) {
    static struct route route;
    const struct options *options = querier->options;
    route = (struct route){.downstream = options->count, .count = options->count + options->upstream.names_count, .listening = -1};
    querier->route = &route;
    for (size_t at = 0; at < route.count; at++) {
        bool is_upstream = at >= route.downstream;
        route.vifs[at].name = is_upstream ? options->upstream.names[at - route.downstream] : options->names[at];
    }
    const char *why = route_configure(querier, options);
    if (why != NULL)
        fail(STATUS_USAGE, "configuration", why);
    allow_files();
    inherit_take(querier);
    size_t groups = open_tables(querier);
    open_folder(querier);
    entries_open(&route.entries, options->entries);
    joins_open(&route.joins, groups);
    route.was_querier = take(2 * querier->room, sizeof *route.was_querier);
    route_refresh(querier);
    inherit_entries(querier);
    wake(querier, moment());
}

/* Adds an interface to the tables, or removes it, if it came or is gone. */
static void refresh_vif(struct querier *querier, unsigned number) {
    struct route *route = querier->route;
    struct vif *vif = &route->vifs[number];
    int index = (int)if_nametoindex(vif->name);
    for (int at = 0; at < 2; at++) {
        const struct mroute *table = &route->tables[at];
        if (!querier->options->serves[at] || (index == vif->index && vif->is_on[at] == (index != 0)))
            continue;
        if (vif->is_on[at])
            mroute_remove_vif(table, number);
        int error = index == 0 ? 0 : mroute_add_vif(table, number, index);
        if (error == EADDRINUSE) /* an inherited table has it */
            error = 0;
        if (error != 0)
            fault(FAULT_ROUTES, vif->name, strerror(error));
        vif->is_on[at] = index != 0 && error == 0;
        route->is_stale[at] = true;
        route->is_lost[at] = true;
    }
    if (index != 0 && index != vif->index)
        sysctls_tell(querier, vif, number >= route->downstream);
    vif->index = index;
}

void route_refresh(struct querier *querier) {
    for (unsigned at = 0; at < querier->route->count; at++)
        refresh_vif(querier, at);
}

/* Merges all groups of a family again, and corrects all its entries. */
static void renew(struct querier *querier, bool is_mld, uint64_t now) {
    struct route *route = querier->route;
    bool is_lost = route->is_lost[is_mld];
    route->is_stale[is_mld] = route->is_lost[is_mld] = false;
    wishes_renew(querier, is_mld);
    forward_all(querier, is_mld, is_lost, now);
}

/* Returns whether hosts may not have answered the first queries of a link at an interface. */
static bool gathers(const struct querier *querier, size_t vif, bool is_mld) {
    for (size_t at = 0; at < querier->room; at++) {
        const struct port *port = querier->ports + at;
        if (port->index != 0 && route_vif_of(querier, port) == vif && port->served[is_mld].is_on
            && port->served[is_mld].keeper.gathers != MQ_NONE)
            return true;
    }
    return false;
}

/* Ends inheritance at the interfaces where hosts have answered. */
static void end_gathering(struct querier *querier, bool is_mld) {
    struct route *route = querier->route;
    uint32_t gathered = 0;
    bool is_any = false;
    for (size_t vif = 0; vif < route->downstream; vif++) {
        bool was = route->vifs[vif].gathers[is_mld], is = gathers(querier, vif, is_mld);
        route->vifs[vif].gathers[is_mld] = is;
        is_any |= is;
        if (was && !is)
            gathered |= UINT32_C(1) << vif;
    }
    if (gathered == 0)
        return;
    struct route_entry *entry;
    for (size_t at = 0; (entry = entries_at(&route->entries, at)) != NULL; at++)
        if (entry->flow.is_mld == is_mld)
            entry->kept &= ~gathered;
    if (!is_any)
        wishes_gathered(querier, is_mld);
    route->is_stale[is_mld] = true;
    inherit_gathered(querier);
}

/* Does the duties of each second. */
static void look_around(struct querier *querier, uint64_t now) {
    struct route *route = querier->route;
    route->next_second = now + SECOND_MS;
    route_refresh(querier);
    for (int at = 0; at < 2; at++)
        end_gathering(querier, at == 1);
    for (int at = 0; at < 2; at++)
        if (route->is_stale[at])
            renew(querier, at == 1, now);
    forward_poll(querier, route->entries.table.count / POLLS + 1, now);
}

void route_tick(struct querier *querier, uint64_t now) {
    struct route *route = querier->route;
    bool is_left = false;
    if (now >= route->next_second)
        look_around(querier, now);
    for (int at = 0; at < 2; at++)
        is_left |= forward_hear(querier, &route->tables[at], now);
    wake(querier, is_left ? route->slice_ends : route->next_second);
}

bool route_hear(struct querier *querier, int file, uint64_t now) {
    struct route *route = querier->route;
    for (int at = 0; route != NULL && at < 2; at++) {
        if (route->tables[at].file != file)
            continue;
        if (forward_hear(querier, &route->tables[at], now))
            wake(querier, route->slice_ends);
        return true;
    }
    return false;
}

void route_count(struct querier *querier, uint64_t now) {
    querier->route->polled = 0;
    forward_poll(querier, querier->route->entries.table.count, now);
}

void route_follow(struct querier *querier, const struct port *port, bool is_mld, size_t count, uint64_t now) {
    struct route *route = querier->route;
    bool is_querier = mq_link_is_querier(&port->served[is_mld].link);
    bool *was_querier = &route->was_querier[2 * (size_t)(port - querier->ports) + is_mld];
    for (size_t at = 0; at < count; at++) {
        forward_group(querier, port, is_mld, querier->changed[at], now);
        wishes_update(querier, is_mld, querier->changed[at]);
    }
    if (*was_querier != is_querier)
        forward_all(querier, is_mld, false, now);
    *was_querier = is_querier;
}

void route_inherit(struct querier *querier, const struct port *port, bool is_mld) {
    struct route *route = querier->route;
    mq_group groups[PAGE_GROUPS];
    struct wish wish = {.is_mld = is_mld};
    struct route_entry *entry;
    for (size_t first = 0, count = 1; count > 0; first += count) {
        count = link_groups(&port->served[is_mld].link, first, groups);
        for (size_t at = 0; at < count; at++) {
            memcpy(wish.group, groups[at].address, LONG_ADDRESS);
            struct join *join = joins_find(&route->joins, &wish);
            if (join != NULL)
                join->is_inherited = true;
        }
    }
    for (size_t at = 0; (entry = entries_at(&route->entries, at)) != NULL; at++)
        if (entry->flow.is_mld == is_mld)
            entry->kept |= entry->to & UINT32_C(1) << route_vif_of(querier, port);
    route->vifs[route_vif_of(querier, port)].gathers[is_mld] = true;
}

void route_forget(struct querier *querier) {
    route_renew(querier, moment());
}

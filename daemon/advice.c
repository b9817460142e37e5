#include "advice.h"

#include "faults.h"

#include <stdio.h>
#include <string.h>

/* Prints a setting of ports that is wrong or has no effect, in one line. */
static void tell_ports(const struct querier *querier, const struct bridge *bridge, const char *name,
                       bool is_told(const struct querier *, const struct port *), const char *why) {
    const struct port *first = NULL;
    char line[240];
    size_t count = 0;
    for (size_t at = querier->ports_count; at > 0; at--)
        if (querier->by_index[at - 1].port->bridge == bridge && is_told(querier, querier->by_index[at - 1].port)
            && (at == 1 || querier->by_index[at - 2].index != querier->by_index[at - 1].index)) {
            first = querier->by_index[at - 1].port;
            count++;
        }
    if (count == 0)
        return;
    snprintf(line, sizeof line, "%s is set at %s%s: %s", name, first->name, count > 1 ? " and other ports" : "", why);
    fault_counts[FAULT_MISSING] += count;
    tell(bridge->name, line);
}

static bool has_router(const struct querier *querier, const struct port *port) {
    return !querier->options->sets_up && port->router != 0 && !options_is_router(querier->options, port->name);
}

static bool has_fast_leave(const struct querier *querier, const struct port *port) {
    return querier->room > 0 && port->fast_leave != 0;
}

static bool has_unicast(const struct querier *querier, const struct port *port) {
    return querier->room > 0 && port->to_unicast != 0;
}

void advice_ports(const struct querier *querier, const struct bridge *bridge) {
    tell_ports(querier, bridge, "mcast_router", has_router, "a query that is heard there brings all groups there");
    tell_ports(querier, bridge, "mcast_fast_leave", has_fast_leave,
               "it has no effect, a leave ends after the Last Member Query Time");
    tell_ports(querier, bridge, "mcast_to_unicast", has_unicast, "it has no effect, since the kernel takes no entry for one host");
}

void advice_routers(const struct querier *querier) {
    const struct options *options = querier->options;
    for (size_t at = 0; at < options->router_count; at++) {
        bool is_there = false;
        for (size_t port = 0; port < querier->ports_count; port++)
            is_there |= strcmp(querier->by_index[port].port->name, options->routers[at]) == 0;
        if (!is_there)
            fault(FAULT_MISSING, options->routers[at], "--router-port names it, and no bridge has that port now");
    }
}

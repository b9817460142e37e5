#define _GNU_SOURCE
#include "setup.h"

#include "advice.h"
#include "faults.h"
#include "files.h"
#include "ports.h"
#include "rules.h"

#include <errno.h>
#include <fcntl.h>
#include <inttypes.h>
#include <linux/if_link.h>
#include <linux/rtnetlink.h>
#include <stdio.h>
#include <stdlib.h>
#include <string.h>
#include <time.h>
#include <unistd.h>

/* The settings of a bridge, each with the effect of a wrong value. */
enum { SNOOPING, IGMP_VERSION, MLD_VERSION, HASH_MAX, QUERIER, SETTINGS };
static const struct setting {
    const char *name;
    uint16_t type, width;
    const char *otherwise; /* the effect of a wrong value */
} settings[SETTINGS] = {
    [SNOOPING] = {"mcast_snooping", IFLA_BR_MCAST_SNOOPING, 1, "it takes no entry, and floods"},
    [IGMP_VERSION] = {"mcast_igmp_version", IFLA_BR_MCAST_IGMP_VERSION, 1, "it looks at no source"},
    [MLD_VERSION] = {"mcast_mld_version", IFLA_BR_MCAST_MLD_VERSION, 1, "it looks at no source"},
    [HASH_MAX] = {"mcast_hash_max", IFLA_BR_MCAST_HASH_MAX, 4, "with more entries it snoops no more"},
    [QUERIER] = {"mcast_querier", IFLA_BR_MCAST_QUERIER, 1, "it floods until it hears a querier"},
};
/* It is one of several flags in one attribute, `struct br_boolopt_multi`. */
static const struct setting vlan_snooping = {"mcast_vlan_snooping", IFLA_BR_MULTI_BOOLOPT, 8,
                                             "it follows no setting of the bridge"};
enum { VLAN_SNOOPING_BIT = 1 << 1 };
static const struct setting router = {"mcast_router", IFLA_BRPORT_MULTICAST_ROUTER, 1,
                                      "a query that is heard there brings all groups there"};
enum { ROUTER_NEVER = 0, ROUTER_ALWAYS = 2, GREATEST_BEFORE = 1 << 16 };

/* Returns the least value that a setting needs. A family without an address needs none. The kernel floods until its own querier is
   on, which waits until all links know what hosts want. */
static uint32_t wanted(const struct querier *querier, const struct bridge *bridge, int which) {
    const struct options *options = querier->options;
    bool serves[2];
    uint64_t entries = 0;
    for (int at = 0; at < 2; at++) {
        serves[at] = options->serves[at] && (bridge->has_own[at] || !options->sets_up);
        entries += serves[at] ? (uint64_t)(bridge->filters ? options->links : options->ports) * querier->families[at].entries : 0;
    }
    switch (which) {
    case IGMP_VERSION: return serves[false] ? 3 : 0;
    case MLD_VERSION: return serves[true] ? 2 : 0;
    case QUERIER: return !options->is_interface && (bridge->has_gathered || !options->sets_up);
    case HASH_MAX: return entries > UINT32_MAX ? UINT32_MAX : (uint32_t)entries;
    default: return entries > 0;
    }
}

/* Sets a number of a bridge or of a port. Returns whether that succeeded. */
static bool set(struct querier *querier, int index, const char *name, bool is_port, const struct setting *it, uint32_t value) {
    struct request request;
    struct answer answer;
    const uint32_t flags[2] = {value != 0 ? VLAN_SNOOPING_BIT : 0, VLAN_SNOOPING_BIT};
    uint8_t byte = (uint8_t)value;
    const void *data = it->width == 1 ? (const void *)&byte : it->width == 4 ? (const void *)&value : flags;
    request_link(&request, RTM_NEWLINK, 0, index);
    size_t about = request_begin_nest(&request, IFLA_LINKINFO);
    request_put(&request, is_port ? IFLA_INFO_SLAVE_KIND : IFLA_INFO_KIND, "bridge", strlen("bridge"));
    size_t within = request_begin_nest(&request, is_port ? IFLA_INFO_SLAVE_DATA : IFLA_INFO_DATA);
    request_put(&request, it->type, data, it->width);
    request_end_nest(&request, within);
    request_end_nest(&request, about);
    int error = netlink_ask(querier->netlink, &request, &answer);
    if (error != 0)
        fault(FAULT_NETLINK, name, answer.why);
    return error == 0;
}

/* Counts a wrong setting, and always prints its line. */
static void tell_setting(const char *name, const struct setting *it, uint32_t value, uint32_t least) {
    char why[160];
    snprintf(why, sizeof why, "%s is %" PRIu32 ", and should be %" PRIu32 ": %s", it->name, value, least, it->otherwise);
    fault_counts[FAULT_MISSING]++;
    tell(name, why);
}

/* Returns the text of the file of earlier settings. It stands until the next call. */
static char *read_before(const struct bridge *bridge) {
    static char text[GREATEST_BEFORE + 1];
    ssize_t length = bridge->before < 0 ? 0 : pread(bridge->before, text, GREATEST_BEFORE, 0);
    text[length < 0 ? 0 : length] = '\0';
    return text;
}

/* Returns whether the file has a setting of a port, or of the bridge if the index is 0. */
static bool is_remembered(const struct bridge *bridge, int port, const struct setting *it) {
    char start[64];
    int length = snprintf(start, sizeof start, "%d %s ", port, it->name);
    for (const char *at = read_before(bridge); at != NULL && *at != '\0'; at = strchr(at, '\n'), at += at != NULL)
        if (strncmp(at, start, (size_t)length) == 0)
            return true;
    return false;
}

/* Adds an earlier value to the bridge's file, unless it has one: that of the port with this index, or of the bridge if the index is
   0. Returns false if the value cannot be restored later: then the setting has to stay. */
static bool remember(const struct bridge *bridge, int port, const struct setting *it, uint32_t value) {
    char line[128];
    int length = snprintf(line, sizeof line, "%d %s %" PRIu32 "\n", port, it->name, value);
    if (is_remembered(bridge, port, it))
        return true;
    off_t end = lseek(bridge->before, 0, SEEK_END);
    ssize_t written = write(bridge->before, line, (size_t)length);
    if (written == length)
        return true;
    snprintf(line, sizeof line, "%s stays, since its value can't be written down: %s", it->name,
             written < 0 ? strerror(errno) : "no room");
    fault(FAULT_NETLINK, bridge->name, line);
    if (written > 0 && end >= 0 && ftruncate(bridge->before, end) < 0)
        fault(FAULT_NETLINK, bridge->name, strerror(errno));
    return false;
}

/* Has the kernel use the settings of a bridge that filters VLANs for all of them, and not settings of each. It then forgets what it has
   learned, and floods until its own querier is on again. */
static void apply_to_vlans(struct querier *querier, struct bridge *bridge, const uint32_t *querier_is_on, uint32_t flags,
                           bool tells) {
    if (!bridge->filters || !(flags & VLAN_SNOOPING_BIT))
        return;
    if (!querier->options->sets_up) {
        if (tells)
            tell_setting(bridge->name, &vlan_snooping, 1, 0);
        return;
    }
    bool floods = querier_is_on == NULL || *querier_is_on == 0;
    if (!floods && remember(bridge, 0, &settings[QUERIER], 1))
        set(querier, bridge->index, bridge->name, false, &settings[QUERIER], 0);
    if (remember(bridge, 0, &vlan_snooping, 1))
        set(querier, bridge->index, bridge->name, false, &vlan_snooping, 0);
    querier->is_stale |= !floods; /* the kernel's querier is on again when links know what hosts want */
}

/* Sets up a bridge, or prints its wrong settings. */
static void apply_to_bridge(struct querier *querier, struct bridge *bridge, const char *name, bool tells) {
    struct interface found;
    uint32_t values[SETTINGS], flags = 0;
    bool has[SETTINGS];
    if (interface_read(querier->netlink, name, &found) != 0) {
        querier->is_stale = true;
        return;
    }
    for (int at = 0; at < SETTINGS; at++)
        has[at] = interface_setting(&found, false, settings[at].type, &values[at]);
    interface_setting(&found, false, vlan_snooping.type, &flags);
    apply_to_vlans(querier, bridge, has[QUERIER] ? &values[QUERIER] : NULL, flags, tells);
    for (int at = 0; at < SETTINGS; at++) {
        uint32_t least = wanted(querier, bridge, at);
        if (!has[at] || values[at] >= least)
            continue;
        if (querier->options->sets_up && remember(bridge, 0, &settings[at], values[at]))
            set(querier, found.index, name, false, &settings[at], least);
        else if (!querier->options->sets_up && tells)
            tell_setting(name, &settings[at], values[at], least);
    }
}

/* Sets whether a port leads to a router. An administrator's own port of a router stays one. */
static void apply_to_port(struct querier *querier, struct port *port) {
    bool is_router = options_is_router(querier->options, port->name);
    uint32_t value = is_router ? ROUTER_ALWAYS : ROUTER_NEVER;
    if (port->router == value || (!querier->options->sets_up && !is_router))
        return;
    if (port->router == ROUTER_ALWAYS && !is_remembered(port->bridge, port->index, &router)) {
        if (!port->keeps_router)
            tell(port->name, "mcast_router is 2 and stays: all groups are forwarded there");
        querier->is_stale |= !port->keeps_router; /* the rules let this machine's Reports pass to it */
        port->keeps_router = true;
        return;
    }
    if (remember(port->bridge, port->index, &router, port->router))
        set(querier, port->index, port->name, true, &router, value);
}

/* Sets up the port with this number. One port in several VLANs is set up once. */
static void apply_once(struct querier *querier, size_t number) {
    struct port *port = querier->by_index[number].port;
    const struct port *first = querier->by_index[querier_first(querier, port->index)].port;
    if (port == first)
        apply_to_port(querier, port);
    else
        port->keeps_router = first->keeps_router;
}

/* Has the kernel flood again while a late family begins, if it did before --setup. */
static void flood_again(struct querier *querier, struct bridge *bridge) {
    if (bridge->is_late && querier->options->sets_up && is_remembered(bridge, 0, &settings[QUERIER]))
        set(querier, bridge->index, bridge->name, false, &settings[QUERIER], 0);
    bridge->is_late = false;
}

/* Returns whether each served family has an address at a bridge. */
static bool has_addresses(const struct querier *querier, const struct bridge *bridge) {
    const bool *serves = querier->options->serves;
    for (int at = 0; at < 2; at++)
        if (serves[at] && (!bridge->has_own[at] || bridge->lacks_own[at]))
            return false;
    return true;
}

void setup_apply(struct querier *querier) {
    static int told[GREATEST_BRIDGES]; /* the bridges whose wrong settings were printed */
    const struct options *options = querier->options;
    for (size_t at = 0; at < querier->bridges_count; at++) {
        struct bridge *bridge = &querier->bridges[at];
        bool tells = told[at] != bridge->index,
             has_ports = !options->is_interface && (has_addresses(querier, bridge) || !options->sets_up);
        told[at] = bridge->index;
        if (bridge->index == 0 || (bridge->is_port && !options->is_interface)
            || (options->is_interface && (!tells || options->bridge == NULL)))
            continue;
        if (options->sets_up) /* first, so that no query of the kernel leaves */
            rules_apply(querier, bridge);
        flood_again(querier, bridge);
        apply_to_bridge(querier, bridge, options->is_interface ? options->bridge : bridge->name, tells);
        for (size_t port = 0; port < querier->ports_count && has_ports; port++)
            if (querier->by_index[port].port->bridge == bridge)
                apply_once(querier, port);
        if (tells && !options->is_interface)
            advice_ports(querier, bridge);
    }
}

void setup_gathered(struct querier *querier, uint64_t now) {
    for (size_t at = 0; at < querier->bridges_count; at++) {
        struct bridge *bridge = &querier->bridges[at];
        if (bridge->is_port || bridge->index == 0 || bridge->has_gathered || now < bridge->gathers)
            continue;
        bridge->has_gathered = true;
        if (querier->options->sets_up)
            apply_to_bridge(querier, bridge, bridge->name, false);
    }
}

void setup_check(const struct querier *querier) {
    if (querier->options->sets_up)
        rules_check();
}

/* Restores the setting of a line of the file. Returns false if that has to be tried again. */
static bool put_back(struct querier *querier, const struct bridge *bridge, const char *line) {
    char name[32], port[IF_NAMESIZE];
    int index;
    uint32_t value, filters;
    struct interface found;
    if (sscanf(line, "%d %31s %" SCNu32, &index, name, &value) != 3)
        return true;
    if (index != 0)
        return strcmp(name, router.name) != 0 || if_indextoname((unsigned)index, port) == NULL
               || set(querier, index, port, true, &router, value);
    int error = interface_read(querier->netlink, bridge->name, &found);
    if (error == 0 && strcmp(name, vlan_snooping.name) == 0) { /* a bridge that does not filter lacks this setting */
        value = interface_setting(&found, false, IFLA_BR_VLAN_FILTERING, &filters) && filters != 0;
        return value == 0 || set(querier, found.index, bridge->name, false, &vlan_snooping, value);
    }
    for (int at = 0; at < SETTINGS && error == 0; at++)
        if (strcmp(name, settings[at].name) == 0)
            return set(querier, found.index, bridge->name, false, &settings[at], value);
    return error == 0 || error == ENODEV;
}

/* Restores the settings from before --setup, also those that a killed run changed. */
static void undo(struct querier *querier, struct bridge *bridge) {
    char *left = NULL;
    bool is_back = true;
    if (bridge->before < 0)
        return;
    for (char *line = strtok_r(read_before(bridge), "\n", &left); line != NULL; line = strtok_r(NULL, "\n", &left))
        is_back &= put_back(querier, bridge, line);
    if (is_back && ftruncate(bridge->before, 0) < 0)
        fault(FAULT_NETLINK, bridge->name, strerror(errno));
}

void setup_end(struct querier *querier, struct bridge *bridge) {
    static const int versions[2] = {IGMP_VERSION, MLD_VERSION};
    const struct timespec handed_over = {0, 10000000}; /* the ring hands the last frames over */
    if (querier->options->sets_up && !rules_remove(bridge)) {
        tell(bridge->name, "the kernel doesn't hear hosts, so entries and settings stay for the next run");
        return;
    }
    nanosleep(&handed_over, NULL);
    querier_hear(querier, moment());
    bool snoops_vlans = bridge->filters && is_remembered(bridge, 0, &vlan_snooping);
    if (snoops_vlans) /* first, because the kernel removes temporary entries then */
        set(querier, bridge->index, bridge->name, false, &vlan_snooping, 1);
    for (int at = 0; at < 2; at++) /* an older version looks at no source, so an entry of sources would end too early */
        querier_hand_over(querier, bridge, at == 1, !snoops_vlans && !is_remembered(bridge, 0, &settings[versions[at]]));
    undo(querier, bridge);
}

/* Undoes --setup of a killed run. */
static void undo_killed(struct querier *querier, struct bridge *bridge) {
    rules_remove(bridge);
    undo(querier, bridge);
}

void setup_open(struct querier *querier) {
    char name[4096];
    if (querier->options->sets_up)
        rules_open(querier->options);
    for (size_t at = 0; at < querier->bridges_count; at++) {
        struct bridge *bridge = &querier->bridges[at];
        if (bridge->is_port)
            continue;
        if (!files_name(name, sizeof name, querier->options->run, bridge->name, "before"))
            fail(STATUS_FAILED, bridge->name, strerror(ENAMETOOLONG));
        bridge->before = open(name, O_RDWR | O_CREAT | O_APPEND | O_CLOEXEC, 0600);
        if (bridge->before < 0)
            fail(STATUS_FAILED, name, strerror(errno));
        if (!querier->options->sets_up && *read_before(bridge) != '\0')
            undo_killed(querier, bridge);
    }
}

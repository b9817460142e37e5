#define _GNU_SOURCE
#include "ports.h"

#include "faults.h"
#include "owns.h"
#include "setup.h"
#include "text.h"
#include "vlans.h"

#include <errno.h>
#include <linux/if_bridge.h>
#include <linux/if_link.h>
#include <linux/rtnetlink.h>
#include <net/if_arp.h>
#include <stdlib.h>
#include <string.h>
#include <sys/socket.h>
#include <unistd.h>

void ports_open(struct querier *querier) {
    querier->netlink = netlink_open(NETLINK_ROUTE, 0);
    querier->news = netlink_open(NETLINK_ROUTE, RTMGRP_LINK | RTMGRP_IPV4_IFADDR | RTMGRP_IPV6_IFADDR);
    if (querier->netlink < 0 || querier->news < 0)
        fail(STATUS_FAILED, "netlink", strerror(errno));
    vlans_listen(querier);
}

/* The most notifications that one call reads. */
enum { NEWS = 256 };

void interface_of(const struct nlmsghdr *message, struct interface *interface) {
    const struct ifinfomsg *head = NLMSG_DATA(message);
    *interface = (struct interface){
        .index = head->ifi_index,
        .is_up = (head->ifi_flags & IFF_UP) && (head->ifi_flags & IFF_RUNNING),
        .is_ethernet = head->ifi_type == ARPHRD_ETHER,
        .at = (const uint8_t *)head + NLMSG_ALIGN(sizeof *head),
        .end = (const uint8_t *)message + message->nlmsg_len,
    };
    uint32_t master = 0;
    attribute_number(interface->at, interface->end, IFLA_MASTER, &master);
    interface->master = (int)master;
}

int interface_read(int netlink, const char *name, struct interface *interface) {
    struct request request;
    struct answer answer;
    const uint32_t without = RTEXT_FILTER_SKIP_STATS;
    if (strlen(name) >= IF_NAMESIZE)
        return ENODEV;
    request_link(&request, RTM_GETLINK, 0, 0);
    request_put(&request, IFLA_IFNAME, name, strlen(name) + 1);
    request_put(&request, IFLA_EXT_MASK, &without, sizeof without);
    int error = netlink_ask(netlink, &request, &answer);
    if (error == 0 && answer.length < sizeof(struct ifinfomsg))
        error = EBADMSG;
    if (error == 0)
        interface_of((const struct nlmsghdr *)(answer.message - NLMSG_HDRLEN), interface);
    return error;
}

bool interface_setting(const struct interface *interface, bool is_port, uint16_t type, uint32_t *number) {
    const struct nlattr *found = attribute_find(interface->at, interface->end, IFLA_LINKINFO);
    if (found != NULL)
        found = attribute_find(attribute_data(found), attribute_end(found), is_port ? IFLA_INFO_SLAVE_DATA : IFLA_INFO_DATA);
    return found != NULL && attribute_number(attribute_data(found), attribute_end(found), type, number);
}

/* Returns the place of a port, a free place, or NULL. */
static struct port *place_of(struct querier *querier, int index, uint16_t vlan) {
    size_t ports = querier->options->ports, first = vlan == 0 ? 0 : ports, last = vlan == 0 ? ports : querier->room;
    struct port *free_one = NULL, *known = querier_port(querier, index, vlan); /* as of the last refresh */
    if (known != NULL && known->index == index && known->vlan->id == vlan)
        return known;
    for (size_t at = last; at > first; at--) {
        struct port *port = querier->ports + at - 1;
        if (port->index == index && port->vlan->id == vlan)
            return port;
        if (port->index == 0)
            free_one = port;
    }
    return free_one;
}

void ports_lose(struct querier *querier, struct port *port) {
    port->index = 0;
    querier_forget(querier, port);
}

struct search {
    struct querier *querier;
    struct bridge *bridge;
    uint64_t now;
};

/* The ports of a bridge that filters VLANs. */
static struct port seen_ports[GREATEST_PORTS];
static size_t seen_count;

void ports_begin(struct querier *querier, struct port *port, bool is_anew, uint64_t now) {
    for (int at = 0; at < 2; at++) {
        const struct served *served = &port->served[at];
        const struct owns *own = &port->vlan->own;
        if (!querier->options->serves[at] || !own->has[at])
            continue;
        if (is_anew || !served->is_on)
            querier_begin(querier, port, at == 1, now);
        else if (memcmp(served->own, own->address[at], LONG_ADDRESS) != 0)
            querier_configure(querier, port, at == 1);
    }
}

/* Reads a port as the kernel has it. Returns false if it has no name. */
static bool read_port(struct bridge *bridge, const struct interface *found, struct port *port) {
    const struct nlattr *name = attribute_find(found->at, found->end, IFLA_IFNAME);
    if (name == NULL || strnlen((const char *)attribute_data(name), IF_NAMESIZE) == IF_NAMESIZE)
        return false;
    uint32_t state = BR_STATE_FORWARDING;
    interface_setting(found, true, IFLA_BRPORT_STATE, &state);
    bool is_up = found->is_up && state == BR_STATE_FORWARDING;
    *port = (struct port){.index = found->index,
                          .bridge = bridge,
                          .vlan = &bridge->whole,
                          .is_pvid = true,
                          .is_up = is_up,
                          .is_blocked = found->is_up && !is_up};
    strcpy(port->name, (const char *)attribute_data(name));
    strcpy(port->label, port->name);
    interface_setting(found, true, IFLA_BRPORT_MULTICAST_ROUTER, &port->router);
    interface_setting(found, true, IFLA_BRPORT_FAST_LEAVE, &port->fast_leave);
    interface_setting(found, true, IFLA_BRPORT_MCAST_TO_UCAST, &port->to_unicast);
    return true;
}

struct port *ports_put(struct querier *querier, const struct port *seen, bool *is_anew) {
    struct port *port = place_of(querier, seen->index, seen->vlan->id);
    if (port == NULL)
        return NULL;
    if (!querier_equip(querier, port)) {
        fault(FAULT_PORTS, seen->label, strerror(errno));
        return NULL;
    }
    bool is_new = port->index != seen->index || port->bridge != seen->bridge;
    if (is_new)
        querier_forget(querier, port);
    bool is_other = port->is_tagged != seen->is_tagged || port->is_pvid != seen->is_pvid;
    *is_anew = !is_new && seen->is_up && (!port->is_up || is_other);
    const struct port before = *port;
    *port = *seen;
    port->is_found = true;
    port->keeps_router = before.keeps_router && !is_new;
    port->hello_until = is_new ? 0 : before.hello_until;
    memcpy(port->served, before.served, sizeof port->served);
    return port;
}

/* Takes over a port of a bridge that does not filter VLANs. If the port came up or forwards again, its links begin again and query at
   once. */
static void take_port(const struct search *search, const struct interface *found) {
    struct port seen, *port;
    bool is_anew;
    if (!read_port(search->bridge, found, &seen))
        return;
    port = ports_put(search->querier, &seen, &is_anew);
    if (port == NULL)
        fault(FAULT_PORTS, seen.name, "there are more ports than --ports");
    else
        ports_begin(search->querier, port, is_anew, search->now);
}

static void take_message(void *context, const struct nlmsghdr *message) {
    const struct search *search = context;
    struct interface found;
    if (message->nlmsg_len < NLMSG_LENGTH(sizeof(struct ifinfomsg)))
        return;
    interface_of(message, &found);
    if (found.master != search->bridge->index)
        return;
    if (!search->bridge->filters)
        take_port(search, &found);
    else if (seen_count < GREATEST_PORTS && read_port(search->bridge, &found, &seen_ports[seen_count]))
        seen_count++;
}

/* Reads the ports of a bridge. Returns whether the kernel's list was whole. */
static bool read_ports(struct querier *querier, struct bridge *bridge, uint64_t now) {
    struct request request;
    struct answer answer;
    struct interface found;
    struct search search = {querier, bridge, now};
    const uint32_t without = RTEXT_FILTER_SKIP_STATS, master = (uint32_t)bridge->index;
    if (bridge->is_port) {
        bool is_read = interface_read(querier->netlink, bridge->name, &found) == 0;
        if (is_read)
            take_port(&search, &found);
        return is_read;
    }
    request_link(&request, RTM_GETLINK, 0, 0);
    request_put(&request, IFLA_MASTER, &master, sizeof master);
    request_put(&request, IFLA_EXT_MASK, &without, sizeof without);
    return netlink_dump(querier->netlink, &request, take_message, &search, &answer) == 0;
}

static bool is_filtering(const struct interface *found) {
    uint32_t number;
    return interface_setting(found, false, IFLA_BR_VLAN_FILTERING, &number) && number != 0;
}

/* Returns the reason why a bridge cannot be served, or NULL. */
static const char *unserved(const struct querier *querier, const struct interface *found) {
    uint32_t number;
    if (!interface_setting(found, false, IFLA_BR_MCAST_SNOOPING, &number))
        return "it is no bridge, or the kernel can't snoop";
    if (is_filtering(found) && querier->options->is_route)
        return "it filters VLANs, which a router does not serve: make a bridge for each VLAN";
    return NULL;
}

/* Reads what the kernel reports of a change of the spanning tree. Returns whether a change begins, ends or follows another one. */
static bool has_changed(struct bridge *bridge, const struct interface *found) {
    static const uint16_t types[] = {IFLA_BR_TOPOLOGY_CHANGE, IFLA_BR_TOPOLOGY_CHANGE_DETECTED, IFLA_BR_TOPOLOGY_CHANGE_TIMER};
    uint32_t now[3] = {0};
    for (int at = 0; at < 3; at++)
        interface_setting(found, false, types[at], &now[at]);
    bool is_other = now[0] != bridge->change[0] || now[1] != bridge->change[1];
    bool is_longer = now[2] > bridge->change[2]; /* the timer counts down, and each change begins it again */
    memcpy(bridge->change, now, sizeof now);
    return is_other || is_longer;
}

void ports_watch_topology(struct querier *querier, uint64_t now) {
    struct interface found;
    for (size_t at = 0; at < querier->bridges_count; at++) {
        struct bridge *bridge = &querier->bridges[at];
        if (bridge->index == 0 || interface_read(querier->netlink, bridge->name, &found) != 0 || found.index != bridge->index)
            continue;
        bool is_anew = has_changed(bridge, &found);
        for (size_t port = 0; port < querier->room && is_anew; port++)
            if (querier->ports[port].index != 0 && querier->ports[port].bridge == bridge && querier->ports[port].is_up)
                ports_begin(querier, querier->ports + port, true, now);
    }
}

/* Returns whether the links of a bridge can begin: the kernel forwards for all VLANs, or for none, what nobody has asked for. MLD may
   lack an address at a bridge that does not filter, since the kernel floods MLD then in any case. */
static bool has_addresses(const struct querier *querier, const struct bridge *bridge) {
    const bool *serves = querier->options->serves;
    if (!bridge->filters)
        return bridge->has_own[!serves[false]];
    return (!serves[0] || (bridge->has_own[0] && !bridge->lacks_own[0]))
           && (!serves[1] || (bridge->has_own[1] && !bridge->lacks_own[1]));
}

/* Sets when the links of a bridge know what hosts want, after a family got an address. `had` says which families had one before. A
   VLAN that comes later does not have the kernel flood the others. */
static void set_gathering(struct querier *querier, struct bridge *bridge, const bool had[2], uint64_t now) {
    const bool *serves = querier->options->serves;
    bool is_new = bridge->gathers == MQ_NONE;
    for (int at = 0; at < 2 && !bridge->filters; at++)
        is_new |= serves[at] && bridge->has_own[at] && !had[at];
    if (!is_new || !has_addresses(querier, bridge))
        return;
    bridge->gathers = now + querier_gathering(querier);
    bridge->is_late |= bridge->has_gathered;
    bridge->has_gathered = false;
}

/* Begins the links of a bridge again after it began or ended to filter VLANs: no entry is right any longer. The kernel floods while
   hosts are asked. */
static void change_filtering(struct querier *querier, struct bridge *bridge) {
    tell(bridge->name, bridge->filters ? "it does not filter VLANs any longer: its links begin anew"
                                       : "it filters VLANs now: its links begin anew, for each VLAN");
    querier_remove_entries(querier, bridge);
    for (size_t at = 0; at < querier->room; at++)
        if (querier->ports[at].index != 0 && querier->ports[at].bridge == bridge)
            ports_lose(querier, querier->ports + at);
    bridge->gathers = MQ_NONE;
}

/* Reads the ports and addresses of a bridge. Returns whether the kernel's lists were whole. */
static bool read_all(struct querier *querier, struct bridge *bridge, uint64_t now) {
    const bool had[2] = {bridge->has_own[0], bridge->has_own[1]};
    if (!bridge->filters) {
        bool has_all = owns_read(querier, bridge);
        set_gathering(querier, bridge, had, now);
        return read_ports(querier, bridge, now) && has_all;
    }
    seen_count = 0;
    bool has_all = read_ports(querier, bridge, now);
    has_all &= vlans_read(querier, bridge, seen_ports, seen_count, has_all);
    has_all &= owns_read_vlans(querier, bridge);
    set_gathering(querier, bridge, had, now);
    vlans_begin(querier, bridge, now);
    return has_all;
}

/* Copies a bridge as the kernel has it, with its addresses and ports. Returns whether the kernel's lists were whole. */
static bool take_bridge(struct querier *querier, struct bridge *bridge, const struct interface *found, uint64_t now) {
    const struct nlattr *mac = attribute_find(found->at, found->end, IFLA_ADDRESS);
    bool filters = !bridge->is_port && is_filtering(found), is_other = bridge->index == found->index && bridge->filters != filters;
    if (bridge->index != found->index) {
        bridge->gathers = MQ_NONE;
        bridge->has_gathered = false;
        has_changed(bridge, found);
    }
    bridge->index = found->index;
    bridge->protocol = vlans_protocol(found);
    if (mac != NULL && attribute_end(mac) - attribute_data(mac) == MAC)
        memcpy(bridge->mac, attribute_data(mac), MAC);
    if (is_other) /* the interface stands until this request */
        change_filtering(querier, bridge);
    bridge->filters = filters;
    return read_all(querier, bridge, now);
}

/* Reads a bridge and its ports, or the one interface. Returns whether the kernel's lists were whole. */
static bool read_bridge(struct querier *querier, struct bridge *bridge, uint64_t now) {
    struct interface found;
    int error = interface_read(querier->netlink, bridge->name, &found);
    if (error != 0 && error != ENODEV) {
        fault(FAULT_NETLINK, bridge->name, strerror(error)); /* the copy stays */
        return false;
    }
    const char *why = error == ENODEV ? "it is gone" : bridge->is_port ? NULL : unserved(querier, &found);
    if (why == NULL)
        return take_bridge(querier, bridge, &found, now);
    if (error == 0 || bridge->index != 0)
        fault(FAULT_PORTS, bridge->name, why);
    if (error == 0 && bridge->index != 0)
        querier_remove_entries(querier, bridge); /* it was served before */
    bridge->index = 0;
    return true;
}

static int by_index(const void *one, const void *other) {
    const struct by_index *it = one, *its = other;
    if (it->index != its->index)
        return it->index < its->index ? -1 : 1;
    return (it->vlan > its->vlan) - (it->vlan < its->vlan);
}

/* Makes the ring hear at the present ports. */
static void listen_at_ports(struct querier *querier) {
    static int indexes[GREATEST_PORTS];
    size_t count = 0;
    querier->ports_count = querier->untagged_count = 0;
    for (size_t at = 0; at < querier->room; at++) {
        struct port *port = querier->ports + at;
        if (port->index != 0)
            querier->by_index[querier->ports_count++] = (struct by_index){port->index, port->vlan->id, port};
    }
    qsort(querier->by_index, querier->ports_count, sizeof *querier->by_index, by_index);
    for (size_t at = 0; at < querier->ports_count; at++) {
        const struct by_index *it = &querier->by_index[at];
        if (it->port->is_pvid)
            querier->untagged[querier->untagged_count++] = (struct by_index){it->index, 0, it->port};
        if ((count == 0 || indexes[count - 1] != it->index) && count < GREATEST_PORTS)
            indexes[count++] = it->index;
    }
    if (ring_listen(&querier->ring, indexes, count, querier_filters(querier)) < 0) {
        fault(FAULT_NETLINK, "packets", strerror(errno));
        querier->is_stale = true;
    }
}

void ports_refresh(struct querier *querier, uint64_t now) {
    bool is_whole = true;
    for (size_t at = 0; at < querier->room; at++)
        querier->ports[at].is_found = false;
    for (size_t at = 0; at < querier->bridges_count; at++)
        is_whole &= read_bridge(querier, &querier->bridges[at], now);
    for (size_t at = 0; at < querier->room && is_whole; at++) {
        if (querier->ports[at].index == 0 || querier->ports[at].is_found)
            continue;
        ports_lose(querier, querier->ports + at);
        querier->is_stale = true; /* no notification came: read all again in a second, since a place is free now */
    }
    querier->is_stale |= !is_whole;
    vlans_free_unused(querier);
    listen_at_ports(querier);
    setup_apply(querier);
}

/* Returns whether an interface is a served bridge, or may be a missing one. */
static bool is_bridge(const struct querier *querier, int index) {
    for (size_t at = 0; at < querier->bridges_count; at++)
        if (querier->bridges[at].index == 0 || querier->bridges[at].index == index)
            return true;
    return false;
}

/* Returns whether a notification concerns a bridge or a port. A port that leaves its bridge is forgotten, even if it returns at
   once. */
static bool concerns(struct querier *querier, const struct nlmsghdr *message) {
    struct interface found;
    if (message->nlmsg_type == RTM_NEWVLAN || message->nlmsg_type == RTM_DELVLAN)
        return querier_filters(querier);
    if (message->nlmsg_len < NLMSG_LENGTH(sizeof(struct ifinfomsg)))
        return false;
    if (message->nlmsg_type == RTM_NEWADDR || message->nlmsg_type == RTM_DELADDR) {
        int index = (int)((const struct ifaddrmsg *)NLMSG_DATA(message))->ifa_index;
        return is_bridge(querier, index) || vlans_has(querier, index);
    }
    interface_of(message, &found);
    size_t at = querier_first(querier, found.index);
    bool is_port = at < querier->ports_count;
    for (; message->nlmsg_type == RTM_DELLINK && at < querier->ports_count && querier->by_index[at].index == found.index; at++)
        if (querier->by_index[at].port->index == found.index)
            ports_lose(querier, querier->by_index[at].port);
    return is_port || is_bridge(querier, found.index) || is_bridge(querier, found.master) || vlans_concerns(querier, &found);
}

bool ports_read_news(struct querier *querier) {
    static uint8_t bytes[GREATEST_ANSWER] __attribute__((aligned(NLMSG_ALIGNTO)));
    bool is_concerned = false;
    for (int count = 0; count < NEWS; count++) {
        ssize_t length = recv(querier->news, bytes, sizeof bytes, 0);
        if (length < 0 && errno == ENOBUFS) {
            fault(FAULT_OVERRUN, "netlink", "notifications were lost: all is read anew");
            querier->is_stale = true;
            continue;
        }
        if (length <= 0)
            break;
        const struct nlmsghdr *message = (const void *)bytes;
        for (int left = (int)length; NLMSG_OK(message, left); message = NLMSG_NEXT(message, left))
            is_concerned |= concerns(querier, message);
    }
    return is_concerned;
}

#define _GNU_SOURCE
#include "vlans.h"

#include "faults.h"
#include "text.h"

#include <arpa/inet.h>
#include <errno.h>
#include <linux/if_bridge.h>
#include <linux/if_ether.h>
#include <linux/if_link.h>
#include <linux/rtnetlink.h>
#include <stdio.h>
#include <string.h>
#include <sys/socket.h>

void vlans_listen(const struct querier *querier) {
    const int group = RTNLGRP_BRVLAN;
    setsockopt(querier->news, SOL_NETLINK, NETLINK_ADD_MEMBERSHIP, &group, sizeof group);
}

uint16_t vlans_protocol(const struct interface *bridge) {
    const struct nlattr *found = attribute_find(bridge->at, bridge->end, IFLA_LINKINFO);
    uint16_t protocol = htons(ETH_P_8021Q);
    if (found != NULL)
        found = attribute_find(attribute_data(found), attribute_end(found), IFLA_INFO_DATA);
    if (found != NULL)
        found = attribute_find(attribute_data(found), attribute_end(found), IFLA_BR_VLAN_PROTOCOL);
    if (found != NULL && (size_t)(attribute_end(found) - attribute_data(found)) >= sizeof protocol)
        memcpy(&protocol, attribute_data(found), sizeof protocol);
    return ntohs(protocol);
}

struct reading {
    struct querier *querier;
    struct bridge *bridge;
    struct port *seen;
    size_t count, beyond;
};

/* Returns a VLAN of a bridge, which is new if it was unknown, or NULL. */
static struct vlan *vlan_of(struct querier *querier, struct bridge *bridge, uint16_t id) {
    struct vlan *free_one = NULL;
    for (size_t at = querier->vlans_room; at > 0; at--) {
        struct vlan *vlan = &querier->vlans[at - 1];
        if (vlan->bridge == bridge && vlan->id == id)
            return vlan;
        if (vlan->bridge == NULL)
            free_one = vlan;
    }
    if (free_one != NULL)
        *free_one = (struct vlan){.bridge = bridge, .id = id};
    return free_one;
}

/* Takes over a port in a VLAN. */
static void take_member(struct reading *reading, const struct port *of, const struct bridge_vlan_info *info, uint32_t state) {
    struct port seen = *of, *port = NULL;
    const struct port *known = querier_port(reading->querier, of->index, info->vid); /* as of the last refresh */
    bool is_anew = false, is_known = known != NULL && known->index == of->index && known->vlan->bridge == reading->bridge;
    seen.vlan = is_known ? known->vlan : vlan_of(reading->querier, reading->bridge, info->vid);
    seen.is_tagged = !(info->flags & BRIDGE_VLAN_INFO_UNTAGGED);
    seen.is_pvid = info->flags & BRIDGE_VLAN_INFO_PVID;
    seen.is_blocked |= seen.is_up && state != BR_STATE_FORWARDING;
    seen.is_up &= state == BR_STATE_FORWARDING;
    *put_number(put_text(put_text(seen.label, seen.name), " vlan "), info->vid) = '\0';
    if (seen.vlan != NULL)
        port = ports_put(reading->querier, &seen, &is_anew);
    if (port != NULL)
        port->is_anew = is_anew;
    else
        reading->beyond++;
}

/* Takes over a range of VLANs of a port, or of the bridge itself. */
static void take_range(struct reading *reading, int index, const struct nlattr *range) {
    const uint8_t *at = attribute_data(range), *end = attribute_end(range);
    const struct nlattr *about = attribute_find(at, end, BRIDGE_VLANDB_ENTRY_INFO);
    const struct nlattr *until = attribute_find(at, end, BRIDGE_VLANDB_ENTRY_RANGE);
    struct bridge_vlan_info info;
    uint32_t state = BR_STATE_FORWARDING;
    if (about == NULL || (size_t)(attribute_end(about) - attribute_data(about)) < sizeof info)
        return;
    memcpy(&info, attribute_data(about), sizeof info);
    uint16_t last = info.vid;
    if (until != NULL && (size_t)(attribute_end(until) - attribute_data(until)) >= sizeof last)
        memcpy(&last, attribute_data(until), sizeof last);
    attribute_number(at, end, BRIDGE_VLANDB_ENTRY_STATE, &state);
    if (index == reading->bridge->index && (info.flags & BRIDGE_VLAN_INFO_PVID))
        reading->bridge->pvid = info.vid;
    for (size_t port = 0; port < reading->count; port++) {
        if (reading->seen[port].index != index)
            continue;
        reading->seen[port].is_bare &= !(info.flags & BRIDGE_VLAN_INFO_UNTAGGED);
        for (; info.vid != 0 && info.vid <= last && last < VLANS; info.vid++)
            if (options_serves_vlan(reading->querier->options, info.vid))
                take_member(reading, &reading->seen[port], &info, state);
    }
}

static void take_message(void *context, const struct nlmsghdr *message) {
    const struct br_vlan_msg *head = NLMSG_DATA(message);
    const struct nlattr *entry;
    if (message->nlmsg_type != RTM_NEWVLAN || message->nlmsg_len < NLMSG_LENGTH(sizeof *head))
        return;
    const uint8_t *at = (const uint8_t *)head + NLMSG_ALIGN(sizeof *head), *end = (const uint8_t *)message + message->nlmsg_len;
    while ((entry = attribute_next(&at, end)) != NULL)
        if ((entry->nla_type & NLA_TYPE_MASK) == BRIDGE_VLANDB_ENTRY)
            take_range(context, (int)head->ifindex, entry);
}

/* Removes the entries of a port that is not in a VLAN any longer, and ends its links. */
static void lose(struct querier *querier, struct port *port) {
    struct place place;
    for (int family = 0; family < 2; family++)
        if (querier->options->serves[family] && querier_place(querier, port, family == 1, &place))
            mdb_remove_all(&place);
    ports_lose(querier, port);
    mdb_restore(); /* at once, because the rest of a refresh takes its time */
}

/* Compares the ports in VLANs with what was seen of their interfaces. Those whose VLAN is gone are lost. */
static void compare(const struct reading *reading, bool is_whole) {
    for (size_t at = 0; at < reading->querier->room; at++) {
        struct port *port = reading->querier->ports + at;
        const struct port *seen = NULL;
        for (size_t it = 0; it < reading->count && port->index != 0 && port->bridge == reading->bridge; it++)
            if (reading->seen[it].index == port->index)
                seen = &reading->seen[it];
        if (seen == NULL)
            continue;
        port->is_bare = seen->is_bare;
        if (is_whole && !port->is_found)
            lose(reading->querier, port);
    }
}

bool vlans_read(struct querier *querier, struct bridge *bridge, struct port *seen, size_t count, bool has_all) {
    struct request request;
    struct answer answer;
    struct reading reading = {.querier = querier, .bridge = bridge, .seen = seen, .count = count};
    struct br_vlan_msg head = {.family = AF_BRIDGE};
    for (size_t at = 0; at < count; at++)
        seen[at].is_bare = true;
    bridge->pvid = 0;
    request_begin(&request, RTM_GETVLAN, 0, &head, sizeof head);
    int error = netlink_dump(querier->netlink, &request, take_message, &reading, &answer);
    if (error != 0 && error != EINTR)
        fault(FAULT_NETLINK, bridge->name, answer.why);
    compare(&reading, error == 0 && has_all);
    if (reading.beyond > bridge->beyond) {
        char why[80];
        snprintf(why, sizeof why, "%zu ports in VLANs are more than --links, and are not served", reading.beyond);
        fault_count(FAULT_PORTS, reading.beyond - bridge->beyond, bridge->name, why);
    }
    bridge->beyond = reading.beyond;
    vlans_free_unused(querier);
    return error == 0;
}

void vlans_begin(struct querier *querier, const struct bridge *bridge, uint64_t now) {
    for (size_t at = querier->options->ports; at < querier->room; at++) {
        struct port *port = querier->ports + at;
        if (port->index == 0 || port->bridge != bridge)
            continue;
        ports_begin(querier, port, port->is_anew, now);
        port->is_anew = false;
    }
}

void vlans_free_unused(struct querier *querier) {
    for (size_t at = 0; at < querier->vlans_room; at++)
        querier->vlans[at].is_used = false;
    for (size_t at = querier->options->ports; at < querier->room; at++)
        if (querier->ports[at].index != 0)
            querier->ports[at].vlan->is_used = true;
    for (size_t at = 0; at < querier->vlans_room; at++)
        if (!querier->vlans[at].is_used)
            querier->vlans[at].bridge = NULL;
}

bool vlans_has(const struct querier *querier, int index) {
    for (size_t at = 0; at < querier->vlans_room; at++)
        if (querier->vlans[at].bridge != NULL && querier->vlans[at].index == index)
            return true;
    return false;
}

bool vlans_concerns(const struct querier *querier, const struct interface *interface) {
    uint32_t below = 0;
    if (!attribute_number(interface->at, interface->end, IFLA_LINK, &below))
        return false;
    for (size_t at = 0; at < querier->bridges_count; at++)
        if (querier->bridges[at].filters && querier->bridges[at].index == (int)below)
            return true;
    return false;
}

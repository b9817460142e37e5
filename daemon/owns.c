#define _GNU_SOURCE
#include "owns.h"

#include "faults.h"
#include "ports.h"

#include <linux/if_addr.h>
#include <linux/if_link.h>
#include <linux/rtnetlink.h>
#include <stdio.h>
#include <string.h>
#include <sys/socket.h>

/* The words of lines about a family without an address. */
static const char *const wants[2] = {"IPv4 address", "link-local address"};
static const char *const options[2] = {"--own", "--own6"};
static const char *const families[2] = {"IGMP", "MLD"};

struct reading {
    struct querier *querier;
    struct bridge *bridge;
};

/* Takes the first address of each family that can be the source of queries. */
static void take_address(struct vlan *vlan, const struct nlmsghdr *message) {
    const struct ifaddrmsg *head = NLMSG_DATA(message);
    if (message->nlmsg_len < NLMSG_LENGTH(sizeof *head))
        return;
    bool is_mld = head->ifa_family == AF_INET6;
    const uint8_t *at = (const uint8_t *)head + NLMSG_ALIGN(sizeof *head), *end = (const uint8_t *)message + message->nlmsg_len;
    const struct nlattr *address = attribute_find(at, end, is_mld ? IFA_ADDRESS : IFA_LOCAL);
    size_t width = is_mld ? 16 : 4;
    uint32_t flags = head->ifa_flags;
    attribute_number(at, end, IFA_FLAGS, &flags);
    if (head->ifa_index != (uint32_t)vlan->index || address == NULL || vlan->read.has[is_mld])
        return;
    if ((size_t)(attribute_end(address) - attribute_data(address)) < width || (flags & (IFA_F_TENTATIVE | IFA_F_DADFAILED)))
        return;
    if (is_mld && head->ifa_scope != RT_SCOPE_LINK)
        return;
    memset(vlan->read.address[is_mld], 0, LONG_ADDRESS);
    memcpy(vlan->read.address[is_mld], attribute_data(address), width);
    vlan->read.has[is_mld] = true;
}

/* Begins with the addresses of the options. */
static void begin(const struct options *options, struct vlan *vlan) {
    vlan->read = (struct owns){.has = {false, false}};
    for (int at = 0; at < 2; at++) {
        const uint8_t *own = options_own(options, vlan->id, at == 1);
        if (own == NULL)
            continue;
        memcpy(vlan->read.address[at], own, LONG_ADDRESS);
        vlan->read.has[at] = true;
    }
}

/* Prints that a family has no address. */
static void tell_missing(const struct vlan *vlan, bool is_mld) {
    char what[LONGEST_LABEL], why[200];
    if (vlan->id == 0) {
        snprintf(why, sizeof why, "it has no %s, and there is no %s: %s waits for one, and the kernel forwards as before",
                 wants[is_mld], options[is_mld], families[is_mld]);
        fault(FAULT_MISSING, vlan->bridge->name, why);
        return;
    }
    snprintf(what, sizeof what, "%s vlan %u", vlan->bridge->name, (unsigned)vlan->id);
    snprintf(why, sizeof why,
             "its interface has no %s, and there is no %s %u=ADDR: %s waits for one, and the kernel forwards as before",
             wants[is_mld], options[is_mld], (unsigned)vlan->id, families[is_mld]);
    fault(FAULT_MISSING, what, why);
}

/* Takes over the addresses that were read. `is_whole` says that the kernel's list was. */
static void end(struct querier *querier, struct vlan *vlan, bool is_whole) {
    const struct owns *read = &vlan->read;
    for (int at = 0; at < 2; at++) {
        if (read->has[at])
            memcpy(vlan->own.address[at], read->address[at], LONG_ADDRESS);
        else if (is_whole && querier->options->serves[at] && !vlan->is_missed[at])
            tell_missing(vlan, at == 1);
        querier->is_stale |= read->has[at] && !vlan->own.has[at]; /* entries of an earlier run are to become permanent */
        vlan->own.has[at] |= read->has[at];
        vlan->is_missed[at] = is_whole && !read->has[at];
    }
}

static void take_of_bridge(void *context, const struct nlmsghdr *message) {
    const struct reading *reading = context;
    take_address(&reading->bridge->whole, message);
}

bool owns_read(struct querier *querier, struct bridge *bridge) {
    struct request request;
    struct answer answer;
    struct reading reading = {querier, bridge};
    struct ifaddrmsg head = {.ifa_index = (uint32_t)bridge->index};
    bridge->whole.bridge = bridge;
    bridge->whole.index = bridge->index;
    begin(querier->options, &bridge->whole);
    request_begin(&request, RTM_GETADDR, 0, &head, sizeof head);
    bool is_whole = netlink_dump(querier->netlink, &request, take_of_bridge, &reading, &answer) == 0;
    end(querier, &bridge->whole, is_whole);
    for (int at = 0; at < 2; at++) {
        bridge->has_own[at] = bridge->whole.own.has[at];
        bridge->lacks_own[at] = !bridge->has_own[at];
    }
    return is_whole;
}

static bool is_of(const struct vlan *vlan, const struct bridge *bridge) {
    return vlan->bridge == bridge;
}

/* Notes the interface of a VLAN, as br0.10. */
static void take_interface(void *context, const struct nlmsghdr *message) {
    const struct reading *reading = context;
    struct interface found;
    uint32_t below = 0;
    if (message->nlmsg_len < NLMSG_LENGTH(sizeof(struct ifinfomsg)))
        return;
    interface_of(message, &found);
    const struct nlattr *about = attribute_find(found.at, found.end, IFLA_LINKINFO);
    const struct nlattr *kind = about == NULL ? NULL : attribute_find(attribute_data(about), attribute_end(about), IFLA_INFO_KIND);
    const struct nlattr *data = about == NULL ? NULL : attribute_find(attribute_data(about), attribute_end(about), IFLA_INFO_DATA);
    const struct nlattr *number = data == NULL ? NULL : attribute_find(attribute_data(data), attribute_end(data), IFLA_VLAN_ID);
    uint16_t id;
    attribute_number(found.at, found.end, IFLA_LINK, &below);
    if (kind == NULL || number == NULL || (int)below != reading->bridge->index
        || attribute_find(found.at, found.end, IFLA_LINK_NETNSID) != NULL
        || strncmp((const char *)attribute_data(kind), "vlan", (size_t)(attribute_end(kind) - attribute_data(kind))) != 0
        || (size_t)(attribute_end(number) - attribute_data(number)) < sizeof id)
        return;
    memcpy(&id, attribute_data(number), sizeof id);
    for (size_t at = 0; at < reading->querier->vlans_room; at++) {
        struct vlan *vlan = &reading->querier->vlans[at];
        if (is_of(vlan, reading->bridge) && vlan->id == id && vlan->index == 0)
            vlan->index = found.index;
    }
}

static void take_of_vlans(void *context, const struct nlmsghdr *message) {
    const struct reading *reading = context;
    const struct ifaddrmsg *head = NLMSG_DATA(message);
    for (size_t at = 0; at < reading->querier->vlans_room; at++)
        if (is_of(&reading->querier->vlans[at], reading->bridge))
            take_address(&reading->querier->vlans[at], message);
    if (message->nlmsg_len >= NLMSG_LENGTH(sizeof *head) && head->ifa_family == AF_INET6
        && head->ifa_index == (uint32_t)reading->bridge->index)
        reading->bridge->whole.read.has[true] = true;
}

/* Sums up the addresses of a bridge's VLANs. The kernel is querier of MLD only if the bridge itself has an address. */
static void sum_up(struct querier *querier, struct bridge *bridge, bool is_whole) {
    struct vlan *whole = &bridge->whole;
    for (int at = 0; at < 2; at++)
        bridge->has_own[at] = bridge->lacks_own[at] = false;
    for (size_t at = 0; at < 2 * querier->vlans_room; at++) {
        const struct vlan *vlan = &querier->vlans[at / 2];
        bridge->has_own[at % 2] |= is_of(vlan, bridge) && vlan->own.has[at % 2];
        bridge->lacks_own[at % 2] |= is_of(vlan, bridge) && !vlan->own.has[at % 2];
    }
    bool misses = is_whole && querier->options->serves[true] && !whole->read.has[true];
    if (misses && !whole->is_missed[true])
        fault(FAULT_MISSING, bridge->name, "it has no IPv6 address itself: the kernel floods MLD in all its VLANs");
    if (is_whole)
        whole->is_missed[true] = misses;
}

bool owns_read_vlans(struct querier *querier, struct bridge *bridge) {
    struct request request;
    struct answer answer;
    struct reading reading = {querier, bridge};
    struct ifaddrmsg head = {.ifa_index = 0};
    const uint32_t without = RTEXT_FILTER_SKIP_STATS;
    for (size_t at = 0; at < querier->vlans_room; at++) {
        struct vlan *vlan = &querier->vlans[at];
        if (!is_of(vlan, bridge))
            continue;
        begin(querier->options, vlan);
        vlan->index = vlan->id == bridge->pvid ? bridge->index : 0;
    }
    bridge->whole = (struct vlan){.bridge = bridge, .is_missed = {false, bridge->whole.is_missed[1]}};
    request_link(&request, RTM_GETLINK, 0, 0);
    request_put(&request, IFLA_EXT_MASK, &without, sizeof without);
    size_t about = request_begin_nest(&request, IFLA_LINKINFO);
    request_put(&request, IFLA_INFO_KIND, "vlan", strlen("vlan"));
    request_end_nest(&request, about);
    bool is_whole = netlink_dump(querier->netlink, &request, take_interface, &reading, &answer) == 0;
    request_begin(&request, RTM_GETADDR, 0, &head, sizeof head);
    is_whole &= netlink_dump(querier->netlink, &request, take_of_vlans, &reading, &answer) == 0;
    for (size_t at = 0; at < querier->vlans_room; at++)
        if (is_of(&querier->vlans[at], bridge))
            end(querier, &querier->vlans[at], is_whole);
    sum_up(querier, bridge, is_whole);
    return is_whole;
}

#define _GNU_SOURCE
#include "inherit.h"

#include "faults.h"
#include "files.h"
#include "holder.h"

#include <errno.h>
#include <linux/rtnetlink.h>
#include <stdio.h>
#include <string.h>
#include <unistd.h>

enum { GREATEST_INHERITED = 16384 };

/* The sockets that the killed run left. */
static struct {
    int tables[2];
    int memberships[GREATEST_INHERITED];
    size_t count;
} left = {.tables = {-1, -1}};

static void take_one(enum held_kind kind, int file) {
    if (kind == HELD_IGMP_TABLE || kind == HELD_MLD_TABLE)
        left.tables[kind == HELD_MLD_TABLE] = file;
    else if (left.count < GREATEST_INHERITED)
        left.memberships[left.count++] = file;
    else
        close(file);
}

/* Returns the words that describe a run: families and interfaces, whose numbers the kernel's tables have. */
static const char *words_of(const struct querier *querier) {
    static char words[GREATEST_VIFS * (IF_NAMESIZE + 1) + 8];
    const struct route *route = querier->route;
    size_t length = (size_t)sprintf(words, "%d%d", querier->options->serves[0], querier->options->serves[1]);
    for (size_t at = 0; at < route->count && length + IF_NAMESIZE + 1 < sizeof words; at++)
        length += (size_t)snprintf(words + length, sizeof words - length, " %s", route->vifs[at].name);
    return words;
}

static const char *name_of(const struct querier *querier) {
    static char name[4096];
    if (!files_name(name, sizeof name, querier->options->run, querier->options->upstream.names[0], "held"))
        fail(STATUS_FAILED, "held", strerror(ENAMETOOLONG));
    return name;
}

void inherit_take(struct querier *querier) {
    struct route *route = querier->route;
    snprintf(route->words, sizeof route->words, "%s", words_of(querier));
    holder_take(name_of(querier), route->words, take_one);
    for (int at = 0; at < 2; at++) {
        route->tables[at] = (struct mroute){.file = left.tables[at], .is_mld = at == 1};
        for (size_t vif = 0; vif < route->downstream && left.tables[at] >= 0; vif++)
            route->vifs[vif].gathers[at] = true;
    }
}

void inherit_hold(struct querier *querier) {
    const struct route *route = querier->route;
    holder_start(name_of(querier), route->words);
    holder_add(HELD_IGMP_TABLE, route->tables[false].file);
    holder_add(HELD_MLD_TABLE, route->tables[true].file);
    for (size_t at = 0; at < left.count; at++)
        holder_add(HELD_INHERITED, left.memberships[at]);
}

void inherit_gathered(struct querier *querier) {
    for (size_t at = 0; at < querier->route->downstream; at++)
        if (querier->route->vifs[at].gathers[0] || querier->route->vifs[at].gathers[1])
            return;
    for (; left.count > 0; left.count--)
        close(left.memberships[left.count - 1]);
    holder_gathered();
}

/* Returns the number of an interface, or NO_VIF. */
static unsigned vif_of(const struct route *route, uint32_t index) {
    for (unsigned vif = 0; vif < route->count; vif++)
        if (index != 0 && route->vifs[vif].index == (int)index)
            return vif;
    return NO_VIF;
}

/* Returns the interfaces of a list of next hops. */
static uint32_t read_hops(const struct route *route, const uint8_t *at, const uint8_t *end) {
    struct rtnexthop hop;
    uint32_t to = 0;
    for (; (size_t)(end - at) >= sizeof hop; at += RTNH_ALIGN(hop.rtnh_len)) {
        memcpy(&hop, at, sizeof hop);
        unsigned vif = vif_of(route, (uint32_t)hop.rtnh_ifindex);
        to |= vif == NO_VIF ? 0 : UINT32_C(1) << vif;
        if (hop.rtnh_len < sizeof hop || (size_t)RTNH_ALIGN(hop.rtnh_len) > (size_t)(end - at))
            break;
    }
    return to;
}

/* Reads an address of a family. Returns whether there is one. */
static bool read_address(const struct nlattr *attribute, bool is_mld, uint8_t *address) {
    size_t width = is_mld ? 16 : 4;
    bool is_there = attribute != NULL && (size_t)(attribute_end(attribute) - attribute_data(attribute)) >= width;
    if (is_there)
        memcpy(address, attribute_data(attribute), width);
    return is_there;
}

/* Adds one of the kernel's entries. */
static void take_entry(void *context, const struct nlmsghdr *message) {
    struct querier *querier = context;
    struct route *route = querier->route;
    const struct rtmsg *head = NLMSG_DATA(message);
    if (message->nlmsg_len < NLMSG_LENGTH(sizeof *head)
        || (head->rtm_family != RTNL_FAMILY_IPMR && head->rtm_family != RTNL_FAMILY_IP6MR))
        return;
    const uint8_t *at = (const uint8_t *)head + NLMSG_ALIGN(sizeof *head), *end = (const uint8_t *)message + message->nlmsg_len;
    const struct nlattr *hops = attribute_find(at, end, RTA_MULTIPATH);
    struct flow flow = {.is_mld = head->rtm_family == RTNL_FAMILY_IP6MR};
    uint32_t index = 0;
    if (!read_address(attribute_find(at, end, RTA_DST), flow.is_mld, flow.group)
        || !read_address(attribute_find(at, end, RTA_SRC), flow.is_mld, flow.source) || !attribute_number(at, end, RTA_IIF, &index))
        return;
    unsigned parent = vif_of(route, index);
    if (parent == NO_VIF || entries_find(&route->entries, &flow) != NULL || entries_victim(&route->entries) != NULL)
        return;
    struct route_entry *entry = entries_put(&route->entries, &flow, moment());
    entry->parent = (uint8_t)parent;
    entry->to = hops == NULL ? 0 : read_hops(route, attribute_data(hops), attribute_end(hops));
    entry->kept = entry->to & ((UINT32_C(1) << route->downstream) - 1);
    entries_want(&route->entries, entry, entry->kept != 0);
}

void inherit_read(struct querier *querier, bool is_mld) {
    struct request request;
    struct answer answer;
    struct rtmsg head = {.rtm_family = is_mld ? RTNL_FAMILY_IP6MR : RTNL_FAMILY_IPMR};
    request_begin(&request, RTM_GETROUTE, 0, &head, sizeof head);
    if (netlink_dump(querier->netlink, &request, take_entry, querier, &answer) != 0)
        fault(FAULT_NETLINK, "entries", answer.why);
}

void inherit_entries(struct querier *querier) {
    for (int at = 0; at < 2; at++)
        if (left.tables[at] >= 0)
            inherit_read(querier, at == 1);
}

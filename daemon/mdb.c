#define _GNU_SOURCE
#include "mdb.h"

#include "faults.h"
#include "netlink.h"
#include "ring.h"
#include "text.h"

#include <arpa/inet.h>
#include <errno.h>
#include <linux/if_bridge.h>
#include <linux/rtnetlink.h>
#include <net/if.h>
#include <netinet/in.h>
#include <stdio.h>
#include <stdlib.h>
#include <string.h>
#include <sys/utsname.h>

#ifndef NLM_F_BULK /* headers before Linux 5.19 lack it */
#define NLM_F_BULK 0x200
#endif

/* Numbers of attributes that older versions of <linux/if_bridge.h> lack. */
enum { BESIDE_SOURCES = 2, BESIDE_MODE = 3, BESIDE_PROTOCOL = 4, LISTED_SOURCE = 1, SOURCE_ADDRESS = 1 };
/* The makers of our entries as the database has them, a number for each family. */
enum { PROTOCOL_IGMP = 211, PROTOCOL_MLD = 212 };
/* No program has this number: removing its entries changes nothing. */
enum { PROTOCOL_NOBODY = 213 };
/* The most entries that one dump finds to be removed. */
enum { FOUND = 256 };
/* The most groups that wait for `mdb_restore`. Few, so that none waits long. */
enum { LOST = 16 };
const struct filter filter_of_all = {.mode = MODE_EXCLUDE};
/* The kernel is one of 6.2 to 6.7. It lacks the request that removes all entries of a maker, and before 6.7 also that which
   reads an entry. Dumps serve there. */
static bool is_older;

static uint8_t own_protocol(const struct place *place) {
    return place->is_mld ? PROTOCOL_MLD : PROTOCOL_IGMP;
}

static size_t address_bytes(const struct place *place) {
    return place->is_mld ? 16 : 4;
}

void mdb_fault(enum fault kind, const struct place *place, const uint8_t *group, const char *why) {
    char what[LONGEST_ADDRESS + IF_NAMESIZE + 32], port[IF_NAMESIZE] = "?", *to = put_text(what, "mdb ");
    if_indextoname((unsigned)place->port, port);
    to = put_text((place->is_mld ? put_ipv6_address : put_ipv4_address)(to, group), " at ");
    to = put_text(to, port);
    if (place->vlan != 0)
        to = put_number(put_text(to, " vlan "), place->vlan);
    *to = '\0';
    fault(kind, what, why);
}

/* Begins a request about the entry of a group at a port, or about all entries of a port if `group` is NULL. */
static void begin(const struct place *place, struct request *request, uint16_t type, uint16_t flags, const uint8_t *group, int port,
                  uint8_t state) {
    struct br_port_msg head = {.family = AF_BRIDGE, .ifindex = (uint32_t)place->bridge};
    struct br_mdb_entry entry = {.ifindex = (uint32_t)port, .state = state, .vid = place->vlan};
    if (group != NULL) {
        memcpy(&entry.addr.u, group, address_bytes(place));
        entry.addr.proto = htons(place->is_mld ? ETH_P_IPV6 : ETH_P_IP);
    }
    request_begin(request, type, flags, &head, sizeof head);
    request_put(request, MDBA_SET_ENTRY, &entry, sizeof entry);
}

static void put_sources(const struct place *place, struct request *request, const struct filter *filter) {
    size_t list = request_begin_nest(request, BESIDE_SOURCES);
    for (size_t at = 0; at < filter->count; at++) {
        size_t listed = request_begin_nest(request, LISTED_SOURCE);
        request_put(request, SOURCE_ADDRESS, filter->sources[at], address_bytes(place));
        request_end_nest(request, listed);
    }
    request_end_nest(request, list);
}

/* Adds the maker of the entry or entries, and the filter if there is one. */
static void put_beside(const struct place *place, struct request *request, const struct filter *filter) {
    uint8_t protocol = own_protocol(place);
    size_t beside = request_begin_nest(request, MDBA_SET_ENTRY_ATTRS);
    request_put(request, BESIDE_PROTOCOL, &protocol, sizeof protocol);
    if (filter != NULL) {
        uint8_t mode = filter->mode == MODE_INCLUDE ? MCAST_INCLUDE : MCAST_EXCLUDE;
        request_put(request, BESIDE_MODE, &mode, sizeof mode);
        if (filter->count > 0)
            put_sources(place, request, filter);
    }
    request_end_nest(request, beside);
}

static bool is_kernel_before(int major, int minor) {
    struct utsname kernel;
    int its_major, its_minor;
    if (uname(&kernel) < 0 || sscanf(kernel.release, "%d.%d", &its_major, &its_minor) != 2)
        return false;
    return its_major < major || (its_major == major && its_minor < minor);
}

void mdb_try(int netlink, int bridge, const char *name) {
    struct request request;
    struct answer answer;
    struct place place = {.netlink = netlink, .bridge = bridge};
    uint8_t protocol = PROTOCOL_NOBODY;
    begin(&place, &request, RTM_DELMDB, NLM_F_BULK, NULL, 0, 0);
    size_t beside = request_begin_nest(&request, MDBA_SET_ENTRY_ATTRS);
    request_put(&request, BESIDE_PROTOCOL, &protocol, sizeof protocol);
    request_end_nest(&request, beside);
    int error = netlink_ask(netlink, &request, &answer);
    bool is_too_old = is_kernel_before(6, 2);
    is_older = error == EOPNOTSUPP && !is_too_old && is_kernel_before(6, 8); /* the capability is tested before */
    if (error == 0 || is_older)
        return;
    char why[LONGEST_WHY + 64];
    snprintf(why, sizeof why, "%s%s", answer.why, is_too_old ? "; a bridge needs Linux 6.2 or later" : "");
    fail(STATUS_FAILED, name, why);
}

/* Our entries in one place, of all VLANs if its VLAN is 0: as many as there is room for. */
struct found {
    const struct place *place;
    size_t count;
    uint16_t vlans[FOUND];
    uint8_t groups[FOUND][LONG_ADDRESS];
};

static void find_own(void *context, const struct entry *entry) {
    struct found *found = context;
    const struct place *its = found->place;
    bool is_there = entry->port == its->port && entry->is_mld == its->is_mld && (its->vlan == 0 || entry->vlan == its->vlan);
    if (!is_there || entry->maker != MAKER_US || found->count == FOUND)
        return;
    found->vlans[found->count] = entry->vlan;
    memcpy(found->groups[found->count++], entry->group, LONG_ADDRESS);
}

void mdb_remove_each(const struct place *place) {
    static struct found found;
    bool is_done = true;
    do {
        found.place = place;
        found.count = 0;
        is_done = mdb_dump(place->netlink, find_own, &found);
        for (size_t at = 0; at < found.count; at++) {
            struct place its = *place;
            its.vlan = found.vlans[at];
            is_done &= mdb_remove(&its, found.groups[at]);
        }
    } while (found.count == FOUND && is_done);
}

void mdb_remove_all(const struct place *place) {
    struct request request;
    struct answer answer;
    if (is_older) {
        mdb_remove_each(place);
        return;
    }
    begin(place, &request, RTM_DELMDB, NLM_F_BULK, NULL, place->port, 0);
    put_beside(place, &request, NULL);
    int error = netlink_ask(place->netlink, &request, &answer);
    if (error != 0 && error != ENODEV)
        fault(FAULT_REFUSED, "mdb", answer.why);
}

static int by_address(const void *one, const void *other) {
    return memcmp(one, other, LONG_ADDRESS);
}

/* Reads the filter of an entry, with its sources in ascending order. */
static struct filter read_filter(const uint8_t *at, const uint8_t *end, size_t width) {
    static uint8_t sources[PAGE_SOURCES][LONG_ADDRESS];
    struct filter filter = {MODE_EXCLUDE, 0, (const uint8_t(*)[LONG_ADDRESS])sources};
    uint32_t mode = MCAST_EXCLUDE;
    attribute_number(at, end, MDBA_MDB_EATTR_GROUP_MODE, &mode);
    const struct nlattr *list = attribute_find(at, end, MDBA_MDB_EATTR_SRC_LIST), *one;
    const uint8_t *next = list == NULL ? NULL : attribute_data(list);
    while (list != NULL && (one = attribute_next(&next, attribute_end(list))) != NULL && filter.count < PAGE_SOURCES) {
        const struct nlattr *address = attribute_find(attribute_data(one), attribute_end(one), MDBA_MDB_SRCATTR_ADDRESS);
        uint32_t timer = 0; /* in EXCLUDE mode the kernel forwards a source while its timer runs */
        attribute_number(attribute_data(one), attribute_end(one), MDBA_MDB_SRCATTR_TIMER, &timer);
        bool is_whole = address != NULL && (size_t)(attribute_end(address) - attribute_data(address)) >= width;
        if (!is_whole || (mode == MCAST_EXCLUDE && timer != 0))
            continue;
        memset(sources[filter.count], 0, LONG_ADDRESS);
        memcpy(sources[filter.count++], attribute_data(address), width);
    }
    qsort(sources, filter.count, LONG_ADDRESS, by_address);
    if (mode == MCAST_INCLUDE)
        filter.mode = filter.count > 0 ? MODE_INCLUDE : MODE_NONE;
    return filter;
}

/* Reads one entry of a message. Returns false if it is no entry of a group, for example the kernel's entry of one source. */
static bool read_entry(const struct nlattr *found, struct entry *entry) {
    const uint8_t *at = attribute_data(found), *end = attribute_end(found);
    const struct br_mdb_entry *head = (const void *)at;
    if ((size_t)(end - at) < sizeof *head || (head->addr.proto != htons(ETH_P_IP) && head->addr.proto != htons(ETH_P_IPV6)))
        return false;
    at += NLMSG_ALIGN(sizeof *head);
    if (attribute_find(at, end, MDBA_MDB_EATTR_SOURCE) != NULL)
        return false;
    uint32_t protocol = 0;
    attribute_number(at, end, MDBA_MDB_EATTR_RTPROT, &protocol);
    *entry = (struct entry){.port = (int)head->ifindex, .vlan = head->vid, .is_mld = head->addr.proto == htons(ETH_P_IPV6)};
    entry->is_temporary = head->state == MDB_TEMPORARY;
    size_t width = entry->is_mld ? 16 : 4;
    memcpy(entry->group, &head->addr.u, width);
    entry->maker = protocol == (entry->is_mld ? PROTOCOL_MLD : PROTOCOL_IGMP) ? MAKER_US
                   : protocol == RTPROT_KERNEL                                ? MAKER_KERNEL
                                                                              : MAKER_OTHER;
    entry->filter = read_filter(at, end, width);
    return true;
}

/* Passes each entry from `at` to `end` to `each`. */
static void read_entries(const uint8_t *at, const uint8_t *end, mdb_each *each, void *context) {
    struct entry entry;
    const struct nlattr *all = attribute_find(at, end, MDBA_MDB), *group, *found;
    const uint8_t *next = all == NULL ? NULL : attribute_data(all);
    while (all != NULL && (group = attribute_next(&next, attribute_end(all))) != NULL) {
        const uint8_t *beside = attribute_data(group);
        while ((found = attribute_next(&beside, attribute_end(group))) != NULL)
            if (read_entry(found, &entry))
                each(context, &entry);
    }
}

struct search {
    const struct place *place;
    const uint8_t *group;
    bool is_found;
    struct entry *entry;
};

/* Keeps the entry of a group in a place, with its sources: those of the next entry take their room. */
static void compare(void *context, const struct entry *entry) {
    static uint8_t sources[PAGE_SOURCES][LONG_ADDRESS];
    struct search *search = context;
    const struct place *its = search->place;
    bool is_there = entry->port == its->port && entry->vlan == its->vlan && entry->is_mld == its->is_mld;
    if (!is_there || memcmp(entry->group, search->group, LONG_ADDRESS) != 0)
        return;
    memcpy(sources, entry->filter.sources, entry->filter.count * LONG_ADDRESS);
    *search->entry = *entry;
    search->entry->filter.sources = (const uint8_t(*)[LONG_ADDRESS])sources;
    search->is_found = true;
}

/* Passes at least the entries of a group to `each`. Returns 0 or an error of <errno.h>. */
static int read_group(const struct place *place, const uint8_t *group, mdb_each *each, void *context) {
    struct request request;
    struct answer answer;
    if (is_older)
        return mdb_dump(place->netlink, each, context) ? 0 : EAGAIN;
    begin(place, &request, RTM_GETMDB, 0, group, 0, 0);
    int error = netlink_ask(place->netlink, &request, &answer);
    if (error == 0)
        read_entries(answer.message + NLMSG_ALIGN(sizeof(struct br_port_msg)), answer.message + answer.length, each, context);
    return error;
}

int mdb_read(const struct place *place, const uint8_t *group, struct entry *entry) {
    struct search search = {.place = place, .group = group, .entry = entry};
    int error = read_group(place, group, compare, &search);
    return error != 0 ? error : search.is_found ? 0 : ENOENT;
}

struct dump {
    mdb_each *each;
    void *context;
};

static void read_message(void *context, const struct nlmsghdr *message) {
    const struct dump *dump = context;
    const uint8_t *at = NLMSG_DATA(message), *end = (const uint8_t *)message + message->nlmsg_len;
    if (message->nlmsg_len >= NLMSG_LENGTH(sizeof(struct br_port_msg)))
        read_entries(at + NLMSG_ALIGN(sizeof(struct br_port_msg)), end, dump->each, dump->context);
}

bool mdb_dump(int netlink, mdb_each *each, void *context) {
    struct request request;
    struct answer answer;
    struct dump dump = {each, context};
    struct br_port_msg head = {.family = AF_BRIDGE};
    request_begin(&request, RTM_GETMDB, 0, &head, sizeof head);
    int error = netlink_dump(netlink, &request, read_message, &dump, &answer);
    if (error != 0 && error != EINTR)
        fault(FAULT_NETLINK, "mdb", answer.why);
    return error == 0;
}

static void begin_entry(const struct place *place, struct request *request, const uint8_t *group, const struct filter *filter,
                        uint16_t flag, uint8_t state) {
    begin(place, request, RTM_NEWMDB, NLM_F_CREATE | flag, group, place->port, state);
    put_beside(place, request, filter);
}

static int put_entry(const struct place *place, const uint8_t *group, const struct filter *filter, uint16_t flag, uint8_t state,
                     struct answer *answer) {
    struct request request;
    begin_entry(place, &request, group, filter, flag, state);
    return netlink_ask(place->netlink, &request, answer);
}

bool mdb_set(const struct place *place, const uint8_t *group, const struct filter *filter, bool is_ours) {
    struct answer answer;
    struct entry found;
    if (filter->count > GREATEST_LIST) {
        mdb_fault(FAULT_SOURCES, place, group, "more sources than the kernel takes: all are forwarded");
        filter = &filter_of_all;
    }
    int error = put_entry(place, group, filter, is_ours ? NLM_F_REPLACE : NLM_F_EXCL, MDB_PERMANENT, &answer);
    if (is_ours || error == EEXIST)
        mdb_note_removal(place, group);
    if (error == EEXIST && mdb_read(place, group, &found) == 0 && found.maker != MAKER_OTHER)
        error = put_entry(place, group, filter, NLM_F_REPLACE, MDB_PERMANENT, &answer);
    if (error == EEXIST)
        mdb_fault(FAULT_OTHERS, place, group, "there is an entry of another's, which stays");
    else if (error != 0)
        mdb_fault(FAULT_REFUSED, place, group, answer.why);
    return is_ours || error == 0;
}

bool mdb_remove(const struct place *place, const uint8_t *group) {
    struct request request;
    struct answer answer;
    begin(place, &request, RTM_DELMDB, 0, group, place->port, 0);
    int error = netlink_ask(place->netlink, &request, &answer);
    if (error != 0 && error != ENOENT && error != ENODEV)
        mdb_fault(FAULT_REFUSED, place, group, answer.why);
    mdb_note_removal(place, group);
    return error == 0 || error == ENOENT || error == ENODEV;
}

/* The groups whose EXCLUDE entries have to be made again, each with a place at any port. */
static struct lost {
    struct place place;
    uint8_t group[LONG_ADDRESS];
} lost[LOST];
static size_t lost_count;

void mdb_note_removal(const struct place *place, const uint8_t *group) {
    for (size_t at = 0; at < lost_count; at++) {
        const struct place *its = &lost[at].place;
        bool is_it = its->bridge == place->bridge && its->vlan == place->vlan && its->is_mld == place->is_mld;
        if (is_it && memcmp(lost[at].group, group, LONG_ADDRESS) == 0)
            return;
    }
    if (lost_count == LOST)
        mdb_restore();
    lost[lost_count].place = *place;
    memcpy(lost[lost_count++].group, group, LONG_ADDRESS);
}

/* The requests that make the EXCLUDE entries of a group again. */
struct excluding {
    const struct lost *lost;
    bool has_sources; /* an entry of the group lists some */
    struct batch batch;
};

static void find_excluding(void *context, const struct entry *entry) {
    struct excluding *found = context;
    struct place its = found->lost->place;
    struct request request;
    if (entry->vlan != its.vlan || entry->is_mld != its.is_mld || memcmp(entry->group, found->lost->group, LONG_ADDRESS) != 0)
        return;
    found->has_sources |= entry->filter.count > 0;
    bool excludes = entry->maker == MAKER_US && !entry->is_temporary && entry->filter.mode == MODE_EXCLUDE;
    if (!excludes || entry->filter.count > GREATEST_LIST)
        return;
    its.port = entry->port;
    begin_entry(&its, &request, entry->group, &entry->filter, NLM_F_REPLACE, MDB_PERMANENT);
    batch_put(its.netlink, &found->batch, &request);
}

/* Makes the EXCLUDE entries of a group again, as they are: all at once, because datagrams may be lost until then. */
static void restore(const struct lost *one) {
    static struct excluding found;
    found.lost = one;
    found.has_sources = false;
    found.batch.length = 0;
    read_group(&one->place, one->group, find_excluding, &found);
    if (found.has_sources)
        batch_send(one->place.netlink, &found.batch);
}

void mdb_restore(void) {
    for (size_t at = 0; at < lost_count; at++)
        restore(&lost[at]);
    lost_count = 0;
}

void mdb_hand_over(const struct place *place, const uint8_t *group, const struct filter *filter) {
    struct answer answer;
    if (put_entry(place, group, filter, NLM_F_REPLACE, MDB_TEMPORARY, &answer) != 0)
        mdb_remove(place, group); /* a port that is down has no temporary entries */
}

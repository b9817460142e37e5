#define _GNU_SOURCE
#include "joins.h"

#include "faults.h"
#include "holder.h"

#include <errno.h>
#include <netinet/in.h>
#include <stdio.h>
#include <stdlib.h>
#include <string.h>
#include <sys/random.h>
#include <sys/socket.h>
#include <unistd.h>

void joins_open(struct joins *it, size_t groups) {
    size_t sockets = groups / GROUPS_OF_SOCKET + 1;
    table_open(&it->table, groups, sizeof(struct join), sizeof(struct wish));
    for (int at = 0; at < 2 * PARTS; at++)
        it->sockets[at % 2][at / 2] = take(sockets, sizeof(int));
    if (getrandom(&it->secret, sizeof it->secret, 0) != sizeof it->secret)
        it->secret = 0xcbf29ce484222325;
    joins_read_bounds(it);
}

/* Reads a number of /proc/sys/net, or returns another one if that is missing. */
static size_t bound(const char *name, size_t otherwise) {
    FILE *from = fopen(name, "re");
    unsigned long read = 0;
    if (from == NULL || fscanf(from, "%lu", &read) != 1 || read == 0)
        read = otherwise;
    if (from != NULL)
        fclose(from);
    return read < PAGE_SOURCES ? read : PAGE_SOURCES;
}

void joins_read_bounds(struct joins *it) {
    it->most_sources[false] = bound("/proc/sys/net/ipv4/igmp_max_msf", 10);
    it->most_sources[true] = bound("/proc/sys/net/ipv6/mld_max_msf", 64);
}

struct join *joins_find(const struct joins *it, const struct wish *wish) {
    return table_find(&it->table, wish);
}

static struct sockaddr_storage place_of(bool is_mld, const uint8_t *address) {
    struct sockaddr_storage place = {.ss_family = is_mld ? AF_INET6 : AF_INET};
    if (is_mld)
        memcpy(&((struct sockaddr_in6 *)&place)->sin6_addr, address, 16);
    else
        memcpy(&((struct sockaddr_in *)&place)->sin_addr, address, 4);
    return place;
}

static int level_of(const struct join *join) {
    return join->wish.is_mld ? IPPROTO_IPV6 : IPPROTO_IP;
}

/* Returns the socket of a part of a group, or -1. */
static int file_of(const struct joins *it, const struct join *join, size_t part) {
    return it->sockets[join->wish.is_mld][part][table_place(&it->table, join) / GROUPS_OF_SOCKET] - 1;
}

/* Returns the socket of a part of a group, which is opened if it is missing, or -1 with `errno`. */
static int socket_of(struct joins *it, const struct join *join, size_t part) {
    int file = file_of(it, join, part);
    if (file >= 0)
        return file;
    file = socket(join->wish.is_mld ? AF_INET6 : AF_INET, SOCK_DGRAM | SOCK_CLOEXEC, 0);
    if (file >= 0)
        holder_add(HELD_MEMBERSHIP, file);
    it->sockets[join->wish.is_mld][part][table_place(&it->table, join) / GROUPS_OF_SOCKET] = file + 1;
    return file;
}

/* Joins a group in a part: for its first source, or for all. Returns 0, or an error of <errno.h>. */
static int enter(int file, const struct join *join, const struct filter *list) {
    struct sockaddr_storage group = place_of(join->wish.is_mld, join->wish.group);
    struct group_req whole = {.gr_interface = (uint32_t)join->index, .gr_group = group};
    struct group_source_req one = {.gsr_interface = (uint32_t)join->index, .gsr_group = group};
    int done;
    if (list->mode == MODE_EXCLUDE) {
        done = setsockopt(file, level_of(join), MCAST_JOIN_GROUP, &whole, sizeof whole);
    } else {
        one.gsr_source = place_of(join->wish.is_mld, list->sources[0]);
        done = setsockopt(file, level_of(join), MCAST_JOIN_SOURCE_GROUP, &one, sizeof one);
    }
    return done < 0 ? errno : 0;
}

/* Leaves a group in the parts from `first` to before `end`, if it is there. */
static void leave(struct joins *it, const struct join *join, size_t first, size_t end) {
    struct group_req group = {.gr_interface = (uint32_t)join->index, .gr_group = place_of(join->wish.is_mld, join->wish.group)};
    for (size_t part = first; part < end; part++)
        setsockopt(file_of(it, join, part), level_of(join), MCAST_LEAVE_GROUP, &group, sizeof group);
}

/* A list of sources as the kernel has it. */
union list {
    struct group_filter head;
    uint8_t bytes[GROUP_FILTER_SIZE(PAGE_SOURCES)];
};

static int by_bytes(const void *one, const void *other) {
    return memcmp(one, other, LONG_ADDRESS);
}

/* Sets the list of a part in which the group is. Returns 0, or an error of <errno.h>. */
static int set_list(int file, const struct join *join, const struct filter *list) {
    static union list it;
    memset(&it.head, 0, sizeof it.head);
    it.head.gf_interface = (uint32_t)join->index;
    it.head.gf_group = place_of(join->wish.is_mld, join->wish.group);
    it.head.gf_fmode = list->mode == MODE_EXCLUDE ? MCAST_EXCLUDE : MCAST_INCLUDE;
    it.head.gf_numsrc = (uint32_t)list->count;
    for (size_t at = 0; at < list->count; at++) {
        struct sockaddr_storage source = place_of(join->wish.is_mld, list->sources[at]);
        memcpy(it.bytes + GROUP_FILTER_SIZE(at), &source, sizeof source);
    }
    socklen_t length = (socklen_t)GROUP_FILTER_SIZE(list->count);
    return setsockopt(file, level_of(join), MCAST_MSFILTER, &it, length) < 0 ? errno : 0;
}

/* Adds the list that a part has now to a merged filter. */
static void add_part(const struct joins *it, const struct join *join, size_t part, struct merged *merged) {
    static uint8_t sources[PAGE_SOURCES][LONG_ADDRESS];
    static union list list;
    socklen_t length = sizeof list;
    list.head.gf_interface = (uint32_t)join->index;
    list.head.gf_group = place_of(join->wish.is_mld, join->wish.group);
    list.head.gf_numsrc = PAGE_SOURCES;
    if (getsockopt(file_of(it, join, part), level_of(join), MCAST_MSFILTER, &list, &length) < 0
        || list.head.gf_numsrc > PAGE_SOURCES)
        return;
    struct filter filter = {list.head.gf_fmode == MCAST_EXCLUDE ? MODE_EXCLUDE : MODE_INCLUDE, list.head.gf_numsrc, sources};
    memset(sources, 0, filter.count * sizeof *sources);
    for (size_t at = 0; at < filter.count; at++) {
        const struct sockaddr_storage *source = (const void *)(list.bytes + GROUP_FILTER_SIZE(at));
        if (join->wish.is_mld)
            memcpy(sources[at], &((const struct sockaddr_in6 *)source)->sin6_addr, 16);
        else
            memcpy(sources[at], &((const struct sockaddr_in *)source)->sin_addr, 4);
    }
    qsort(sources, filter.count, sizeof *sources, by_bytes);
    merge_add(merged, &filter);
}

void joins_add(const struct joins *it, const struct join *join, struct merged *merged) {
    for (size_t part = 0; part < join->parts; part++)
        add_part(it, join, part, merged);
}

/* Makes a part have its list. Returns 0, or an error of <errno.h>. */
static int set_part(struct joins *it, const struct join *join, size_t part, const struct filter *list) {
    int file = socket_of(it, join, part);
    bool is_in = part < join->parts, is_short = list->count == (list->mode == MODE_INCLUDE);
    int error = file < 0 ? errno : is_in ? 0 : enter(file, join, list);
    if (error == 0 && !(is_short && !is_in))
        error = set_list(file, join, list);
    return error;
}

/* Returns the part of a filter for one socket. */
static struct filter part_of(const struct filter *filter, size_t part, size_t most) {
    size_t first = part * most, left = filter->count - first;
    return (struct filter){filter->mode, left < most ? left : most, filter->sources + first};
}

/* Makes a group have a filter, in as many sockets as its list needs. Sources that move between sockets are added before they are
   removed: from the last part on if the list grows. Returns 0, or an error of <errno.h>. */
static int set_parts(struct joins *it, struct join *join, const struct filter *filter) {
    size_t most = it->most_sources[join->wish.is_mld];
    size_t parts = filter->mode == MODE_INCLUDE ? (filter->count + most - 1) / most : 1;
    bool grows = filter->count > join->count || parts > join->parts;
    if (parts > PARTS)
        return ENOBUFS;
    for (size_t at = 0; at < parts; at++) {
        size_t part = grows ? parts - 1 - at : at;
        struct filter list = part_of(filter, part, most);
        int error = set_part(it, join, part, &list);
        if (error != 0) {
            leave(it, join, join->parts, parts); /* it may have entered these */
            return error;
        }
    }
    leave(it, join, parts, join->parts);
    join->parts = parts;
    return 0;
}

static void leave_all(struct joins *it, struct join *join) {
    leave(it, join, 0, join->parts);
    join->parts = 0;
}

/* Returns a sum over a filter (FNV-1a), which begins at a number that no host knows. */
static uint64_t sum_of(const struct joins *it, const struct filter *filter) {
    const uint8_t *bytes = (const uint8_t *)filter->sources;
    uint64_t sum = it->secret ^ (uint64_t)filter->mode;
    for (size_t at = 0; at < filter->count * LONG_ADDRESS; at++)
        sum = (sum ^ bytes[at]) * 0x100000001b3;
    return sum;
}

/* Asks for all sources, because the kernel does not allow a list. Returns 0, or an error of <errno.h>. */
static int set_wider(struct joins *it, struct join *join) {
    static const uint8_t none[1][LONG_ADDRESS];
    const struct filter all = {MODE_EXCLUDE, 0, none};
    int error = set_parts(it, join, &all);
    if (error != 0) { /* part of a filter may be there */
        leave_all(it, join);
        error = set_parts(it, join, &all);
    }
    if (error == 0)
        fault(FAULT_WIDER, "upstream", "a group has more sources than the kernel allows: all are asked for");
    return error;
}

void joins_set(struct joins *it, const struct wish *wish, int index, const struct filter *filter) {
    struct join *join = joins_find(it, wish);
    uint64_t sum = sum_of(it, filter);
    if (filter->mode == MODE_NONE) {
        if (join != NULL) {
            leave_all(it, join);
            table_remove(&it->table, join);
        }
        return;
    }
    if (join != NULL && join->index == index && join->sum == sum && join->count == filter->count && !join->is_failed)
        return;
    if (join == NULL && (join = table_put(&it->table, wish)) == NULL) {
        fault(FAULT_JOINS, "upstream", "there are more groups than memory for them");
        return;
    }
    if (join->index != index)
        leave_all(it, join);
    join->index = index;
    int error = index == 0 ? 0 : set_parts(it, join, filter);
    if (filter->count > 0 && (error == ENOBUFS || error == ENOMEM || error == EINVAL))
        error = set_wider(it, join);
    if (error != 0)
        fault(FAULT_JOINS, "upstream", strerror(error));
    join->is_failed = error != 0;
    join->sum = sum;
    join->mode = filter->mode;
    join->count = filter->count;
}

#define _GNU_SOURCE
#include "tunings.h"

#include <arpa/inet.h>
#include <stdlib.h>
#include <string.h>

/* The Last Member Query Interval of a port with fast leave, in milliseconds: the least that a query of IGMP can have. And its Last
   Member Query Count. */
enum { FAST_LEAVE = 100, FAST_LEAVE_QUERIES = 1, GREATEST_VLAN = 4094 };
/* The rules of ranges by the kind of option, and the bits of an address by the family. */
static const uint8_t RULES[] = {[TUNED_ALLOW] = MQ_ALLOW, [TUNED_DENY] = MQ_DENY};
static const unsigned BITS[2] = {32, 128};
/* The groups of link scope, 224.0.0.0/24 and ff02::/16, which hosts may ask for unless a range denies them: IPv6 needs them for
   Neighbor Discovery. Their range is the last one of a port with --allow. */
static const uint8_t LINK_SCOPE[2][LONG_ADDRESS] = {{224, 0, 0, 0}, {0xff, 0x02}};
static const uint8_t LINK_SCOPE_BITS[2] = {24, 16};
enum { GREATEST_RANGES = MQ_RANGES - 1 };

/* Reads a number from 1 on, and moves `*at` after it. */
static bool read_number(const char **at, uint32_t most, uint32_t *number) {
    char *end;
    unsigned long long read = strtoull(*at, &end, 10);
    bool is_read = **at >= '0' && **at <= '9' && read >= 1 && read <= most;
    *at = end;
    *number = (uint32_t)read;
    return is_read;
}

/* Reads PORT[:VLAN], and moves `*at` after it. */
static const char *read_port(struct tuning *tuning, const char **at) {
    size_t length = strcspn(*at, ":=");
    uint32_t vlan = 0;
    if (length == 0 || length >= sizeof tuning->port)
        return "a port is needed";
    memcpy(tuning->port, *at, length);
    *at += length;
    if (**at == ':') {
        ++*at;
        if (!read_number(at, GREATEST_VLAN, &vlan))
            return "a VLAN is from 1 to 4094";
    }
    tuning->vlan = (uint16_t)vlan;
    return NULL;
}

/* Reads GROUPS[,SOURCES]. */
static const char *read_limit(struct tuning *tuning, const char *at) {
    bool is_read = read_number(&at, UINT16_MAX, &tuning->groups);
    if (is_read && *at == ',') {
        at++;
        is_read = read_number(&at, UINT16_MAX, &tuning->sources);
    }
    return is_read && *at == '\0' ? NULL : "a limit is GROUPS or GROUPS,SOURCES, each from 1 to 65535";
}

/* Returns whether an address is a group that is forwarded beyond its link, and has entries. */
static bool is_group(bool is_mld, const uint8_t *group) {
    if (is_mld)
        return group[0] == 0xff && (group[1] & 15) > 1;
    return group[0] >= 224 && group[0] < 240 && (group[0] != 224 || group[1] != 0 || group[2] != 0);
}

/* Reads GROUP[,SOURCE]. */
static const char *read_static(struct tuning *tuning, const char *at) {
    char group[INET6_ADDRSTRLEN] = "";
    size_t length = strcspn(at, ",");
    if (length < sizeof group)
        memcpy(group, at, length);
    tuning->is_mld = strchr(group, ':') != NULL;
    int family = tuning->is_mld ? AF_INET6 : AF_INET;
    if (inet_pton(family, group, tuning->group) != 1 || !is_group(tuning->is_mld, tuning->group))
        return "no group that can have an entry";
    tuning->has_source = at[length] == ',';
    if (tuning->has_source && inet_pton(family, at + length + 1, tuning->source) != 1)
        return "the source is not an address of the family";
    return NULL;
}

static bool is_range(enum tuned kind) {
    return kind == TUNED_ALLOW || kind == TUNED_DENY;
}

/* Reads PREFIX/LENGTH. */
static const char *read_range(struct tuning *tuning, const char *at) {
    char prefix[INET6_ADDRSTRLEN] = "";
    size_t length = strcspn(at, "/");
    uint32_t bits = 0;
    if (length < sizeof prefix)
        memcpy(prefix, at, length);
    tuning->is_mld = strchr(prefix, ':') != NULL;
    if (inet_pton(tuning->is_mld ? AF_INET6 : AF_INET, prefix, tuning->group) != 1 || at[length] != '/')
        return "a range is PREFIX/LENGTH, like 239.1.0.0/16";
    at += length + 1;
    if (strcmp(at, "0") != 0 && (!read_number(&at, BITS[tuning->is_mld], &bits) || *at != '\0'))
        return "the length of a range is 0 to 32, for MLD to 128";
    tuning->length = (uint8_t)bits;
    return NULL;
}

static bool is_its(const struct tuning *it, enum tuned kind, const struct tuned_port *port) {
    return it->kind == kind && (it->vlan == 0 || it->vlan == port->vlan)
           && (*it->port == '\0' || strcmp(it->port, port->name) == 0);
}

/* Returns whether a port has the most ranges. */
static bool is_full(const struct tuned_port *port, bool is_mld) {
    size_t count = 0;
    for (size_t at = 0; at < port->tunings->count; at++) {
        const struct tuning *it = &port->tunings->all[at];
        count += is_range(it->kind) && it->is_mld == is_mld && is_its(it, it->kind, port);
    }
    return count >= GREATEST_RANGES;
}

/* Returns whether one of the ports that get a range, in a VLAN, has the most ranges. */
static bool is_one_full(const struct tunings *tunings, const struct tuning *range) {
    struct tuned_port port = {.tunings = tunings, .name = range->port, .vlan = range->vlan};
    bool is_one = is_full(&port, range->is_mld);
    for (size_t at = 0; at < tunings->count && !is_one; at++) {
        port.name = tunings->all[at].port, port.vlan = tunings->all[at].vlan;
        is_one = is_its(range, range->kind, &port) && is_full(&port, range->is_mld);
    }
    return is_one;
}

/* Reads a range, for all ports or for one. */
static const char *read_rule(struct tunings *tunings, struct tuning *tuning, const char *text) {
    const char *at = text, *why = NULL;
    if (strchr(text, '=') != NULL)
        why = read_port(tuning, &at);
    if (why != NULL || (*tuning->port != '\0' && *at++ != '='))
        return why != NULL ? why : "PORT= or PORT:VLAN= is needed";
    why = read_range(tuning, at);
    return why == NULL && is_one_full(tunings, tuning) ? "more than 15 ranges of a port" : why;
}

/* Reads the option of a port. */
static const char *read_of_port(struct tuning *tuning, const char *text) {
    enum tuned kind = tuning->kind;
    const char *at = text, *why = read_port(tuning, &at);
    if (why != NULL)
        return why;
    if (kind == TUNED_FAST_LEAVE ? *at != '\0' : *at++ != '=')
        return kind == TUNED_FAST_LEAVE ? "a port is needed, and nothing else" : "PORT= or PORT:VLAN= is needed";
    return kind == TUNED_FAST_LEAVE ? NULL : (kind == TUNED_LIMIT ? read_limit : read_static)(tuning, at);
}

const char *tunings_read(struct tunings *tunings, enum tuned kind, const char *text) {
    struct tuning tuning = {.kind = kind};
    const char *why = is_range(kind) ? read_rule(tunings, &tuning, text) : read_of_port(&tuning, text);
    if (why == NULL && tunings->count == GREATEST_TUNINGS)
        why = "more than 1024 options of ports";
    if (why == NULL)
        tunings->all[tunings->count++] = tuning;
    return why;
}

bool tunings_exceed(const struct tunings *tunings, const mq_config *configuration) {
    for (size_t at = 0; at < tunings->count; at++) {
        const struct tuning *it = &tunings->all[at];
        if (it->kind == TUNED_LIMIT && (it->groups > configuration->groups || it->sources > configuration->sources))
            return true;
    }
    return false;
}

/* Puts the ranges of a port into its configuration, in their order, and after an --allow the groups of link scope. */
static void configure_ranges(const struct tuned_port *port, mq_config *configuration) {
    bool is_mld = configuration->is_mld, allows = false;
    size_t count = 0, width = is_mld ? 16 : 4;
    for (size_t at = 0; at < port->tunings->count && count < GREATEST_RANGES; at++) {
        const struct tuning *it = &port->tunings->all[at];
        if (!is_range(it->kind) || !is_its(it, it->kind, port) || it->is_mld != is_mld)
            continue;
        mq_put_range(&configuration->ranges[count++], it->group, width, it->length, RULES[it->kind]);
        allows = allows || it->kind == TUNED_ALLOW;
    }
    if (allows)
        mq_put_range(&configuration->ranges[count], LINK_SCOPE[is_mld], width, LINK_SCOPE_BITS[is_mld], MQ_ALLOW);
}

void tunings_configure(const struct tuned_port *port, mq_config *configuration) {
    configure_ranges(port, configuration);
    for (size_t at = 0; at < port->tunings->count; at++) { /* the last one counts */
        const struct tuning *it = &port->tunings->all[at];
        if (!is_its(it, TUNED_LIMIT, port))
            continue;
        configuration->groups = it->groups;
        if (it->sources != 0)
            configuration->sources = it->sources;
    }
    if (!tunings_leave_fast(port))
        return;
    configuration->last_member_query_count = FAST_LEAVE_QUERIES;
    if (configuration->last_member_interval > FAST_LEAVE)
        configuration->last_member_interval = FAST_LEAVE;
}

bool tunings_leave_fast(const struct tuned_port *port) {
    for (size_t at = 0; at < port->tunings->count; at++)
        if (is_its(&port->tunings->all[at], TUNED_FAST_LEAVE, port))
            return true;
    return false;
}

static int by_address(const void *one, const void *other) {
    return memcmp(one, other, LONG_ADDRESS);
}

struct filter tunings_static(const struct tuned_port *port, bool is_mld, const uint8_t *group) {
    static uint8_t sources[PAGE_SOURCES][LONG_ADDRESS];
    struct filter filter = {MODE_NONE, 0, (const uint8_t(*)[LONG_ADDRESS])sources};
    size_t count = 0;
    for (size_t at = 0; at < port->tunings->count; at++) {
        const struct tuning *it = &port->tunings->all[at];
        if (!is_its(it, TUNED_STATIC, port) || it->is_mld != is_mld || memcmp(it->group, group, LONG_ADDRESS) != 0)
            continue;
        if (!it->has_source)
            return (struct filter){MODE_EXCLUDE, 0, filter.sources};
        memcpy(sources[count++], it->source, LONG_ADDRESS);
    }
    qsort(sources, count, LONG_ADDRESS, by_address);
    for (size_t at = 0; at < count; at++) /* each source once */
        if (filter.count == 0 || memcmp(sources[filter.count - 1], sources[at], LONG_ADDRESS) != 0)
            memmove(sources[filter.count++], sources[at], LONG_ADDRESS);
    filter.mode = filter.count > 0 ? MODE_INCLUDE : MODE_NONE;
    return filter;
}

const uint8_t *tunings_next_static(const struct tuned_port *port, bool is_mld, size_t *at) {
    while (port->tunings != NULL && *at < port->tunings->count) {
        const struct tuning *it = &port->tunings->all[(*at)++];
        if (is_its(it, TUNED_STATIC, port) && it->is_mld == is_mld)
            return it->group;
    }
    return NULL;
}

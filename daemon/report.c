#include "report.h"

#include "faults.h"
#include "routed.h"
#include "text.h"

#include <inttypes.h>
#include <stdlib.h>
#include <string.h>

static const char *const family_names[2] = {"igmp", "mld"};

/* The counters of a link, by name. */
enum { COUNTERS = 8 };
static const char *const counter_names[COUNTERS] = {"received", "dropped", "applied", "ignored",
                                                    "refused",  "sent",    "unsent",  "denied"};

static void counters_of(const mq_link *link, uint64_t counters[COUNTERS]) {
    mq_counts counts;
    mq_link_counts(link, &counts, sizeof counts);
    const uint64_t found[COUNTERS] = {counts.received, counts.dropped, counts.applied, counts.ignored,
                                      counts.refused,  counts.sent,    counts.unsent,  counts.denied};
    memcpy(counters, found, sizeof found);
}

static const char *address_text(const mq_link *link, const uint8_t *address) {
    static char text[LONGEST_ADDRESS + 1];
    *link_put_address(link, text, address) = '\0';
    return text;
}

/* Returns the milliseconds until a deadline. */
static uint64_t left(uint64_t deadline, uint64_t now) {
    return deadline > now ? deadline - now : 0;
}

/* Calls `each` for each group of a link, and returns how many there are. */
static size_t walk_groups(const struct served *served,
                          void (*each)(const struct served *, const mq_group *, size_t, uint64_t, FILE *), uint64_t now, FILE *to) {
    mq_group groups[PAGE_GROUPS];
    size_t first = 0;
    for (size_t count = 1; count > 0; first += count) {
        count = link_groups(&served->link, first, groups);
        for (size_t at = 0; at < count; at++)
            each(served, &groups[at], first + at, now, to);
    }
    return first;
}

/* Orders ports by their VLANs, and then by their interfaces. */
static int by_vlan(const void *one, const void *other) {
    const struct port *it = *(const struct port *const *)one, *its = *(const struct port *const *)other;
    return it->vlan->id != its->vlan->id ? it->vlan->id - its->vlan->id : it->index - its->index;
}

static bool has_link(const struct querier *querier, const struct port *port, const struct bridge *bridge) {
    return port->index != 0 && (bridge == NULL || port->bridge == bridge) && querier->room > 0;
}

/* The kind of what the status is of, and its name: that of a router is its first interface upstream. */
static const char *kind_of(const struct bridge *bridge) {
    return bridge == NULL ? "router" : "bridge";
}

static const char *name_of(const struct querier *querier, const struct bridge *bridge) {
    return bridge == NULL ? querier->options->upstream.names[0] : bridge->name;
}

/* Prints who is querier on a link. */
static void text_role(const mq_link *link, uint64_t now, FILE *to) {
    uint8_t address[LONG_ADDRESS] = {0};
    uint64_t until = mq_link_other_querier(link, address);
    if (mq_link_is_querier(link) || until == MQ_NONE)
        fputs("querier", to);
    else
        fprintf(to, "other querier %s for %" PRIu64 " ms", address_text(link, address), left(until, now));
}

static void text_group(const struct served *served, const mq_group *group, size_t number, uint64_t now, FILE *to) {
    const mq_link *link = &served->link;
    const struct reported *reported = reported_find(&served->reported, group->address);
    (void)number;
    fprintf(to, "    %s", address_text(link, group->address));
    if (group->deadline == MQ_NONE)
        fputs(" include", to);
    else
        fprintf(to, " exclude %" PRIu64 " ms", left(group->deadline, now));
    for (size_t at = 0; at < group->count; at++) {
        bool is_stopped = group->sources[at].deadline == MQ_NONE;
        fprintf(to, " %s%s", is_stopped ? "!" : "", address_text(link, group->sources[at].address));
        if (!is_stopped)
            fprintf(to, "=%" PRIu64, left(group->sources[at].deadline, now));
    }
    if (group->v1 != MQ_NONE)
        fprintf(to, " v1 %" PRIu64 " ms", left(group->v1, now));
    if (group->v2 != MQ_NONE)
        fprintf(to, " v2 %" PRIu64 " ms", left(group->v2, now));
    if (reported != NULL)
        fprintf(to, ", held %" PRIu64 " ms, last reporter %s", now - reported->since, address_text(link, reported->reporter));
    putc('\n', to);
}

static void text_link(const struct port *port, bool is_mld, uint64_t now, FILE *to) {
    const struct served *served = &port->served[is_mld];
    uint64_t counters[COUNTERS];
    fprintf(to, "  %s ", family_names[is_mld]);
    if (!served->is_on) {
        fputs("waits for an address\n", to);
        return;
    }
    text_role(&served->link, now, to);
    fprintf(to, ", own %s, entries %zu, ", address_text(&served->link, served->own), served->keeper.rows.count);
    if (served->keeper.gathers != MQ_NONE)
        fprintf(to, "gathers for %" PRIu64 " ms, ", left(served->keeper.gathers, now));
    counters_of(&served->link, counters);
    for (int at = 0; at < COUNTERS; at++)
        fprintf(to, "%s %" PRIu64 "%s", counter_names[at], counters[at], at + 1 < COUNTERS ? " " : "\n");
    walk_groups(served, text_group, now, to);
}

static void text_timing(const struct querier *querier, FILE *to) {
    const mq_config *it = querier->options->configuration; /* both families have the same timing */
    fprintf(to,
            "robustness %" PRIu32 ", query interval %" PRIu32 " s, response interval %" PRIu32 " ms, last member interval %" PRIu32
            " ms\n",
            it->robustness, it->query_interval, it->response_interval, it->last_member_interval);
}

/* The ports of a bridge, or of the router's bridges if that is NULL: in the order of their places, and with VLANs in the order of VLANs.
   Returns how many there are. */
static const struct port **ports_of(const struct querier *querier, const struct bridge *bridge, size_t *count) {
    static const struct port *found[GREATEST_PORTS + GREATEST_LINKS];
    *count = 0;
    for (size_t at = 0; at < querier->room; at++)
        if (has_link(querier, querier->ports + at, bridge))
            found[(*count)++] = querier->ports + at;
    if (bridge != NULL && bridge->filters)
        qsort(found, *count, sizeof *found, by_vlan);
    return found;
}

static struct tuned_port tuned(const struct querier *querier, const struct port *port) {
    return (struct tuned_port){&querier->options->tunings, port->name, port->vlan->id};
}

/* Prints a port's own options: fast leave, limits of IGMP and MLD, and static groups. */
static void text_tuned(const struct querier *querier, const struct port *port, FILE *to) {
    const struct tuned_port its = tuned(querier, port);
    const mq_config *all = &querier->families[!querier->options->serves[false]].configuration;
    mq_config configuration = *all;
    char text[LONGEST_ADDRESS + 1];
    const uint8_t *group;
    tunings_configure(&its, &configuration);
    if (tunings_leave_fast(&its))
        fputs(", fast leave", to);
    if (configuration.groups != all->groups || configuration.sources != all->sources)
        fprintf(to, ", limit %" PRIu32 " groups, %" PRIu32 " sources", configuration.groups, configuration.sources);
    for (int family = 0; family < 2; family++)
        for (size_t at = 0; (group = tunings_next_static(&its, family == 1, &at)) != NULL;) {
            *(family == 1 ? put_ipv6_address : put_ipv4_address)(text, group) = '\0';
            fprintf(to, ", static %s", text);
        }
}

static void text_port(const struct querier *querier, const struct port *port, uint64_t now, FILE *to) {
    fprintf(to, "port %s%s", port->name, port->is_blocked ? ", blocked" : port->is_up ? "" : ", down");
    if (port->vlan->id != 0)
        fprintf(to, ", %s%s", port->is_tagged ? "tagged" : "untagged", port->is_pvid ? ", PVID" : "");
    if (options_is_router(querier->options, port->name))
        fputs(", a router's by --router-port", to);
    text_tuned(querier, port, to);
    if (port->hello_until > now)
        fprintf(to, ", a router of PIM for %" PRIu64 " ms", port->hello_until - now);
    putc('\n', to);
    for (int family = 0; family < 2; family++)
        if (querier->options->serves[family])
            text_link(port, family == 1, now, to);
}

static void report_text(const struct querier *querier, const struct bridge *bridge, uint64_t now, FILE *to) {
    size_t count;
    uint16_t vlan = 0;
    const struct port **ports = ports_of(querier, bridge, &count);
    fprintf(to, "%s %s, %" PRIu64 " ms since the start\n", kind_of(bridge), name_of(querier, bridge), now);
    text_timing(querier, to);
    fprintf(to, "datagrams %" PRIu64 ", queries %" PRIu64 "\n", querier->heard, querier->sent);
    for (int at = 0; at < FAULT_KINDS; at++)
        fprintf(to, "%s %" PRIu64 "%s", fault_names[at], fault_counts[at], at + 1 < FAULT_KINDS ? ", " : "\n");
    for (size_t at = 0; at < count; at++) {
        if (ports[at]->vlan->id != vlan)
            fprintf(to, "vlan %u\n", (unsigned)ports[at]->vlan->id);
        vlan = ports[at]->vlan->id;
        text_port(querier, ports[at], now, to);
    }
    if (bridge == NULL)
        routed_text(querier, to);
}

static void json_moment(const char *name, uint64_t deadline, uint64_t now, FILE *to) {
    if (deadline != MQ_NONE)
        fprintf(to, ",\"%s\":%" PRIu64, name, left(deadline, now));
}

static void json_group(const struct served *served, const mq_group *group, size_t number, uint64_t now, FILE *to) {
    const mq_link *link = &served->link;
    const struct reported *reported = reported_find(&served->reported, group->address);
    fprintf(to, "%s\n{\"group\":\"%s\",\"mode\":\"%s\"", number > 0 ? "," : "", address_text(link, group->address),
            group->deadline == MQ_NONE ? "include" : "exclude");
    json_moment("left", group->deadline, now, to);
    json_moment("v1", group->v1, now, to);
    json_moment("v2", group->v2, now, to);
    if (reported != NULL)
        fprintf(to, ",\"held\":%" PRIu64 ",\"last_reporter\":\"%s\"", now - reported->since,
                address_text(link, reported->reporter));
    fputs(",\"sources\":[", to);
    for (size_t at = 0; at < group->count; at++) {
        fprintf(to, "%s{\"source\":\"%s\"", at > 0 ? "," : "", address_text(link, group->sources[at].address));
        json_moment("left", group->sources[at].deadline, now, to);
        putc('}', to);
    }
    fputs("]}", to);
}

static void json_link(const struct port *port, bool is_mld, uint64_t now, FILE *to) {
    const struct served *served = &port->served[is_mld];
    uint8_t address[LONG_ADDRESS] = {0};
    uint64_t counters[COUNTERS];
    fprintf(to, "\"%s\":{\"on\":%s", family_names[is_mld], served->is_on ? "true" : "false");
    if (served->is_on) {
        uint64_t other = mq_link_other_querier(&served->link, address);
        const char *is_querier = mq_link_is_querier(&served->link) ? "true" : "false";
        fprintf(to, ",\"own\":\"%s\",\"querier\":%s,\"entries\":%zu", address_text(&served->link, served->own), is_querier,
                served->keeper.rows.count);
        json_moment("gathers", served->keeper.gathers, now, to);
        json_moment("other_left", other, now, to);
        if (other != MQ_NONE)
            fprintf(to, ",\"other\":\"%s\"", address_text(&served->link, address));
        counters_of(&served->link, counters);
        for (int at = 0; at < COUNTERS; at++)
            fprintf(to, ",\"%s\":%" PRIu64, counter_names[at], counters[at]);
        fputs(",\"groups\":[", to);
        walk_groups(served, json_group, now, to);
        putc(']', to);
    }
    putc('}', to);
}

static void json_port(const struct querier *querier, const struct port *port, bool is_first, uint64_t now, FILE *to) {
    fprintf(to, "%s\n{\"port\":\"%s\",\"up\":%s,\"blocked\":%s,\"router_port\":%s", is_first ? "" : ",", port->name,
            port->is_up ? "true" : "false", port->is_blocked ? "true" : "false",
            options_is_router(querier->options, port->name) ? "true" : "false");
    if (port->vlan->id != 0)
        fprintf(to, ",\"vlan\":%u,\"tagged\":%s,\"pvid\":%s", (unsigned)port->vlan->id, port->is_tagged ? "true" : "false",
                port->is_pvid ? "true" : "false");
    const struct tuned_port its = tuned(querier, port);
    if (tunings_leave_fast(&its))
        fputs(",\"fast_leave\":true", to);
    json_moment("pim_left", port->hello_until > now ? port->hello_until : MQ_NONE, now, to);
    for (int family = 0; family < 2; family++) {
        if (!querier->options->serves[family])
            continue;
        putc(',', to);
        json_link(port, family == 1, now, to);
    }
    putc('}', to);
}

static void report_json(const struct querier *querier, const struct bridge *bridge, uint64_t now, FILE *to) {
    const mq_config *it = querier->options->configuration;
    size_t count;
    const struct port **ports = ports_of(querier, bridge, &count);
    fprintf(to,
            "{\"%s\":\"%s\",\"now\":%" PRIu64 ",\"robustness\":%" PRIu32 ",\"query_interval\":%" PRIu32
            ",\"response_interval\":%" PRIu32 ",\"last_member_interval\":%" PRIu32 ",\"datagrams\":%" PRIu64 ",\"queries\":%" PRIu64
            ",\"faults\":{",
            kind_of(bridge), name_of(querier, bridge), now, it->robustness, it->query_interval, it->response_interval,
            it->last_member_interval, querier->heard, querier->sent);
    for (int at = 0; at < FAULT_KINDS; at++)
        fprintf(to, "%s\"%s\":%" PRIu64, at > 0 ? "," : "", fault_names[at], fault_counts[at]);
    fputs("},\"ports\":[", to);
    for (size_t at = 0; at < count; at++)
        json_port(querier, ports[at], at == 0, now, to);
    putc(']', to);
    if (bridge == NULL)
        routed_json(querier, to);
    fputs("}\n", to);
}

static void count_group(const struct served *served, const mq_group *group, size_t number, uint64_t now, FILE *to) {
    (void)served, (void)group, (void)number, (void)now, (void)to;
}

/* The gauges of a link, after its counters. */
enum { GROUPS = COUNTERS, ENTRIES, IS_QUERIER, METRICS };

static uint64_t metric_of(const struct served *served, int which, FILE *to) {
    uint64_t counters[COUNTERS];
    switch (which) {
    case GROUPS: return walk_groups(served, count_group, 0, to);
    case ENTRIES: return served->keeper.rows.count;
    case IS_QUERIER: return mq_link_is_querier(&served->link);
    default: counters_of(&served->link, counters); return counters[which];
    }
}

/* Writes one metric of each link. */
static void metric(const struct querier *querier, const struct bridge *bridge, int which, FILE *to) {
    static const char *const gauges[] = {"groups", "entries", "is_querier"};
    size_t count;
    const char *name = which < COUNTERS ? counter_names[which] : gauges[which - COUNTERS], *end = which < COUNTERS ? "_total" : "";
    fprintf(to, "# TYPE mquerier_%s%s %s\n", name, end, which < COUNTERS ? "counter" : "gauge");
    const struct port **ports = ports_of(querier, bridge, &count);
    for (size_t at = 0; at < 2 * count; at++) {
        const struct port *port = ports[at / 2];
        const struct served *served = &port->served[at % 2];
        char vlan[24] = "";
        if (!served->is_on)
            continue;
        if (port->vlan->id != 0)
            snprintf(vlan, sizeof vlan, ",vlan=\"%u\"", (unsigned)port->vlan->id);
        fprintf(to, "mquerier_%s%s{%s=\"%s\",port=\"%s\"%s,family=\"%s\"} %" PRIu64 "\n", name, end, kind_of(bridge),
                name_of(querier, bridge), port->name, vlan, family_names[at % 2], metric_of(served, which, to));
    }
}

static void report_metrics(const struct querier *querier, const struct bridge *bridge, FILE *to) {
    for (int at = 0; at < FAULT_KINDS && bridge == querier->bridges; at++) /* they are of all bridges together */
        fprintf(to, "# TYPE mquerier_%s_total counter\nmquerier_%s_total %" PRIu64 "\n", fault_names[at], fault_names[at],
                fault_counts[at]);
    for (int which = 0; which < METRICS; which++)
        metric(querier, bridge, which, to);
    if (bridge == NULL)
        routed_metrics(querier, to);
}

void report(const struct querier *querier, const struct bridge *bridge, char form, uint64_t now, FILE *to) {
    if (form == 'j')
        report_json(querier, bridge, now, to);
    else if (form == 'm')
        report_metrics(querier, bridge, to);
    else
        report_text(querier, bridge, now, to);
}

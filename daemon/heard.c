#include "heard.h"

#include "faults.h"
#include "hello.h"
#include "text.h"

#include <inttypes.h>
#include <stdio.h>

enum { IGMP_QUERY = 0x11, MLD_QUERY = 130, OLDER_IGMP = 8, OLDER_MLD = 24, LINE = 160, SECOND = 1000 };
static const char *const families[2] = {"IGMP", "MLD"};

/* Counts refused records. Prints a line at the first refusal by each limit of a port. */
static void tell_refused(const struct port *port, struct served *served, uint32_t refused) {
    static const char *const limits[] = {
        [MQ_REFUSED_LONG] = "--group-sources", [MQ_REFUSED_REPEATED] = "four records for a group in a message",
        [MQ_REFUSED_GROUPS] = "--groups",      [MQ_REFUSED_GROUP_SOURCES] = "--group-sources",
        [MQ_REFUSED_SOURCES] = "--sources",    [MQ_REFUSED_SCHEDULED] = "--scheduled"};
    mq_counts counts;
    char why[LINE];
    fault_counts[FAULT_LIMITS] += refused;
    mq_link_counts(&served->link, &counts, sizeof counts);
    for (unsigned at = 0; at < sizeof limits / sizeof *limits; at++) {
        if (counts.refused_by[at] == 0 || (served->told & 1u << at))
            continue;
        served->told |= (uint8_t)(1u << at);
        snprintf(why, sizeof why, "a record of %s exceeds %s and is refused; more are only counted", families[served->link.is_mld],
                 limits[at]);
        tell(port->label, why);
    }
}

/* RFC 3376 section 7.1, RFC 3810 section 8.1. */
unsigned heard_version(bool is_mld, const struct datagram *it) {
    if (it->length < (is_mld ? OLDER_MLD : OLDER_IGMP) || it->body[0] != (is_mld ? MLD_QUERY : IGMP_QUERY))
        return 0;
    if (is_mld)
        return it->length == OLDER_MLD ? 1 : 2;
    return it->length > OLDER_IGMP ? 3 : it->body[1] == 0 ? 1 : 2;
}

/* Prints another querier that takes over, and a query of an older version (RFC 3376 section 7.3.1, RFC 3810 section 8.3.1). */
static void tell_querier(const struct port *port, bool is_mld, const struct datagram *datagram, bool was_querier) {
    const mq_link *link = &port->served[is_mld].link;
    unsigned version = heard_version(is_mld, datagram);
    char why[LINE], address[LONGEST_ADDRESS + 1];
    bool is_older = version != 0 && version < (is_mld ? 2 : 3), takes_over = was_querier && !mq_link_is_querier(link);
    if (!is_older && !takes_over)
        return;
    *link_put_address(link, address, datagram->envelope.source) = '\0';
    snprintf(why, sizeof why, "%s sends queries of %sv%u%s", address, families[is_mld], version,
             is_older ? ", an older version: give all routers there the same" : ", and is querier there now");
    fault(FAULT_ROUTERS, port->label, why);
}

void heard_hello(const struct querier *querier, struct port *port, const struct datagram *hello, uint64_t now) {
    bool is_served = querier->options->is_interface || port->keeps_router || options_is_router(querier->options, port->name);
    if (port->hello_until <= now && !is_served)
        fault(FAULT_ROUTERS, port->label,
              "a router of PIM is there: it gets Reports and all groups with --router-port and --report");
    port->hello_until = now + SECOND * (uint64_t)hello_seconds(hello);
}

void heard_tell(struct port *port, bool is_mld, const struct datagram *datagram, mq_answer answer, bool was_querier) {
    if (answer.refused > 0)
        tell_refused(port, &port->served[is_mld], answer.refused);
    if (answer.dropped == 0 || answer.dropped == MQ_DROPPED_IGMPV1_QUERY)
        tell_querier(port, is_mld, datagram, was_querier);
}

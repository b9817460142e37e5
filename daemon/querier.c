#define _GNU_SOURCE
#include "querier.h"

#include "faults.h"
#include "heard.h"
#include "hello.h"
#include "route.h"
#include "text.h"
#include "upstream.h"

#include <arpa/inet.h>
#include <errno.h>
#include <inttypes.h>
#include <linux/if_ether.h>
#include <stdio.h>
#include <stdlib.h>
#include <string.h>
#include <sys/socket.h>
#include <time.h>

/* FRAMES is the most frames that one call handles, so that other duties are done in time. TAG is the length of a VLAN tag. */
enum { TAG = 4, FRAMES = 1024, SECOND = 1000, LONGEST_QUERY = 65535 };
/* The milliseconds by which responses to the last startup query may be late. */
enum { LATE = 500 };

uint64_t moment(void) {
    static struct timespec start;
    struct timespec now;
    clock_gettime(CLOCK_BOOTTIME, &now);
    if (start.tv_sec == 0 && start.tv_nsec == 0)
        start = now;
    int64_t seconds = now.tv_sec - start.tv_sec, nanoseconds = now.tv_nsec - start.tv_nsec;
    return (uint64_t)((seconds * 1000000000 + nanoseconds) / 1000000);
}

/* Returns the configuration of a family, with the own address of the options if there is one. */
static mq_config configured(const struct options *options, bool is_mld) {
    mq_config configuration = options->configuration[is_mld];
    if (options->has_own[is_mld])
        memcpy(configuration.own, options->own[is_mld], sizeof configuration.own);
    return configuration;
}

const char *querier_fault(const struct options *options) {
    for (int at = 0; at < 2; at++) {
        uint32_t status = options->serves[at] ? mq_config_status(configured(options, at == 1)) : MQ_DONE;
        if (status != MQ_DONE)
            return mq_status_text(status);
    }
    return NULL;
}

void querier_open(struct querier *querier, struct options *options) {
    size_t groups = 0;
    const char *why = querier_fault(options);
    if (why != NULL)
        fail(STATUS_USAGE, "configuration", why);
    *querier = (struct querier){.options = options, .room = options->ports + options->links, .vlans_room = options->links};
    for (int at = 0; at < 2; at++) {
        if (!options->serves[at])
            continue;
        family_open(&querier->families[at], configured(options, at == 1));
        if (groups < querier->families[at].configuration.groups)
            groups = querier->families[at].configuration.groups;
    }
    querier->changed = take(2 * groups, LONG_ADDRESS); /* all groups may end in one call, and as many begin */
    querier->ports = take(querier->room, sizeof *querier->ports);
    querier->by_index = take(querier->room, sizeof *querier->by_index);
    querier->untagged = take(querier->room, sizeof *querier->untagged);
    querier->vlans = take(querier->vlans_room, sizeof *querier->vlans);
    deadlines_open(&querier->deadlines, 2 * querier->room + DEADLINES_BESIDE);
    for (size_t at = 0; at < querier->room; at++) {
        querier->ports[at].served[0].keeper.gathers = querier->ports[at].served[1].keeper.gathers = MQ_NONE;
        if (at < options->ports && !querier_equip(querier, querier->ports + at))
            fail(STATUS_FAILED, "memory for --ports, --groups and --sources", strerror(errno));
    }
    upstream_open(querier);
}

bool querier_equip(struct querier *querier, struct port *port) {
    for (int at = 0; at < 2; at++) {
        const struct family *family = &querier->families[at];
        struct served *served = &port->served[at];
        if (!querier->options->serves[at])
            continue;
        if (served->memory == NULL)
            served->memory = grab(family->link_size, 1);
        if (served->memory == NULL || !keeper_open(&served->keeper, family->configuration.groups))
            return false;
        if (!querier->options->is_interface && !reported_open(&served->reported, family->configuration.groups))
            return false;
    }
    return true;
}

/* Returns the number of the first port that is not before an index and a VLAN. */
static size_t first_of(const struct by_index *all, size_t count, int index, uint16_t vlan) {
    size_t first = 0, last = count;
    while (first < last) {
        size_t middle = first + (last - first) / 2;
        if (all[middle].index < index || (all[middle].index == index && all[middle].vlan < vlan))
            first = middle + 1;
        else
            last = middle;
    }
    return first;
}

struct port *querier_port(const struct querier *querier, int index, uint16_t vlan) {
    size_t at = first_of(querier->by_index, querier->ports_count, index, vlan);
    bool is_there = at < querier->ports_count && querier->by_index[at].index == index && querier->by_index[at].vlan == vlan;
    return is_there ? querier->by_index[at].port : NULL;
}

size_t querier_first(const struct querier *querier, int index) {
    size_t at = first_of(querier->by_index, querier->ports_count, index, 0);
    return at < querier->ports_count && querier->by_index[at].index == index ? at : querier->ports_count;
}

bool querier_filters(const struct querier *querier) {
    for (size_t at = 0; at < querier->bridges_count; at++)
        if (querier->bridges[at].filters)
            return true;
    return false;
}

bool querier_place(const struct querier *querier, const struct port *port, bool is_mld, struct place *place) {
    *place = (struct place){querier->netlink, port->bridge->index, port->index, port->vlan->id, is_mld};
    if (port->bridge->is_port) {
        place->bridge = querier->kept_bridge;
        place->port = querier->kept_port;
    }
    return place->bridge != 0 && place->port != 0;
}

void querier_remove_entries(struct querier *querier, const struct bridge *bridge) {
    struct place place;
    for (size_t at = 0; at < 2 * querier->room; at++) {
        const struct port *port = querier->ports + at / 2;
        bool is_its = port->index != 0 && port->bridge == bridge && querier->options->serves[at % 2];
        if (is_its && querier_place(querier, port, at % 2, &place))
            mdb_remove_all(&place);
    }
}

void querier_hand_over(struct querier *querier, const struct bridge *bridge, bool is_mld, bool with_sources) {
    struct place place;
    for (size_t at = 0; at < querier->room; at++) {
        struct port *port = querier->ports + at;
        struct served *served = &port->served[is_mld];
        bool is_its = port->index != 0 && port->bridge == bridge && querier->options->serves[is_mld];
        if (is_its && querier_place(querier, port, is_mld, &place))
            keeper_hand_over(&served->keeper, served->is_on ? &served->link : NULL, &place, with_sources);
    }
}

/* Copies a frame, with a tag after its addresses (IEEE 802.1Q). Returns its length. */
static size_t put_tag(const struct port *port, const uint8_t *frame, size_t length, uint8_t *to) {
    const uint16_t tag[2] = {htons(port->bridge->protocol), htons(port->vlan->id)};
    memcpy(to, frame, 2 * MAC);
    memcpy(to + 2 * MAC, tag, sizeof tag);
    memcpy(to + 2 * MAC + sizeof tag, frame + 2 * MAC, length - 2 * MAC);
    return length + sizeof tag;
}

void querier_send(struct querier *querier, const struct port *port, bool is_mld, const uint8_t *frame, size_t length) {
    static uint8_t tagged[GREATEST_FRAME + TAG];
    struct sockaddr_ll at = {.sll_family = AF_PACKET,
                             .sll_protocol = htons(is_mld ? ETH_P_IPV6 : ETH_P_IP),
                             .sll_ifindex = port->index,
                             .sll_halen = MAC};
    memcpy(at.sll_addr, frame, MAC);
    if (port->is_tagged) {
        length = put_tag(port, frame, length, tagged);
        at.sll_protocol = htons(port->bridge->protocol);
        frame = tagged;
    }
    if (sendto(querier->ring.packets, frame, length, MSG_DONTWAIT, (struct sockaddr *)&at, sizeof at) < 0)
        fault(FAULT_UNSENT, port->label, strerror(errno));
    else
        querier->sent++;
}

/* Sends a query at a port. */
static void send_query(struct querier *querier, const struct port *port, bool is_mld, const mq_query *query, uint64_t now) {
    static uint8_t frame[GREATEST_FRAME];
    static char line[2 * LONGEST_QUERY + 128];
    const struct bridge *bridge = port->bridge;
    if (querier->options->is_interface) {
        char *to = put_text(put_number(line, now), " send ");
        to = link_put_address(&port->served[is_mld].link, to, query->destination);
        *to++ = ' ';
        to = put_hexadecimal(to, query->message, query->length);
        *to++ = '\n';
        fwrite(line, 1, (size_t)(to - line), stdout);
    }
    if (!port->is_up || upstream_is(querier, port))
        return;
    size_t length =
        write_frame(is_mld, bridge->mac, port->vlan->own.address[is_mld], query->destination, query->message, query->length, frame);
    querier_send(querier, port, is_mld, frame, length);
}

static void print_address(const mq_link *link, const char *before, const uint8_t *address) {
    char text[LONGEST_ADDRESS];
    fputs(before, stdout);
    fwrite(text, 1, (size_t)(link_put_address(link, text, address) - text), stdout);
}

/* Prints `T change G none`, `T change G include S ..` or `T change G exclude !S ..`. For bridges the port follows T. */
static void print_change(const struct querier *querier, const struct port *port, const mq_link *link, const uint8_t *group,
                         struct filter filter, uint64_t now) {
    static const char *const modes[] = {[MODE_NONE] = " none", [MODE_INCLUDE] = " include", [MODE_EXCLUDE] = " exclude"};
    printf("%" PRIu64, now);
    if (!querier->options->is_interface)
        printf(" %s", port->label);
    print_address(link, " change ", group);
    fputs(modes[filter.mode], stdout);
    for (size_t at = 0; at < filter.count; at++)
        print_address(link, filter.mode == MODE_EXCLUDE ? " !" : " ", filter.sources[at]);
    putchar('\n');
}

/* Prints for each group of a link that nothing is forwarded any longer. The link ends or begins again. */
static void print_ends(const struct querier *querier, const struct port *port, const struct served *served, uint64_t now) {
    mq_group groups[PAGE_GROUPS];
    if (!querier->options->prints_changes || !served->is_on)
        return;
    for (size_t first = 0, count = 1; count > 0; first += count) {
        count = link_groups(&served->link, first, groups);
        for (size_t at = 0; at < count; at++)
            print_change(querier, port, &served->link, groups[at].address, (struct filter){MODE_NONE, 0, NULL}, now);
    }
}

/* Sets the next deadline of a link. */
static void set_deadline(struct querier *querier, const struct port *port, bool is_mld) {
    const struct served *served = &port->served[is_mld];
    uint64_t next = served->is_on ? mq_link_next_deadline(&served->link) : MQ_NONE;
    if (served->is_on && served->keeper.gathers < next)
        next = served->keeper.gathers;
    deadlines_set(&querier->deadlines, 2 * (size_t)(port - querier->ports) + is_mld, next);
}

/* Returns the port as the options of single ports name it. */
static struct tuned_port tuned(const struct querier *querier, const struct port *port) {
    return (struct tuned_port){&querier->options->tunings, port->name, port->vlan->id};
}

/* Returns the configuration of a port's link: that of its interface, or that of all. */
static const mq_config *configuration_of(const struct querier *querier, const struct port *port, bool is_mld) {
    const struct bridge *bridge = port->bridge;
    return bridge->is_configured[is_mld] ? &bridge->configuration[is_mld] : &querier->families[is_mld].configuration;
}

/* Returns the milliseconds after which a link knows what hosts want. They have answered a startup query then, even if all but the
   last were lost (RFC 3376 sections 8.6 and 8.7, RFC 3810 sections 9.6 and 9.7). */
static uint64_t gathering(const mq_config *it) {
    uint64_t interval = SECOND * (uint64_t)it->query_interval / 4;
    return (it->robustness - 1) * interval + it->response_interval + LATE;
}

/* Sends the queries that a call on a link wrote. */
static void send_queries(struct querier *querier, struct port *port, bool is_mld, mq_answer answer, uint64_t now) {
    struct served *served = &port->served[is_mld];
    mq_query query;
    for (size_t at = 0; mq_link_next_query(&served->link, answer, &at, &query);)
        send_query(querier, port, is_mld, &query, now);
    if (answer.sent > 0 && served->is_first) /* much may have delayed the first query since the link began */
        served->keeper.gathers = now + gathering(configuration_of(querier, port, is_mld));
    served->is_first &= answer.sent == 0;
}

/* Prints the filters that the last call on a link changed, and corrects their entries. */
static void follow(struct querier *querier, struct port *port, bool is_mld, uint64_t now) {
    struct served *served = &port->served[is_mld];
    struct place place;
    bool keeps = querier_place(querier, port, is_mld, &place), prints = querier->options->prints_changes;
    size_t count = keeps || prints || querier->route != NULL ? link_changed(&served->link, querier->changed) : 0;
    for (size_t at = 0; at < count; at++) {
        reported_follow(&served->reported, &served->link, querier->changed[at], now);
        if (prints)
            print_change(querier, port, &served->link, querier->changed[at], filter_of(&served->link, querier->changed[at]), now);
        if (keeps)
            keeper_update(&served->keeper, &served->link, &place, querier->changed[at]);
        upstream_note(querier, port, is_mld, querier->changed[at], now);
    }
    if (querier->route != NULL)
        route_follow(querier, port, is_mld, count, now);
    set_deadline(querier, port, is_mld);
}

uint64_t querier_gathering(const struct querier *querier) {
    uint64_t longest = 0;
    for (int at = 0; at < 2; at++)
        if (querier->options->serves[at] && gathering(&querier->families[at].configuration) > longest)
            longest = gathering(&querier->families[at].configuration);
    return longest;
}

/* Returns the configuration of a port's link, with the options of the port and its own address. */
static mq_config configured_at(const struct querier *querier, const struct port *port, bool is_mld) {
    const struct tuned_port it = tuned(querier, port);
    mq_config configuration = *configuration_of(querier, port, is_mld);
    tunings_configure(&it, &configuration);
    memcpy(configuration.own, port->vlan->own.address[is_mld], sizeof configuration.own);
    return configuration;
}

/* Makes a link in its memory, which is for the limits of all links. Those of its port are lower, and may grow while it runs. */
static uint32_t make_link(struct family *family, struct served *served, mq_config configuration, uint64_t now) {
    mq_config greatest = configuration;
    greatest.groups = family->configuration.groups;
    greatest.sources = family->configuration.sources;
    uint32_t status = mq_link_init(greatest, now, served->memory, family->link_size, &family->workspace, &served->link);
    return status == MQ_DONE ? mq_link_configure(&served->link, configuration) : status;
}

void querier_configure(struct querier *querier, struct port *port, bool is_mld) {
    struct served *served = &port->served[is_mld];
    const mq_config configuration = configured_at(querier, port, is_mld);
    uint32_t status = mq_link_configure(&served->link, configuration);
    if (status == MQ_DONE)
        memcpy(served->own, configuration.own, sizeof served->own);
    else
        fault(FAULT_MISSING, port->label, mq_status_text(status));
    set_deadline(querier, port, is_mld);
}

void querier_begin(struct querier *querier, struct port *port, bool is_mld, uint64_t now) {
    struct served *served = &port->served[is_mld];
    const mq_config configuration = configured_at(querier, port, is_mld);
    served->keeper.tuned = tuned(querier, port);
    print_ends(querier, port, served, now);
    if (querier->route != NULL && served->is_on)
        route_inherit(querier, port, is_mld);
    uint32_t status = make_link(&querier->families[is_mld], served, configuration, now);
    served->is_on = served->is_first = status == MQ_DONE;
    served->reported.count = 0;
    memcpy(served->own, port->vlan->own.address[is_mld], sizeof served->own);
    if (!served->is_on)
        fault(FAULT_MISSING, port->bridge->name, mq_status_text(status));
    keeper_begin(&served->keeper, now + gathering(&configuration), querier->options->sets_up);
    size_t first = 0;
    querier->is_stale |= tunings_next_static(&served->keeper.tuned, is_mld, &first) != NULL; /* a repair makes its static entries */
    set_deadline(querier, port, is_mld);
}

void querier_begin_all(struct querier *querier, bool is_mld, uint64_t now) {
    for (size_t at = 0; at < querier->room; at++)
        if (querier->ports[at].served[is_mld].is_on)
            querier_begin(querier, querier->ports + at, is_mld, now);
}

void querier_forget(struct querier *querier, struct port *port) {
    struct place place;
    for (int at = 0; at < 2; at++) {
        print_ends(querier, port, &port->served[at], moment());
        port->served[at].is_on = false;
        port->served[at].told = 0;
        port->served[at].reported.count = 0;
        if (port->served[at].keeper.rows.count > 0) {
            querier_place(querier, port, at == 1, &place);
            keeper_forget(&port->served[at].keeper, &place);
        }
        set_deadline(querier, port, at == 1);
    }
    if (querier->route != NULL)
        route_forget(querier);
    upstream_note_all(querier, port->bridge, moment());
}

/* Prints the result of a datagram. */
static void print_answer(const struct querier *querier, const mq_link *link, const struct datagram *datagram, mq_answer answer,
                         uint64_t now) {
    char line[256], *to = put_number(put_text(put_number(line, now), " receive "), querier->heard);
    *to++ = ' ';
    to = link_put_address(link, to, datagram->envelope.source);
    if (answer.dropped != 0) {
        to = put_number(put_text(to, " dropped "), answer.dropped);
    } else {
        to = put_number(put_text(to, " taken "), answer.applied);
        *to++ = ' ';
        to = put_number(to, answer.ignored);
        *to++ = ' ';
        to = put_number(to, answer.refused);
    }
    *to++ = '\n';
    fwrite(line, 1, (size_t)(to - line), stdout);
}

/* Handles one frame that came in at a port. */
static void hear(struct querier *querier, struct port *port, const struct frame *frame, uint64_t now) {
    struct datagram datagram;
    enum carried carried = read_frame(frame->bytes, frame->length, &datagram);
    if (is_hello(&datagram))
        heard_hello(querier, port, &datagram, now);
    else if (carried == CARRIED_NOTHING && !querier->options->is_interface)
        fault(FAULT_MALFORMED, port->label, "a frame without a whole message");
    if (carried == CARRIED_FRAGMENT && !querier->options->is_interface)
        fault(FAULT_FRAGMENTS, port->label, "a fragment of a message, which is not put together");
    bool is_mld = carried == CARRIED_DATAGRAM && datagram.is_ipv6;
    if (carried != CARRIED_DATAGRAM || !port->served[is_mld].is_on)
        return;
    bool was_querier = mq_link_is_querier(&port->served[is_mld].link);
    mq_answer answer = mq_link_receive(&port->served[is_mld].link, &datagram.envelope, datagram.body, datagram.length, now);
    send_queries(querier, port, is_mld, answer, now);
    heard_tell(port, is_mld, &datagram, answer, was_querier);
    if (answer.dropped == 0)
        upstream_hear(querier, port, is_mld, &datagram, now);
    querier->heard++;
    if (querier->options->is_interface)
        print_answer(querier, &port->served[is_mld].link, &datagram, answer, now);
    follow(querier, port, is_mld, now);
    if (answer.applied > 0)
        reported_hear(&port->served[is_mld].reported, &datagram);
}

/* Returns the port that a frame came in at, or NULL. At a bridge that filters VLANs, a frame without a tag or with VLAN 0 is in the
   port's own VLAN. A tag of the other protocol is none for the bridge. */
static struct port *port_of(const struct querier *querier, const struct frame *frame) {
    if (frame->vlan == 0) {
        size_t at = first_of(querier->untagged, querier->untagged_count, frame->index, 0);
        bool is_there = at < querier->untagged_count && querier->untagged[at].index == frame->index;
        return is_there ? querier->untagged[at].port : NULL;
    }
    struct port *port = querier_port(querier, frame->index, frame->vlan);
    return port != NULL && port->bridge->protocol == frame->protocol ? port : NULL;
}

void querier_hear(struct querier *querier, uint64_t now) {
    struct frame frame;
    for (int count = 0; count < FRAMES && ring_next(&querier->ring, &frame); count++) {
        struct port *port = port_of(querier, &frame);
        if (port != NULL && !port->is_blocked)
            hear(querier, port, &frame, now);
    }
}

uint64_t querier_interval(const struct querier *querier) {
    return SECOND * (uint64_t)querier->options->configuration[false].query_interval;
}

void querier_watch_clock(struct querier *querier, uint64_t now) {
    char why[80];
    uint64_t due = querier->deadlines.moments[deadlines_first(&querier->deadlines)];
    if (now < due || now - due < querier_interval(querier))
        return;
    snprintf(why, sizeof why, "%" PRIu64 " ms passed unseen: each link begins anew", now - due);
    fault(FAULT_CLOCK, "clock", why);
    querier_begin_all(querier, false, now);
    querier_begin_all(querier, true, now);
}

/* Runs a tick of a link, and ends inheritance if that is due. */
static void tick(struct querier *querier, struct port *port, bool is_mld, uint64_t now) {
    struct served *served = &port->served[is_mld];
    struct place place;
    send_queries(querier, port, is_mld, mq_link_tick(&served->link, now), now);
    follow(querier, port, is_mld, now);
    if (served->keeper.gathers <= now && querier_place(querier, port, is_mld, &place)) {
        keeper_gathered(&served->keeper, &served->link, &place);
        upstream_note_all(querier, port->bridge, now);
    } else if (served->keeper.gathers <= now) {
        served->keeper.gathers = MQ_NONE;
    }
    set_deadline(querier, port, is_mld);
}

void querier_tick_all(struct querier *querier, uint64_t now) {
    for (size_t at = 0; at < 2 * querier->room; at++)
        if (querier->ports[at / 2].served[at % 2].is_on)
            tick(querier, querier->ports + at / 2, at % 2, now);
}

/* Counts the frames that the kernel dropped since the last call. */
static void count_lost(struct querier *querier) {
    char why[80];
    unsigned lost = ring_lost(&querier->ring);
    if (lost == 0)
        return;
    snprintf(why, sizeof why, "the kernel dropped %u frames, since they came too fast", lost);
    fault_count(FAULT_LOST, lost, "frames", why);
}

void querier_tick(struct querier *querier, uint64_t now) {
    struct deadlines *deadlines = &querier->deadlines;
    for (size_t first; deadlines->moments[first = deadlines_first(deadlines)] <= now;) {
        if (first < 2 * querier->room) {
            tick(querier, querier->ports + first / 2, first % 2, now);
        } else if (first == 2 * querier->room + DEADLINE_ROUTE) {
            route_tick(querier, now);
        } else if (first == 2 * querier->room + DEADLINE_REPAIR) {
            querier->is_stale = true;
            deadlines_set(deadlines, first, MQ_NONE); /* the repair sets the next one */
        } else if (first == 2 * querier->room + DEADLINE_REPORTS) {
            upstream_tick(querier, now);
        } else {
            count_lost(querier);
            deadlines_set(deadlines, first, now + SECOND);
        }
    }
}

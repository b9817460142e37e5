#define _GNU_SOURCE
#include "upstream.h"

#include "faults.h"
#include "heard.h"
#include "records.h"

#include <stdlib.h>
#include <string.h>
#include <unistd.h>

/* Changes within SOON milliseconds share a message. A change is sent again within AGAIN, the Unsolicited Report Interval (RFC 3376
   section 8.11, RFC 3810 section 9.11). A port of a router has room for GROUPS_OF times the groups of one link. */
enum { SOON = 10, AGAIN = 1000, GROUPS_OF = 4, SECOND = 1000 };

/* A reported group. */
struct told {
    uint8_t group[LONG_ADDRESS];
    uint64_t sum;                    /* identifies the filter that was reported last */
    uint64_t change_due, answer_due; /* MQ_NONE if nothing is due */
    unsigned left;                   /* how often the change is still sent */
};

/* The reported groups of a family at a port of a router. */
struct upstream {
    struct told *all; /* in ascending order */
    size_t count, room;
    uint64_t next, answer_due; /* the earliest time at which something is due; when all groups are reported */
    uint64_t older_until[2];   /* when queries of version 1, or 2, are over */
};

static struct upstream *upstreams; /* two for each place of a port, or NULL */

void upstream_open(struct querier *querier) {
    if (!querier->options->reports)
        return;
    srandom((unsigned)getpid());
    upstreams = take(2 * querier->room, sizeof *upstreams);
    for (size_t at = 0; at < 2 * querier->room; at++) {
        size_t room = querier->options->serves[at % 2] ? GROUPS_OF * querier->families[at % 2].configuration.groups : 0;
        upstreams[at] = (struct upstream){.room = room, .next = MQ_NONE, .answer_due = MQ_NONE};
        if (at < 2 * querier->options->ports)
            upstreams[at].all = take(room, sizeof(struct told));
    }
}

bool upstream_is(const struct querier *querier, const struct port *port) {
    return upstreams != NULL && options_is_router(querier->options, port->name);
}

static struct upstream *upstream_of(const struct querier *querier, const struct port *port, bool is_mld) {
    return upstreams + 2 * (size_t)(port - querier->ports) + is_mld;
}

static struct told *place_of(const struct upstream *it, const uint8_t *group) {
    return it->all + rows_place(it->all, sizeof *it->all, it->count, group);
}

static struct told *find(const struct upstream *it, const uint8_t *group) {
    struct told *told = place_of(it, group);
    return told < it->all + it->count && memcmp(told->group, group, LONG_ADDRESS) == 0 ? told : NULL;
}

/* Returns what the ports of a bridge, or of its VLAN, other than this one want of a group. Its sources stand until the next call. */
static struct filter merged(const struct querier *querier, const struct port *at, bool is_mld, const uint8_t *group) {
    static uint8_t sources[RECORD_SOURCES][LONG_ADDRESS];
    struct filter all = {MODE_NONE, 0, (const uint8_t(*)[LONG_ADDRESS])sources};
    for (size_t number = 0; number < querier->ports_count; number++) {
        const struct port *port = querier->by_index[number].port;
        struct place place;
        if (port == at || port->vlan != at->vlan || !querier_place(querier, port, is_mld, &place))
            continue;
        const struct served *served = &port->served[is_mld];
        struct filter one = keeper_filter(&served->keeper, served->is_on ? &served->link : NULL, &place, group);
        one = filter_join(&all, &one);
        if (one.count > RECORD_SOURCES)
            return filter_of_all;
        memcpy(sources, one.sources, one.count * LONG_ADDRESS);
        all.mode = one.mode;
        all.count = one.count;
    }
    return all;
}

/* Returns a number that differs for different filters, but for rare chances. */
static uint64_t sum_of(const struct filter *filter) {
    uint64_t sum = 14695981039346656037u + filter->mode;
    for (size_t at = 0; at < filter->count * LONG_ADDRESS; at++)
        sum = (sum ^ filter->sources[at / LONG_ADDRESS][at % LONG_ADDRESS]) * 1099511628211u;
    return sum;
}

/* Returns whether a group is never forwarded beyond its link. */
static bool stays_here(bool is_mld, const uint8_t *group) {
    return is_mld ? (group[1] & 15) <= 2 : group[0] == 224 && group[1] == 0 && group[2] == 0;
}

static uint64_t earlier(uint64_t one, uint64_t other) {
    return one < other ? one : other;
}

/* Has a port of a router served at a moment at the latest. */
static void wake(struct querier *querier, struct upstream *it, uint64_t moment) {
    size_t entry = 2 * querier->room + DEADLINE_REPORTS;
    it->next = earlier(it->next, moment);
    deadlines_set(&querier->deadlines, entry, earlier(querier->deadlines.moments[entry], moment));
}

/* Makes a changed filter of a group due at one port of a router. */
static void compare(struct querier *querier, const struct port *at, bool is_mld, const uint8_t *group, uint64_t now) {
    struct upstream *it = upstream_of(querier, at, is_mld);
    struct told *told = find(it, group);
    struct filter filter = merged(querier, at, is_mld, group);
    uint64_t sum = sum_of(&filter);
    if (told == NULL ? filter.mode == MODE_NONE || stays_here(is_mld, group) : told->sum == sum)
        return;
    if (it->all == NULL) /* a port in a VLAN */
        it->all = grab(it->room, sizeof(struct told));
    if (told == NULL && (it->count == it->room || it->all == NULL)) {
        fault(FAULT_LIMITS, at->label, "more groups than --report has room for, four times --groups");
        return;
    }
    if (told == NULL) {
        told = place_of(it, group);
        memmove(told + 1, told, (size_t)(it->all + it->count++ - told) * sizeof *told);
        *told = (struct told){.answer_due = MQ_NONE};
        memcpy(told->group, group, LONG_ADDRESS);
    }
    told->sum = sum;
    told->left = querier->options->configuration[0].robustness;
    told->change_due = now + SOON;
    wake(querier, it, told->change_due);
}

void upstream_note(struct querier *querier, const struct port *from, bool is_mld, const uint8_t *group, uint64_t now) {
    for (size_t at = 0; upstreams != NULL && at < querier->ports_count; at++) {
        const struct port *port = querier->by_index[at].port;
        if (port != from && port->vlan == from->vlan && upstream_is(querier, port))
            compare(querier, port, is_mld, group, now);
    }
}

void upstream_note_all(struct querier *querier, const struct bridge *bridge, uint64_t now) {
    for (size_t at = 0; upstreams != NULL && at < 2 * querier->ports_count; at++) {
        const struct port *port = querier->by_index[at / 2].port;
        struct upstream *it = upstream_of(querier, port, at % 2);
        for (size_t row = 0; port->bridge == bridge && upstream_is(querier, port) && row < it->count; row++)
            compare(querier, port, at % 2, it->all[row].group, now);
    }
}

void upstream_hear(struct querier *querier, const struct port *port, bool is_mld, const struct datagram *query, uint64_t now) {
    static const uint8_t all[LONG_ADDRESS];
    unsigned version = upstream_is(querier, port) ? heard_version(is_mld, query) : 0, newest = is_mld ? 2 : 3;
    if (version == 0)
        return;
    struct upstream *it = upstream_of(querier, port, is_mld);
    const mq_config *timing = &querier->options->configuration[0];
    uint64_t within = records_response_time(is_mld, version, query), due = now + (uint64_t)random() % (within + 1);
    uint8_t group[LONG_ADDRESS] = {0};
    memcpy(group, query->body + (is_mld ? 8 : 4), is_mld ? 16 : 4);
    if (version < newest) /* the Older Version Querier Present Timeout (RFC 3376 section 8.12, RFC 3810 section 9.12) */
        it->older_until[version - 1] = now + (uint64_t)timing->robustness * timing->query_interval * SECOND + within;
    struct told *told = find(it, group);
    if (memcmp(group, all, sizeof all) == 0)
        it->answer_due = earlier(it->answer_due, due);
    else if (told != NULL)
        told->answer_due = earlier(told->answer_due, due);
    wake(querier, it, due);
}

struct sending {
    struct querier *querier;
    const struct port *port;
};

static void send_frame(void *context, const uint8_t *frame, size_t length) {
    const struct sending *sending = context;
    querier_send(sending->querier, sending->port, frame[12] == 0x86, frame, length);
}

/* Adds what is due of a group to the messages. Returns whether the group is to be forgotten. */
static bool report_group(const struct querier *querier, const struct port *port, struct told *told, bool answers, uint64_t now,
                         struct records *changes, struct records *answers_to) {
    bool is_changed = told->change_due <= now, is_asked = answers || told->answer_due <= now;
    if (!is_changed && !is_asked)
        return false;
    struct filter filter = merged(querier, port, changes->is_mld, told->group);
    if (is_changed) {
        records_add(changes, told->group, &filter);
        told->change_due = --told->left > 0 ? now + 1 + (uint64_t)random() % AGAIN : MQ_NONE;
    } else if (filter.mode != MODE_NONE) {
        records_add(answers_to, told->group, &filter);
    }
    if (is_asked)
        told->answer_due = MQ_NONE;
    return filter.mode == MODE_NONE && told->left == 0;
}

/* Sends what is due of a family at a port of a router. */
static void report_port(struct querier *querier, const struct port *port, bool is_mld, struct upstream *it, uint64_t now) {
    static struct records changes, answers;
    struct sending sending = {querier, port};
    unsigned newest = is_mld ? 2 : 3, version = it->older_until[0] > now ? 1 : !is_mld && it->older_until[1] > now ? 2 : newest;
    changes = (struct records){.is_mld = is_mld, .is_change = true, .version = version, .mac = port->bridge->mac};
    changes.own = port->vlan->own.address[is_mld];
    changes.send = send_frame;
    changes.context = &sending;
    answers = changes;
    answers.is_change = false;
    bool is_asked = it->answer_due <= now;
    if (is_asked)
        it->answer_due = MQ_NONE;
    it->next = it->answer_due;
    for (size_t left = it->count; left > 0; left--) {
        struct told *told = it->all + left - 1;
        if (report_group(querier, port, told, is_asked, now, &changes, &answers))
            memmove(told, told + 1, (size_t)(it->all + it->count-- - told - 1) * sizeof *told);
        else
            it->next = earlier(it->next, earlier(told->change_due, told->answer_due));
    }
    records_send(&changes);
    records_send(&answers);
}

void upstream_tick(struct querier *querier, uint64_t now) {
    uint64_t next = MQ_NONE;
    for (size_t at = 0; upstreams != NULL && at < 2 * querier->ports_count; at++) {
        const struct port *port = querier->by_index[at / 2].port;
        struct upstream *it = upstream_of(querier, port, at % 2);
        if (!upstream_is(querier, port))
            continue;
        if (it->next <= now && port->vlan->own.has[at % 2])
            report_port(querier, port, at % 2, it, now);
        next = earlier(next, it->next > now ? it->next : now + SECOND);
    }
    deadlines_set(&querier->deadlines, 2 * querier->room + DEADLINE_REPORTS, next);
}

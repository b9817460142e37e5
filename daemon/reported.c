#include "reported.h"

#include "faults.h"
#include "rows.h"

#include <string.h>

/* Messages by which a host asks for groups, and the types of their records (RFC 3376 section 4.2.12, RFC 3810 section 5.2.12). */
enum { IGMP_V1_REPORT = 0x12, IGMP_V2_REPORT = 0x16, IGMP_REPORT = 0x22, MLD_V1_REPORT = 131, MLD_REPORT = 143 };
enum { IS_IN = 1, IS_EX, TO_IN, TO_EX, ALLOW };
/* The bytes before records, and those of a record before its group. */
enum { REPORT_HEAD = 8, RECORD_HEAD = 4 };
/* In one call all groups may end, and as many begin. */
enum { ROWS_FOR_A_GROUP = 2 };

bool reported_open(struct reported_groups *it, size_t groups) {
    size_t room = ROWS_FOR_A_GROUP * groups;
    if (it->all == NULL)
        *it = (struct reported_groups){grab(room, sizeof *it->all), 0, room};
    return it->all != NULL;
}

static struct reported *find(const struct reported_groups *it, const uint8_t *group) {
    size_t at = rows_place(it->all, sizeof *it->all, it->count, group);
    return at < it->count && memcmp(it->all[at].group, group, LONG_ADDRESS) == 0 ? it->all + at : NULL;
}

const struct reported *reported_find(const struct reported_groups *it, const uint8_t *group) {
    return find(it, group);
}

void reported_follow(struct reported_groups *it, const mq_link *link, const uint8_t *group, uint64_t now) {
    struct reported *row = find(it, group);
    mq_group found;
    bool is_held = link_group_at(link, group, &found);
    if (is_held && row == NULL && it->count < it->room) {
        row = it->all + rows_place(it->all, sizeof *it->all, it->count, group);
        memmove(row + 1, row, (size_t)(it->all + it->count++ - row) * sizeof *row);
        *row = (struct reported){.since = now};
        memcpy(row->group, group, LONG_ADDRESS);
    } else if (!is_held && row != NULL) {
        memmove(row, row + 1, (size_t)(it->all + --it->count - row) * sizeof *row);
    }
}

/* Notes the source of a datagram at one group. */
static void note(struct reported_groups *it, const struct datagram *datagram, const uint8_t *address, size_t width) {
    uint8_t group[LONG_ADDRESS];
    mq_put_address(group, address, width);
    struct reported *row = find(it, group);
    if (row != NULL)
        memcpy(row->reporter, datagram->envelope.source, LONG_ADDRESS);
}

/* Returns whether a record asks for its group: the others only leave. */
static bool asks(unsigned type, size_t sources) {
    return type == IS_EX || type == TO_EX || (sources > 0 && (type == IS_IN || type == TO_IN || type == ALLOW));
}

static size_t word_at(const uint8_t *at) {
    return (size_t)at[0] << 8 | at[1];
}

/* Notes each record of a Report. */
static void note_records(struct reported_groups *it, const struct datagram *datagram, size_t width) {
    if (datagram->length < REPORT_HEAD)
        return;
    const uint8_t *at = datagram->body + REPORT_HEAD, *end = datagram->body + datagram->length;
    for (size_t left = word_at(at - 2); left > 0 && (size_t)(end - at) >= RECORD_HEAD + width; left--) {
        size_t sources = word_at(at + 2), length = RECORD_HEAD + width * (1 + sources) + 4 * (size_t)at[1];
        if (asks(at[0], sources))
            note(it, datagram, at + RECORD_HEAD, width);
        if ((size_t)(end - at) < length)
            return;
        at += length;
    }
}

void reported_hear(struct reported_groups *it, const struct datagram *datagram) {
    size_t width = datagram->is_ipv6 ? 16 : 4, at = datagram->is_ipv6 ? 8 : 4; /* the place of an older Report's group */
    unsigned type = datagram->length == 0 ? 0 : datagram->body[0];
    bool is_older = datagram->is_ipv6 ? type == MLD_V1_REPORT : type == IGMP_V1_REPORT || type == IGMP_V2_REPORT;
    if (type == (datagram->is_ipv6 ? MLD_REPORT : IGMP_REPORT))
        note_records(it, datagram, width);
    else if (is_older && datagram->length >= at + width)
        note(it, datagram, datagram->body + at, width);
}

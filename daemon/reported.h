/* Since when a link holds its groups, and who reported them last (mgmdRouterCacheUpTime and mgmdRouterCacheLastReporter of RFC 5519). */
#ifndef REPORTED_H
#define REPORTED_H

#include "frames.h"
#include "link.h"

#include <stdbool.h>
#include <stddef.h>
#include <stdint.h>

struct reported {
    uint8_t group[LONG_ADDRESS];
    uint8_t reporter[LONG_ADDRESS]; /* the source of the last Report that asked for the group */
    uint64_t since;
};

/* The groups of a link: a table of fixed size, in ascending order. */
struct reported_groups {
    struct reported *all;
    size_t count, room;
};

/* Allocates the table for a link with at most `groups` groups, unless it is allocated. Returns false if that fails. */
bool reported_open(struct reported_groups *it, size_t groups);
/* Adds or removes a group that the last call on a link changed. */
void reported_follow(struct reported_groups *it, const mq_link *link, const uint8_t *group, uint64_t now);
/* Notes the source of a datagram at the groups that it asks for. */
void reported_hear(struct reported_groups *it, const struct datagram *datagram);
/* Returns the row of a group, or NULL. */
const struct reported *reported_find(const struct reported_groups *it, const uint8_t *group);

#endif

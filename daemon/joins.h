/* Memberships upstream: the kernel's host side joins, on upstream interfaces, what the links downstream want. */
#ifndef JOINS_H
#define JOINS_H

#include "merge.h"
#include "table.h"

/* The key of a group of one family. */
struct wish {
    uint8_t is_mld;
    uint8_t group[LONG_ADDRESS];
};

/* A joined group. The kernel bounds the list of sources that a socket has of a group, so it may take several sockets. */
struct join {
    struct wish wish;  /* the key */
    bool is_inherited; /* it does not become narrower, until hosts have answered first queries */
    bool is_seen;      /* for a renewal of all joins */
    bool is_failed;    /* the kernel rejected the filter, and it has to be tried again */
    enum mode mode;
    int index;    /* the interface, or 0 if there is none yet */
    size_t parts; /* the sockets that it is in: the first ones of its place */
    size_t count; /* the sources of the filter */
    uint64_t sum; /* a sum over the filter: another filter most likely has another sum */
};

/* The most sockets for a group, and the most groups of a socket. */
enum { PARTS = 16, GROUPS_OF_SOCKET = 16 };

struct joins {
    struct table table;
    int *sockets[2][PARTS]; /* each family and part has some, a socket + 1 for GROUPS_OF_SOCKET places, or 0 */
    size_t most_sources[2]; /* the kernel's bound of a list of sources */
    uint64_t secret;
};

/* Allocates memory for so many groups. */
void joins_open(struct joins *joins, size_t groups);
/* Reads the kernel's bounds again. */
void joins_read_bounds(struct joins *joins);
/* Asks for a filter of a group on an interface, or leaves the group with MODE_NONE. With the index 0 it only notes the filter. If
   the kernel's bounds do not allow the list, it asks for all sources. */
void joins_set(struct joins *joins, const struct wish *wish, int index, const struct filter *filter);
struct join *joins_find(const struct joins *joins, const struct wish *wish);
/* Adds what the kernel is asked for now to a merged filter. */
void joins_add(const struct joins *joins, const struct join *join, struct merged *merged);

#endif

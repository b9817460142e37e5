/* The kernel's tables of multicast routing, one for IPv4 and one for IPv6: interfaces, entries, and upcalls about new senders. */
#ifndef MROUTE_H
#define MROUTE_H

#include "mquerier.h"

#include <stdbool.h>
#include <stddef.h>
#include <stdint.h>

/* The interfaces of a table are numbered below this. A set of them is a word with a bit for each. */
enum { GREATEST_VIFS = 32, FLOW_ADDRESS = 16 };

/* A source that sends to a group: the key of an entry. An IPv4 address has its 4 bytes first, then zeros. */
struct flow {
    uint8_t is_mld;
    uint8_t group[FLOW_ADDRESS], source[FLOW_ADDRESS];
};

/* The kernel's table of a family. */
struct mroute {
    int file; /* its socket, or -1 */
    bool is_mld;
};

/* The traffic that an entry forwarded. */
struct usage {
    uint64_t packets, bytes;
};

/* Makes this process the multicast router of a family. Returns 0, or an error of <errno.h>: EADDRINUSE if there is another router. */
int mroute_open(struct mroute *table, bool is_mld);
/* Adds an interface, or removes it. Returns 0, or an error of <errno.h>. */
int mroute_add_vif(const struct mroute *table, unsigned vif, int index);
void mroute_remove_vif(const struct mroute *table, unsigned vif);

/* Makes the entry of a flow, or replaces it: what comes from `parent` goes to the interfaces of a set. Returns 0, or an error of
   <errno.h>. */
int mroute_set(const struct mroute *table, const struct flow *flow, unsigned parent, uint32_t to);
void mroute_remove(const struct mroute *table, const struct flow *flow, unsigned parent);
/* Reads the usage of an entry. Returns false if the kernel lacks the entry. */
bool mroute_usage(const struct mroute *table, const struct flow *flow, struct usage *usage);

/* Reads the next upcall about a flow without an entry, and the interface where it came in. Returns false if none waits. */
bool mroute_next(const struct mroute *table, struct flow *flow, unsigned *vif);
/* Reads the bytes of an upcall. Returns false if it is about something else. */
bool mroute_read(bool is_mld, const uint8_t *bytes, size_t length, struct flow *flow, unsigned *vif);

#endif

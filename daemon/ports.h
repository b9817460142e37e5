/* Bridges and ports as the kernel has them, and the querier's copy of them. */
#ifndef PORTS_H
#define PORTS_H

#include "querier.h"

#include <stdbool.h>
#include <stdint.h>

/* Opens the sockets for requests and for notifications. Ends the program if that fails. */
void ports_open(struct querier *querier);
/* Reads notifications. Returns whether any concerns a bridge or a port. */
bool ports_read_news(struct querier *querier);
/* Reads bridges, addresses and ports again. Begins the links of new ports, and ends the links of ports that are gone. */
void ports_refresh(struct querier *querier, uint64_t now);

/* Queries at each port of a bridge whose spanning tree changes: hosts may be behind other ports now. */
void ports_watch_topology(struct querier *querier, uint64_t now);

/* An interface, with its attributes from `at` to `end`. */
struct interface {
    int index, master;
    bool is_up, is_ethernet;
    const uint8_t *at, *end;
};
/* Reads an interface, whose attributes stand until the next request. Returns 0, ENODEV if there is none, or an error of <errno.h>.
   */
int interface_read(int netlink, const char *name, struct interface *interface);
/* Reads an interface from a message that has at least its head. */
void interface_of(const struct nlmsghdr *message, struct interface *interface);
/* Reads a number that only bridges have, or only ports of a bridge. Returns false if the kernel does not report it. */
bool interface_setting(const struct interface *interface, bool is_port, uint16_t type, uint32_t *number);

/* Takes over a seen port, without beginning its links. `is_anew` then says whether they have to begin again: the port came up,
   or its VLAN leaves it otherwise than before. Returns NULL if there is no room. */
struct port *ports_put(struct querier *querier, const struct port *seen, bool *is_anew);
/* Begins those links of a port that have an address, and have not begun, have another address now, or have to begin again. */
void ports_begin(struct querier *querier, struct port *port, bool is_anew, uint64_t now);
/* Ends the links of a port, and frees its place. */
void ports_lose(struct querier *querier, struct port *port);

#endif

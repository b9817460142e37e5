/* Lines about what a port hears: records beyond a limit, and other queriers. */
#ifndef HEARD_H
#define HEARD_H

#include "querier.h"

#include <stdbool.h>

/* Returns the version of a query, or 0 if the datagram is none. */
unsigned heard_version(bool is_mld, const struct datagram *datagram);
/* Notes a router of PIM. Prints a line if it is new, and all multicast is not forwarded to it. */
void heard_hello(const struct querier *querier, struct port *port, const struct datagram *hello, uint64_t now);
/* Counts and prints what a datagram brought. `was_querier` says whether the link was querier before it. */
void heard_tell(struct port *port, bool is_mld, const struct datagram *datagram, mq_answer answer, bool was_querier);

#endif

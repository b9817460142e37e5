/* The Hello of a router of PIM (RFC 7761 section 4.9.2), which says that a router is at a port. */
#ifndef HELLO_H
#define HELLO_H

#include "frames.h"

/* Returns whether a packet is a whole Hello. */
bool is_hello(const struct datagram *datagram);
/* Returns the holdtime of a Hello in seconds. */
unsigned hello_seconds(const struct datagram *hello);

#endif

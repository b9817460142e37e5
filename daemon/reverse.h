/* The way back to a source: the interface that a unicast datagram to it takes. */
#ifndef REVERSE_H
#define REVERSE_H

#include <stdbool.h>
#include <stdint.h>

/* Returns the index of the interface, or 0 if there is no route. */
int reverse_find(int netlink, bool is_mld, const uint8_t *source);

#endif

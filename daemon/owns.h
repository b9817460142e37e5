/* The sources of queries: addresses of bridges and of the interfaces of their VLANs. */
#ifndef OWNS_H
#define OWNS_H

#include "querier.h"

#include <stdbool.h>

/* Reads the addresses of a bridge that does not filter VLANs. A removed address stays in use until there is another. Returns whether the
   kernel's list was whole. */
bool owns_read(struct querier *querier, struct bridge *bridge);
/* Reads the addresses of the interfaces of a bridge's VLANs. */
bool owns_read_vlans(struct querier *querier, struct bridge *bridge);

#endif

/* With --report, what the other ports of a bridge want is reported at each port of a router, as one host does. */
#ifndef UPSTREAM_H
#define UPSTREAM_H

#include "querier.h"

#include <stdbool.h>
#include <stdint.h>

/* Allocates the memory for it, with --report. */
void upstream_open(struct querier *querier);
/* Returns whether a port is one of a router where reports are sent. No queries are sent there. */
bool upstream_is(const struct querier *querier, const struct port *port);
/* Follows a change of what a port wants of a group; and of what any port of a bridge wants of any group. */
void upstream_note(struct querier *querier, const struct port *from, bool is_mld, const uint8_t *group, uint64_t now);
void upstream_note_all(struct querier *querier, const struct bridge *bridge, uint64_t now);
/* Handles a query that came in at a port of a router. */
void upstream_hear(struct querier *querier, const struct port *port, bool is_mld, const struct datagram *query, uint64_t now);
/* Sends the reports that are due. */
void upstream_tick(struct querier *querier, uint64_t now);

#endif

/* The VLANs of bridges that filter them: which ports have which. */
#ifndef VLANS_H
#define VLANS_H

#include "ports.h"
#include "querier.h"

#include <stdbool.h>
#include <stdint.h>

/* Makes the socket for notifications hear changes of VLANs, if the kernel has VLANs. */
void vlans_listen(const struct querier *querier);
/* Returns the EtherType of a bridge's tags. */
uint16_t vlans_protocol(const struct interface *bridge);
/* Reads the VLANs of a bridge's ports, which were seen: a port in each VLAN is taken over, and one whose VLAN is gone is lost. `has_all`
   says that all ports were seen. Returns whether the kernel's list was whole. */
bool vlans_read(struct querier *querier, struct bridge *bridge, struct port *seen, size_t count, bool has_all);
/* Begins the links of a bridge's ports that have not begun, or have to begin again. */
void vlans_begin(struct querier *querier, const struct bridge *bridge, uint64_t now);
/* Frees the places of VLANs that no port has. */
void vlans_free_unused(struct querier *querier);
/* Returns whether an interface is that of a VLAN; and whether it is one of a bridge that filters VLANs. */
bool vlans_has(const struct querier *querier, int index);
bool vlans_concerns(const struct querier *querier, const struct interface *interface);

#endif

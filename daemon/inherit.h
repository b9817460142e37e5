/* The inheritance from a killed run: the kernel's tables with their entries, and memberships upstream. */
#ifndef INHERIT_H
#define INHERIT_H

#include "route.h"

/* Takes the sockets of a killed run with the same interfaces, and begins to hold those of this one. */
void inherit_take(struct querier *querier);
void inherit_hold(struct querier *querier);
/* Reads the entries of inherited tables. They stay until hosts have answered first queries. */
void inherit_entries(struct querier *querier);
/* Reads the entries of a table, inherited or not. */
void inherit_read(struct querier *querier, bool is_mld);
/* Ends inherited memberships. */
void inherit_gathered(struct querier *querier);

#endif

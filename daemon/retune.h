/* Options of single ports that change while the program runs. */
#ifndef RETUNE_H
#define RETUNE_H

#include "querier.h"

/* Returns the reason why options cannot be taken over, as text, or NULL: a new limit is below what a link holds, or above the memory. */
const char *retune_fault(const struct querier *querier, const struct options *next);
/* Gives each link its changed variables, limits and static groups. `before` has the earlier options of ports. */
void retune(struct querier *querier, const struct tunings *before);

#endif

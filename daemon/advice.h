/* Lines about ports whose settings are wrong or have no effect. */
#ifndef ADVICE_H
#define ADVICE_H

#include "querier.h"

/* Prints a line for each setting that is wrong or has no effect at ports of a bridge. */
void advice_ports(const struct querier *querier, const struct bridge *bridge);
/* Prints a line for each --router-port that no bridge has. */
void advice_routers(const struct querier *querier);

#endif

/* Rules of nftables that hide the messages at ports from the kernel's own snooping, so that it neither learns nor asks there. */
#ifndef RULES_H
#define RULES_H

#include "querier.h"

/* Opens the socket that asks for the generation of the rules. */
void rules_open(const struct options *options);
/* Makes the rules for the ports of a bridge, unless the last call made the same ones. */
void rules_apply(struct querier *querier, const struct bridge *bridge);
/* Makes the next `rules_apply` make all rules again if anybody else changed any rule of nftables. This only asks the kernel: it
   runs no program. */
void rules_check(void);
/* Removes the rules of a bridge. Returns whether they are gone, or were never made because `nft` failed. */
bool rules_remove(const struct bridge *bridge);

#endif

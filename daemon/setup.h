/* The settings of bridges and ports with which the database decides what is forwarded. */
#ifndef SETUP_H
#define SETUP_H

#include "querier.h"

/* Opens each bridge's file of earlier settings. Ends the program if another process serves the bridge. */
void setup_open(struct querier *querier);
/* Sets bridges, ports and rules as --setup and --router-port require. Without these options it prints the wrong settings. */
void setup_apply(struct querier *querier);
/* Ends the kernel's flooding at each bridge whose links know what hosts want since the last call. */
void setup_gathered(struct querier *querier, uint64_t now);
/* Makes the next `setup_apply` make the rules again if somebody changed them. */
void setup_check(const struct querier *querier);
/* Ends service at a bridge without a loss. The kernel's own snooping hears hosts again, gets the entries, and the settings from
   before --setup are restored. */
void setup_end(struct querier *querier, struct bridge *bridge);

#endif

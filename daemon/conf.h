/* A bridge's own file of options, BRIDGE.conf. */
#ifndef CONF_H
#define CONF_H

#include "options.h"

/* Reads a bridge's own file if there is one. Each line has one option, with or without its hyphens, and its value. Returns NULL, or the
   fault as text, with the number of the line. */
const char *conf_read(struct options *options, const char *bridge);

#endif

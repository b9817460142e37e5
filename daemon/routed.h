/* The router's part of the status: groups joined upstream, and entries with what they forwarded. */
#ifndef ROUTED_H
#define ROUTED_H

#include "route.h"

#include <stdio.h>

/* Writes the groups and entries as text, as members of a JSON object, or as metrics. */
void routed_text(const struct querier *querier, FILE *to);
void routed_json(const struct querier *querier, FILE *to);
void routed_metrics(const struct querier *querier, FILE *to);

#endif

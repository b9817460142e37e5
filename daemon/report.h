/* The status of a bridge as text, JSON or metrics. */
#ifndef REPORT_H
#define REPORT_H

#include "querier.h"

#include <stdio.h>

/* Writes the status of a bridge: 'j' as JSON, 'm' as metrics of Prometheus, else as text. */
void report(const struct querier *querier, const struct bridge *bridge, char form, uint64_t now, FILE *to);

#endif

/* The loop of the querier: one wait for frames, timers, notifications, signals and readers of the status. */
#ifndef LOOP_H
#define LOOP_H

#include "querier.h"

/* Opens the files that the loop waits for, and blocks the signals that it reads. */
void loop_open(struct querier *querier);
/* Runs until SIGTERM or SIGINT. On SIGHUP it reads `words`, the command line, again. */
void loop_run(struct querier *querier, int count, char **words);

#endif

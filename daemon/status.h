/* The status of a running querier over a Unix socket: as text, JSON, or metrics of Prometheus. */
#ifndef STATUS_H
#define STATUS_H

#include "querier.h"

/* Opens the socket of each bridge: DIR/BRIDGE/status. Ends the program if that fails. */
void status_open(struct querier *querier);
/* Opens a socket DIR/NAME/status. Ends the program if that fails. */
int status_listen(const char *run, const char *name);
/* Answers one reader of a socket, in a child process with a copy of the present state: of a bridge, or of the router if that is
   NULL. */
void status_answer(struct querier *querier, int listening, const struct bridge *bridge, uint64_t now);
/* Waits for the child processes of readers that ended. */
void status_reap(void);

/* Runs `mquerier-live status BRIDGE [--json | --metrics] [--run DIR]`. Returns the exit status. */
int status_print(int count, char **words);

#endif

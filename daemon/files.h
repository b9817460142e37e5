/* The querier's files, and its lock. Both belong to the network namespace: another one may have a bridge of the same name. */
#ifndef FILES_H
#define FILES_H

#include <stdbool.h>
#include <stddef.h>

/* Writes the name of a bridge's file, DIR/BRIDGE/FILE-N. N is the kernel's number of this network namespace, which no other one
   gets. Returns false if the name is too long. */
bool files_name(char *to, size_t room, const char *run, const char *bridge, const char *file);
/* Makes this process the only one here that serves a bridge. Ends the program if another does. The kernel ends the lock with the
   process. */
void files_lock(const char *bridge);

#endif

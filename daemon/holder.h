/* A process that holds the router's sockets open if the router is killed. The kernel forwards on by them, until the next run takes
   them over, for at most a minute. */
#ifndef HOLDER_H
#define HOLDER_H

#include <stddef.h>

/* The kind of a held socket. Inherited ones are memberships of the run before. */
enum held_kind { HELD_IGMP_TABLE, HELD_MLD_TABLE, HELD_MEMBERSHIP, HELD_INHERITED, HELD_GATHERED, HELD_END };

/* Takes the sockets that an earlier run left at a name, and calls `each` for each. It takes none if the words that describe them
   differ, and then they are closed. */
void holder_take(const char *name, const char *words, void (*each)(enum held_kind kind, int file));
/* Starts the process. It holds what `holder_add` gives to it. */
void holder_start(const char *name, const char *words);
/* Also holds a socket. */
void holder_add(enum held_kind kind, int file);
/* Closes the inherited sockets that it holds. */
void holder_gathered(void);
/* Ends the process, with what it holds. */
void holder_end(void);

#endif

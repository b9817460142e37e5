/* Settings of the kernel that a router needs: made and restored with --setup, else told. */
#ifndef SYSCTLS_H
#define SYSCTLS_H

#include "route.h"

/* Opens the file of earlier settings. With --setup it makes the settings, without it restores what a killed run changed. */
void sysctls_open(struct querier *querier);
/* Prints the settings of an interface that came which drop senders or lists of sources. */
void sysctls_tell(const struct querier *querier, const struct vif *vif, bool is_upstream);
/* Restores the settings from before --setup. */
void sysctls_undo(void);

#endif

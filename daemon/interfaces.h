/* The words of interfaces downstream: `eth1`, `bridge:br0`, or with variables of its own `eth1,qi=60,lmqi=500`. */
#ifndef INTERFACES_H
#define INTERFACES_H

#include "link.h"

#include <net/if.h>
#include <stdbool.h>
#include <stdint.h>

enum { VARIABLES = 4 }; /* rv, qi, qri and lmqi */

struct interface_words {
    char name[IF_NAMESIZE];
    bool is_bridge;
    uint32_t variables[VARIABLES]; /* 0 if it has that of all interfaces */
};

/* Reads the words. Returns NULL, or the reason why they are wrong. */
const char *interfaces_read(const char *words, struct interface_words *interface);
/* Puts an interface's own variables into a configuration. */
void interfaces_configure(const struct interface_words *interface, mq_config *configuration);

#endif

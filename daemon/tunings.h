/* Options of single ports, or of a port in a VLAN: limits, fast leave, static groups, and ranges of groups that hosts may ask for. */
#ifndef TUNINGS_H
#define TUNINGS_H

#include "filter.h"

#include <net/if.h>
#include <stdbool.h>
#include <stddef.h>
#include <stdint.h>

enum { GREATEST_TUNINGS = 1024 };
enum tuned { TUNED_LIMIT, TUNED_FAST_LEAVE, TUNED_STATIC, TUNED_ALLOW, TUNED_DENY };

struct tuning {
    enum tuned kind;
    char port[IF_NAMESIZE];   /* empty for all ports */
    uint16_t vlan;            /* 0 for all VLANs of the port */
    uint32_t groups, sources; /* a limit; `sources` is 0 if it is for groups alone */
    bool is_mld, has_source;  /* a static group, for one source or for all */
    uint8_t group[LONG_ADDRESS], source[LONG_ADDRESS];
    uint8_t length; /* the bits of a range */
};

struct tunings {
    struct tuning all[GREATEST_TUNINGS];
    size_t count;
};

/* A port in a VLAN, whose options they are. */
struct tuned_port {
    const struct tunings *tunings;
    const char *name;
    uint16_t vlan;
};

/* Reads PORT[:VLAN]=GROUPS[,SOURCES], PORT[:VLAN], PORT[:VLAN]=GROUP[,SOURCE], or [PORT[:VLAN]=]PREFIX/LENGTH. Returns NULL, or the
   fault as text. */
const char *tunings_read(struct tunings *tunings, enum tuned kind, const char *text);
/* Returns whether a limit exceeds those of all links. */
bool tunings_exceed(const struct tunings *tunings, const mq_config *configuration);
/* Changes the configuration of all links into that of a port's link. */
void tunings_configure(const struct tuned_port *port, mq_config *configuration);
/* Returns whether a port has the option for fast leave. */
bool tunings_leave_fast(const struct tuned_port *port);
/* Returns the filter of a group at a port that its static groups say. Its sources stand until the next call. */
struct filter tunings_static(const struct tuned_port *port, bool is_mld, const uint8_t *group);
/* Returns the next static group of a port from the `*at`th option on, and moves `*at` after it, or NULL. A group may come twice. */
const uint8_t *tunings_next_static(const struct tuned_port *port, bool is_mld, size_t *at);

#endif

/* A multicast router: it joins upstream what the links downstream want, and the kernel forwards by the entries that it makes. */
#ifndef ROUTE_H
#define ROUTE_H

#include "entries.h"
#include "joins.h"
#include "mroute.h"
#include "querier.h"

/* An interface of the router. Those downstream come first, in the order of `querier->bridges`. Those upstream follow. */
struct vif {
    const char *name;
    int index;       /* 0 while there is no interface of the name */
    bool is_on[2];   /* the tables of the kernel that have it: one for each family */
    bool gathers[2]; /* hosts may not have answered first queries of a link there */
};

struct route {
    struct mroute tables[2]; /* one for each family */
    struct vif vifs[GREATEST_VIFS];
    size_t downstream, count; /* the interfaces downstream, and all */
    struct entries entries;
    struct joins joins;
    bool *was_querier; /* two for each port, one for each family */
    bool is_stale[2];  /* all groups of a family have to be merged again */
    bool is_lost[2];   /* and all its entries made again: an interface came or is gone */
    uint64_t next_second;
    size_t polled;       /* the number of the entry whose usage is read next */
    uint64_t slice_ends; /* the time until which `slice_left` more upcalls are read */
    uint32_t slice_left;
    uint64_t upcalls;
    int listening;    /* the socket of the status, or -1 */
    char words[1024]; /* they describe this run to the next one */
};

/* Opens the kernel's tables, and allocates all memory. Ends the program if another router holds a table. */
void route_open(struct querier *querier);
/* Takes over the variables of interfaces. Returns NULL, or a fault as text. */
const char *route_configure(struct querier *querier, const struct options *options);
/* Takes over options that may change: variables, prefixes, scope, and times. Returns NULL, or a fault as text. */
const char *route_reload(struct querier *querier, const struct options *options, uint64_t now);
/* Adds interfaces that came, and removes those that are gone. */
void route_refresh(struct querier *querier);
/* Reads waiting upcalls. Returns whether a file is one of the router's tables. */
bool route_hear(struct querier *querier, int file, uint64_t now);
/* Reads the usage of all entries. */
void route_count(struct querier *querier, uint64_t now);
/* Makes the next `route_tick`, which is due at once, merge all groups again and correct all entries. */
void route_renew(struct querier *querier, uint64_t now);
/* Does the duties of each second, and of each slice while upcalls are waiting. */
void route_tick(struct querier *querier, uint64_t now);

/* Follows a call on a link that changed the first `count` groups of `querier->changed`. */
void route_follow(struct querier *querier, const struct port *port, bool is_mld, size_t count, uint64_t now);
/* A link begins again: what it wanted stays until hosts have answered. */
void route_inherit(struct querier *querier, const struct port *port, bool is_mld);
/* The links of a port have ended. */
void route_forget(struct querier *querier);

/* The wishes of links (wishes.c). Merges the filters that all links have of a group; and also asks for the result upstream. */
void wishes_merge(const struct querier *querier, bool is_mld, const uint8_t *group, struct merged *merged);
void wishes_update(struct querier *querier, bool is_mld, const uint8_t *group);
/* Merges all groups of a family again. */
void wishes_renew(struct querier *querier, bool is_mld);
void wishes_gathered(struct querier *querier, bool is_mld);

/* The entries (forward.c). Corrects where the entries of a group forward to a port's interface; or all entries of a family. */
void forward_group(struct querier *querier, const struct port *port, bool is_mld, const uint8_t *group, uint64_t now);
void forward_all(struct querier *querier, bool is_mld, bool is_lost, uint64_t now);
/* Reads the upcalls of a table. Returns whether some had to be left. */
bool forward_hear(struct querier *querier, const struct mroute *table, uint64_t now);
/* Reads the usage of `count` entries, and removes unused ones. */
void forward_poll(struct querier *querier, size_t count, uint64_t now);

/* Returns the place of an interface upstream for a group, or NO_VIF if the group does not cross there. */
enum { NO_VIF = GREATEST_VIFS };
size_t route_upstream(const struct querier *querier, bool is_mld, const uint8_t *group);
/* Returns whether a source is known on its link only, so that nothing from it is forwarded. */
bool route_is_of_link(bool is_mld, const uint8_t *source);
size_t route_vif_of(const struct querier *querier, const struct port *port);

#endif

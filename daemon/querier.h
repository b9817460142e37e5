/* The querier: its bridges, their ports, and a link of each family for each port. At a bridge that filters VLANs, each port has such
   links for each of its VLANs. Only the memory of those links is allocated later, when the first needs it. */
#ifndef QUERIER_H
#define QUERIER_H

#include "deadlines.h"
#include "frames.h"
#include "keeper.h"
#include "link.h"
#include "netlink.h"
#include "options.h"
#include "reported.h"
#include "ring.h"

#include <net/if.h>
#include <stdbool.h>
#include <stdint.h>

/* The sources of queries, by family. */
struct owns {
    bool has[2];
    uint8_t address[2][LONG_ADDRESS];
};

/* A VLAN of a bridge, or the whole bridge if it does not filter VLANs. */
struct vlan {
    struct bridge *bridge; /* NULL if the place is free */
    uint16_t id;           /* 0 for the whole bridge */
    int index;             /* the interface with its addresses, or 0 */
    struct owns own, read; /* those in use, and those that the kernel has now */
    bool is_missed[2];     /* a line said that there is none */
    bool is_used;          /* a port has it */
};

/* A bridge, or the one interface, which is its own only port. */
struct bridge {
    const char *name;
    bool is_port; /* it is an interface, and its own only port */
    int index;    /* 0 while it cannot be served */
    uint8_t mac[MAC];
    bool filters;          /* it filters VLANs */
    uint16_t protocol;     /* the EtherType of its tags */
    uint16_t pvid;         /* the VLAN of the bridge's own interface, or 0 */
    size_t beyond;         /* its links beyond --links */
    struct vlan whole;     /* its VLAN if it does not filter */
    bool has_own[2];       /* a VLAN has a source of queries */
    bool lacks_own[2];     /* a VLAN has none */
    bool is_configured[2]; /* it has a configuration of its own */
    mq_config configuration[2];
    uint64_t gathers;   /* when its links know what hosts want, or MQ_NONE while they wait for an address */
    bool has_gathered;  /* that time is over */
    bool is_late;       /* a family got an address after that, and the kernel has to flood again */
    uint32_t change[3]; /* flags and a timer of the last change of the spanning tree */
    int before;         /* the file of the settings before --setup, or -1 */
    int listening;      /* the socket of the status, or -1 */
};

/* A link of a port. */
struct served {
    bool is_on;                /* the link has begun */
    bool is_first;             /* its first query was not sent yet */
    uint8_t told;              /* the limits that a line told of: a bit for each place in `refused_by` */
    uint8_t own[LONG_ADDRESS]; /* its own address */
    mq_link link;
    void *memory; /* the memory of `link` */
    struct keeper keeper;
    struct reported_groups reported; /* for the status; no rows without one */
};

enum { LONGEST_LABEL = IF_NAMESIZE + 16 };

/* A port of a bridge. At a bridge that filters VLANs, it is a port in one of its VLANs. */
struct port {
    int index; /* 0 if the place is free */
    char name[IF_NAMESIZE];
    char label[LONGEST_LABEL]; /* the name, and the VLAN if the bridge filters */
    struct bridge *bridge;
    struct vlan *vlan;
    bool is_tagged;  /* the VLAN leaves it with a tag */
    bool is_pvid;    /* frames without a tag belong to the VLAN */
    bool is_bare;    /* no VLAN leaves the port without a tag */
    bool is_up;      /* it has a carrier, and is not blocked */
    bool is_blocked; /* the spanning tree keeps it from forwarding */
    bool is_found;
    bool is_anew;                            /* its links have to begin again */
    uint32_t router, fast_leave, to_unicast; /* the settings mcast_router, mcast_fast_leave and mcast_to_unicast */
    bool keeps_router;                       /* a line said that mcast_router stays */
    uint64_t hello_until;                    /* the end of a PIM router's Hello, or 0 */
    struct served served[2];
};

struct by_index {
    int index;
    uint16_t vlan;
    struct port *port;
};

struct querier {
    struct options *options;
    struct family families[2];
    struct bridge bridges[GREATEST_BRIDGES];
    size_t bridges_count;
    struct port *ports; /* places for ports of bridges that do not filter VLANs, then those for ports in VLANs */
    size_t room;
    struct by_index *by_index; /* the ports, in ascending order of interfaces and VLANs */
    size_t ports_count;
    struct by_index *untagged; /* for each interface the port for frames without a tag */
    size_t untagged_count;
    struct vlan *vlans; /* those that bridges filter */
    size_t vlans_room;
    struct deadlines deadlines; /* two for each port, then those below */
    struct ring ring;
    struct route *route; /* the router, or NULL */
    int netlink, news;
    int kept_bridge, kept_port; /* those of --mdb, or 0 */
    uint8_t (*changed)[LONG_ADDRESS];
    uint64_t heard, sent;
    bool is_stale; /* all has to be read again within a second: something was lost, or a Query Interval is over */
};

/* The deadlines after those of links. */
enum { DEADLINE_REPAIR, DEADLINE_SECOND, DEADLINE_REPORTS, DEADLINE_ROUTE, DEADLINES_BESIDE };

/* Returns NULL, or the fault of a served family's configuration as text. */
const char *querier_fault(const struct options *options);
/* Allocates all memory. Ends the program if that fails, or if the configuration has a fault. */
void querier_open(struct querier *querier, struct options *options);
/* Returns the milliseconds since the first call. The clock runs on while the machine sleeps. */
uint64_t moment(void);

/* Begins a link again, at the bridge's own address. The link queries at once, and inherits the entries of the earlier link. */
void querier_begin(struct querier *querier, struct port *port, bool is_mld, uint64_t now);
/* Gives a link that has begun the configuration and the own address of its port. It keeps what it holds. */
void querier_configure(struct querier *querier, struct port *port, bool is_mld);
/* Returns the milliseconds after which links that begin know what hosts want. */
uint64_t querier_gathering(const struct querier *querier);
/* Returns the Query Interval in milliseconds. Both families have the same. */
uint64_t querier_interval(const struct querier *querier);
/* Begins again each link of a family that has begun. */
void querier_begin_all(struct querier *querier, bool is_mld, uint64_t now);
/* Begins each link again if nothing ran for more than a Query Interval, for example while the machine slept. */
void querier_watch_clock(struct querier *querier, uint64_t now);
/* Handles waiting frames, at most 1024. */
void querier_hear(struct querier *querier, uint64_t now);
/* Runs the ticks and duties that are due at `now`. */
void querier_tick(struct querier *querier, uint64_t now);
/* Runs a tick of each link, due or not. */
void querier_tick_all(struct querier *querier, uint64_t now);
/* Compares the databases with what the links want, and corrects them. */
void querier_repair(struct querier *querier, uint64_t now);
/* Ends the links of a port and forgets its entries. The kernel removes these if the port leaves the bridge. */
void querier_forget(struct querier *querier, struct port *port);
/* Removes all own entries at the ports of a bridge. */
void querier_remove_entries(struct querier *querier, const struct bridge *bridge);
/* Leaves the entries of a family at the ports of a bridge to the kernel's snooping, with their sources or for all sources. */
void querier_hand_over(struct querier *querier, const struct bridge *bridge, bool is_mld, bool with_sources);
/* Sets the place of a port and family in the database. Returns false if no database is kept. */
bool querier_place(const struct querier *querier, const struct port *port, bool is_mld, struct place *place);
/* Sends a frame at a port. A message that fails is lost as on the wire: it is repeated. */
void querier_send(struct querier *querier, const struct port *port, bool is_mld, const uint8_t *frame, size_t length);
/* Returns the port with an index in a VLAN, or NULL. The VLAN is 0 at a bridge that does not filter. */
struct port *querier_port(const struct querier *querier, int index, uint16_t vlan);
/* Returns the number of the first port in `by_index` with this index, or `ports_count`. */
size_t querier_first(const struct querier *querier, int index);
/* Allocates the memory of a port's links if it has none. Returns false if that fails. */
bool querier_equip(struct querier *querier, struct port *port);
/* Returns whether a bridge filters VLANs. */
bool querier_filters(const struct querier *querier);

#endif

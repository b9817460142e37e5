/* The command line, and the file of options. */
#ifndef OPTIONS_H
#define OPTIONS_H

#include "interfaces.h"
#include "link.h"
#include "prefixes.h"
#include "tunings.h"

#include <net/if.h>
#include <stdbool.h>
#include <stdint.h>

enum { GREATEST_BRIDGES = 31, GREATEST_ROUTERS = 64, LONGEST_RUN = 64, GREATEST_LINKS = 16384, VLANS = 4096, GREATEST_OWNS = 512 };

/* The source of queries in a VLAN. */
struct own_in_vlan {
    uint16_t vlan;
    bool is_mld;
    uint8_t address[16];
};

struct options {
    bool is_interface;                                   /* the word `interface`, else `bridge` or `route` */
    bool is_route;                                       /* the word `route` */
    const char *names[GREATEST_BRIDGES];                 /* the interface, the bridges, or the interfaces and bridges downstream */
    struct interface_words interfaces[GREATEST_BRIDGES]; /* the words of `names`, for `route` */
    size_t count;
    bool serves[2];             /* igmp, mld */
    mq_config configuration[2]; /* igmp, mld */
    bool has_own[2];
    uint8_t own[2][16];
    bool prints_changes, sets_up, reports;
    const char *bridge, *port; /* the words of --mdb, or NULL */
    uint32_t ports, links;     /* the most ports of bridges that do not filter VLANs, and of ports in VLANs of those that do */
    bool chooses_vlans;        /* --vlans is given, and VLANs have to be among `vlans` */
    bool vlans[VLANS];
    struct own_in_vlan owns[GREATEST_OWNS];
    size_t owns_count;
    struct tunings tunings; /* options of single ports */
    char routers[GREATEST_ROUTERS][IF_NAMESIZE];
    size_t router_count;
    struct prefixes upstream;                 /* for `route`: the interfaces upstream; and the least scope that crosses there */
    uint32_t scope, entries, unused, upcalls; /* the most entries, their seconds without use, upcalls a second */
    char run[LONGEST_RUN];                    /* the folder of its files */
    char config[LONGEST_RUN];                 /* the folder of the bridges' own files, BRIDGE.conf */
    const char *file;                         /* the file of options, or NULL */
};

/* Reads the words after `mquerier-live`. Returns NULL, or the fault as text. Prints the help and exits if a word asks for it. */
const char *options_read(struct options *options, int count, char **words);
/* Reads options and names from all words but the first. Returns NULL, or the fault as text. */
const char *options_read_words(struct options *options, int count, char **words);
/* Replaces comments by spaces: from # to the end of a line. */
void options_cut_comments(char *text);
/* Takes over options that were read again, if they can change while the program runs. Prints a line if another differs. */
void options_replace(struct options *used, const struct options *next);
bool options_is_router(const struct options *options, const char *port);
/* Returns the source of queries for a VLAN, or for a bridge if the VLAN is 0, or NULL if the options have none. */
const uint8_t *options_own(const struct options *options, uint16_t vlan, bool is_mld);
/* Returns whether the ports of a bridge that filters VLANs are served in a VLAN. */
bool options_serves_vlan(const struct options *options, uint16_t vlan);

#endif

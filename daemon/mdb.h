/* The multicast database of a Linux bridge: the groups and sources that it forwards to a port. */
#ifndef MDB_H
#define MDB_H

#include "faults.h"
#include "filter.h"

#include <stdbool.h>
#include <stdint.h>

/* The part of a database for one port, one VLAN and one family. */
struct place {
    int netlink; /* the socket for requests */
    int bridge, port;
    uint16_t vlan; /* 0 at a bridge that does not filter VLANs */
    bool is_mld;
};

/* The maker of an entry. */
enum maker { MAKER_US, MAKER_KERNEL, MAKER_OTHER };

struct entry {
    int port;
    uint16_t vlan;
    bool is_mld;
    enum maker maker;
    bool is_temporary; /* the kernel removes it unless hosts report */
    uint8_t group[LONG_ADDRESS];
    struct filter filter; /* its sources stand until the next entry */
};

/* The most sources of an entry, and the filter that forwards all. */
enum { GREATEST_LIST = 31 };
extern const struct filter filter_of_all;

/* Tests whether this program may change the database of a bridge, without changing it. Ends the program if not. All calls here need
   the capability CAP_NET_ADMIN. */
void mdb_try(int netlink, int bridge, const char *name);

/* Counts a fault at the entry of a group, and prints a line. */
void mdb_fault(enum fault kind, const struct place *place, const uint8_t *group, const char *why);

/* Makes an entry, or replaces our own or the kernel's. Returns whether our entry is there now. Counts a fault if the kernel rejects
   it, or if another program's entry is there. */
bool mdb_set(const struct place *place, const uint8_t *group, const struct filter *filter, bool is_ours);
/* Makes our entry temporary. The kernel's snooping goes on with it, and removes it if no host reports for
   `mcast_membership_interval`. */
void mdb_hand_over(const struct place *place, const uint8_t *group, const struct filter *filter);
/* Notes that an entry is changed or removed. The kernel then no longer forwards sources that entries of the group list to ports with
   EXCLUDE entries of it. `mdb_restore` makes these entries again. */
void mdb_note_removal(const struct place *place, const uint8_t *group);
void mdb_restore(void);
/* Removes our entry of a group. Returns whether it is gone. */
bool mdb_remove(const struct place *place, const uint8_t *group);
/* Removes all our entries, of all VLANs if `vlan` is 0. */
void mdb_remove_all(const struct place *place);
/* Removes them one by one, so that `mdb_restore` knows their groups. */
void mdb_remove_each(const struct place *place);
/* Reads the entry of a group. Returns 0, ENOENT if there is none, or another error of <errno.h>. */
int mdb_read(const struct place *place, const uint8_t *group, struct entry *entry);
/* Passes each entry of all bridges to `each`, which makes no call here. Returns whether these were all entries. */
typedef void mdb_each(void *context, const struct entry *entry);
bool mdb_dump(int netlink, mdb_each *each, void *context);

#endif

/* A bounded table of forwarding entries. Entries that forward to nobody cannot drive out those that hosts watch. */
#ifndef ENTRIES_H
#define ENTRIES_H

#include "mroute.h"
#include "table.h"

struct route_entry {
    struct flow flow; /* the key */
    uint8_t parent;   /* the interface from which it forwards */
    bool is_wanted;   /* some link downstream wants it */
    bool is_lost;     /* the kernel does not have it */
    uint32_t to;      /* the interfaces to which it forwards */
    uint32_t kept;    /* those of them that stay until hosts have answered first queries */
    struct usage usage;
    uint64_t used_at;       /* when a datagram came last, as far as seen */
    uint32_t before, after; /* the neighbours in its line */
};

/* Entries in the order of their last use. */
struct line {
    uint32_t first, last;
    size_t count;
};

struct entries {
    struct table table;
    struct line lines[2]; /* unwanted entries, and wanted ones */
};

void entries_open(struct entries *entries, size_t room);
struct route_entry *entries_find(const struct entries *entries, const struct flow *flow);
/* Returns the first entry of a group, by its number; and an entry by its number, or NULL. */
size_t entries_of(const struct entries *entries, bool is_mld, const uint8_t *group);
struct route_entry *entries_at(const struct entries *entries, size_t number);
/* Returns the entry that has to be removed before another is added, or NULL if there is room. It has been unused for the longest time
   of the unwanted ones; or of the wanted ones if these take more than seven eighths of the table. */
struct route_entry *entries_victim(const struct entries *entries);
/* Adds an unwanted entry, as used now. There is room. */
struct route_entry *entries_put(struct entries *entries, const struct flow *flow, uint64_t now);
void entries_remove(struct entries *entries, struct route_entry *entry);
/* Notes that an entry was used, or that it is wanted or not. */
void entries_use(struct entries *entries, struct route_entry *entry, uint64_t now);
void entries_want(struct entries *entries, struct route_entry *entry, bool is_wanted);

#endif

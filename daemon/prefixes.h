/* The upstream interfaces of a router, each for the groups of a prefix. */
#ifndef PREFIXES_H
#define PREFIXES_H

#include <net/if.h>
#include <stdbool.h>
#include <stddef.h>
#include <stdint.h>

enum { GREATEST_PREFIXES = 64, GREATEST_UPSTREAMS = 8 };

/* The groups of one family whose first bits are those of `group`. */
struct prefix {
    bool is_mld;
    uint8_t group[16];
    unsigned length;
    size_t upstream; /* the number of the interface */
};

struct prefixes {
    char names[GREATEST_UPSTREAMS][IF_NAMESIZE]; /* the interfaces */
    size_t names_count;
    struct prefix all[GREATEST_PREFIXES]; /* the longest first */
    size_t count;
};

enum { NO_UPSTREAM = GREATEST_UPSTREAMS };

/* Reads words with commas between them: INTERFACE for all groups, INTERFACE=PREFIX/LENGTH for some. Adds them to the table. Returns
   NULL, or the reason why a word is wrong. */
const char *prefixes_read(struct prefixes *prefixes, const char *words);
/* Returns the number of the interface for a group, by the longest prefix, or NO_UPSTREAM. */
size_t prefixes_find(const struct prefixes *prefixes, bool is_mld, const uint8_t *group);

#endif

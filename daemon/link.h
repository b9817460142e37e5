/* The links of the program: their memory, their groups in pages, and their state as text. */
#ifndef LINK_H
#define LINK_H

#include "mquerier-link.h"

#include <stdio.h>

enum { LONG_ADDRESS = 16 };

/* The most groups and sources that one call returns. A group has at most PAGE_SOURCES sources. */
enum { PAGE_GROUPS = 64, PAGE_SOURCES = 1024 };

/* The shared parts of a family's links. */
struct family {
    mq_config configuration;
    mq_workspace workspace;
    size_t link_size, entries; /* the most entries that one link can need in a database */
};

/* Allocates the shared parts of a family. The configuration has no fault. */
void family_open(struct family *family, mq_config configuration);
/* Sets the variables of a configuration to those of another one. The limits and the own address stay. */
void link_retime(mq_config *configuration, const mq_config *next);

/* Writes the groups that the last call changed, in ascending order, at most twice the limit of groups. Returns how many. */
size_t link_changed(const mq_link *link, uint8_t (*groups)[LONG_ADDRESS]);
/* Reads the group of an address, whose sources stand until the next call. Returns false if the link lacks the group. */
bool link_group_at(const mq_link *link, const uint8_t *address, mq_group *group);
/* Writes a page of groups in ascending order from the `first`th on. Returns how many; their sources stand until the next call. */
size_t link_groups(const mq_link *link, size_t first, mq_group *groups);

/* Writes an address as text, without a NUL, and returns the place after it; at most 39 bytes. */
char *link_put_address(const mq_link *link, char *to, const uint8_t *address);
/* Prints the last lines of `mquerier replay`: the querier at `now`, the groups, and the counters. */
void link_print_state(const mq_link *link, uint64_t now, FILE *to);

#endif

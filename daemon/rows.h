/* The groups with an own entry in the database for a port: a table of fixed size, in ascending order. */
#ifndef ROWS_H
#define ROWS_H

#include "link.h"

#include <stdbool.h>
#include <stddef.h>
#include <stdint.h>

struct row {
    uint8_t group[LONG_ADDRESS];
    bool is_inherited; /* an earlier link or the kernel made the entry, and hosts have not answered since */
    bool is_seen;      /* the last dump had the entry */
    bool is_right;     /* the dump had it with the link's filter */
    bool is_temporary; /* the dump had it as temporary */
};

struct rows {
    struct row *all;
    size_t count, room;
};

/* Returns the number of the first item that isn't below a group. Each item begins with its group, and has `size` bytes. */
size_t rows_place(const void *all, size_t size, size_t count, const uint8_t *group);
/* Returns the row of a group, or NULL. */
struct row *rows_find(const struct rows *rows, const uint8_t *group);
/* Returns the row of a group, after making it if it is missing. Returns NULL if there is no room. */
struct row *rows_put(struct rows *rows, const uint8_t *group);
void rows_remove(struct rows *rows, struct row *row);

#endif

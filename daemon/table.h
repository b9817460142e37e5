/* A table of rows of fixed size, in ascending order of their first bytes, the key. A row stays at its place until it is removed. */
#ifndef TABLE_H
#define TABLE_H

#include <stddef.h>
#include <stdint.h>

struct table {
    uint8_t *rows;
    size_t size, width, room, count; /* the bytes of a row and of a key; the most rows, and the present ones */
    size_t begun;                    /* the places that were used before */
    uint32_t *order;                 /* the places of all rows: first the present ones in order of their keys, then free places */
};

/* Allocates the memory of a table. */
void table_open(struct table *table, size_t room, size_t size, size_t width);
/* Returns how many rows have a lower key. */
size_t table_below(const struct table *table, const void *key);
/* Returns the row with a number, counted from the lowest key, or NULL. */
void *table_at(const struct table *table, size_t number);
/* Returns the row with a key, or NULL. */
void *table_find(const struct table *table, const void *key);
/* Adds a row, zero but for its key, which the table lacks. Returns NULL if the table is full. */
void *table_put(struct table *table, const void *key);
void table_remove(struct table *table, const void *row);
/* Returns the place of a row, below `room`; and the row at a place. */
uint32_t table_place(const struct table *table, const void *row);
void *table_row(const struct table *table, uint32_t place);

#endif

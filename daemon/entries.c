#include "entries.h"

#include <stddef.h>
#include <string.h>

enum { NOBODY = UINT32_MAX };

void entries_open(struct entries *it, size_t room) {
    table_open(&it->table, room, sizeof(struct route_entry), sizeof(struct flow));
    for (int line = 0; line < 2; line++)
        it->lines[line] = (struct line){NOBODY, NOBODY, 0};
}

static struct route_entry *at_place(const struct entries *it, uint32_t place) {
    return place == NOBODY ? NULL : table_row(&it->table, place);
}

/* Puts an entry at the end of its line. */
static void join_line(struct entries *it, struct route_entry *entry) {
    struct line *line = &it->lines[entry->is_wanted];
    uint32_t place = table_place(&it->table, entry);
    struct route_entry *last = at_place(it, line->last);
    entry->before = line->last;
    entry->after = NOBODY;
    *(last != NULL ? &last->after : &line->first) = place;
    line->last = place;
    line->count++;
}

static void leave_line(struct entries *it, struct route_entry *entry) {
    struct line *line = &it->lines[entry->is_wanted];
    struct route_entry *before = at_place(it, entry->before), *after = at_place(it, entry->after);
    *(before != NULL ? &before->after : &line->first) = entry->after;
    *(after != NULL ? &after->before : &line->last) = entry->before;
    line->count--;
}

struct route_entry *entries_find(const struct entries *it, const struct flow *flow) {
    return table_find(&it->table, flow);
}

size_t entries_of(const struct entries *it, bool is_mld, const uint8_t *group) {
    struct flow lowest = {.is_mld = is_mld};
    memcpy(lowest.group, group, FLOW_ADDRESS);
    return table_below(&it->table, &lowest);
}

struct route_entry *entries_at(const struct entries *it, size_t number) {
    return table_at(&it->table, number);
}

struct route_entry *entries_victim(const struct entries *it) {
    const struct line *unwanted = &it->lines[false], *wanted = &it->lines[true];
    if (wanted->count > it->table.room - it->table.room / 8)
        return at_place(it, wanted->first);
    if (it->table.count < it->table.room)
        return NULL;
    return at_place(it, unwanted->count > 0 ? unwanted->first : wanted->first);
}

struct route_entry *entries_put(struct entries *it, const struct flow *flow, uint64_t now) {
    struct route_entry *entry = table_put(&it->table, flow);
    entry->used_at = now;
    join_line(it, entry);
    return entry;
}

void entries_remove(struct entries *it, struct route_entry *entry) {
    leave_line(it, entry);
    table_remove(&it->table, entry);
}

void entries_use(struct entries *it, struct route_entry *entry, uint64_t now) {
    leave_line(it, entry);
    entry->used_at = now;
    join_line(it, entry);
}

void entries_want(struct entries *it, struct route_entry *entry, bool is_wanted) {
    if (entry->is_wanted == is_wanted)
        return;
    leave_line(it, entry);
    entry->is_wanted = is_wanted;
    join_line(it, entry);
}

#include "keeper.h"

#include "faults.h"

#include <errno.h>
#include <string.h>

/* In one call all groups may end, and as many begin. */
enum { ROWS_FOR_A_GROUP = 2 };

bool keeper_open(struct keeper *keeper, size_t groups) {
    size_t room = ROWS_FOR_A_GROUP * groups;
    if (keeper->rows.all == NULL)
        *keeper = (struct keeper){.rows = {grab(room, sizeof(struct row)), 0, room}, .gathers = MQ_NONE};
    return keeper->rows.all != NULL;
}

void keeper_forget(struct keeper *keeper, const struct place *place) {
    for (size_t at = 0; at < keeper->rows.count; at++)
        mdb_note_removal(place, keeper->rows.all[at].group);
    keeper->rows.count = 0;
}

void keeper_begin(struct keeper *keeper, uint64_t gathers, bool inherits_others) {
    for (size_t at = 0; at < keeper->rows.count; at++)
        keeper->rows.all[at].is_inherited = true;
    keeper->gathers = gathers;
    keeper->inherits_others = inherits_others;
}

/* Returns whether the kernel always forwards a group, and accepts no entry for it: 224.0.0.0/24. */
static bool is_always_forwarded(const mq_link *link, const uint8_t *group) {
    return !link->is_mld && group[0] == 224 && group[1] == 0 && group[2] == 0;
}

/* Returns what the link forwards of a group, and what static groups say. Its sources stand until the next call. */
static struct filter wanted_of(const struct keeper *keeper, const mq_link *link, bool is_mld, const uint8_t *group) {
    static uint8_t sources[2 * PAGE_SOURCES][LONG_ADDRESS];
    struct filter filter = {MODE_NONE, 0, NULL}, always = filter;
    if (link != NULL)
        filter = filter_of(link, group);
    if (keeper->tuned.tunings != NULL)
        always = tunings_static(&keeper->tuned, is_mld, group);
    if (always.mode == MODE_NONE)
        return filter;
    filter = filter_join(&filter, &always);
    memcpy(sources, filter.sources, filter.count * LONG_ADDRESS);
    filter.sources = (const uint8_t(*)[LONG_ADDRESS])sources;
    return filter;
}

/* Makes the entry of a group, and its row. */
static void make_entry(struct keeper *keeper, const struct place *place, const uint8_t *group, const struct filter *filter,
                       bool is_inherited) {
    struct row *row = rows_find(&keeper->rows, group);
    if (row == NULL && keeper->rows.count == keeper->rows.room)
        fault(FAULT_REFUSED, "mdb", "too many entries of an earlier run");
    else if (mdb_set(place, group, filter, row != NULL))
        rows_put(&keeper->rows, group)->is_inherited = is_inherited;
}

void keeper_update(struct keeper *keeper, const mq_link *link, const struct place *place, const uint8_t *group) {
    struct row *row = rows_find(&keeper->rows, group);
    struct filter filter = wanted_of(keeper, link, place->is_mld, group);
    struct entry entry;
    bool is_new = row == NULL && keeper->inherits_others && keeper->gathers != MQ_NONE && filter.mode != MODE_NONE;
    bool may_inherit = is_new || (row != NULL && row->is_inherited);
    if (is_always_forwarded(link, group)) {
        if (filter.mode != MODE_NONE)
            mdb_fault(FAULT_ALWAYS, place, group, "the kernel forwards 224.0.0.0/24 always, and takes no entry for it");
        return;
    }
    int error = may_inherit ? mdb_read(place, group, &entry) : ENOENT;
    if (error != 0 && error != ENOENT)
        return; /* the inherited filter is not known: the entry stays until the next repair */
    bool inherits = error == 0 && entry.maker != MAKER_OTHER;
    if (inherits)
        filter = filter_join(&filter, &entry.filter);
    if (filter.mode != MODE_NONE)
        make_entry(keeper, place, group, &filter, inherits);
    else if (row != NULL && mdb_remove(place, group))
        rows_remove(&keeper->rows, row);
}

struct filter keeper_filter(const struct keeper *keeper, const mq_link *link, const struct place *place, const uint8_t *group) {
    static uint8_t sources[2 * PAGE_SOURCES][LONG_ADDRESS];
    const struct row *row = rows_find(&keeper->rows, group);
    struct filter filter = wanted_of(keeper, link, place->is_mld, group);
    struct entry entry;
    if (row == NULL || !row->is_inherited || mdb_read(place, group, &entry) != 0 || entry.maker == MAKER_OTHER)
        return filter;
    filter = filter_join(&filter, &entry.filter);
    memcpy(sources, filter.sources, filter.count * LONG_ADDRESS);
    filter.sources = (const uint8_t(*)[LONG_ADDRESS])sources;
    return filter;
}

void keeper_hand_over(struct keeper *keeper, const mq_link *link, const struct place *place, bool with_sources) {
    for (size_t at = 0; at < keeper->rows.count; at++) {
        const uint8_t *group = keeper->rows.all[at].group;
        struct filter filter = keeper_filter(keeper, link, place, group);
        if (filter.mode == MODE_NONE)
            mdb_remove(place, group);
        else
            mdb_hand_over(place, group, with_sources && filter.count <= GREATEST_LIST ? &filter : &filter_of_all);
    }
}

void keeper_gathered(struct keeper *keeper, const mq_link *link, const struct place *place) {
    keeper->gathers = MQ_NONE;
    for (size_t left = keeper->rows.count; left > 0; left--) {
        struct row *row = keeper->rows.all + left - 1; /* from the last one on, because an update may remove a row */
        uint8_t group[LONG_ADDRESS];
        if (!row->is_inherited)
            continue;
        row->is_inherited = false;
        memcpy(group, row->group, sizeof group);
        keeper_update(keeper, link, place, group);
    }
}

void keeper_forget_seen(struct keeper *keeper) {
    for (size_t at = 0; at < keeper->rows.count; at++)
        keeper->rows.all[at].is_seen = false;
}

void keeper_note(struct keeper *keeper, const mq_link *link, const struct entry *entry) {
    bool is_known = rows_find(&keeper->rows, entry->group) != NULL;
    struct row *row = rows_put(&keeper->rows, entry->group);
    if (row == NULL)
        return; /* the next repair may have room for it */
    struct filter wanted = wanted_of(keeper, link, entry->is_mld, entry->group);
    if (wanted.count > GREATEST_LIST)
        wanted = filter_of_all;
    row->is_seen = true;
    row->is_temporary = entry->is_temporary;
    row->is_right = !row->is_temporary && filter_equal(&wanted, &entry->filter);
    if (!is_known)
        row->is_inherited = link == NULL || keeper->gathers != MQ_NONE;
}

void keeper_change_statics(struct keeper *keeper, const mq_link *link, const struct place *place, const struct tunings *before) {
    struct tuned_port earlier = {before, keeper->tuned.name, keeper->tuned.vlan};
    const uint8_t *group;
    for (size_t at = 0; (group = tunings_next_static(&keeper->tuned, place->is_mld, &at)) != NULL;)
        keeper_update(keeper, link, place, group);
    for (size_t at = 0; (group = tunings_next_static(&earlier, place->is_mld, &at)) != NULL;)
        keeper_update(keeper, link, place, group);
}

/* Makes the missing entries of static groups. */
static void put_statics(struct keeper *keeper, const mq_link *link, const struct place *place) {
    const uint8_t *group;
    for (size_t at = 0; (group = tunings_next_static(&keeper->tuned, place->is_mld, &at)) != NULL;)
        if (rows_find(&keeper->rows, group) == NULL)
            keeper_update(keeper, link, place, group);
}

/* Makes the missing entries. */
static void repair_missing(struct keeper *keeper, const mq_link *link, const struct place *place) {
    mq_group groups[PAGE_GROUPS];
    for (size_t first = 0, count = 1; count > 0; first += count) {
        count = link_groups(link, first, groups);
        for (size_t at = 0; at < count; at++)
            if (!is_always_forwarded(link, groups[at].address) && rows_find(&keeper->rows, groups[at].address) == NULL)
                keeper_update(keeper, link, place, groups[at].address);
    }
    put_statics(keeper, link, place);
}

void keeper_repair(struct keeper *keeper, const mq_link *link, const struct place *place, bool is_whole) {
    for (size_t left = keeper->rows.count; left > 0; left--) {
        struct row *row = keeper->rows.all + left - 1;
        uint8_t group[LONG_ADDRESS];
        memcpy(group, row->group, sizeof group);
        if (!row->is_seen && is_whole)
            rows_remove(&keeper->rows, row);
        else if (row->is_seen && !row->is_right && (!row->is_inherited || row->is_temporary) && link != NULL)
            keeper_update(keeper, link, place, group);
    }
    if (link != NULL)
        repair_missing(keeper, link, place);
}

/* mquerier: links of either family by one set of calls, inline over those of mquerier.h, for C99 and later, and for C++.

   The rules of mquerier.h hold. An address has 16 bytes here: an IPv4 address has its 4 bytes first, then zeros. A link and its
   workspace stay where they are, since a link points to its workspace. */
#ifndef MQUERIER_LINK_H
#define MQUERIER_LINK_H

#include "mquerier.h"

/* An address of 16 bytes, from one of `width` bytes. */
static inline void mq_put_address(uint8_t to[16], const uint8_t *address, size_t width) {
    for (size_t at = 0; at < 16; at++)
        to[at] = at < width ? address[at] : 0;
}

/* A range of groups, of the family with addresses of `width` bytes. */
static inline void mq_put_range(mq_mld_range *to, const uint8_t *address, size_t width, uint8_t length, uint8_t rule) {
    mq_put_address(to->address, address, width);
    to->length = length, to->rule = rule;
}

/* MAKE. The configuration of a link: mquerier.h explains each field. */
typedef struct {
    bool is_mld;
    uint32_t robustness, query_interval, response_interval, last_member_interval, last_member_query_count;
    uint32_t groups, group_sources, sources, scheduled;
    uint8_t own[16];
    uint8_t source_specific;
    mq_mld_range ranges[MQ_RANGES];
} mq_config;

/* Copies the fields that both families have in one form. */
#define MQ_COPY_FIELDS(to, from) \
    ((to)->robustness = (from)->robustness, (to)->query_interval = (from)->query_interval, \
     (to)->response_interval = (from)->response_interval, (to)->last_member_interval = (from)->last_member_interval, \
     (to)->last_member_query_count = (from)->last_member_query_count, (to)->groups = (from)->groups, \
     (to)->group_sources = (from)->group_sources, (to)->sources = (from)->sources, (to)->scheduled = (from)->scheduled, \
     (to)->source_specific = (from)->source_specific)

/* Returns the defaults of the standards and of mquerier.h. */
static inline mq_config mq_config_defaults(bool is_mld, const uint8_t own[16]) {
    mq_igmp_config igmp = mq_igmp_defaults(own);
    mq_mld_config mld = mq_mld_defaults(own);
    mq_config config;
    if (is_mld)
        MQ_COPY_FIELDS(&config, &mld);
    else
        MQ_COPY_FIELDS(&config, &igmp);
    mq_put_address(config.own, own, is_mld ? 16 : 4);
    for (size_t at = 0; at < MQ_RANGES; at++)
        mq_put_range(&config.ranges[at], own, 0, 0, MQ_UNUSED);
    config.is_mld = is_mld;
    return config;
}

/* Return the configuration for the calls of one family. */
static inline mq_igmp_config mq_igmp_config_of(mq_config config) {
    mq_igmp_config it;
    MQ_COPY_FIELDS(&it, &config);
    for (size_t at = 0; at < sizeof it.own; at++)
        it.own[at] = config.own[at];
    for (size_t range = 0; range < MQ_RANGES; range++) {
        for (size_t at = 0; at < sizeof it.own; at++)
            it.ranges[range].address[at] = config.ranges[range].address[at];
        it.ranges[range].length = config.ranges[range].length, it.ranges[range].rule = config.ranges[range].rule;
    }
    return it;
}
static inline mq_mld_config mq_mld_config_of(mq_config config) {
    mq_mld_config it;
    MQ_COPY_FIELDS(&it, &config);
    mq_put_address(it.own, config.own, sizeof it.own);
    for (size_t range = 0; range < MQ_RANGES; range++)
        it.ranges[range] = config.ranges[range];
    return it;
}

/* Return how many bytes suffice for a link, for a workspace, and for the queries of any call, if no body is longer than
   `longest_body`. */
static inline size_t mq_link_size(mq_config config) {
    return config.is_mld ? mq_mld_size(mq_mld_config_of(config)) : mq_igmp_size(mq_igmp_config_of(config));
}
static inline size_t mq_workspace_size(mq_config config) {
    return config.is_mld ? mq_mld_workspace_size(mq_mld_config_of(config)) : mq_igmp_workspace_size(mq_igmp_config_of(config));
}
static inline size_t mq_outlet_bytes(mq_config config, uint32_t longest_body) {
    return config.is_mld ? mq_mld_outlet_bytes(mq_mld_config_of(config), longest_body)
                         : mq_igmp_outlet_bytes(mq_igmp_config_of(config), longest_body);
}

/* A workspace, with the room for the queries of one call. Links of one family share it. */
typedef struct {
    bool is_mld;
    union {
        mq_igmp_workspace igmp;
        mq_mld_workspace mld;
    } of;
    uint8_t *queries;
    size_t room;
} mq_workspace;

/* Makes a workspace in `size` bytes of memory, for queries in `room` bytes. */
static inline uint32_t mq_workspace_init(mq_config config, void *memory, size_t size, uint8_t *queries, size_t room,
                                         mq_workspace *workspace) {
    workspace->is_mld = config.is_mld;
    workspace->queries = queries;
    workspace->room = room;
    return config.is_mld ? mq_mld_workspace_init(mq_mld_config_of(config), memory, size, &workspace->of.mld)
                         : mq_igmp_workspace_init(mq_igmp_config_of(config), memory, size, &workspace->of.igmp);
}

/* Returns MQ_DONE, or the status of the first fault of a configuration. */
static inline uint32_t mq_config_status(mq_config config) {
    mq_workspace none;
    uint32_t status = mq_workspace_init(config, NULL, 0, NULL, 0, &none); /* the configuration is checked first */
    return status == MQ_MEMORY ? (uint32_t)MQ_DONE : status;
}

/* A link of either family. */
typedef struct {
    bool is_mld;
    union {
        mq_igmp igmp;
        mq_mld mld;
    } of;
    mq_workspace *workspace;
} mq_link;

/* Makes a link that begins at `start`, in `size` bytes of memory. Returns MQ_WORKSPACE if the workspace is of the other family. */
static inline uint32_t mq_link_init(mq_config config, uint64_t start, void *memory, size_t size, mq_workspace *workspace,
                                    mq_link *link) {
    if (workspace->is_mld != config.is_mld)
        return MQ_WORKSPACE;
    link->is_mld = config.is_mld;
    link->workspace = workspace;
    return config.is_mld ? mq_mld_init(mq_mld_config_of(config), start, memory, size, &link->of.mld)
                         : mq_igmp_init(mq_igmp_config_of(config), start, memory, size, &link->of.igmp);
}

/* Gives a running link another configuration of its family. Returns MQ_WORKSPACE if it is of the other one. */
static inline uint32_t mq_link_configure(mq_link *link, mq_config config) {
    if (link->is_mld != config.is_mld)
        return MQ_WORKSPACE;
    return config.is_mld ? mq_mld_configure(&link->of.mld, mq_mld_config_of(config))
                         : mq_igmp_configure(&link->of.igmp, mq_igmp_config_of(config));
}

/* FEED. The headers of a datagram. A link of IGMP uses the source alone. */
typedef struct {
    uint8_t source[16], destination[16];
    uint8_t hop_limit;
    bool alert; /* whether there is a Router Alert option */
} mq_envelope;

/* Takes a datagram that came at `now`. */
static inline mq_answer mq_link_receive(mq_link *link, const mq_envelope *it, const uint8_t *body, size_t length, uint64_t now) {
    mq_workspace *work = link->workspace;
    if (link->is_mld)
        return mq_mld_receive(&link->of.mld, &work->of.mld, it->source, it->destination, it->hop_limit, it->alert, body, length,
                              now, work->queries, work->room);
    return mq_igmp_receive(&link->of.igmp, &work->of.igmp, it->source, body, length, now, work->queries, work->room);
}
/* Does what is due at `now` or before. */
static inline mq_answer mq_link_tick(mq_link *link, uint64_t now) {
    mq_workspace *work = link->workspace;
    return link->is_mld ? mq_mld_tick(&link->of.mld, &work->of.mld, now, work->queries, work->room)
                        : mq_igmp_tick(&link->of.igmp, &work->of.igmp, now, work->queries, work->room);
}

/* SEND. Sets `*query` to the query at `*at`, which begins as 0, and moves `*at` to the next one. Returns false if the last call, which
   returned `answer`, left no other. A destination has 4 or 16 bytes. */
static inline bool mq_link_next_query(const mq_link *link, mq_answer answer, size_t *at, mq_query *query) {
    const uint8_t *first = link->workspace->queries, *next = *at == 0 ? first : first + *at;
    const uint8_t *end = answer.written == 0 ? first : first + answer.written;
    bool is_found = mq_next_query(link->is_mld ? 16 : 4, &next, end, query);
    *at = is_found ? (size_t)(next - first) : *at;
    return is_found;
}

/* WAIT. Returns when the next tick is due. */
static inline uint64_t mq_link_next_deadline(const mq_link *link) {
    return link->is_mld ? mq_mld_next_deadline(&link->of.mld) : mq_igmp_next_deadline(&link->of.igmp);
}

/* LOOK. Returns whether traffic from a source to a group is forwarded. */
static inline bool mq_link_forwards(const mq_link *link, const uint8_t group[16], const uint8_t source[16]) {
    return link->is_mld ? mq_mld_forwards(&link->of.mld, group, source) : mq_igmp_forwards(&link->of.igmp, group, source);
}

/* Writes at most `room` groups that the last call in the link's workspace changed, from the `first`th on. Returns how many changed
   in all. */
static inline uint32_t mq_link_changed(const mq_link *link, uint32_t first, uint8_t (*groups)[16], size_t room) {
    if (link->is_mld)
        return mq_mld_changed(&link->workspace->of.mld, first, groups, room);
    uint8_t(*narrow)[4] = (uint8_t(*)[4])groups; /* widened from the last one on, each before it is overwritten */
    uint32_t count = mq_igmp_changed(&link->workspace->of.igmp, first, narrow, room);
    for (size_t left = count < first ? 0 : count - first < room ? count - first : room; left > 0; left--) {
        uint8_t group[4] = {narrow[left - 1][0], narrow[left - 1][1], narrow[left - 1][2], narrow[left - 1][3]};
        mq_put_address(groups[left - 1], group, sizeof group);
    }
    return count;
}

/* A source, with the fields of mquerier.h; and a group with its `count` sources in ascending order. `sources` is null if there are
   none, or if they did not fit. */
typedef mq_mld_source mq_source;
typedef struct {
    uint8_t address[16];
    uint64_t deadline; /* the end of EXCLUDE mode; MQ_NONE in INCLUDE mode */
    uint64_t v1, v2;   /* the end of the older host present interval of version 1, of IGMPv2, or MQ_NONE */
    const mq_source *sources;
    uint32_t count;
} mq_group;

static inline void mq_copy_bytes(void *to, const void *from, size_t count) {
    while (count-- > 0)
        ((uint8_t *)to)[count] = ((const uint8_t *)from)[count];
}

/* Widens the sources of IGMP that a call wrote into an array: from the last one on, each is read before it is overwritten. */
static inline void mq_widen_sources(mq_source *sources, size_t count) {
    while (count-- > 0) {
        mq_igmp_source it;
        mq_copy_bytes(&it, (const uint8_t *)sources + count * sizeof it, sizeof it);
        mq_put_address(sources[count].address, it.address, sizeof it.address);
        sources[count].deadline = it.deadline;
    }
}

/* The same for groups of either family, whose sources are in `sources`. */
static inline void mq_widen_groups(bool is_mld, mq_group *groups, mq_page page, const mq_source *sources) {
    size_t left = page.sources;
    for (size_t at = page.groups; at-- > 0;) {
        mq_igmp_group igmp = {{0}, 0, 0, 0, 0};
        mq_mld_group mld = {{0}, 0, 0, 0};
        mq_group *it = &groups[at];
        if (is_mld) {
            mq_copy_bytes(&mld, (const uint8_t *)groups + at * sizeof mld, sizeof mld);
            mq_put_address(it->address, mld.address, sizeof mld.address);
            it->deadline = mld.deadline, it->v1 = mld.v1, it->v2 = MQ_NONE, it->count = mld.sources;
        } else {
            mq_copy_bytes(&igmp, (const uint8_t *)groups + at * sizeof igmp, sizeof igmp);
            mq_put_address(it->address, igmp.address, sizeof igmp.address);
            it->deadline = igmp.deadline, it->v1 = igmp.v1, it->v2 = igmp.v2, it->count = igmp.sources;
        }
        it->sources = it->count == 0 || it->count > left ? NULL : sources + (left -= it->count);
    }
}

/* Write one group, or groups in ascending order from the `first`th on, with their sources. Return how many of both. */
static inline mq_page mq_link_group_at(const mq_link *link, const uint8_t address[16], mq_group *group, mq_source *sources,
                                       size_t source_room) {
    mq_page page = {0, 0};
    if (link->is_mld) {
        page = mq_mld_group_at(&link->of.mld, address, (mq_mld_group *)(void *)group, sources, source_room);
    } else {
        mq_igmp_source *narrow = (mq_igmp_source *)(void *)sources;
        page = mq_igmp_group_at(&link->of.igmp, address, (mq_igmp_group *)(void *)group, narrow, source_room);
        mq_widen_sources(sources, page.sources);
    }
    mq_widen_groups(link->is_mld, group, page, sources);
    return page;
}
static inline mq_page mq_link_groups(const mq_link *link, uint32_t first, mq_group *groups, size_t room, mq_source *sources,
                                     size_t source_room) {
    mq_page page = {0, 0};
    if (link->is_mld) {
        page = mq_mld_groups(&link->of.mld, first, (mq_mld_group *)(void *)groups, room, sources, source_room);
    } else {
        mq_igmp_source *narrow = (mq_igmp_source *)(void *)sources;
        page = mq_igmp_groups(&link->of.igmp, first, (mq_igmp_group *)(void *)groups, room, narrow, source_room);
        mq_widen_sources(sources, page.sources);
    }
    mq_widen_groups(link->is_mld, groups, page, sources);
    return page;
}
static inline uint32_t mq_link_len(const mq_link *link) {
    return link->is_mld ? mq_mld_len(&link->of.mld) : mq_igmp_len(&link->of.igmp);
}

/* `is_querier` returns whether this router is querier. `other_querier` returns the end of another router's role, or MQ_NONE, and sets
   its address. */
static inline bool mq_link_is_querier(const mq_link *link) {
    return link->is_mld ? mq_mld_is_querier(&link->of.mld) : mq_igmp_is_querier(&link->of.igmp);
}
static inline uint64_t mq_link_other_querier(const mq_link *link, uint8_t address[16]) {
    for (size_t at = 0; at < 16; at++)
        address[at] = 0;
    return link->is_mld ? mq_mld_other_querier(&link->of.mld, address, 16) : mq_igmp_other_querier(&link->of.igmp, address, 4);
}

/* Sets the counters of a link; `size` is `sizeof *counts`. */
static inline void mq_link_counts(const mq_link *link, mq_counts *counts, size_t size) {
    if (link->is_mld)
        mq_mld_counts(&link->of.mld, counts, size);
    else
        mq_igmp_counts(&link->of.igmp, counts, size);
}

#endif

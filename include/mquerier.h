/* mquerier: the router side of IGMPv3 (RFC 3376) and MLDv2 (RFC 3810), for C99 and later, and for C++.

   A link is one interface of one family. The caller gives it datagrams and the time. The library writes the queries to be sent,
   and says what to forward. It has no clock, no socket, no thread and no state of its own, and it never allocates. This header
   is in the order of use: make, feed, send, wait, look. docs/EMBEDDING.md has whole programs, and a router's duties. mquerier-link.h
   has one set of calls for both families.

   The caller keeps these rules, which nothing checks:
   - A pointer points to as many elements as its prototype or its length says. It is null only where that length is 0.
   - Memory that a call writes overlaps no other argument.
   - A link or a workspace comes from a call that returned MQ_DONE. No copy of it is used. The struct may move, as by realloc.
   - The memory of a link or a workspace belongs to the library until the last call on it: nobody else reads or writes it, and
     it stays where it is. Afterwards the caller may free it, or make another link in it. There is nothing to close.
   - One thread at a time uses a link or a workspace, and no signal handler does.
   All other arguments are safe: no call stops, overflows, or reads or writes outside of what it was given.

   The time is in milliseconds of any clock that does not go back, at most MQ_LATEST. A time earlier than the previous one, or
   than `start`, is treated as the previous one. Addresses are in network order.

   The archive calls memcpy, memmove and memset, and nothing else. For x86-64 it needs a processor of level x86-64-v2; an older one
   raises an illegal instruction. A call uses at most 8 KB of stack; `mq_mld_receive` and `mq_mld_tick` use at most 20 KB. */
#ifndef MQUERIER_H
#define MQUERIER_H

#include <stdbool.h>
#include <stddef.h>
#include <stdint.h>
#ifndef MQ_NO_STDLIB /* defined by a program without <stdlib.h>, which then has no `mq_igmp_new` and `mq_mld_new` */
#include <stdlib.h>
#endif
#ifdef __cplusplus
extern "C" {
#endif

/* The version of this header. A program checks once that `mq_version`, the version of the archive, returns the same.
   It rises when a compiled program would no longer work. That is when a call, the layout of a struct or the meaning of a number
   changes, or when a size macro below counts too few bytes. Within a version calls and reasons may be added, and `mq_counts` may
   grow at its end. MQ_VERSION_TEXT is the version of the sources. */
#define MQ_VERSION 3
#define MQ_VERSION_TEXT "3.0.0"
uint32_t mq_version(void);

/* No deadline; and the latest time that a call accepts, 2^53 milliseconds. */
#define MQ_NONE UINT64_MAX
#define MQ_LATEST (UINT64_C(1) << 53)

/* Statuses, numbered from 0 on. A call with a status other than MQ_DONE has done nothing. */
enum {
    MQ_DONE,
    MQ_ROBUSTNESS,
    MQ_QUERY_INTERVAL,
    MQ_RESPONSE_INTERVAL,
    MQ_LAST_MEMBER_INTERVAL,
    MQ_LIMIT_GROUPS,
    MQ_LIMIT_GROUP_SOURCES,
    MQ_LIMIT_SOURCES,
    MQ_LIMIT_SCHEDULED,
    MQ_OWN_ADDRESS,
    MQ_MEMORY,
    MQ_MOMENT,
    MQ_WORKSPACE,
    MQ_HELD,
    MQ_LAST_MEMBER_QUERY_COUNT
};
static inline const char *mq_status_text(uint32_t status) {
    static const char *const texts[] = {"done",
                                        "the robustness variable is not within 1 to 7",
                                        "the query interval is not within 1 to 31744 seconds",
                                        "the response interval is out of range or not below the query interval",
                                        "the last member query interval is out of range",
                                        "the limit of groups is not within 1 to 65535",
                                        "the limit of sources of a group is not within 1 to 1024",
                                        "the limit of sources is not within 1 to 65535",
                                        "the limit of schedules is not within 1 to 65535",
                                        "no router may send queries from the own address",
                                        "the memory is too small",
                                        "the time is later than 2^53 milliseconds",
                                        "the workspace is too small for the link",
                                        "the link holds more than the configuration allows",
                                        "the last member query count is not within 0 to 7"};
    return status < sizeof texts / sizeof *texts ? texts[status] : "not a status";
}

/* MAKE. A range of groups: those that share the first `length` bits of `address`; a length beyond that of an address is one group. */
typedef struct {
    uint8_t address[4];
    uint8_t length;
    uint8_t rule; /* MQ_ALLOW or MQ_DENY; MQ_UNUSED if the place is unused, whatever stands in it */
} mq_igmp_range;
typedef struct {
    uint8_t address[16];
    uint8_t length;
    uint8_t rule;
} mq_mld_range;
enum { MQ_UNUSED, MQ_ALLOW, MQ_DENY };
#define MQ_RANGES 16

/* The configuration of a link. Timers use the exact intervals. A query rounds an interval down to the next value that its
   code can express: for IGMP 150 ms to 100 ms, 135 s to 128 s. Greater limits cost memory. More `groups` also cost time whenever a
   group begins or ends. The first of the `ranges` that has a group says whether hosts may ask for it. Without one they may, unless
   some range is MQ_ALLOW. A record, an older Report, a Leave or a Done for a group for which they may not ask is ignored. */
typedef struct {
    uint32_t robustness;              /* 1 to 7 */
    uint32_t query_interval;          /* seconds, 1 to 31744 */
    uint32_t response_interval;       /* milliseconds, 100 to 3174400, for MLD 1 to 8387584; less than the query interval */
    uint32_t last_member_interval;    /* milliseconds, 100 to 3174400, for MLD 1 to 8387584 */
    uint32_t last_member_query_count; /* queries for what hosts leave, 1 to 7; 0 is the robustness variable in force */
    uint32_t groups;                  /* most groups, 1 to 65535 */
    uint32_t group_sources;           /* most sources of one group, 1 to 1024 */
    uint32_t sources;                 /* most sources of all groups together, 1 to 65535 */
    uint32_t scheduled;               /* most schedules of repeated specific queries, 1 to 65535; a group has up to two */
    uint8_t own[4];                   /* the source address of queries; not 0.0.0.0, nor 224.0.0.0 or above */
    uint8_t source_specific;          /* unless 0, 232.0.0.0/8 is kept for source-specific multicast (RFC 4604) */
    mq_igmp_range ranges[MQ_RANGES];
} mq_igmp_config;
typedef struct {
    uint32_t robustness, query_interval, response_interval, last_member_interval, last_member_query_count;
    uint32_t groups, group_sources, sources, scheduled;
    uint8_t own[16];         /* in fe80::/10 */
    uint8_t source_specific; /* unless 0, ff3x::/32 is kept for source-specific multicast */
    mq_mld_range ranges[MQ_RANGES];
} mq_mld_config;

/* Returns the defaults of RFC 3376 section 8 and RFC 3810 section 9, with these limits. */
mq_igmp_config mq_igmp_defaults(const uint8_t own[4]);
mq_mld_config mq_mld_defaults(const uint8_t own[16]);
#define MQ_GROUPS 1024
#define MQ_IGMP_GROUP_SOURCES 366
#define MQ_MLD_GROUP_SOURCES 89
#define MQ_SOURCES 16384
#define MQ_SCHEDULED 256

/* A link; and a workspace, the scratch memory of its calls. One workspace serves any number of links of its family, in any order,
   if its own configuration allows at least their `groups` and `group_sources`. Nothing else in it counts. Each thread needs its
   own. */
typedef struct {
    void *link;
} mq_igmp;
typedef struct {
    void *link;
} mq_mld;
typedef struct {
    void *workspace;
} mq_igmp_workspace;
typedef struct {
    void *workspace;
} mq_mld_workspace;

/* Returns how many bytes of memory suffice for a link, and for a workspace, at any alignment. The sizes depend only on `groups`,
   `group_sources` and `sources`, and mean nothing if the configuration has a fault. */
size_t mq_igmp_size(mq_igmp_config config);
size_t mq_mld_size(mq_mld_config config);
size_t mq_igmp_workspace_size(mq_igmp_config config);
size_t mq_mld_workspace_size(mq_mld_config config);

/* The same as constants, for static arrays, at any address: never fewer bytes, and at most 1/20 and 150 bytes more. */
#define MQ_IGMP_SIZE(groups, sources) (2480 + 204 * (size_t)(groups) + 80 * (size_t)(sources))
#define MQ_MLD_SIZE(groups, sources) (2528 + 248 * (size_t)(groups) + 120 * (size_t)(sources))
#define MQ_IGMP_WORKSPACE_SIZE(groups, group_sources) (512 + 30 * (size_t)(groups) + 76 * (size_t)(group_sources))
#define MQ_MLD_WORKSPACE_SIZE(groups, group_sources) (464 + 90 * (size_t)(groups) + 144 * (size_t)(group_sources))

/* Memory in whole units of 16 bytes, which begins at a multiple of 16 and has fewer than 2^63 bytes; and those of any memory. */
typedef struct {
    void *first;
    size_t units;
} mq_units;
static inline mq_units mq_units_of(void *memory, size_t size) {
    const size_t before = (16 - (size_t)((uintptr_t)memory & 15)) & 15;
    mq_units units = {(void *)(uintptr_t)16, 0};
    if (before < size)
        units.first = (uint8_t *)memory + before, units.units = (size - before) / 16;
    return units;
}

/* `init` makes a link in `size` bytes of memory, whatever they hold, and sets `*link`; `init_units` is what it calls, for other
   languages. The link begins as querier at `start`: its first query is due then, and a tick sends it. Returns MQ_DONE, or the first
   status that holds: a fault of the configuration, in the order of the statuses; MQ_MOMENT; MQ_MEMORY, which is impossible with
   `mq_igmp_size` bytes. A call that fails does not change `*link`, and keeps no memory. */
uint32_t mq_igmp_init_units(mq_igmp_config config, uint64_t start, mq_units memory, mq_igmp *link);
uint32_t mq_mld_init_units(mq_mld_config config, uint64_t start, mq_units memory, mq_mld *link);
static inline uint32_t mq_igmp_init(mq_igmp_config config, uint64_t start, void *memory, size_t size, mq_igmp *link) {
    return mq_igmp_init_units(config, start, mq_units_of(memory, size), link);
}
static inline uint32_t mq_mld_init(mq_mld_config config, uint64_t start, void *memory, size_t size, mq_mld *link) {
    return mq_mld_init_units(config, start, mq_units_of(memory, size), link);
}

/* Makes a workspace, with the same statuses except MQ_MOMENT. */
uint32_t mq_igmp_workspace_init_units(mq_igmp_config config, mq_units memory, mq_igmp_workspace *workspace);
uint32_t mq_mld_workspace_init_units(mq_mld_config config, mq_units memory, mq_mld_workspace *workspace);
static inline uint32_t mq_igmp_workspace_init(mq_igmp_config config, void *memory, size_t size, mq_igmp_workspace *workspace) {
    return mq_igmp_workspace_init_units(config, mq_units_of(memory, size), workspace);
}
static inline uint32_t mq_mld_workspace_init(mq_mld_config config, void *memory, size_t size, mq_mld_workspace *workspace) {
    return mq_mld_workspace_init_units(config, mq_units_of(memory, size), workspace);
}

/* Gives a running link another configuration. Groups, timers and schedules stay, and later calls use the new values. Read
   `next_deadline` afterwards: it may be earlier. What a query of another router announces then still applies.
   - A variable that changes applies at once. While querier, the next general query is due at most one query interval later.
   - A querier stays querier. If another router is querier, but its address is not lower than a new own address, this router is
     querier at once, with a query due.
   - A limit may be at most that of `init`, whatever it was between. So the memory, the workspaces and `outlet_bytes` of then suffice.
   Returns MQ_DONE, or the first status that holds: a fault of the configuration, in the order of the statuses; MQ_MEMORY if a limit
   exceeds that of `init`; MQ_HELD if the link holds more than a limit allows, or a group that `source_specific` would not take. A
   group that other ranges deny stays until its timers end. A call that fails changes nothing. The list of `changed` stays, and nothing
   is sent. */
uint32_t mq_igmp_configure(mq_igmp *link, mq_igmp_config config);
uint32_t mq_mld_configure(mq_mld *link, mq_mld_config config);

#ifndef MQ_NO_STDLIB
/* A link and a workspace in one block of malloc. `new` returns as `init` does, and MQ_MEMORY also if malloc fails. */
typedef struct {
    mq_igmp link;
    mq_igmp_workspace workspace;
    void *block;
} mq_igmp_on_heap;
typedef struct {
    mq_mld link;
    mq_mld_workspace workspace;
    void *block;
} mq_mld_on_heap;
static inline uint32_t mq_igmp_new(mq_igmp_config config, uint64_t start, mq_igmp_on_heap *it) {
    const size_t size = mq_igmp_size(config), both = size + mq_igmp_workspace_size(config);
    void *block = both > size ? malloc(both) : NULL;
    uint32_t status = mq_igmp_init(config, start, block, block ? size : 0, &it->link);
    if (status == MQ_DONE)
        status = mq_igmp_workspace_init(config, (uint8_t *)block + size, both - size, &it->workspace);
    if (status != MQ_DONE)
        free(block);
    it->block = status == MQ_DONE ? block : NULL;
    return status;
}
static inline uint32_t mq_mld_new(mq_mld_config config, uint64_t start, mq_mld_on_heap *it) {
    const size_t size = mq_mld_size(config), both = size + mq_mld_workspace_size(config);
    void *block = both > size ? malloc(both) : NULL;
    uint32_t status = mq_mld_init(config, start, block, block ? size : 0, &it->link);
    if (status == MQ_DONE)
        status = mq_mld_workspace_init(config, (uint8_t *)block + size, both - size, &it->workspace);
    if (status != MQ_DONE)
        free(block);
    it->block = status == MQ_DONE ? block : NULL;
    return status;
}
static inline void mq_igmp_free(mq_igmp_on_heap *it) {
    free(it->block), it->block = NULL;
}
static inline void mq_mld_free(mq_mld_on_heap *it) {
    free(it->block), it->block = NULL;
}
#endif

/* FEED. The result of a call. */
typedef struct {
    uint32_t status;  /* MQ_DONE; or MQ_MOMENT, or else MQ_WORKSPACE: then the call did nothing, and all other fields are 0 */
    uint32_t dropped; /* 0, or why the datagram was dropped: the lowest reason that holds */
    uint32_t applied; /* applied records of the datagram; an older Report, a Leave or a Done is a record too */
    uint32_t ignored; /* records without a meaning for this link */
    uint32_t refused; /* records that would exceed a limit */
    uint32_t sent;    /* queries in `queries` */
    uint32_t unsent;  /* queries that did not fit, and are lost as on a link that loses them */
    uint64_t written; /* bytes of `queries` that were written */
} mq_answer;

/* Why a datagram was dropped, numbered from 1 on. */
enum {
    MQ_DROPPED_TRUNCATED = 1,
    MQ_DROPPED_CHECKSUM,
    MQ_DROPPED_UNKNOWN_TYPE,
    MQ_DROPPED_QUERY_LENGTH,
    MQ_DROPPED_SOURCE,
    MQ_DROPPED_HOP_LIMIT,
    MQ_DROPPED_NO_ALERT,
    MQ_DROPPED_OWN_OR_ZERO,
    MQ_DROPPED_IGMPV1_QUERY,
    MQ_DROPPED_GROUP
};
static inline const char *mq_dropped_text(uint32_t dropped) {
    static const char *const texts[] = {"taken",
                                        "a field is truncated",
                                        "the checksum is wrong",
                                        "the type is unknown",
                                        "a query of a length that no version has",
                                        "the source is not link-local",
                                        "the hop limit is not 1",
                                        "no Router Alert option",
                                        "a query from the own address or from 0.0.0.0",
                                        "a query of IGMPv1",
                                        "a group that hosts do not report"};
    return dropped < sizeof texts / sizeof *texts ? texts[dropped] : "not a reason";
}

/* Takes a datagram that came at `now`: its source and its bytes from the type of IGMP or ICMPv6 on, whose checksum is checked. MLD
   also has the destination, the hop limit and whether there is a Router Alert option. For IGMP any TTL and options are accepted;
   a router may check them itself. First the call does what a tick does, so no tick is needed before. A query that does not fit into
   the rest of `room` bytes is skipped for good; a later, shorter one may still fit. The bytes after `written` do not change. */
mq_answer mq_igmp_receive(mq_igmp *link, mq_igmp_workspace *workspace, const uint8_t source[4], const uint8_t *body, size_t length,
                          uint64_t now, uint8_t *queries, size_t room);
mq_answer mq_mld_receive(mq_mld *link, mq_mld_workspace *workspace, const uint8_t source[16], const uint8_t destination[16],
                         uint8_t hop_limit, bool alert, const uint8_t *body, size_t length, uint64_t now, uint8_t *queries,
                         size_t room);

/* Does what is due at `now` or before, however late. Missed general queries are sent once, and the next is due an interval after
   `now`. */
mq_answer mq_igmp_tick(mq_igmp *link, mq_igmp_workspace *workspace, uint64_t now, uint8_t *queries, size_t room);
mq_answer mq_mld_tick(mq_mld *link, mq_mld_workspace *workspace, uint64_t now, uint8_t *queries, size_t room);

/* Returns a `room` with which `unsent` is always 0 if no body is longer than `longest_body`: on Ethernet 1480 bytes, for MLD 1460.
   With the default limits that is 357 KB, for MLD 1.4 MB. Less usually suffices, because hosts rarely cause that much: a general
   query takes 18 bytes, for MLD 46. The result depends only on `groups`, `sources` and `scheduled` of the configuration. */
size_t mq_igmp_outlet_bytes(mq_igmp_config config, uint32_t longest_body);
size_t mq_mld_outlet_bytes(mq_mld_config config, uint32_t longest_body);

/* SEND. A query: its destination, of 4 bytes for IGMP and of 16 for MLD, and its message with its checksum, without the IP header.
   The caller sends it from the own address, with a TTL or hop limit of 1 and the Router Alert option. */
typedef struct {
    const uint8_t *destination, *message;
    size_t length;
} mq_query;

/* Sets `*query` to the query at `*at`, and moves `*at` to the next one. Returns false if no query is left. So begin with `const
   uint8_t *at = queries`, and let `end` be `queries + answer.written`, or `queries` if that is null. A query in there is its
   destination, of `width` bytes, the length of its message in two bytes, and its message. */
static inline bool mq_next_query(size_t width, const uint8_t **at, const uint8_t *end, mq_query *query) {
    const size_t head = width + 2, left = *at == end ? 0 : (size_t)(end - *at);
    if (left < head)
        return false;
    query->destination = *at;
    query->message = *at + head;
    query->length = ((size_t)(*at)[width] << 8) | (*at)[width + 1];
    if (left - head < query->length)
        return false;
    *at += head + query->length;
    return true;
}
static inline bool mq_igmp_next_query(const uint8_t **at, const uint8_t *end, mq_query *query) {
    return mq_next_query(4, at, end, query);
}
static inline bool mq_mld_next_query(const uint8_t **at, const uint8_t *end, mq_query *query) {
    return mq_next_query(16, at, end, query);
}

/* WAIT. Returns when the next tick is due: after a tick, later than that tick. If it exceeds MQ_LATEST, no tick is due again. */
uint64_t mq_igmp_next_deadline(const mq_igmp *link);
uint64_t mq_mld_next_deadline(const mq_mld *link);

/* LOOK. Returns whether traffic from a source to a group is forwarded, as of the last call. Without the group it is not. */
bool mq_igmp_forwards(const mq_igmp *link, const uint8_t group[4], const uint8_t source[4]);
bool mq_mld_forwards(const mq_mld *link, const uint8_t group[16], const uint8_t source[16]);

/* Writes at most `room` groups whose filter the last `tick` or `receive` in this workspace changed: in ascending order, from the
   `first`th on (0 is the lowest). Returns how many changed in all. A filter is the mode with the sources that INCLUDE forwards or
   EXCLUDE blocks. So a group that begins or ends has changed, and one that a record changes and a later one changes back. A group with
   only refreshed timers has not, nor has EXCLUDE with one more source that it forwards. If links share the workspace, look before the
   next call of any. A call that did nothing does not change this list. */
uint32_t mq_igmp_changed(const mq_igmp_workspace *workspace, uint32_t first, uint8_t (*addresses)[4], size_t room);
uint32_t mq_mld_changed(const mq_mld_workspace *workspace, uint32_t first, uint8_t (*addresses)[16], size_t room);

/* A group, a source of it, and how many of both a call wrote. A timer expires at its deadline. */
typedef struct {
    uint8_t address[4];
    uint32_t sources;  /* the number of its sources */
    uint64_t deadline; /* the end of EXCLUDE mode; MQ_NONE in INCLUDE mode */
    uint64_t v1, v2;   /* the end of the older host present interval of IGMPv1, of IGMPv2, or MQ_NONE; MLD has only v1 */
} mq_igmp_group;
typedef struct {
    uint8_t address[16];
    uint32_t sources;
    uint64_t deadline, v1;
} mq_mld_group;
typedef struct {
    uint8_t address[4];
    uint64_t deadline;
} mq_igmp_source; /* MQ_NONE, only in EXCLUDE mode: it is not forwarded */
typedef struct {
    uint8_t address[16];
    uint64_t deadline;
} mq_mld_source;
typedef struct {
    uint32_t groups, sources;
} mq_page;

/* Writes one group, and its sources in ascending order if all of them fit, otherwise none of them. Writes nothing if the link lacks
   the group. */
mq_page mq_igmp_group_at(const mq_igmp *link, const uint8_t address[4], mq_igmp_group *group, mq_igmp_source *sources, size_t room);
mq_page mq_mld_group_at(const mq_mld *link, const uint8_t address[16], mq_mld_group *group, mq_mld_source *sources, size_t room);

/* `len` returns how many groups the link has. `groups` writes groups in ascending order from the `first`th on, as many as fit with
   all their sources. The sources are consecutive in `sources`. If it writes none although some are left, there was no room for a
   group or for its sources, at most `group_sources`. The next page begins at `first + page.groups`; a call between may shift
   groups. */
uint32_t mq_igmp_len(const mq_igmp *link);
uint32_t mq_mld_len(const mq_mld *link);
mq_page mq_igmp_groups(const mq_igmp *link, uint32_t first, mq_igmp_group *groups, size_t group_room, mq_igmp_source *sources,
                       size_t source_room);
mq_page mq_mld_groups(const mq_mld *link, uint32_t first, mq_mld_group *groups, size_t group_room, mq_mld_source *sources,
                      size_t source_room);

/* `is_querier` returns whether this router is querier. `other_querier` returns the end of another router's role, and writes its
   address if that fits in `room`; without another querier it returns MQ_NONE. The other querier is the router with a lower address
   whose query came last. */
bool mq_igmp_is_querier(const mq_igmp *link);
bool mq_mld_is_querier(const mq_mld *link);
uint64_t mq_igmp_other_querier(const mq_igmp *link, uint8_t *address, size_t room);
uint64_t mq_mld_other_querier(const mq_mld *link, uint8_t *address, size_t room);

/* The counters of a link since it was made. A counter stays at its greatest value. */
typedef struct {
    uint64_t received, dropped;         /* datagrams; dropped ones among them */
    uint64_t dropped_by[10];            /* dropped datagrams by reason: [MQ_DROPPED_.. - 1] */
    uint64_t parsed[5];                 /* parsed datagrams by kind, with those that were dropped for reasons 5 to 10 */
    uint64_t applied, ignored, refused; /* records */
    uint64_t refused_by[7];             /* records, by the limit that they would exceed */
    uint64_t sent, unsent;              /* queries */
    uint64_t denied;                    /* ignored records for groups that the ranges do not allow */
} mq_counts;
/* The places in `parsed` and `refused_by`.
   - PARSED_OLDER_QUERY is a query of IGMPv1, IGMPv2 or MLDv1.
   - PARSED_LEAVE includes a Done.
   - REFUSED_LONG: the record has more sources than `group_sources`.
   - REFUSED_REPEATED: four records of its datagram came before it while the link had its group. A group that begins with the
     datagram gets five records.
   - REFUSED_MEMORY never happens.
   - The others: the link would exceed that limit. */
enum { MQ_PARSED_QUERY, MQ_PARSED_OLDER_QUERY, MQ_PARSED_OLDER_REPORT, MQ_PARSED_LEAVE, MQ_PARSED_REPORT };
enum {
    MQ_REFUSED_LONG,
    MQ_REFUSED_REPEATED,
    MQ_REFUSED_GROUPS,
    MQ_REFUSED_GROUP_SOURCES,
    MQ_REFUSED_SOURCES,
    MQ_REFUSED_SCHEDULED,
    MQ_REFUSED_MEMORY
};

/* `counters` writes the first `count` counters, in the order of `mq_counts`, and returns how many the archive has. `counts` sets
   all of `*counts` if `size` is `sizeof *counts`: a counter that the archive does not have is 0. */
size_t mq_igmp_counters(const mq_igmp *link, uint64_t *counters, size_t count);
size_t mq_mld_counters(const mq_mld *link, uint64_t *counters, size_t count);
static inline void mq_igmp_counts(const mq_igmp *link, mq_counts *counts, size_t size) {
    uint64_t *all = (uint64_t *)counts;
    for (size_t at = mq_igmp_counters(link, all, size / sizeof *all); at < size / sizeof *all; at++)
        all[at] = 0;
}
static inline void mq_mld_counts(const mq_mld *link, mq_counts *counts, size_t size) {
    uint64_t *all = (uint64_t *)counts;
    for (size_t at = mq_mld_counters(link, all, size / sizeof *all); at < size / sizeof *all; at++)
        all[at] = 0;
}

/* Returns how many comparisons of addresses and times `tick` and `receive` made, and how many list items they moved. */
uint64_t mq_igmp_spent(const mq_igmp *link);
uint64_t mq_mld_spent(const mq_mld *link);
uint64_t mq_igmp_moved(const mq_igmp *link);
uint64_t mq_mld_moved(const mq_mld *link);

/* Writes a line for logs: a message as `mquerier message` prints it, or its fault. Returns how many bytes it wrote before the line
   feed, which it adds if there is room; if it returns `room`, the line may be truncated. It adds no zero byte. */
size_t mq_igmp_line(const uint8_t *body, size_t length, uint8_t *line, size_t room);
size_t mq_mld_line(const uint8_t source[16], const uint8_t destination[16], const uint8_t *body, size_t length, uint8_t *line,
                   size_t room);

/* The same with the object of JSON that `mquerier message --json` prints (docs/OBJECTS.md). */
size_t mq_igmp_json(const uint8_t *body, size_t length, uint8_t *line, size_t room);
size_t mq_mld_json(const uint8_t source[16], const uint8_t destination[16], const uint8_t *body, size_t length, uint8_t *line,
                   size_t room);

#ifdef __cplusplus
}
#endif
#endif

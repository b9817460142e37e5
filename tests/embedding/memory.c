/* Tests the memory of links and workspaces of IGMP, or with -DMLD of MLD: memory [sizes].
   Links and workspaces are made in memory of each alignment with just enough bytes, and fail with a byte or a unit fewer. Then no byte
   changes, so a live link in that memory goes on. A link is made again in the memory of an old one. Many links of different limits use one workspace in any order. Links and workspaces of the
   greatest limits are made. With `sizes` the program compares the size macros with the sizes of all limits instead. */
#include "check.h"

#ifdef MLD
#define MQ(name) mq_mld_##name
#define LINK_SIZE MQ_MLD_SIZE
#define WORKSPACE_SIZE MQ_MLD_WORKSPACE_SIZE
#define ADDRESS \
    { 0xfe, 0x80, [15] = 9 }
typedef mq_mld link_of;
static const uint8_t host[16] = {0xfe, 0x80, [15] = 2}, routers[16] = {0xff, 2, [15] = 0x16};
static const uint8_t group[16] = {0xff, 0x0e, [14] = 0x12, 0x34};
/* A Report of MLDv2, TO_EX of no source. */
static const uint8_t report[] = {0x8f, 0, 0x5d, 0xc9, 0, 0, 0, 1, 4, 0, 0, 0, 0xff, 0x0e,
                                 0,    0, 0,    0,    0, 0, 0, 0, 0, 0, 0, 0, 0x12, 0x34};
#else
#define MQ(name) mq_igmp_##name
#define LINK_SIZE MQ_IGMP_SIZE
#define WORKSPACE_SIZE MQ_IGMP_WORKSPACE_SIZE
#define ADDRESS \
    { 10, 0, 0, 9 }
typedef mq_igmp link_of;
static const uint8_t host[4] = {10, 9, 0, 7}, group[4] = {239, 1, 2, 3};
/* A Report of IGMPv2. */
static const uint8_t report[] = {0x16, 0, 0xf8, 0xfa, 239, 1, 2, 3};
#endif
typedef MQ(config) config_of;
typedef MQ(workspace) workspace_of;

enum { LIMITS = 6, MEMORY = 1 << 18, UNIT = 16 };
static const uint32_t limits[LIMITS][3] = {{1, 1, 1}, {2, 3, 5}, {24, 16, 64}, {127, 7, 31}, {128, 64, 1024}, {300, 33, 1001}};
static uint8_t memory[MEMORY], work[MEMORY], queries[4096];

static config_of configured(const uint32_t it[3]) {
    static const uint8_t own[] = ADDRESS;
    config_of config = MQ(defaults)(own);
    config.groups = it[0], config.group_sources = it[1], config.sources = it[2];
    return config;
}

static mq_answer joined(link_of *link, workspace_of *workspace, uint64_t now) {
#ifdef MLD
    return mq_mld_receive(link, workspace, host, routers, 1, true, report, sizeof report, now, queries, sizeof queries);
#else
    return mq_igmp_receive(link, workspace, host, report, sizeof report, now, queries, sizeof queries);
#endif
}

/* Returns a place in `memory` with this many bytes after a multiple of 16, between bytes that must stay. */
static uint8_t *laid(size_t after) {
    memset(memory, 0x5a, sizeof memory);
    return memory + UNIT + (UNIT - (uintptr_t)memory % UNIT) + after;
}

static bool are_others_kept(const uint8_t *place, size_t size) {
    for (const uint8_t *at = memory; at < memory + MEMORY; at++)
        if ((at < place || at >= place + size) && *at != 0x5a)
            return false;
    return true;
}

/* Makes a link, or fails to. No other bytes change, and none at all if it fails. */
static void make_link(const config_of *config, uint8_t *place, size_t size, bool is_made) {
    workspace_of workspace;
    link_of link = {NULL};
    uint32_t status = MQ(init)(*config, 5, place, size, &link);
    CHECK(status == (is_made ? MQ_DONE : MQ_MEMORY) && (link.link != NULL) == is_made);
    CHECK(are_others_kept(place, is_made ? size : 0));
    if (!is_made)
        return;
    CHECK(MQ(workspace_init)(*config, work, sizeof work, &workspace) == MQ_DONE);
    CHECK(MQ(tick)(&link, &workspace, 5, queries, sizeof queries).sent == 1 && joined(&link, &workspace, 6).applied == 1);
    CHECK(MQ(len)(&link) == 1 && are_others_kept(place, size));
}

static void make_workspace(const config_of *config, uint8_t *place, size_t size, bool is_made) {
    workspace_of workspace = {NULL};
    link_of link;
    uint32_t status = MQ(workspace_init)(*config, place, size, &workspace);
    CHECK(status == (is_made ? MQ_DONE : MQ_MEMORY) && (workspace.workspace != NULL) == is_made);
    CHECK(are_others_kept(place, is_made ? size : 0));
    if (!is_made)
        return;
    CHECK(MQ(init)(*config, 5, work, sizeof work, &link) == MQ_DONE && joined(&link, &workspace, 6).applied == 1);
    CHECK(MQ(changed)(&workspace, 0, NULL, 0) == 1 && are_others_kept(place, size));
}

static void at_each_alignment(const config_of *config) {
    static void (*const made[])(const config_of *, uint8_t *, size_t, bool) = {make_link, make_workspace};
    const size_t sizes[] = {MQ(size)(*config), MQ(workspace_size)(*config)};
    for (int i = 0; i < 2; i++) {
        CHECK(sizes[i] % UNIT == 0 && sizes[i] + 3 * UNIT < MEMORY);
        for (size_t after = 0; after < UNIT; after++) {
            const size_t enough = sizes[i] - UNIT + (UNIT - after) % UNIT;
            made[i](config, laid(after), sizes[i], true);
            made[i](config, laid(after), enough, true);
            made[i](config, laid(after), enough - 1, false);
            made[i](config, laid(after), enough - UNIT, false);
        }
        made[i](config, laid(0), 0, false);
        made[i](config, laid(1), UNIT - 1, false);
    }
}

/* The old link is used up to its last call. The new link has other limits, and is like a link in fresh memory. */
static void remade(void) {
    config_of old = configured(limits[4]), config = configured(limits[3]);
    const mq_counts none = {0};
    mq_counts counts;
    workspace_of workspace;
    link_of link;
    CHECK(MQ(workspace_init)(old, work, sizeof work, &workspace) == MQ_DONE);
    for (int i = 0; i < 3; i++) {
        CHECK(MQ(init)(old, 0, memory, sizeof memory, &link) == MQ_DONE && joined(&link, &workspace, 10).applied == 1);
        CHECK(MQ(len)(&link) == 1);
        CHECK(MQ(init)(config, 700, memory, sizeof memory, &link) == MQ_DONE && MQ(len)(&link) == 0 && MQ(spent)(&link) == 0);
        CHECK(MQ(next_deadline)(&link) == 700 && MQ(is_querier)(&link) && !MQ(forwards)(&link, group, host));
        MQ(counts)(&link, &counts, sizeof counts);
        CHECK(!memcmp(&counts, &none, sizeof counts));
        CHECK(MQ(tick)(&link, &workspace, 700, queries, sizeof queries).sent == 1 && joined(&link, &workspace, 701).applied == 1);
        CHECK(MQ(forwards)(&link, group, host));
    }
}

/* A greater link and a greater workspace fail in the memory of a live link and its workspace. Both stay as they are, and go on. */
static void refused(void) {
    static uint8_t link_before[MEMORY], work_before[MEMORY];
    config_of config = configured(limits[4]), greater = configured(limits[5]);
    workspace_of workspace, other_work = {NULL};
    link_of link, other = {NULL};
    CHECK(MQ(init)(config, 0, memory, MQ(size)(config), &link) == MQ_DONE);
    CHECK(MQ(workspace_init)(config, work, MQ(workspace_size)(config), &workspace) == MQ_DONE);
    CHECK(joined(&link, &workspace, 10).applied == 1);
    memcpy(link_before, memory, sizeof memory), memcpy(work_before, work, sizeof work);
    for (size_t size = 0; size <= MQ(size)(config); size += UNIT)
        CHECK(MQ(init)(greater, 20, memory, size, &other) == MQ_MEMORY);
    greater.group_sources = 1024;
    for (size_t size = 0; size <= MQ(workspace_size)(config); size += UNIT)
        CHECK(MQ(workspace_init)(greater, work, size, &other_work) == MQ_MEMORY);
    CHECK(!other.link && !memcmp(link_before, memory, sizeof memory));
    CHECK(!other_work.workspace && !memcmp(work_before, work, sizeof work));
    CHECK(MQ(forwards)(&link, group, host) && MQ(len)(&link) == 1);
    CHECK(joined(&link, &workspace, 30).applied == 1 && MQ(changed)(&workspace, 0, NULL, 0) == 0);
}

/* Links in one workspace, each beside a twin with a workspace of its own. */
static void many(void) {
    enum { LINKS = 60, CALLS = 4000 };
    static MQ(on_heap) twins[LINKS];
    static link_of links[LINKS];
    static uint8_t of_twin[sizeof queries], place_of_all[1 << 20];
    uint8_t *place = place_of_all;
    uint64_t now = 0, number = 1;
    workspace_of workspace;
    CHECK(MQ(workspace_init)(configured(limits[4]), work, sizeof work, &workspace) == MQ_DONE);
    for (int i = 0; i < LINKS; i++) {
        config_of config = configured(limits[i % 3]);
        CHECK(place + MQ(size)(config) <= place_of_all + sizeof place_of_all);
        CHECK(MQ(init)(config, 0, place, MQ(size)(config), &links[i]) == MQ_DONE && MQ(new)(config, 0, &twins[i]) == MQ_DONE);
        place += MQ(size)(config);
    }
    for (int call = 0; call < CALLS; call++) {
        number = number * UINT64_C(6364136223846793005) + 1442695040888963407;
        int i = (int)((number >> 33) % LINKS);
        bool is_tick = number >> 63;
        now += (number >> 40) % 5000;
        mq_answer twin = is_tick ? MQ(tick)(&twins[i].link, &twins[i].workspace, now, queries, sizeof queries)
                                 : joined(&twins[i].link, &twins[i].workspace, now);
        memcpy(of_twin, queries, sizeof queries);
        mq_answer it = is_tick ? MQ(tick)(&links[i], &workspace, now, queries, sizeof queries) : joined(&links[i], &workspace, now);
        CHECK(it.status == twin.status && it.applied == twin.applied && it.sent == twin.sent && it.written == twin.written);
        CHECK(!memcmp(queries, of_twin, it.written) && MQ(next_deadline)(&links[i]) == MQ(next_deadline)(&twins[i].link));
        CHECK(MQ(changed)(&workspace, 0, NULL, 0) == MQ(changed)(&twins[i].workspace, 0, NULL, 0));
    }
    for (int i = 0; i < LINKS; i++)
        MQ(free)(&twins[i]);
}

/* With the greatest limits, and above the half of them, the returned size suffices. So does the heap. */
static void greatest(void) {
    static const uint32_t most[][3] = {{65535, 1024, 65535}, {65535, 1, 1}, {1, 1024, 1024}, {32768, 513, 32768}};
    for (size_t i = 0; i < sizeof most / sizeof *most; i++) {
        config_of config = configured(most[i]);
        config.scheduled = 65535;
        const size_t size = MQ(size)(config), of_work = MQ(workspace_size)(config);
        uint8_t *place = malloc(size), *place_of_work = malloc(of_work);
        workspace_of workspace;
        link_of link;
        MQ(on_heap) it;
        CHECK(place && place_of_work && MQ(init)(config, 5, place, size - UNIT - 1, &link) == MQ_MEMORY);
        CHECK(MQ(workspace_init)(config, place_of_work, of_work - UNIT - 1, &workspace) == MQ_MEMORY);
        CHECK(MQ(init)(config, 5, place, size - UNIT, &link) == MQ_DONE);
        CHECK(MQ(workspace_init)(config, place_of_work, of_work - UNIT, &workspace) == MQ_DONE);
        CHECK(joined(&link, &workspace, 6).applied == 1 && MQ(len)(&link) == 1);
        CHECK(MQ(new)(config, 5, &it) == MQ_DONE && joined(&it.link, &it.workspace, 6).applied == 1);
        MQ(free)(&it), free(place), free(place_of_work);
    }
}

/* A macro counts at least the size, and at most a 20th and 150 bytes more. */
static void bound(uint32_t groups, uint32_t group_sources, uint32_t sources) {
    const uint32_t it[3] = {groups, group_sources, sources};
    const config_of config = configured(it);
    const size_t size = MQ(size)(config), macro = LINK_SIZE(groups, sources);
    const size_t of_work = MQ(workspace_size)(config), of_macro = WORKSPACE_SIZE(groups, group_sources);
    CHECK(size <= macro && macro <= size + size / 20 + 150);
    CHECK(of_work <= of_macro && of_macro <= of_work + of_work / 20 + 150);
}

/* A size is a sum with a part for each limit. So it is enough to try every number of each limit beside some of the others. */
static void sizes(void) {
    static const uint32_t some[] = {1, 2, 3, 4, 129, 1024};
    for (size_t i = 0; i < sizeof some / sizeof *some; i++) {
        for (uint32_t all = 1; all <= 65535; all++) {
            bound(all, some[i], some[i]);
            bound(some[i], some[i], all);
            if (all <= 1024)
                bound(some[i], all, some[i]);
        }
    }
    bound(65535, 1024, 65535);
}

int main(int count, char **words) {
    if (count == 2 && strcmp(words[1], "sizes") == 0) {
        sizes();
        return told();
    }
    for (int i = 0; i < LIMITS; i++) {
        config_of config = configured(limits[i]);
        at_each_alignment(&config);
    }
    remade();
    refused();
    many();
    greatest();
    return told();
}

/* Compares the calls of mquerier-link.h with those of one family, over generated datagrams: link igmp|mld SEED EVENTS. Two links hear
   the same, one by each set of calls, in memory that begins at an odd address. */
#include "check.h"
#include "made_up.h"
#include "mquerier-link.h"

enum { ROOM = 65536, GROUPS = 32, SOURCES = 64, MEMORY = 32768 };

static uint8_t memory[2][MEMORY], work[2][MEMORY], queries[2][ROOM];
static mq_workspace workspace, other_workspace;
static mq_link link_of_either, other_link;
static mq_igmp igmp;
static mq_mld mld;
static mq_igmp_workspace workspace4;
static mq_mld_workspace workspace6;

/* Calls `mq_igmp_NAME` or `mq_mld_NAME` on the link of one family. */
#define CALL(name, ...) (is_mld ? mq_mld_##name(&mld, __VA_ARGS__) : mq_igmp_##name(&igmp, __VA_ARGS__))
#define ASK(name) (is_mld ? mq_mld_##name(&mld) : mq_igmp_##name(&igmp))

static void make(void) {
    uint8_t own[16] = {0};
    memcpy(own, is_mld ? own6 : own4, width);
    mq_config config = mq_config_defaults(is_mld, own), other;
    config.groups = 24, config.group_sources = 16, config.sources = 64, config.scheduled = 4, config.source_specific = 1;
    static const uint8_t few4[4] = {239, 0, 0, 8}, few6[16] = {0xff, 0x0e, [15] = 8};
    mq_put_range(&config.ranges[3], is_mld ? few6 : few4, width, is_mld ? 126 : 30, MQ_DENY);
    mq_igmp_config config4 = mq_igmp_config_of(config);
    mq_mld_config config6 = mq_mld_config_of(config);
    size_t size = is_mld ? mq_mld_size(config6) : mq_igmp_size(config4);
    CHECK(mq_link_size(config) == size && mq_config_status(config) == MQ_DONE);
    CHECK(mq_workspace_size(config) == (is_mld ? mq_mld_workspace_size(config6) : mq_igmp_workspace_size(config4)));
    CHECK(mq_outlet_bytes(config, 1480) == (is_mld ? mq_mld_outlet_bytes(config6, 1480) : mq_igmp_outlet_bytes(config4, 1480)));
    CHECK(mq_workspace_init(config, work[0] + 1, mq_workspace_size(config), queries[0], ROOM, &workspace) == MQ_DONE);
    CHECK(mq_link_init(config, 0, memory[0] + 1, size - 150, &workspace, &other_link) == MQ_MEMORY);
    CHECK(mq_link_init(config, 0, memory[0] + 1, size, &workspace, &link_of_either) == MQ_DONE);
    if (is_mld) {
        CHECK(mq_mld_workspace_init(config6, work[1], MEMORY, &workspace6) == MQ_DONE);
        CHECK(mq_mld_init(config6, 0, memory[1], MEMORY, &mld) == MQ_DONE);
    } else {
        CHECK(mq_igmp_workspace_init(config4, work[1], MEMORY, &workspace4) == MQ_DONE);
        CHECK(mq_igmp_init(config4, 0, memory[1], MEMORY, &igmp) == MQ_DONE);
    }
    other_workspace.is_mld = !is_mld;
    CHECK(mq_link_init(config, 0, memory[1], MEMORY, &other_workspace, &other_link) == MQ_WORKSPACE);
    other = config, other.robustness = 8;
    CHECK(mq_config_status(other) == MQ_ROBUSTNESS);
    other = config, other.last_member_query_count = 8;
    CHECK(mq_config_status(other) == MQ_LAST_MEMBER_QUERY_COUNT);
    other = config, other.own[0] = 224;
    CHECK(mq_config_status(other) == MQ_OWN_ADDRESS && mq_link_configure(&link_of_either, other) == MQ_OWN_ADDRESS);
    other = config, other.is_mld = !is_mld;
    CHECK(mq_link_configure(&link_of_either, other) == MQ_WORKSPACE);
    other = config, other.query_interval = 20, other.last_member_query_count = 3, other.groups = 23;
    CHECK(mq_link_configure(&link_of_either, other) == MQ_DONE && mq_link_next_deadline(&link_of_either) == 0);
    CHECK((is_mld ? mq_mld_configure(&mld, mq_mld_config_of(other)) : mq_igmp_configure(&igmp, mq_igmp_config_of(other)))
          == MQ_DONE);
}

static void compare_queries(mq_answer answer) {
    const uint8_t *next = queries[1];
    mq_query wanted, found;
    uint32_t count = 0;
    for (size_t at = 0; mq_link_next_query(&link_of_either, answer, &at, &found); count++) {
        bool is_there = mq_next_query(width, &next, queries[1] + answer.written, &wanted) && found.length == wanted.length;
        CHECK(is_there && !memcmp(found.destination, wanted.destination, width));
        CHECK(is_there && !memcmp(found.message, wanted.message, found.length));
    }
    CHECK(count == answer.sent);
}

static void compare_answers(mq_answer found, mq_answer wanted) {
    CHECK(found.status == wanted.status && found.dropped == wanted.dropped && found.applied == wanted.applied);
    CHECK(found.ignored == wanted.ignored && found.refused == wanted.refused && found.written == wanted.written);
    CHECK(found.sent == wanted.sent && found.unsent == wanted.unsent);
    compare_queries(found);
}

static void hear(uint64_t now, size_t room) {
    mq_envelope envelope = {.hop_limit = one_in(32) ? 2 : 1, .alert = !one_in(32)};
    memcpy(envelope.source, source, width);
    memcpy(envelope.destination, routers6, sizeof routers6);
    workspace.room = room;
    mq_answer found = mq_link_receive(&link_of_either, &envelope, body, length, now);
    compare_answers(found, is_mld ? mq_mld_receive(&mld, &workspace6, source, routers6, envelope.hop_limit, envelope.alert, body,
                                                   length, now, queries[1], room)
                                  : mq_igmp_receive(&igmp, &workspace4, source, body, length, now, queries[1], room));
}

static void tick(uint64_t now, size_t room) {
    workspace.room = room;
    mq_answer found = mq_link_tick(&link_of_either, now);
    compare_answers(found, is_mld ? mq_mld_tick(&mld, &workspace6, now, queries[1], room)
                                  : mq_igmp_tick(&igmp, &workspace4, now, queries[1], room));
}

/* An address has the bytes of the family's, then zeros. */
static bool is_address(const uint8_t found[16], const uint8_t *wanted) {
    static const uint8_t zeros[16];
    return !memcmp(found, wanted, width) && !memcmp(found + width, zeros, 16 - width);
}

static void compare_changed(void) {
    static uint8_t found[GROUPS][16], page4[GROUPS][4], page6[GROUPS][16];
    uint32_t first = (uint32_t)below(3);
    size_t room = below(GROUPS + 1);
    uint32_t count = is_mld ? mq_mld_changed(&workspace6, first, page6, room) : mq_igmp_changed(&workspace4, first, page4, room);
    memset(found, 0x55, sizeof found);
    CHECK(mq_link_changed(&link_of_either, first, found, room) == count);
    for (size_t at = 0; at < room && first + at < count; at++)
        CHECK(is_address(found[at], is_mld ? page6[at] : page4[at]));
    for (size_t at = first > count ? 0 : room < count - first ? room : count - first; at < GROUPS; at++)
        CHECK(found[at][0] == 0x55 && found[at][15] == 0x55);
}

static void compare_group(const mq_group *found, const mq_group *wanted, size_t left) {
    CHECK(is_address(found->address, wanted->address) && found->deadline == wanted->deadline);
    CHECK(found->v1 == wanted->v1 && found->v2 == wanted->v2 && found->count == wanted->count);
    CHECK((found->sources == NULL) == (wanted->count == 0 || wanted->count > left));
    for (uint32_t at = 0; found->sources != NULL && at < found->count; at++) {
        CHECK(is_address(found->sources[at].address, wanted->sources[at].address));
        CHECK(found->sources[at].deadline == wanted->sources[at].deadline);
    }
}

/* Compares a page of groups, or one group: the family's structs are copied field by field. */
static void compare_groups(void) {
    static mq_group found[GROUPS], wanted[GROUPS];
    static mq_source found_sources[SOURCES], sources6[SOURCES], wanted_sources[SOURCES];
    static mq_igmp_group groups4[GROUPS];
    static mq_igmp_source sources4[SOURCES];
    static mq_mld_group groups6[GROUPS];
    uint8_t group[16] = {0};
    bool is_one = one_in(2);
    uint32_t first = (uint32_t)below(GROUPS);
    size_t rows = is_one ? 1 : below(GROUPS + 1), room = below(SOURCES + 1), left;
    spell_group(group);
    mq_page page = is_one   ? is_mld ? mq_mld_group_at(&mld, group, groups6, sources6, room)
                                     : mq_igmp_group_at(&igmp, group, groups4, sources4, room)
                     : is_mld ? mq_mld_groups(&mld, first, groups6, rows, sources6, room)
                            : mq_igmp_groups(&igmp, first, groups4, rows, sources4, room);
    mq_page other = is_one ? mq_link_group_at(&link_of_either, group, found, found_sources, room)
                           : mq_link_groups(&link_of_either, first, found, rows, found_sources, room);
    CHECK(page.groups == other.groups && page.sources == other.sources);
    for (uint32_t at = 0; at < page.sources; at++) {
        memcpy(wanted_sources[at].address, is_mld ? sources6[at].address : sources4[at].address, width);
        wanted_sources[at].deadline = is_mld ? sources6[at].deadline : sources4[at].deadline;
    }
    left = page.sources;
    for (uint32_t at = 0; at < page.groups; at++) {
        memcpy(wanted[at].address, is_mld ? groups6[at].address : groups4[at].address, width);
        wanted[at].deadline = is_mld ? groups6[at].deadline : groups4[at].deadline;
        wanted[at].v1 = is_mld ? groups6[at].v1 : groups4[at].v1;
        wanted[at].v2 = is_mld ? MQ_NONE : groups4[at].v2;
        wanted[at].count = is_mld ? groups6[at].sources : groups4[at].sources;
        wanted[at].sources = wanted_sources + (page.sources - left);
        compare_group(&found[at], &wanted[at], left);
        left -= found[at].sources == NULL ? 0 : wanted[at].count;
    }
}

static void compare_state(void) {
    uint8_t group[16], from[16], other[16], wanted[16] = {0};
    mq_counts found, counts;
    spell_group(group);
    spell_source(from);
    CHECK(mq_link_next_deadline(&link_of_either) == ASK(next_deadline));
    CHECK(mq_link_len(&link_of_either) == ASK(len));
    CHECK(mq_link_is_querier(&link_of_either) == ASK(is_querier));
    CHECK(mq_link_other_querier(&link_of_either, other) == CALL(other_querier, wanted, width));
    CHECK(!memcmp(other, wanted, sizeof wanted));
    CHECK(mq_link_forwards(&link_of_either, group, from) == CALL(forwards, group, from));
    mq_link_counts(&link_of_either, &found, sizeof found);
    if (is_mld)
        mq_mld_counts(&mld, &counts, sizeof counts);
    else
        mq_igmp_counts(&igmp, &counts, sizeof counts);
    CHECK(!memcmp(&found, &counts, sizeof counts));
}

int main(int count, char **words) {
    if (count != 4)
        return 2;
    is_mld = strcmp(words[1], "mld") == 0;
    width = is_mld ? 16 : 4;
    state = strtoull(words[2], NULL, 10) * UINT64_C(0x9e3779b97f4a7c15) + 1;
    make();
    for (uint64_t now = 0, left = strtoull(words[3], NULL, 10); left > 0; left--) {
        now += one_in(256) ? below(600000) : one_in(16) ? below(20000) : below(300);
        make_up();
        if (one_in(8))
            tick(now, one_in(8) ? below(400) : ROOM);
        else
            hear(now, one_in(8) ? below(400) : ROOM);
        compare_changed();
        compare_groups();
        compare_state();
    }
    return told();
}

/* Every call of a link of MLD. The expected bytes of messages come from RFC 3810 section 5, not from the library. */
#include "check.h"

#define LINK_LOCAL(last) \
    { 0xfe, 0x80, [15] = (last) }
static const uint8_t own[16] = LINK_LOCAL(1), host[16] = LINK_LOCAL(2), group[16] = {0xff, 0x0e, [14] = 0x12, 0x34};
static const uint8_t routers[16] = {0xff, 2, [15] = 0x16}, all[16] = {0xff, 2, [15] = 2}, source[16] = {0x20, 1, [15] = 9};
/* A Report of MLDv2, TO_EX of no source; a Report of MLDv1; a Done. */
static const uint8_t report[] = {0x8f, 0, 0x5d, 0xc9, 0, 0, 0, 1, 4, 0, 0, 0, 0xff, 0x0e,
                                 0,    0, 0,    0,    0, 0, 0, 0, 0, 0, 0, 0, 0x12, 0x34};
static const uint8_t join[] = {0x83, 0, 0x5b, 0xa4, 0, 0, 0, 0, 0xff, 0x0e, 0, 0, 0, 0, 0, 0, 0, 0, 0, 0, 0, 0, 0x12, 0x34};
static const uint8_t done[] = {0x84, 0, 0x6c, 0xe2, 0, 0, 0, 0, 0xff, 0x0e, 0, 0, 0, 0, 0, 0, 0, 0, 0, 0, 0, 0, 0x12, 0x34};

static const char *general = "ff02"
                             "000000000000000000000000"
                             "0001"
                             "001c"
                             "8200569627100000"
                             "00000000000000000000000000000000"
                             "027d0000";
static const char *specific = "ff0e"
                              "000000000000000000000000"
                              "1234"
                              "001c"
                              "8200563c03e80000"
                              "ff0e0000000000000000000000001234"
                              "027d0000";

/* Two links use one workspace in turn; a smaller one is too small. */
static void shared(void) {
    uint8_t room[200];
    mq_mld_config c = mq_mld_defaults(own), less = c;
    mq_mld_on_heap it[2], small;
    mq_answer a;
    less.group_sources = c.group_sources - 1;
    CHECK(mq_mld_new(c, 0, &it[0]) == MQ_DONE && mq_mld_new(c, 0, &it[1]) == MQ_DONE && mq_mld_new(less, 0, &small) == MQ_DONE);
    mq_mld *one = &it[0].link, *two = &it[1].link;
    mq_mld_workspace *workspace = &it[1].workspace;
    CHECK(mq_mld_tick(one, &small.workspace, 0, room, sizeof room).status == MQ_WORKSPACE && mq_mld_next_deadline(one) == 0);
    a = mq_mld_receive(one, &small.workspace, host, routers, 1, true, report, sizeof report, 0, room, sizeof room);
    CHECK(a.status == MQ_WORKSPACE && !a.applied && mq_mld_len(one) == 0);
    CHECK(mq_mld_tick(one, &small.workspace, UINT64_MAX, room, sizeof room).status == MQ_MOMENT);
    for (int i = 0; i < 2; i++) {
        a = mq_mld_tick(&it[i].link, workspace, 0, room, sizeof room);
        CHECK(a.status == MQ_DONE && a.sent == 1 && are_bytes(room, 46, general));
    }
    a = mq_mld_receive(one, workspace, host, routers, 1, true, report, sizeof report, 10, room, sizeof room);
    CHECK(!a.dropped && a.applied == 1 && !a.sent);
    a = mq_mld_receive(two, workspace, host, routers, 2, true, report, sizeof report, 10, room, sizeof room);
    CHECK(a.dropped == MQ_DROPPED_HOP_LIMIT);
    CHECK(mq_mld_forwards(one, group, source) && !mq_mld_forwards(two, group, source));
    CHECK(mq_mld_len(one) == 1 && mq_mld_len(two) == 0);
    mq_mld_free(&small);
    for (int i = 0; i < 2; i++)
        mq_mld_free(&it[i]);
}

/* A running link gets another own address, by which the checksums change, and other limits. */
static void configured(void) {
    uint8_t room[64], changed_own[46];
    mq_mld_config c = mq_mld_defaults(own), next;
    mq_mld_on_heap it;
    mq_mld_group held;
    c.groups = 2, next = c;
    CHECK(mq_mld_new(c, 0, &it) == MQ_DONE);
    CHECK(mq_mld_receive(&it.link, &it.workspace, host, routers, 1, true, report, sizeof report, 0, room, sizeof room).sent == 1);
    CHECK(are_bytes(room, 46, general) && mq_mld_next_deadline(&it.link) == 31250);
    memcpy(changed_own, room, sizeof changed_own);
    next.own[15] = 3, next.groups = 1; /* the checksum is lower by 2 */
    changed_own[21] -= 2;
    CHECK(mq_mld_configure(&it.link, next) == MQ_DONE && mq_mld_is_querier(&it.link) && mq_mld_next_deadline(&it.link) == 31250);
    CHECK(mq_mld_tick(&it.link, &it.workspace, 31250, room, sizeof room).sent == 1 && !memcmp(room, changed_own, 46));
    CHECK(mq_mld_group_at(&it.link, group, &held, NULL, 0).groups == 1 && held.deadline == 260000);
    next.groups = 3;
    CHECK(mq_mld_configure(&it.link, next) == MQ_MEMORY);
    next.groups = 0;
    CHECK(mq_mld_configure(&it.link, next) == MQ_LIMIT_GROUPS);
    next.groups = 2, next.source_specific = 1;
    CHECK(mq_mld_configure(&it.link, next) == MQ_DONE);
    mq_mld_free(&it);
}

/* Ranges of groups that hosts may ask for. */
static void ranged(void) {
    mq_mld_config c = mq_mld_defaults(own);
    mq_mld_on_heap it;
    mq_counts counts;
    for (size_t at = 0; at < MQ_RANGES; at++)
        CHECK(c.ranges[at].rule == MQ_UNUSED);
    c.ranges[0] = (mq_mld_range){{0xff, 0x0e, [14] = 0x12, 0x35}, 127, MQ_DENY};
    CHECK(mq_mld_new(c, 0, &it) == MQ_DONE);
    CHECK(mq_mld_receive(&it.link, &it.workspace, host, routers, 1, true, report, sizeof report, 0, NULL, 0).ignored == 1);
    CHECK(mq_mld_receive(&it.link, &it.workspace, host, group, 1, true, join, sizeof join, 0, NULL, 0).ignored == 1);
    CHECK(mq_mld_receive(&it.link, &it.workspace, host, all, 1, true, done, sizeof done, 0, NULL, 0).ignored == 1);
    mq_mld_counts(&it.link, &counts, sizeof counts);
    CHECK(counts.ignored == 3 && counts.denied == 3 && mq_mld_len(&it.link) == 0);
    c.ranges[0].length = 128;
    CHECK(mq_mld_configure(&it.link, c) == MQ_DONE);
    CHECK(mq_mld_receive(&it.link, &it.workspace, host, routers, 1, true, report, sizeof report, 0, NULL, 0).applied == 1);
    mq_mld_free(&it);
}

/* Changed groups: two begin, one ends, and some calls change none. Also the list of a workspace that two links share. */
static void changed(void) {
    static const uint8_t two[] = {0x8f, 0,    0x48, 0x70, 0, 0, 0, 2, 4, 0, 0,    0,    0xff, 0x0e, 0,    0,
                                  0,    0,    0,    0,    0, 0, 0, 0, 0, 0, 0x12, 0x35, 4,    0,    0,    0,
                                  0xff, 0x0e, 0,    0,    0, 0, 0, 0, 0, 0, 0,    0,    0,    0,    0x12, 0x34};
    uint8_t addresses[3][16], empty[3][16];
    mq_mld_config c = mq_mld_defaults(own);
    mq_mld_on_heap it, other;
    mq_mld_group held;
    mq_answer a;
    CHECK(mq_mld_new(c, 0, &it) == MQ_DONE && mq_mld_new(c, 0, &other) == MQ_DONE);
    mq_mld *link = &it.link;
    mq_mld_workspace *workspace = &it.workspace;
    memset(empty, 0x55, sizeof empty);
    memset(addresses, 0x55, sizeof addresses);
    a = mq_mld_receive(link, workspace, host, routers, 1, true, two, sizeof two, 10, NULL, 0);
    CHECK(!a.dropped && a.applied == 2 && mq_mld_changed(workspace, 0, addresses, 1) == 2);
    CHECK(!memcmp(addresses[0], group, 16) && !memcmp(addresses[1], empty, 32));
    CHECK(mq_mld_changed(workspace, 1, addresses, 3) == 2 && addresses[0][15] == 0x35 && !memcmp(addresses[1], empty, 32));
    CHECK(mq_mld_changed(workspace, 0, addresses, 3) == 2 && !memcmp(addresses[0], group, 16));
    CHECK(addresses[1][0] == 0xff && addresses[1][15] == 0x35 && !memcmp(addresses[2], empty, 16));
    memset(addresses, 0x55, sizeof addresses);
    CHECK(mq_mld_changed(workspace, 2, addresses, 3) == 2 && mq_mld_changed(workspace, 0, NULL, 0) == 2);
    a = mq_mld_receive(link, workspace, host, routers, 1, true, report, sizeof report, 1000, NULL, 0);
    CHECK(a.applied == 1 && mq_mld_changed(workspace, 0, addresses, 3) == 0);
    CHECK(mq_mld_tick(link, workspace, 260009, NULL, 0).status == MQ_DONE && mq_mld_changed(workspace, 0, addresses, 3) == 0);
    CHECK(!memcmp(addresses, empty, sizeof empty));
    CHECK(mq_mld_tick(link, workspace, 260010, NULL, 0).status == MQ_DONE && mq_mld_changed(workspace, 0, addresses, 3) == 1);
    CHECK(addresses[0][15] == 0x35 && !memcmp(addresses[1], empty, 32));
    CHECK(mq_mld_group_at(link, addresses[0], &held, NULL, 0).groups == 0);
    a = mq_mld_receive(&other.link, workspace, host, routers, 1, true, two, sizeof two, 10, NULL, 0);
    CHECK(a.applied == 2 && mq_mld_changed(workspace, 1, addresses, 3) == 2 && addresses[0][15] == 0x35);
    CHECK(mq_mld_changed(&other.workspace, 0, addresses, 3) == 0);
    CHECK(mq_mld_tick(link, &other.workspace, 261000, NULL, 0).status == MQ_DONE && mq_mld_len(link) == 0);
    CHECK(mq_mld_changed(&other.workspace, 0, addresses, 3) == 1 && !memcmp(addresses[0], group, 16));
    CHECK(mq_mld_changed(workspace, 0, addresses, 3) == 2);
    mq_mld_free(&it);
    mq_mld_free(&other);
}

static void sign(uint8_t *message, size_t length) {
    uint32_t sum = (uint32_t)length + 58;
    message[2] = message[3] = 0;
    for (size_t i = 0; i < 16; i += 2)
        sum += ((uint32_t)host[i] << 8 | host[i + 1]) + ((uint32_t)routers[i] << 8 | routers[i + 1]);
    for (size_t i = 0; i < length; i += 2)
        sum += (uint32_t)message[i] << 8 | message[i + 1];
    while (sum >> 16)
        sum = (sum & 0xffff) + (sum >> 16);
    message[2] = (uint8_t)(~sum >> 8);
    message[3] = (uint8_t)~sum;
}

/* Writes a Report for `groups` groups of ff0e:: from the `first` on. Each has `times` records of a kind with 89 sources. Returns
   its length. */
static size_t sources_report(uint8_t *out, uint8_t kind, int first, int groups, int times) {
    size_t length = 8;
    memset(out, 0, 8);
    out[0] = 0x8f;
    out[7] = (uint8_t)(groups * times);
    for (int i = 0; i < groups * times; i++) {
        uint8_t head[20] = {kind, 0, 0, 89, 0xff, 0x0e, [19] = (uint8_t)(1 + first + i / times)};
        memcpy(out + length, head, 20);
        length += 20;
        for (int n = 0; n < 89; n++) {
            uint8_t address[16] = {0x20, 1, [14] = (uint8_t)(n >> 8), (uint8_t)n};
            memcpy(out + length, address, 16);
            length += 16;
        }
    }
    sign(out, length);
    return length;
}

/* The most queries of one datagram of at most `longest` bytes, when all earlier queries are due again too. Four groups have all
   their sources, and up to four records name each. */
static void most_queries(uint32_t longest) {
    static uint8_t body[65536];
    mq_mld_on_heap it;
    mq_answer a;
    mq_mld_config c = mq_mld_defaults(own);
    c.groups = 4, c.sources = 4 * 89;
    size_t room = mq_mld_outlet_bytes(c, longest), length;
    uint8_t *out = malloc(room);
    CHECK(out != NULL && mq_mld_new(c, 0, &it) == MQ_DONE);
    a = mq_mld_receive(&it.link, &it.workspace, host, routers, 1, true, body, sources_report(body, 5, 0, 4, 1), 10, NULL, 0);
    CHECK(!a.dropped && a.applied == 4 && a.unsent == 1);
    for (uint64_t now = 20; now <= 1020; now += 1000) {
        uint32_t sent = 0;
        for (int i = 0; i < 4; i++) {
            length = longest < 65535 ? sources_report(body, 6, i, 1, 1) : sources_report(body, 6, 0, 4, 4);
            CHECK(length <= longest);
            a = mq_mld_receive(&it.link, &it.workspace, host, routers, 1, true, body, length, now, out, room);
            CHECK(!a.dropped && a.applied >= 1 && !a.refused && a.unsent == 0 && a.written <= room);
            sent += a.sent;
        }
        CHECK(sent >= 4);
    }
    mq_mld_free(&it);
    free(out);
}

int main(void) {
    uint8_t room[200], address[16] = {0};
    const uint8_t *at = room;
    mq_query q = {NULL, NULL, 0};
    mq_mld_on_heap it = {{NULL}, {NULL}, NULL};
    mq_answer a;
    mq_mld_group groups[2];
    mq_mld_source sources[2];
    mq_page page;
    mq_counts counts;
    char line[80];
    mq_mld_config c = mq_mld_defaults(own), faulty = c;
    CHECK(c.robustness == 2 && c.query_interval == 125 && c.response_interval == 10000 && c.group_sources == 89);
    CHECK(!memcmp(c.own, own, 16) && c.scheduled == 256);
    faulty.own[0] = 0x20;
    CHECK(mq_mld_new(faulty, 0, &it) == MQ_OWN_ADDRESS);
    CHECK(mq_mld_new(c, MQ_LATEST + 1, &it) == MQ_MOMENT && it.link.link == NULL);
    CHECK(mq_mld_new(c, 0, &it) == MQ_DONE);
    a = mq_mld_tick(&it.link, &it.workspace, 0, room, 45);
    CHECK(a.unsent == 1 && a.written == 0);
    a = mq_mld_tick(&it.link, &it.workspace, 31250, room, 46);
    CHECK(a.sent == 1 && a.written == 46 && are_bytes(room, 46, general));
    CHECK(mq_mld_next_query(&at, room + a.written, &q) && q.length == 28 && !mq_mld_next_query(&at, room + a.written, &q));
    a = mq_mld_tick(&it.link, &it.workspace, UINT64_MAX, room, sizeof room);
    CHECK(a.status == MQ_MOMENT && mq_mld_next_deadline(&it.link) == 31250 + 125000);
    a = mq_mld_receive(&it.link, &it.workspace, host, routers, 1, false, report, sizeof report, 40000, room, sizeof room);
    CHECK(a.dropped == 7);
    a = mq_mld_receive(&it.link, &it.workspace, host, routers, 2, true, report, sizeof report, 40000, room, sizeof room);
    CHECK(a.dropped == 6);
    a = mq_mld_receive(&it.link, &it.workspace, host, all, 1, true, report, sizeof report, 40000, room, sizeof room);
    CHECK(a.dropped == 2);
    a = mq_mld_receive(&it.link, &it.workspace, host, routers, 1, true, report, sizeof report, 40000, room, sizeof room);
    CHECK(!a.dropped && a.applied == 1 && !a.sent);
    CHECK(mq_mld_forwards(&it.link, group, source) && !mq_mld_forwards(&it.link, all, source) && mq_mld_len(&it.link) == 1);
    page = mq_mld_groups(&it.link, 0, groups, 2, sources, 2);
    CHECK(page.groups == 1 && page.sources == 0 && !memcmp(groups[0].address, group, 16));
    CHECK(groups[0].deadline == 40000 + 260000 && groups[0].v1 == MQ_NONE);
    a = mq_mld_receive(&it.link, &it.workspace, host, group, 1, true, join, sizeof join, 40500, room, sizeof room);
    CHECK(!a.dropped && a.applied == 1);
    page = mq_mld_groups(&it.link, 0, groups, 2, sources, 2);
    CHECK(page.groups == 1 && groups[0].v1 == 40500 + 260000);
    a = mq_mld_receive(&it.link, &it.workspace, host, all, 1, true, done, sizeof done, 41000, room, sizeof room);
    CHECK(!a.dropped && a.sent == 1 && are_bytes(room, a.written, specific));
    CHECK(mq_mld_is_querier(&it.link) && mq_mld_other_querier(&it.link, address, sizeof address) == MQ_NONE);
    mq_mld_counts(&it.link, &counts, sizeof counts);
    CHECK(counts.received == 6 && counts.dropped == 3 && counts.dropped_by[1] == 1 && counts.dropped_by[5] == 1
          && counts.dropped_by[6] == 1);
    CHECK(counts.sent == 2 && counts.unsent == 1 && mq_mld_spent(&it.link) > 0 && mq_mld_moved(&it.link) > 0);
    CHECK(mq_mld_line(host, all, done, sizeof done, (uint8_t *)line, sizeof line) == 22
          && !memcmp(line, "leave group ff0e::1234", 22));
    memset(line, '-', sizeof line);
    CHECK(mq_mld_line(host, all, done, sizeof done, (uint8_t *)line, 21) == 21 && !memcmp(line, "leave group ff0e::123-", 22));
    CHECK(mq_mld_json(host, all, done, sizeof done, (uint8_t *)line, sizeof line) == 37
          && !memcmp(line, "{\"type\":\"leave\",\"group\":\"ff0e::1234\"}", 37));
    CHECK(mq_mld_outlet_bytes(c, 8) > 46 && mq_mld_outlet_bytes(c, 8) < mq_mld_outlet_bytes(c, 65535));
    CHECK(mq_mld_counters(&it.link, NULL, 0) == sizeof counts / 8);
    mq_mld_free(&it);
    shared();
    configured();
    ranged();
    most_queries(1480);
    most_queries(65535);
    changed();
    return told();
}

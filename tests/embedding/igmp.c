/* Every call of a link of IGMP. The expected bytes of messages come from RFC 3376 section 4, not from the library. */
#include "check.h"

static const uint8_t own[4] = {10, 9, 0, 9}, host[4] = {10, 9, 0, 7}, lower[4] = {10, 9, 0, 1};
static const uint8_t group[4] = {239, 1, 2, 3}, other[4] = {232, 1, 1, 1}, source[4] = {10, 0, 0, 1};
static const uint8_t join[] = {0x16, 0, 0xf8, 0xfa, 239, 1, 2, 3}, leave[] = {0x17, 0, 0xf7, 0xfa, 239, 1, 2, 3};
static const uint8_t query[] = {0x11, 0x64, 0xec, 0x1e, 0, 0, 0, 0, 2, 0x7d, 0, 0};
static const uint8_t allow[] = {0x22, 0, 0xdb, 0xf6, 0, 0, 0, 1, 5, 0, 0, 2, 232, 1, 1, 1, 10, 0, 0, 1, 10, 0, 0, 2};
static const uint8_t block[] = {0x22, 0, 0xe4, 0xf9, 0, 0, 0, 1, 6, 0, 0, 1, 232, 1, 1, 1, 10, 0, 0, 1};

static void configurations(void) {
    mq_igmp_config c = mq_igmp_defaults(own), faulty;
    mq_igmp_on_heap it = {{NULL}, {NULL}, NULL};
    CHECK(c.robustness == 2 && c.query_interval == 125 && c.response_interval == 10000 && c.last_member_interval == 1000);
    CHECK(c.last_member_query_count == 0);
    CHECK(c.groups == 1024 && c.group_sources == 366 && c.sources == 16384 && c.scheduled == 256 && !c.source_specific);
    CHECK(!memcmp(c.own, own, 4));
#define FAULTY(change, status) (faulty = c, faulty.change, CHECK(mq_igmp_new(faulty, 0, &it) == (status)))
    FAULTY(robustness = 8, MQ_ROBUSTNESS);
    FAULTY(query_interval = 0, MQ_QUERY_INTERVAL);
    FAULTY(response_interval = 125000, MQ_RESPONSE_INTERVAL);
    FAULTY(last_member_interval = 99, MQ_LAST_MEMBER_INTERVAL);
    FAULTY(groups = 0, MQ_LIMIT_GROUPS);
    FAULTY(group_sources = 1025, MQ_LIMIT_GROUP_SOURCES);
    FAULTY(sources = 65536, MQ_LIMIT_SOURCES);
    FAULTY(scheduled = 0, MQ_LIMIT_SCHEDULED);
    FAULTY(own[0] = 224, MQ_OWN_ADDRESS);
    FAULTY(last_member_query_count = 8, MQ_LAST_MEMBER_QUERY_COUNT);
    FAULTY(last_member_query_count = UINT32_MAX, MQ_LAST_MEMBER_QUERY_COUNT);
    CHECK(mq_igmp_new(c, MQ_LATEST + 1, &it) == MQ_MOMENT);
    CHECK(it.link.link == NULL);
    CHECK(it.block == NULL);
    mq_igmp_free(&it); /* there is nothing to free */
    faulty.groups = 0, faulty.robustness = 0;
    CHECK(mq_igmp_new(faulty, MQ_LATEST + 1, &it) == MQ_ROBUSTNESS);
    CHECK(MQ_DONE == 0 && MQ_OWN_ADDRESS == 9 && MQ_MEMORY == 10 && MQ_MOMENT == 11 && MQ_WORKSPACE == 12);
    CHECK(!strcmp(mq_status_text(MQ_LIMIT_SCHEDULED), "the limit of schedules is not within 1 to 65535"));
    CHECK(!strcmp(mq_status_text(MQ_MEMORY), "the memory is too small"));
    CHECK(!strcmp(mq_status_text(MQ_WORKSPACE), "the workspace is too small for the link"));
    CHECK(MQ_HELD == 13 && !strcmp(mq_status_text(MQ_HELD), "the link holds more than the configuration allows"));
    CHECK(MQ_LAST_MEMBER_QUERY_COUNT == 14 && !strcmp(mq_status_text(14), "the last member query count is not within 0 to 7"));
    CHECK(!strcmp(mq_status_text(15), "not a status") && !strcmp(mq_dropped_text(11), "not a reason"));
    CHECK(!strcmp(mq_dropped_text(MQ_DROPPED_CHECKSUM), "the checksum is wrong"));
    CHECK(!strcmp(mq_dropped_text(MQ_DROPPED_GROUP), "a group that hosts do not report"));
}

/* A running link gets other variables, limits and own addresses. What it holds stays, and a call that fails changes nothing. */
static void configured(void) {
    uint8_t room[64], address[4];
    mq_igmp_config c = mq_igmp_defaults(own), next;
    mq_igmp_on_heap it;
    mq_igmp_group held;
    c.groups = 2, next = c;
    CHECK(mq_igmp_new(c, 0, &it) == MQ_DONE);
    CHECK(mq_igmp_tick(&it.link, &it.workspace, 0, room, sizeof room).sent == 1 && mq_igmp_next_deadline(&it.link) == 31250);
    CHECK(mq_igmp_receive(&it.link, &it.workspace, host, join, sizeof join, 10, NULL, 0).applied == 1);
    next.robustness = 3, next.query_interval = 20, next.response_interval = 5000, next.last_member_interval = 100;
    CHECK(mq_igmp_configure(&it.link, next) == MQ_DONE && mq_igmp_next_deadline(&it.link) == 20010);
    CHECK(mq_igmp_group_at(&it.link, group, &held, NULL, 0).groups == 1 && held.deadline == 260010);
    CHECK(mq_igmp_changed(&it.workspace, 0, NULL, 0) == 1);
    CHECK(mq_igmp_tick(&it.link, &it.workspace, 20010, room, sizeof room).written == 18);
    CHECK(are_bytes(room, 18, "e0000001000c1132ebb90000000003140000") && mq_igmp_next_deadline(&it.link) == 40010);
    CHECK(mq_igmp_receive(&it.link, &it.workspace, host, join, sizeof join, 20020, NULL, 0).applied == 1);
    CHECK(mq_igmp_group_at(&it.link, group, &held, NULL, 0).groups == 1 && held.deadline == 85020 && held.v2 == 85020);
    CHECK(mq_igmp_receive(&it.link, &it.workspace, lower, query, sizeof query, 20030, NULL, 0).status == MQ_DONE);
    CHECK(mq_igmp_other_querier(&it.link, address, 4) == 20030 + 2 * 125000 + 2500 && !memcmp(address, lower, 4));
    next.own[3] = 2;
    CHECK(mq_igmp_configure(&it.link, next) == MQ_DONE && mq_igmp_other_querier(&it.link, NULL, 0) == 272530);
    next.own[3] = 1;
    CHECK(mq_igmp_configure(&it.link, next) == MQ_DONE && mq_igmp_is_querier(&it.link) && mq_igmp_next_deadline(&it.link) == 20030);
    CHECK(mq_igmp_tick(&it.link, &it.workspace, 20030, room, sizeof room).sent == 1);
    CHECK(mq_igmp_receive(&it.link, &it.workspace, host, allow, sizeof allow, 20040, NULL, 0).applied == 1);
    const uint64_t deadline = mq_igmp_next_deadline(&it.link);
#define REFUSED(change, fault) \
    do { \
        mq_igmp_config wrong = next; \
        wrong.change; \
        CHECK(mq_igmp_configure(&it.link, wrong) == (fault)); \
    } while (0)
    REFUSED(robustness = 0, MQ_ROBUSTNESS);
    REFUSED(last_member_query_count = 8, MQ_LAST_MEMBER_QUERY_COUNT);
    REFUSED(own[0] = 224, MQ_OWN_ADDRESS);
    REFUSED(groups = 3, MQ_MEMORY);
    REFUSED(group_sources++, MQ_MEMORY);
    REFUSED(sources++, MQ_MEMORY);
    REFUSED(scheduled++, MQ_MEMORY);
    REFUSED(groups = 1, MQ_HELD);
    REFUSED(group_sources = 1, MQ_HELD);
    REFUSED(sources = 1, MQ_HELD);
    CHECK(mq_igmp_len(&it.link) == 2 && mq_igmp_next_deadline(&it.link) == deadline);
    CHECK(mq_igmp_receive(&it.link, &it.workspace, host, leave, sizeof leave, 20050, NULL, 0).unsent == 1);
    CHECK(mq_igmp_next_deadline(&it.link) == 20150);
    next.scheduled = 1, next.sources = 2, next.source_specific = 1;
    CHECK(mq_igmp_configure(&it.link, next) == MQ_DONE && mq_igmp_next_deadline(&it.link) == 20150);
    CHECK(mq_igmp_receive(&it.link, &it.workspace, host, block, sizeof block, 20060, NULL, 0).refused == 1);
    mq_igmp_free(&it);
}

static void queries(void) {
    uint8_t room[200];
    const uint8_t *at = room;
    mq_query q = {NULL, NULL, 0};
    mq_igmp_on_heap it;
    mq_answer a;
    CHECK(mq_igmp_new(mq_igmp_defaults(own), 1000, &it) == MQ_DONE);
    CHECK(mq_igmp_next_deadline(&it.link) == 1000);
    memset(room, 0x55, sizeof room);
    a = mq_igmp_tick(&it.link, &it.workspace, 1000, room, 17);
    CHECK(a.status == MQ_DONE && a.sent == 0 && a.unsent == 1 && a.written == 0);
    for (size_t i = 0; i < sizeof room; i++)
        CHECK(room[i] == 0x55);
    a = mq_igmp_tick(&it.link, &it.workspace, 32250, room, 18);
    CHECK(a.sent == 1 && a.unsent == 0 && a.written == 18 && room[18] == 0x55);
    CHECK(are_bytes(room, 18, "e0000001000c1164ec1e00000000027d0000"));
    CHECK(mq_igmp_next_query(&at, room + a.written, &q));
    CHECK(are_bytes(q.destination, 4, "e0000001") && are_bytes(q.message, q.length, "1164ec1e00000000027d0000"));
    CHECK(!mq_igmp_next_query(&at, room + a.written, &q));
    a = mq_igmp_tick(&it.link, &it.workspace, MQ_LATEST + 1, room, sizeof room);
    CHECK(a.status == MQ_MOMENT && !a.sent && !a.unsent && !a.written && mq_igmp_next_deadline(&it.link) == 32250 + 125000);
    a = mq_igmp_receive(&it.link, &it.workspace, host, join, sizeof join, 40000, room, sizeof room);
    CHECK(a.status == MQ_DONE && !a.dropped && a.applied == 1 && !a.ignored && !a.refused && !a.sent);
    a = mq_igmp_receive(&it.link, &it.workspace, host, leave, sizeof leave, 40000, room, sizeof room);
    CHECK(!a.dropped && a.applied == 1 && a.sent == 1 && are_bytes(room, a.written, "ef010203000c110afb73ef010203027d0000"));
    a = mq_igmp_receive(&it.link, &it.workspace, host, allow, sizeof allow, 40000, NULL, 0);
    CHECK(!a.dropped && a.applied == 1 && !a.sent && !a.unsent);
    a = mq_igmp_receive(&it.link, &it.workspace, host, block, sizeof block, 40000, room, sizeof room);
    CHECK(a.sent == 1 && are_bytes(room, a.written, "e80101010010110af973e8010101027d00010a000001"));
    a = mq_igmp_tick(&it.link, &it.workspace, 41000, room, 30);
    CHECK(a.sent == 1 && a.unsent == 1 && a.written == 22);
    a = mq_igmp_receive(&it.link, &it.workspace, host, block, sizeof block, MQ_LATEST + 1, room, sizeof room);
    CHECK(a.status == MQ_MOMENT && !a.applied);
    mq_igmp_free(&it);
}

static void asking(void) {
    mq_igmp_on_heap it;
    mq_igmp_group groups[3];
    mq_igmp_source sources[3];
    mq_page page;
    mq_answer a;
    mq_counts counts;
    uint8_t address[4] = {0};
    mq_igmp_config config = mq_igmp_defaults(own);
    CHECK(mq_igmp_new(config, 0, &it) == MQ_DONE);
    CHECK(mq_igmp_is_querier(&it.link) && mq_igmp_len(&it.link) == 0 && mq_igmp_spent(&it.link) == 0
          && mq_igmp_moved(&it.link) == 0);
    CHECK(mq_igmp_other_querier(&it.link, address, sizeof address) == MQ_NONE && !address[0]);
    mq_igmp_receive(&it.link, &it.workspace, host, join, sizeof join, 10, NULL, 0);
    mq_igmp_receive(&it.link, &it.workspace, host, allow, sizeof allow, 20, NULL, 0);
    CHECK(mq_igmp_len(&it.link) == 2 && mq_igmp_spent(&it.link) > 0 && mq_igmp_moved(&it.link) > 0);
    CHECK(mq_igmp_forwards(&it.link, group, source) && mq_igmp_forwards(&it.link, other, source)
          && !mq_igmp_forwards(&it.link, other, host));
    page = mq_igmp_groups(&it.link, 0, groups, 3, sources, 3);
    CHECK(page.groups == 2 && page.sources == 2);
    CHECK(!memcmp(groups[0].address, other, 4) && groups[0].sources == 2 && groups[0].deadline == MQ_NONE);
    CHECK(groups[0].v1 == MQ_NONE && groups[0].v2 == MQ_NONE);
    CHECK(are_bytes(sources[0].address, 4, "0a000001") && are_bytes(sources[1].address, 4, "0a000002"));
    CHECK(sources[0].deadline == 20 + 260000 && sources[1].deadline == 20 + 260000);
    CHECK(!memcmp(groups[1].address, group, 4) && groups[1].sources == 0 && groups[1].deadline == 10 + 260000);
    CHECK(groups[1].v1 == MQ_NONE && groups[1].v2 == 10 + 260000);
    page = mq_igmp_groups(&it.link, 0, groups, 1, sources, 3);
    CHECK(page.groups == 1 && page.sources == 2);
    page = mq_igmp_groups(&it.link, 0, groups, 3, sources, 1);
    CHECK(page.groups == 0 && page.sources == 0);
    page = mq_igmp_groups(&it.link, 1, groups, 3, NULL, 0);
    CHECK(page.groups == 1 && page.sources == 0 && !memcmp(groups[0].address, group, 4));
    page = mq_igmp_groups(&it.link, UINT32_MAX, groups, 3, sources, 3);
    CHECK(page.groups == 0 && page.sources == 0);
    memset(groups, 0, sizeof groups);
    memset(sources, 0, sizeof sources);
    page = mq_igmp_group_at(&it.link, other, groups, sources, 2);
    CHECK(page.groups == 1 && page.sources == 2 && !memcmp(groups[0].address, other, 4) && groups[0].sources == 2);
    CHECK(groups[0].deadline == MQ_NONE && are_bytes(sources[0].address, 4, "0a000001") && sources[1].deadline == 20 + 260000);
    memset(sources, 0, sizeof sources);
    page = mq_igmp_group_at(&it.link, other, groups, sources, 1);
    CHECK(page.groups == 1 && page.sources == 0 && groups[0].sources == 2 && !sources[0].deadline);
    page = mq_igmp_group_at(&it.link, group, groups + 1, NULL, 0);
    CHECK(page.groups == 1 && page.sources == 0 && !groups[1].sources && groups[1].deadline == 10 + 260000);
    page = mq_igmp_group_at(&it.link, lower, groups + 2, sources, 3);
    CHECK(page.groups == 0 && page.sources == 0 && !groups[2].deadline);
    a = mq_igmp_receive(&it.link, &it.workspace, host, NULL, 0, 30, NULL, 0);
    CHECK(a.dropped == 1);
    a = mq_igmp_receive(&it.link, &it.workspace, lower, query, sizeof query, 40, NULL, 0);
    CHECK(!a.dropped && !mq_igmp_is_querier(&it.link));
    CHECK(mq_igmp_other_querier(&it.link, address, sizeof address) == 40 + 255000 && !memcmp(address, lower, 4));
    CHECK(mq_igmp_other_querier(&it.link, NULL, 0) == 40 + 255000);
    CHECK(mq_igmp_next_deadline(&it.link) == 40 + 255000);
    mq_igmp_counts(&it.link, &counts, sizeof counts);
    CHECK(counts.received == 4 && counts.dropped == 1 && counts.dropped_by[0] == 1 && counts.dropped_by[9] == 0);
    CHECK(counts.parsed[0] == 1 && counts.parsed[2] == 1 && counts.parsed[4] == 1 && counts.applied == 2);
    CHECK(!counts.ignored && !counts.refused && !counts.refused_by[0] && counts.sent == 0 && counts.unsent == 1);
    mq_igmp_free(&it);
}

static void version(void) {
    CHECK(mq_version() == MQ_VERSION);
    CHECK(strtoul(MQ_VERSION_TEXT, NULL, 10) == MQ_VERSION);
}

static void lines(void) {
    static const uint8_t cut[] = {0x16, 0, 0xe9, 0xff};
    static const char object[] = "{\"type\":\"report\",\"version\":2,\"group\":\"239.1.2.3\"}";
    char line[60];
    size_t length = mq_igmp_line(join, sizeof join, (uint8_t *)line, sizeof line);
    CHECK(length == 25 && !memcmp(line, "report v2 group 239.1.2.3", 25));
    memset(line, '-', sizeof line);
    CHECK(mq_igmp_line(join, sizeof join, (uint8_t *)line, 9) == 9 && !memcmp(line, "report v2-", 10));
    CHECK(mq_igmp_line(join, sizeof join, (uint8_t *)line, 25) == 25 && !memcmp(line, "report v2 group 239.1.2.3-", 26));
    CHECK(mq_igmp_line(join, sizeof join, (uint8_t *)line, 26) == 25 && !memcmp(line, "report v2 group 239.1.2.3\n-", 27));
    CHECK(mq_igmp_line(cut, sizeof cut, (uint8_t *)line, sizeof line) == 22 && !memcmp(line, "fault 1 truncated at 4", 22));
    CHECK(mq_igmp_line(NULL, 0, NULL, 0) == 0);
    CHECK(mq_igmp_json(join, sizeof join, (uint8_t *)line, sizeof line) == 49 && !memcmp(line, object, 49) && line[49] == '\n');
    memset(line, '-', sizeof line);
    CHECK(mq_igmp_json(join, sizeof join, (uint8_t *)line, 9) == 9 && !memcmp(line, "{\"type\":\"-", 10));
    CHECK(mq_igmp_json(NULL, 0, NULL, 0) == 0);
}

static void bounds(void) {
    mq_igmp_config c = mq_igmp_defaults(own);
    size_t few = mq_igmp_outlet_bytes(c, 8), bytes = mq_igmp_outlet_bytes(c, 1480), most = mq_igmp_outlet_bytes(c, 65535);
    CHECK(few > 18 && few < bytes && bytes < most && most < 4000000);
    c.groups = c.sources = c.scheduled = UINT32_MAX;
    CHECK(mq_igmp_outlet_bytes(c, 65535) > most && mq_igmp_outlet_bytes(c, UINT32_MAX) > mq_igmp_outlet_bytes(c, 65535));
}

static void sign(uint8_t *message, size_t length) {
    uint32_t sum = 0;
    for (size_t i = 0; i < length; i += 2)
        sum += (uint32_t)message[i] << 8 | message[i + 1];
    while (sum >> 16)
        sum = (sum & 0xffff) + (sum >> 16);
    message[2] = (uint8_t)(~sum >> 8);
    message[3] = (uint8_t)~sum;
}

/* Writes a Report for `groups` groups of 239.0.0.0 from the `first` on. Each has `times` records of a kind with 366 sources.
   Returns its length. */
static size_t report(uint8_t *out, uint8_t kind, int first, int groups, int times) {
    size_t length = 8;
    memset(out, 0, 8);
    out[0] = 0x22;
    out[7] = (uint8_t)(groups * times);
    for (int i = 0; i < groups * times; i++) {
        uint8_t head[8] = {kind, 0, 366 >> 8, 366 & 255, 239, 0, 0, (uint8_t)(first + i / times)};
        memcpy(out + length, head, 8);
        length += 8;
        for (int n = 0; n < 366; n++) {
            uint8_t address[4] = {10, 1, (uint8_t)(n >> 8), (uint8_t)n};
            memcpy(out + length, address, 4);
            length += 4;
        }
    }
    sign(out, length);
    return length;
}

/* Leaves a group, as a host of IGMPv2 does; returns its length. */
static size_t leaving(uint8_t *out, int group) {
    const uint8_t message[8] = {0x17, 0, 0, 0, 239, 0, 0, (uint8_t)group};
    memcpy(out, message, 8);
    sign(out, 8);
    return 8;
}

/* The most queries of one datagram of at most `longest` bytes, when all earlier queries are due again too. Four groups have all
   their sources, and up to four records name each. */
static void most_queries(uint32_t longest) {
    static uint8_t body[65536];
    mq_igmp_on_heap it;
    mq_answer a;
    mq_igmp_config c = mq_igmp_defaults(own);
    c.groups = 4, c.sources = 4 * 366;
    size_t room = mq_igmp_outlet_bytes(c, longest), length;
    uint8_t *out = malloc(room);
    CHECK(out != NULL);
    CHECK(mq_igmp_new(c, 0, &it) == MQ_DONE);
    a = mq_igmp_receive(&it.link, &it.workspace, host, body, report(body, longest > 8 ? 5 : 4, 0, 4, 1), 10, NULL, 0);
    CHECK(!a.dropped && a.applied == 4 && a.unsent == 1);
    for (uint64_t now = 20; now <= 1020; now += 1000) {
        uint32_t sent = 0;
        for (int group = 0; group < 4; group++) {
            length = longest == 8      ? leaving(body, group)
                     : longest < 65535 ? report(body, 6, group, 1, 1)
                                       : report(body, 6, 0, 4, 4);
            CHECK(length <= longest);
            a = mq_igmp_receive(&it.link, &it.workspace, host, body, length, now, out, room);
            CHECK(!a.dropped && a.applied >= 1 && !a.refused && a.unsent == 0 && a.written <= room);
            sent += a.sent;
        }
        CHECK(sent >= 4);
    }
    mq_igmp_free(&it);
    free(out);
}

/* Two links use one workspace in turn, each with other groups; a smaller one is too small for one of them. */
static void shared(void) {
    uint8_t room[200];
    mq_igmp_config c = mq_igmp_defaults(own), less = c;
    mq_igmp_on_heap it[2], small;
    mq_answer a;
    less.groups = c.groups - 1;
    CHECK(mq_igmp_new(c, 0, &it[0]) == MQ_DONE && mq_igmp_new(c, 0, &it[1]) == MQ_DONE && mq_igmp_new(less, 0, &small) == MQ_DONE);
    mq_igmp *one = &it[0].link, *two = &it[1].link;
    mq_igmp_workspace *workspace = &it[1].workspace;
    a = mq_igmp_tick(one, &small.workspace, 0, room, sizeof room);
    CHECK(a.status == MQ_WORKSPACE && !a.sent && mq_igmp_next_deadline(one) == 0);
    a = mq_igmp_receive(one, &small.workspace, host, join, sizeof join, 0, room, sizeof room);
    CHECK(a.status == MQ_WORKSPACE && !a.applied && mq_igmp_len(one) == 0);
    CHECK(mq_igmp_tick(one, &small.workspace, MQ_LATEST + 1, room, sizeof room).status == MQ_MOMENT);
    for (int i = 0; i < 2; i++) {
        a = mq_igmp_tick(&it[i].link, workspace, 0, room, sizeof room);
        CHECK(a.status == MQ_DONE && a.sent == 1 && are_bytes(room, a.written, "e0000001000c1164ec1e00000000027d0000"));
    }
    for (int i = 0; i < 5; i++) {
        a = mq_igmp_receive(one, workspace, host, allow, sizeof allow, 10, room, sizeof room);
        CHECK(!a.dropped && a.applied == 1 && !a.refused);
        a = mq_igmp_receive(two, workspace, host, join, sizeof join, 10, room, sizeof room);
        CHECK(!a.dropped && a.applied == 1 && !a.refused);
    }
    CHECK(mq_igmp_len(one) == 1 && mq_igmp_len(two) == 1);
    CHECK(mq_igmp_forwards(one, other, source) && !mq_igmp_forwards(one, group, source));
    CHECK(mq_igmp_forwards(two, group, source) && !mq_igmp_forwards(two, other, source));
    CHECK(mq_igmp_tick(&small.link, &small.workspace, 0, room, sizeof room).sent == 1);
    CHECK(mq_igmp_tick(&small.link, workspace, 31250, room, sizeof room).sent == 1);
    mq_igmp_free(&small);
    CHECK(mq_igmp_spent(two) > 0);
    for (int i = 0; i < 2; i++)
        mq_igmp_free(&it[i]);
}

/* Changed groups: two begin, one ends, and some calls change none. Also the list of a workspace that two links share. */
static void changed(void) {
    static const uint8_t two[] = {0x22, 0, 0xf3, 0xf2, 0, 0, 0, 2, 4, 0, 0, 0, 239, 1, 2, 4, 4, 0, 0, 0, 239, 1, 2, 3};
    uint8_t addresses[3][4], *bytes = addresses[0];
    mq_igmp_config c = mq_igmp_defaults(own);
    mq_igmp_on_heap it, other_link, small;
    mq_igmp_group held;
    CHECK(mq_igmp_new(c, 0, &it) == MQ_DONE && mq_igmp_new(c, 0, &other_link) == MQ_DONE);
    c.groups = 1;
    CHECK(mq_igmp_new(c, 0, &small) == MQ_DONE);
    memset(addresses, 0x55, sizeof addresses);
    CHECK(mq_igmp_changed(&it.workspace, 0, addresses, 3) == 0 && are_bytes(bytes, 12, "555555555555555555555555"));
    CHECK(mq_igmp_receive(&it.link, &it.workspace, host, two, sizeof two, 10, NULL, 0).applied == 2);
    CHECK(mq_igmp_changed(&it.workspace, 0, addresses, 1) == 2 && are_bytes(bytes, 12, "ef0102035555555555555555"));
    CHECK(mq_igmp_changed(&it.workspace, 1, addresses, 3) == 2 && are_bytes(bytes, 12, "ef0102045555555555555555"));
    CHECK(mq_igmp_changed(&it.workspace, 0, addresses, 3) == 2 && are_bytes(bytes, 12, "ef010203ef01020455555555"));
    memset(addresses, 0x55, sizeof addresses);
    CHECK(mq_igmp_changed(&it.workspace, 2, addresses, 3) == 2 && mq_igmp_changed(&it.workspace, UINT32_MAX, addresses, 3) == 2);
    CHECK(mq_igmp_changed(&it.workspace, 0, NULL, 0) == 2 && are_bytes(bytes, 12, "555555555555555555555555"));
    CHECK(mq_igmp_receive(&it.link, &it.workspace, host, join, sizeof join, 1000, NULL, 0).applied == 1);
    CHECK(mq_igmp_changed(&it.workspace, 0, addresses, 3) == 0);
    CHECK(mq_igmp_tick(&it.link, &it.workspace, 260009, NULL, 0).status == MQ_DONE
          && mq_igmp_changed(&it.workspace, 0, addresses, 3) == 0);
    CHECK(are_bytes(bytes, 12, "555555555555555555555555"));
    CHECK(mq_igmp_tick(&it.link, &it.workspace, 260010, NULL, 0).status == MQ_DONE);
    CHECK(mq_igmp_changed(&it.workspace, 0, addresses, 3) == 1 && are_bytes(bytes, 12, "ef0102045555555555555555"));
    CHECK(mq_igmp_group_at(&it.link, addresses[0], &held, NULL, 0).groups == 0);
    CHECK(mq_igmp_tick(&it.link, &it.workspace, MQ_LATEST + 1, NULL, 0).status == MQ_MOMENT);
    CHECK(mq_igmp_changed(&it.workspace, 0, addresses, 3) == 1);
    CHECK(mq_igmp_receive(&other_link.link, &it.workspace, host, two, sizeof two, 10, NULL, 0).applied == 2);
    CHECK(mq_igmp_changed(&it.workspace, 0, addresses, 3) == 2 && are_bytes(bytes, 12, "ef010203ef01020455555555"));
    CHECK(mq_igmp_tick(&other_link.link, &small.workspace, 20, NULL, 0).status == MQ_WORKSPACE);
    CHECK(mq_igmp_changed(&small.workspace, 0, NULL, 0) == 0 && mq_igmp_changed(&it.workspace, 0, NULL, 0) == 2);
    CHECK(mq_igmp_tick(&it.link, &other_link.workspace, 261000, NULL, 0).status == MQ_DONE && mq_igmp_len(&it.link) == 0);
    CHECK(mq_igmp_changed(&other_link.workspace, 0, addresses, 1) == 1 && are_bytes(bytes, 4, "ef010203"));
    CHECK(mq_igmp_tick(&other_link.link, &it.workspace, 20, NULL, 0).status == MQ_DONE
          && mq_igmp_changed(&it.workspace, 0, NULL, 0) == 0);
    mq_igmp_free(&it);
    mq_igmp_free(&other_link);
    mq_igmp_free(&small);
}

/* A struct with fewer counters, as in an older header, and with more, as in a newer one. Memory after the counters stays. */
static void counters(void) {
    enum { COUNTERS = sizeof(mq_counts) / 8, MORE = COUNTERS + 3 };
    uint64_t all[MORE + 1];
    mq_counts counts;
    mq_igmp_on_heap it;
    CHECK(sizeof(mq_counts) == 30 * 8);
    CHECK(mq_igmp_new(mq_igmp_defaults(own), 0, &it) == MQ_DONE);
    mq_igmp_receive(&it.link, &it.workspace, host, join, sizeof join, 10, NULL, 0);
    memset(all, 0x55, sizeof all);
    CHECK(mq_igmp_counters(&it.link, NULL, 0) == COUNTERS);
    CHECK(mq_igmp_counters(&it.link, all, 1) == COUNTERS && all[0] == 1 && all[1] == UINT64_C(0x5555555555555555));
    CHECK(mq_igmp_counters(&it.link, all, MORE) == COUNTERS && all[COUNTERS - 2] == 1
          && all[COUNTERS] == UINT64_C(0x5555555555555555));
    mq_igmp_counts(&it.link, &counts, sizeof counts);
    CHECK(!memcmp(&counts, all, sizeof counts) && counts.received == 1 && counts.parsed[MQ_PARSED_OLDER_REPORT] == 1);
    CHECK(counts.applied == 1 && counts.unsent == 1);
    memset(all, 0x55, sizeof all);
    mq_igmp_counts(&it.link, (mq_counts *)all, 8 * MORE);
    CHECK(!memcmp(&counts, all, sizeof counts) && !all[COUNTERS] && !all[MORE - 1] && all[MORE] == UINT64_C(0x5555555555555555));
    memset(all, 0x55, sizeof all);
    mq_igmp_counts(&it.link, (mq_counts *)all, 16);
    CHECK(all[0] == 1 && all[1] == 0 && all[2] == UINT64_C(0x5555555555555555));
    mq_igmp_free(&it);
}

/* Ranges of groups that hosts may ask for: of the start, and others of a running link, whose groups stay. */
static void ranged(void) {
    mq_igmp_config c = mq_igmp_defaults(own), next = c;
    mq_igmp_on_heap it;
    mq_counts counts;
    mq_answer a;
    for (size_t at = 0; at < MQ_RANGES; at++)
        CHECK(c.ranges[at].rule == MQ_UNUSED);
    c.ranges[1] = (mq_igmp_range){{239, 1, 9, 9}, 16, MQ_DENY}; /* the place before it is unused */
    next.ranges[MQ_RANGES - 1] = (mq_igmp_range){{239, 1, 2, 0}, 24, MQ_ALLOW};
    CHECK(MQ_UNUSED == 0 && MQ_ALLOW == 1 && MQ_DENY == 2 && mq_igmp_new(c, 0, &it) == MQ_DONE);
    a = mq_igmp_receive(&it.link, &it.workspace, host, join, sizeof join, 10, NULL, 0);
    CHECK(a.status == MQ_DONE && !a.dropped && a.applied == 0 && a.ignored == 1 && !a.refused);
    CHECK(mq_igmp_receive(&it.link, &it.workspace, host, leave, sizeof leave, 10, NULL, 0).ignored == 1);
    CHECK(mq_igmp_receive(&it.link, &it.workspace, host, allow, sizeof allow, 10, NULL, 0).applied == 1);
    CHECK(!mq_igmp_forwards(&it.link, group, source) && mq_igmp_forwards(&it.link, other, source));
    CHECK(mq_igmp_configure(&it.link, next) == MQ_DONE && mq_igmp_forwards(&it.link, other, source));
    CHECK(mq_igmp_receive(&it.link, &it.workspace, host, join, sizeof join, 20, NULL, 0).applied == 1);
    CHECK(mq_igmp_receive(&it.link, &it.workspace, host, allow, sizeof allow, 20, NULL, 0).ignored == 1);
    CHECK(mq_igmp_forwards(&it.link, group, source) && mq_igmp_forwards(&it.link, other, source));
    mq_igmp_counts(&it.link, &counts, sizeof counts);
    CHECK(counts.ignored == 3 && counts.denied == 3 && counts.applied == 2 && counts.dropped == 0);
    mq_igmp_free(&it);
}

int main(void) {
    most_queries(8);
    most_queries(1480);
    most_queries(65535);
    shared();
    counters();
    changed();
    configurations();
    configured();
    ranged();
    queries();
    asking();
    lines();
    bounds();
    version();
    return told();
}

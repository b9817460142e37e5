/* A link with GROUPS groups, calls that need none of them, and a datagram for one of them: quiet FAMILY GROUPS. callgrind counts the
   instructions of `asked` and of `received`, which may not grow with the groups. */
#include "check.h"

enum { RECORDS = 250, NOW = 1000 };

static const uint8_t own4[4] = {10, 0, 0, 9}, host4[4] = {10, 0, 0, 7};
static const uint8_t own6[16] = {0xfe, 0x80, [15] = 9}, host6[16] = {0xfe, 0x80, [15] = 7}, routers6[16] = {0xff, 2, [15] = 0x16};
static mq_igmp_on_heap igmp;
static mq_mld_on_heap mld;
static bool is_mld;
static uint8_t body[8 + 20 * RECORDS], queries[4096];

static uint32_t summed(uint32_t sum, const uint8_t *bytes, size_t length) {
    for (size_t i = 0; i < length; i += 2)
        sum += (uint32_t)bytes[i] << 8 | bytes[i + 1];
    return sum;
}

/* Writes a Report with `count` records, TO_EX of no source for a group each. Returns its length. */
static size_t report(uint32_t first, uint32_t records) {
    const size_t width = is_mld ? 16 : 4, length = 8 + (4 + width) * records;
    memset(body, 0, length);
    body[0] = is_mld ? 0x8f : 0x22, body[7] = (uint8_t)records;
    for (uint32_t i = 0; i < records; i++) {
        uint8_t *record = body + 8 + (4 + width) * i, *address = record + 4;
        record[0] = 4, address[0] = is_mld ? 0xff : 239, address[1] = is_mld ? 0x0e : 0;
        address[width - 2] = (uint8_t)((first + i) >> 8), address[width - 1] = (uint8_t)(first + i);
    }
    uint32_t sum = is_mld ? summed(summed(58 + (uint32_t)length, host6, 16), routers6, 16) : 0;
    sum = summed(sum, body, length);
    while (sum >> 16)
        sum = (sum & 0xffff) + (sum >> 16);
    body[2] = (uint8_t)(~sum >> 8), body[3] = (uint8_t)~sum;
    return length;
}

/* Receives a Report of this length. Returns how many records were applied. */
static size_t applied(size_t length) {
    mq_answer it =
        is_mld ? mq_mld_receive(&mld.link, &mld.workspace, host6, routers6, 1, true, body, length, NOW, queries, sizeof queries)
               : mq_igmp_receive(&igmp.link, &igmp.workspace, host4, body, length, NOW, queries, sizeof queries);
    return it.applied;
}

static void join(uint32_t groups) {
    for (uint32_t first = 1; first <= groups; first += RECORDS) {
        const uint32_t left = groups - first + 1, records = left < RECORDS ? left : RECORDS;
        CHECK(applied(report(first, records)) == records);
    }
}

/* The next deadline, the number of groups, the querier, and a tick before the next deadline. */
static size_t asked(void) {
    size_t sent = is_mld ? mq_mld_tick(&mld.link, &mld.workspace, NOW, queries, sizeof queries).sent
                         : mq_igmp_tick(&igmp.link, &igmp.workspace, NOW, queries, sizeof queries).sent;
    uint64_t next = is_mld ? mq_mld_next_deadline(&mld.link) : mq_igmp_next_deadline(&igmp.link);
    bool is_querier = is_mld ? mq_mld_is_querier(&mld.link) : mq_igmp_is_querier(&igmp.link);
    return sent || next <= NOW || !is_querier ? 0 : is_mld ? mq_mld_len(&mld.link) : mq_igmp_len(&igmp.link);
}

/* The Report of one group that is there. */
static size_t length;
static size_t received(void) {
    return applied(length);
}

int main(int count, char **words) {
    /* (by places that may change, so that no compiler puts the calls into `main`) */
    static size_t (*volatile call)(void) = asked, (*volatile report_one)(void) = received;
    if (count != 3)
        return 2;
    const uint32_t groups = (uint32_t)atoi(words[2]);
    mq_igmp_config config4 = mq_igmp_defaults(own4);
    mq_mld_config config6 = mq_mld_defaults(own6);
    is_mld = strcmp(words[1], "mld") == 0, config4.groups = config6.groups = groups;
    CHECK((is_mld ? mq_mld_new(config6, 0, &mld) : mq_igmp_new(config4, 0, &igmp)) == MQ_DONE);
    join(groups);
    CHECK(call() == groups);
    length = report(1, 1);
    CHECK(report_one() == 1);
    return told();
}

/* A querier that hears a host, queries it again in time, and forgets it once it is silent. */
#include "mquerier.h"

#include <inttypes.h>
#include <stdio.h>

/* Memory for a link with the default limits, for its workspace, and for the queries of one call. */
static uint8_t memory[MQ_IGMP_SIZE(MQ_GROUPS, MQ_SOURCES)], work[MQ_IGMP_WORKSPACE_SIZE(MQ_GROUPS, MQ_IGMP_GROUP_SOURCES)];
static uint8_t queries[4096];

/* Prints each query. A router sends it in an IPv4 packet from its own address, with TTL 1 and Router Alert. */
static void send_queries(mq_answer answer, uint64_t now) {
    mq_query query;
    for (const uint8_t *at = queries; mq_igmp_next_query(&at, queries + answer.written, &query);) {
        const uint8_t *to = query.destination;
        printf("%6" PRIu64 " send %d.%d.%d.%d %zu bytes\n", now, to[0], to[1], to[2], to[3], query.length);
    }
}

int main(void) {
    const uint8_t own[4] = {10, 0, 0, 9}, host[4] = {10, 0, 0, 1}, group[4] = {239, 1, 2, 3}, source[4] = {10, 0, 0, 5};
    const uint8_t report[8] = {0x16, 0, 0xf8, 0xfa, 239, 1, 2, 3}; /* IGMPv2, without the IP header */
    const mq_igmp_config config = mq_igmp_defaults(own);
    mq_igmp link;
    mq_igmp_workspace workspace;
    uint32_t status = mq_igmp_init(config, 0, memory, sizeof memory, &link);
    if (status == MQ_DONE)
        status = mq_igmp_workspace_init(config, work, sizeof work, &workspace);
    if (status != MQ_DONE) {
        fprintf(stderr, "no link: %s\n", mq_status_text(status));
        return 1;
    }

    /* the link begins as querier: its first tick sends a general query */
    send_queries(mq_igmp_tick(&link, &workspace, 0, queries, sizeof queries), 0);

    mq_answer answer = mq_igmp_receive(&link, &workspace, host, report, sizeof report, 40, queries, sizeof queries);
    send_queries(answer, 40);
    printf("%6d records applied %" PRIu32 ", dropped: %s\n", 40, answer.applied, mq_dropped_text(answer.dropped));
    printf("%6d forwarded: %d\n", 40, mq_igmp_forwards(&link, group, source));

    for (uint64_t now; (now = mq_igmp_next_deadline(&link)) <= 280000;) /* a router waits until then */
        send_queries(mq_igmp_tick(&link, &workspace, now, queries, sizeof queries), now);
    printf("%6d forwarded: %d\n", 280000, mq_igmp_forwards(&link, group, source));
    return 0; /* nothing has to be freed */
}

/* A router with many links in one workspace. A link whose address changes keeps its groups. */
#include "mquerier.h"

#include <inttypes.h>
#include <stdio.h>
#include <stdlib.h>

enum { LINKS = 1000 };

static mq_igmp links[LINKS];
static mq_igmp_workspace workspace;
static uint8_t queries[4096];

/* Returns the configuration of the link with a number. */
static mq_igmp_config configured(int number) {
    const uint8_t own[4] = {10, (uint8_t)(number >> 8), (uint8_t)number, 9};
    mq_igmp_config config = mq_igmp_defaults(own);
    config.groups = 128;
    config.group_sources = 64;
    config.sources = 1024;
    return config;
}

int main(void) {
    const uint8_t host[4] = {10, 0, 0, 1}, group[4] = {239, 1, 2, 3}, source[4] = {10, 0, 0, 5};
    const uint8_t report[8] = {0x16, 0, 0xf8, 0xfa, 239, 1, 2, 3}; /* IGMPv2, without the IP header */
    const size_t size = mq_igmp_size(configured(0)), for_work = mq_igmp_workspace_size(configured(0));
    uint8_t *memory = malloc(LINKS * size), *work = malloc(for_work);
    if (memory == NULL || work == NULL)
        return 1;

    if (mq_igmp_workspace_init(configured(0), work, for_work, &workspace) != MQ_DONE)
        return 1;
    for (int i = 0; i < LINKS; i++)
        if (mq_igmp_init(configured(i), 0, memory + (size_t)i * size, size, &links[i]) != MQ_DONE)
            return 1;

    uint32_t sent = 0;
    for (int i = 0; i < LINKS; i++)
        sent += mq_igmp_tick(&links[i], &workspace, 0, queries, sizeof queries).sent;
    printf("%d links of %zu bytes, a workspace of %zu, queries %" PRIu32 "\n", LINKS, size, for_work, sent);

    mq_igmp_receive(&links[7], &workspace, host, report, sizeof report, 40, queries, sizeof queries);
    for (int i = 7; i <= 8; i++)
        printf("link %d forwards: %d\n", i, mq_igmp_forwards(&links[i], group, source));

    /* link 7 gets another address, and shorter intervals: its next query is due earlier */
    mq_igmp_config config = configured(LINKS);
    config.query_interval = 20;
    if (mq_igmp_configure(&links[7], config) != MQ_DONE)
        return 1;
    const uint64_t next = mq_igmp_next_deadline(&links[7]);
    printf("link 7 forwards: %d, its next query is due at %" PRIu64 "\n", mq_igmp_forwards(&links[7], group, source), next);
    free(memory);
    free(work);
    return 0;
}

/* A router that keeps its forwarding table up to date: after each call it reads the groups that the call changed. */
#include "mquerier.h"

#include <inttypes.h>
#include <stdio.h>

/* Prints each changed group. A router writes it into its table. A group that the link lacks forwards nothing. */
static void read_changed(const mq_igmp_on_heap *it, uint64_t now) {
    uint8_t changed[64][4];
    mq_igmp_source sources[MQ_IGMP_GROUP_SOURCES];
    for (uint32_t first = 0, count = 1; first < count; first += 64) {
        count = mq_igmp_changed(&it->workspace, first, changed, 64);
        for (uint32_t i = 0; i < 64 && first + i < count; i++) {
            mq_igmp_group group;
            const uint8_t *at = changed[i];
            mq_page page = mq_igmp_group_at(&it->link, at, &group, sources, MQ_IGMP_GROUP_SOURCES);
            const char *mode = !page.groups ? "nothing" : group.deadline == MQ_NONE ? "INCLUDE" : "EXCLUDE";
            printf("%6" PRIu64 " %d.%d.%d.%d %s, sources %" PRIu32 "\n", now, at[0], at[1], at[2], at[3], mode, page.sources);
        }
    }
}

int main(void) {
    const uint8_t own[4] = {10, 0, 0, 9}, host[4] = {10, 0, 0, 1};
    /* IGMPv3, without the IP header: the host wants 239.1.2.4 from all sources, and 239.1.2.3 from 10.0.0.5 */
    const uint8_t report[28] = {0x22, 0, 0xea, 0xec, 0, 0, 0, 2, 4, 0, 0, 0, 239, 1, 2, 4, 3, 0, 0, 1, 239, 1, 2, 3, 10, 0, 0, 5};
    mq_igmp_on_heap it;
    if (mq_igmp_new(mq_igmp_defaults(own), 0, &it) != MQ_DONE)
        return 1;
    for (int i = 0; i < 2; i++) { /* the second Report changes nothing */
        mq_igmp_receive(&it.link, &it.workspace, host, report, sizeof report, 40, NULL, 0);
        read_changed(&it, 40);
    }
    for (uint64_t now; (now = mq_igmp_next_deadline(&it.link)) <= 280000;) {
        mq_igmp_tick(&it.link, &it.workspace, now, NULL, 0);
        read_changed(&it, now);
    }
    mq_igmp_free(&it);
    return 0;
}

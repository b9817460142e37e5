/* The program of first.c for MLD, with memory from malloc. Addresses have 16 bytes, and the link also needs fields of the IPv6
   packet. */
#include "mquerier.h"

#include <arpa/inet.h>
#include <inttypes.h>
#include <stdio.h>
#include <stdlib.h>

/* Prints each query. A router sends it in an IPv6 packet from its own address, with hop limit 1 and Router Alert. */
static void send_queries(const uint8_t *queries, mq_answer answer, uint64_t now) {
    mq_query query;
    for (const uint8_t *at = queries; mq_mld_next_query(&at, queries + answer.written, &query);) {
        char to[INET6_ADDRSTRLEN];
        inet_ntop(AF_INET6, query.destination, to, sizeof to);
        printf("%6" PRIu64 " send %s %zu bytes\n", now, to, query.length);
    }
}

int main(void) {
    /* fe80::9, fe80::1, ff0e::1234, 2001:db8::5 */
    const uint8_t own[16] = {0xfe, 0x80, [15] = 9}, host[16] = {0xfe, 0x80, [15] = 1};
    const uint8_t group[16] = {0xff, 0x0e, [14] = 0x12, 0x34}, source[16] = {0x20, 0x01, 0x0d, 0xb8, [15] = 5};
    /* A Report of MLDv1 from the host, to the group. Its checksum covers both addresses. */
    const uint8_t report[24] = {131, 0, 0x5b, 0xa5, [8] = 0xff, 0x0e, [22] = 0x12, 0x34};
    const mq_mld_config config = mq_mld_defaults(own);
    const size_t room = mq_mld_outlet_bytes(config, 1480); /* enough for the queries of any call on Ethernet */
    uint8_t *queries = malloc(room);
    mq_mld_on_heap it; /* a link with its workspace */
    uint32_t status = mq_mld_new(config, 0, &it);
    if (status != MQ_DONE || queries == NULL) {
        fprintf(stderr, "no link: %s\n", mq_status_text(status));
        return 1;
    }

    send_queries(queries, mq_mld_tick(&it.link, &it.workspace, 0, queries, room), 0);

    uint8_t hop_limit = 1; /* the packet's, which had a Router Alert option */
    bool alert = true;
    mq_answer answer =
        mq_mld_receive(&it.link, &it.workspace, host, group, hop_limit, alert, report, sizeof report, 40, queries, room);
    send_queries(queries, answer, 40);
    printf("%6d records applied %" PRIu32 ", dropped: %s\n", 40, answer.applied, mq_dropped_text(answer.dropped));
    printf("%6d forwarded: %d\n", 40, mq_mld_forwards(&it.link, group, source));

    for (uint64_t now; (now = mq_mld_next_deadline(&it.link)) <= 280000;)
        send_queries(queries, mq_mld_tick(&it.link, &it.workspace, now, queries, room), now);
    printf("%6d forwarded: %d\n", 280000, mq_mld_forwards(&it.link, group, source));

    mq_mld_free(&it);
    free(queries);
    return 0;
}

/* The querier of a router on Linux, for root: `router INTERFACE OTHER` serves IGMP on both interfaces and MLD on the first one. It
   prints a line for each group whose filter changed. */
#define _GNU_SOURCE
#include "frames.h"

#include <arpa/inet.h>
#include <err.h>
#include <ifaddrs.h>
#include <linux/filter.h>
#include <linux/if_ether.h>
#include <linux/if_packet.h>
#include <net/if.h>
#include <stdio.h>
#include <string.h>
#include <sys/epoll.h>
#include <time.h>

enum { LINKS = 3, ROOM = 1 << 16 /* bytes for the queries of a call: more than usual */ };

struct served {
    const char *name;
    bool is_mld;
    unsigned index;
    uint8_t mac[MAC], own[16];
    int packets; /* the socket of its frames */
    mq_link link;
};

/* Three links, and for each family a workspace, which its links share. Sizes of MLD suffice for IGMP too. */
static struct served all[LINKS];
static mq_workspace workspaces[2];
static uint8_t memory[LINKS][MQ_MLD_SIZE(MQ_GROUPS, MQ_SOURCES)], queries[2][ROOM];
static uint8_t work[2][MQ_MLD_WORKSPACE_SIZE(MQ_GROUPS, MQ_IGMP_GROUP_SOURCES)];

static uint64_t milliseconds(void) {
    struct timespec now;
    clock_gettime(CLOCK_MONOTONIC, &now);
    return (uint64_t)now.tv_sec * 1000 + (uint64_t)now.tv_nsec / 1000000;
}

/* Reads the addresses of the interface: its MAC, and one of IPv4 or a link-local one of IPv6. */
static void find_own(struct served *it) {
    struct ifaddrs *found = NULL;
    if (getifaddrs(&found) != 0)
        err(1, "addresses");
    for (struct ifaddrs *at = found; at != NULL; at = at->ifa_next) {
        const void *address = at->ifa_addr;
        const struct sockaddr_in6 *six = address;
        int family = address == NULL || strcmp(at->ifa_name, it->name) != 0 ? AF_UNSPEC : at->ifa_addr->sa_family;
        if (family == AF_PACKET)
            memcpy(it->mac, ((const struct sockaddr_ll *)address)->sll_addr, MAC);
        if (family == AF_INET && !it->is_mld)
            memcpy(it->own, &((const struct sockaddr_in *)address)->sin_addr, 4);
        if (family == AF_INET6 && it->is_mld && six->sin6_scope_id != 0)
            memcpy(it->own, &six->sin6_addr, 16);
    }
    freeifaddrs(found);
}

/* Joins 224.0.0.22 or ff02::16, as a router must (RFC 3376 section 6, RFC 3810 section 7). The membership ends with the socket. */
static void join_routers(const struct served *it) {
    struct ip_mreqn four = {.imr_multiaddr = {htonl(0xe0000016)}, .imr_ifindex = (int)it->index};
    struct ipv6_mreq six = {.ipv6mr_multiaddr = {{{0xff, 2, [15] = 0x16}}}, .ipv6mr_interface = it->index};
    int member = socket(it->is_mld ? AF_INET6 : AF_INET, SOCK_DGRAM, 0);
    int status = it->is_mld ? setsockopt(member, IPPROTO_IPV6, IPV6_ADD_MEMBERSHIP, &six, sizeof six)
                            : setsockopt(member, IPPROTO_IP, IP_ADD_MEMBERSHIP, &four, sizeof four);
    if (status != 0)
        err(1, "membership");
}

/* Opens a socket for all multicast of the interface. Its filter keeps IGMP, or IPv6 with a hop-by-hop header. */
static void open_packets(struct served *it) {
    struct sock_filter keep[] = {BPF_STMT(BPF_LD | BPF_B | BPF_ABS, ETHERNET + (it->is_mld ? 6 : 9)),
                                 BPF_JUMP(BPF_JMP | BPF_JEQ | BPF_K, it->is_mld ? IPPROTO_HOPOPTS : IPPROTO_IGMP, 0, 1),
                                 BPF_STMT(BPF_RET | BPF_K, GREATEST_FRAME), BPF_STMT(BPF_RET | BPF_K, 0)};
    uint16_t type = htons(it->is_mld ? ETH_P_IPV6 : ETH_P_IP);
    struct sockaddr_ll at = {.sll_family = AF_PACKET, .sll_protocol = type, .sll_ifindex = (int)it->index};
    struct packet_mreq every = {.mr_ifindex = (int)it->index, .mr_type = PACKET_MR_ALLMULTI};
    it->packets = socket(AF_PACKET, SOCK_RAW | SOCK_NONBLOCK, 0); /* it hears nothing until it is bound */
    if (setsockopt(it->packets, SOL_SOCKET, SO_ATTACH_FILTER, &(struct sock_fprog){4, keep}, sizeof(struct sock_fprog)) != 0
        || setsockopt(it->packets, SOL_PACKET, PACKET_ADD_MEMBERSHIP, &every, sizeof every) != 0
        || bind(it->packets, (struct sockaddr *)&at, sizeof at) != 0)
        err(1, "%s", it->name);
}

static void open_link(struct served *it, uint64_t now) {
    mq_workspace *workspace = &workspaces[it->is_mld];
    mq_config config = mq_config_defaults(it->is_mld, it->own);
    if (workspace->queries == NULL) /* the first link of the family */
        mq_workspace_init(config, work[it->is_mld], sizeof *work, queries[it->is_mld], ROOM, workspace);
    uint32_t status = mq_link_init(config, now, memory[it - all], sizeof *memory, workspace, &it->link);
    if (status != MQ_DONE)
        errx(1, "%s: %s", it->name, mq_status_text(status));
}

/* Sends the queries of a call, and prints the groups that it changed. A router writes these into its forwarding table. */
static void follow(const struct served *it, mq_answer answer) {
    static uint8_t frame[GREATEST_FRAME], changed[2 * MQ_GROUPS][16]; /* all groups may end in a call, and as many begin */
    static mq_source sources[MQ_IGMP_GROUP_SOURCES];
    char text[INET6_ADDRSTRLEN];
    mq_query query;
    mq_group group;
    for (size_t at = 0; mq_link_next_query(&it->link, answer, &at, &query);) {
        size_t length = write_frame(it->is_mld, it->mac, it->own, query.destination, query.message, query.length, frame);
        send(it->packets, frame, length, 0); /* a query that fails is lost as on the link */
    }
    uint32_t count = mq_link_changed(&it->link, 0, changed, 2 * MQ_GROUPS);
    for (uint32_t at = 0; at < count; at++) {
        mq_page page = mq_link_group_at(&it->link, changed[at], &group, sources, MQ_IGMP_GROUP_SOURCES);
        const char *mode = page.groups == 0 ? "nothing" : group.deadline == MQ_NONE ? "INCLUDE" : "EXCLUDE";
        inet_ntop(it->is_mld ? AF_INET6 : AF_INET, changed[at], text, sizeof text);
        dprintf(1, "%s %s %s, sources %u\n", it->name, text, mode, (unsigned)page.sources);
    }
}

/* Receives the waiting frames of a link. */
static void hear(struct served *it, uint64_t now) {
    static uint8_t frame[GREATEST_FRAME];
    struct datagram datagram;
    for (ssize_t length; (length = recv(it->packets, frame, sizeof frame, 0)) > 0;)
        if (read_frame(frame, (size_t)length, &datagram) == CARRIED_DATAGRAM)
            follow(it, mq_link_receive(&it->link, &datagram.envelope, datagram.body, datagram.length, now));
}

int main(int count, char **words) {
    struct epoll_event ready[LINKS];
    int waiting = epoll_create1(0);
    if (count != 3)
        errx(2, "usage: router INTERFACE OTHER");
    for (int at = 0; at < LINKS; at++) {
        all[at] = (struct served){.name = words[1 + at % 2], .is_mld = at == 2, .index = if_nametoindex(words[1 + at % 2])};
        find_own(&all[at]);
        open_link(&all[at], milliseconds());
        join_routers(&all[at]);
        open_packets(&all[at]);
        epoll_ctl(waiting, EPOLL_CTL_ADD, all[at].packets, &(struct epoll_event){.events = EPOLLIN, .data = {.ptr = &all[at]}});
    }
    for (;;) {
        uint64_t now = milliseconds(), next = now + 60000;
        for (struct served *it = all; it < all + LINKS; it++) {
            if (mq_link_next_deadline(&it->link) <= now)
                follow(it, mq_link_tick(&it->link, now));
            next = mq_link_next_deadline(&it->link) < next ? mq_link_next_deadline(&it->link) : next;
        }
        int found = epoll_wait(waiting, ready, LINKS, (int)(next - now));
        for (int at = 0; at < found; at++)
            hear(ready[at].data.ptr, milliseconds());
    }
}

#define _GNU_SOURCE
#include "ring.h"

#include <arpa/inet.h>
#include <linux/filter.h>
#include <linux/if_ether.h>
#include <string.h>
#include <sys/mman.h>
#include <sys/socket.h>

/* The kernel hands a block over when it is full, or after four milliseconds. So slow traffic takes four seconds to use up the ring,
   while the program may do other work. A frame is shorter than a block. */
enum { BLOCKS = 1024, BLOCK = 1 << 14, FRAME = 1 << 11, HANDED_OVER_MS = 4 };
enum { KEPT_BYTES = BLOCK };  /* the most bytes of a frame that are kept */
enum { VLAN_NUMBER = 0xfff }; /* the bits of a tag that are the VLAN */

static struct tpacket_block_desc *block_of(const struct ring *ring) {
    return (struct tpacket_block_desc *)(ring->blocks + (size_t)ring->at * BLOCK);
}

int ring_open(struct ring *ring) {
    const int is_on = 1;
    int version = TPACKET_V3;
    struct tpacket_req3 request = {
        .tp_block_size = BLOCK,
        .tp_block_nr = BLOCKS,
        .tp_frame_size = FRAME,
        .tp_frame_nr = BLOCKS * (BLOCK / FRAME),
        .tp_retire_blk_tov = HANDED_OVER_MS,
    };
    *ring = (struct ring){.packets = socket(AF_PACKET, SOCK_RAW | SOCK_CLOEXEC, 0)}; /* it hears nothing until it is bound */
    int packets = ring->packets;
    if (packets < 0 || setsockopt(packets, SOL_PACKET, PACKET_VERSION, &version, sizeof version) < 0
        || setsockopt(packets, SOL_PACKET, PACKET_RX_RING, &request, sizeof request) < 0
        || setsockopt(packets, SOL_PACKET, PACKET_IGNORE_OUTGOING, &is_on, sizeof is_on) < 0)
        return -1;
    ring->blocks = mmap(NULL, (size_t)BLOCKS * BLOCK, PROT_READ | PROT_WRITE, MAP_SHARED, packets, 0);
    return ring->blocks == MAP_FAILED ? -1 : 0;
}

/* Drops all but messages of IGMP, messages of the types of MLD, their first fragments, and Hellos of PIM. The list of ports
   follows. For IPv6, X is the length of the headers that were skipped after the header of IPv6. */
enum { PROTOCOL_IGMP = 2, NEXT_FRAGMENT = 44, PROTOCOL_ICMPV6 = 58, PROTOCOL_PIM = 103, PIM_HELLO = 0x20 };
enum { IPV4 = 14, IPV6 = 14, IN_IPV6 = IPV6 + 40 };
static const struct sock_filter MESSAGES[] = {
    BPF_STMT(BPF_LD | BPF_W | BPF_ABS, SKF_AD_OFF + SKF_AD_VLAN_TAG),
    BPF_STMT(BPF_ALU | BPF_AND | BPF_K, 0x0fff),
    BPF_JUMP(BPF_JMP | BPF_JEQ | BPF_K, 0, 0, 33),
    BPF_STMT(BPF_LD | BPF_H | BPF_ABS, 12),
    BPF_JUMP(BPF_JMP | BPF_JEQ | BPF_K, ETH_P_IPV6, 7, 0),
    BPF_JUMP(BPF_JMP | BPF_JEQ | BPF_K, ETH_P_IP, 0, 30),
    /* IPv4 */
    BPF_STMT(BPF_LD | BPF_B | BPF_ABS, IPV4 + 9),
    BPF_JUMP(BPF_JMP | BPF_JEQ | BPF_K, PROTOCOL_IGMP, 29, 0),
    BPF_JUMP(BPF_JMP | BPF_JEQ | BPF_K, PROTOCOL_PIM, 0, 27),
    BPF_STMT(BPF_LDX | BPF_B | BPF_MSH, IPV4),
    BPF_STMT(BPF_LD | BPF_B | BPF_IND, IPV4),
    BPF_JUMP(BPF_JMP | BPF_JEQ | BPF_K, PIM_HELLO, 25, 24),
    /* IPv6: a Hello; or hop-by-hop options, which are skipped */
    BPF_STMT(BPF_LDX | BPF_IMM, 0),
    BPF_STMT(BPF_LD | BPF_B | BPF_ABS, IPV6 + 6),
    BPF_JUMP(BPF_JMP | BPF_JEQ | BPF_K, PROTOCOL_PIM, 0, 2),
    BPF_STMT(BPF_LD | BPF_B | BPF_ABS, IN_IPV6),
    BPF_JUMP(BPF_JMP | BPF_JEQ | BPF_K, PIM_HELLO, 20, 19),
    BPF_JUMP(BPF_JMP | BPF_JEQ | BPF_K, 0, 0, 5),
    BPF_STMT(BPF_LD | BPF_B | BPF_ABS, IN_IPV6 + 1),
    BPF_STMT(BPF_ALU | BPF_ADD | BPF_K, 1),
    BPF_STMT(BPF_ALU | BPF_LSH | BPF_K, 3),
    BPF_STMT(BPF_MISC | BPF_TAX, 0),
    BPF_STMT(BPF_LD | BPF_B | BPF_ABS, IN_IPV6),
    BPF_JUMP(BPF_JMP | BPF_JEQ | BPF_K, PROTOCOL_ICMPV6, 8, 0),
    BPF_JUMP(BPF_JMP | BPF_JEQ | BPF_K, NEXT_FRAGMENT, 0, 11),
    /* the header of a first fragment, whose offset is 0 */
    BPF_STMT(BPF_LD | BPF_B | BPF_IND, IN_IPV6),
    BPF_JUMP(BPF_JMP | BPF_JEQ | BPF_K, PROTOCOL_ICMPV6, 0, 9),
    BPF_STMT(BPF_LD | BPF_H | BPF_IND, IN_IPV6 + 2),
    BPF_JUMP(BPF_JMP | BPF_JSET | BPF_K, 0xfff8, 7, 0),
    BPF_STMT(BPF_MISC | BPF_TXA, 0),
    BPF_STMT(BPF_ALU | BPF_ADD | BPF_K, 8),
    BPF_STMT(BPF_MISC | BPF_TAX, 0),
    /* the type of ICMPv6 */
    BPF_STMT(BPF_LD | BPF_B | BPF_IND, IN_IPV6),
    BPF_JUMP(BPF_JMP | BPF_JEQ | BPF_K, 143, 3, 0),
    BPF_JUMP(BPF_JMP | BPF_JGE | BPF_K, 133, 1, 0),
    BPF_JUMP(BPF_JMP | BPF_JGE | BPF_K, 130, 1, 0),
    BPF_STMT(BPF_RET | BPF_K, 0),
    BPF_STMT(BPF_LD | BPF_W | BPF_ABS, SKF_AD_OFF + SKF_AD_IFINDEX),
};
enum { HEAD = sizeof MESSAGES / sizeof *MESSAGES, TAG_TEST = 2 };

int ring_listen(struct ring *ring, const int *indexes, size_t count, bool hears_tags) {
    static struct sock_filter filter[HEAD + 2 * GREATEST_PORTS + 1];
    static const struct sock_filter keep = BPF_STMT(BPF_RET | BPF_K, KEPT_BYTES), drop = BPF_STMT(BPF_RET | BPF_K, 0);
    struct sockaddr_ll all = {.sll_family = AF_PACKET, .sll_protocol = htons(ETH_P_ALL)};
    struct sock_fprog program = {.len = (unsigned short)(HEAD + 2 * count + 1), .filter = filter};
    memcpy(filter, MESSAGES, sizeof MESSAGES);
    if (hears_tags)
        filter[TAG_TEST].jf = 0;
    for (size_t at = 0; at < count; at++) {
        filter[HEAD + 2 * at] = (struct sock_filter)BPF_JUMP(BPF_JMP | BPF_JEQ | BPF_K, (uint32_t)indexes[at], 0, 1);
        filter[HEAD + 2 * at + 1] = keep;
    }
    filter[HEAD + 2 * count] = drop;
    if (setsockopt(ring->packets, SOL_SOCKET, SO_ATTACH_FILTER, &program, sizeof program) < 0)
        return -1;
    return bind(ring->packets, (struct sockaddr *)&all, sizeof all); /* only sockets for all protocols hear at ports of bridges */
}

int ring_join(struct ring *ring, int index) {
    struct packet_mreq every = {.mr_ifindex = index, .mr_type = PACKET_MR_ALLMULTI};
    return setsockopt(ring->packets, SOL_PACKET, PACKET_ADD_MEMBERSHIP, &every, sizeof every);
}

/* Begins the next block if the kernel has handed it over. Returns whether frames are left. */
static bool begin_block(struct ring *ring) {
    struct tpacket_block_desc *block = block_of(ring);
    if (ring->left == 0 && (__atomic_load_n(&block->hdr.bh1.block_status, __ATOMIC_ACQUIRE) & TP_STATUS_USER)) {
        ring->left = block->hdr.bh1.num_pkts;
        ring->packet = (const void *)((uint8_t *)block + block->hdr.bh1.offset_to_first_pkt);
    }
    return ring->left > 0;
}

/* Returns the block to the kernel. */
static void end_block(struct ring *ring) {
    __atomic_store_n(&block_of(ring)->hdr.bh1.block_status, TP_STATUS_KERNEL, __ATOMIC_RELEASE);
    ring->at = (ring->at + 1) % BLOCKS;
    ring->packet = NULL;
}

bool ring_next(struct ring *ring, struct frame *frame) {
    for (;;) {
        if (ring->packet != NULL && ring->left == 0)
            end_block(ring);
        if (!begin_block(ring) || ring->packet == NULL)
            return false;
        const uint8_t *head = (const uint8_t *)ring->packet;
        const struct sockaddr_ll *from = (const void *)(head + TPACKET_ALIGN(sizeof *ring->packet));
        *frame = (struct frame){head + ring->packet->tp_mac, ring->packet->tp_snaplen, from->sll_ifindex, 0, 0};
        if (ring->packet->tp_status & TP_STATUS_VLAN_VALID) {
            frame->vlan = ring->packet->hv1.tp_vlan_tci & VLAN_NUMBER;
            frame->protocol = ring->packet->hv1.tp_vlan_tpid;
        }
        ring->packet = (const void *)(head + ring->packet->tp_next_offset);
        ring->left--;
        if (from->sll_pkttype != PACKET_OUTGOING && from->sll_pkttype != PACKET_OTHERHOST)
            return true;
    }
}

unsigned ring_lost(struct ring *ring) {
    struct tpacket_stats_v3 counts = {0};
    socklen_t length = sizeof counts;
    return getsockopt(ring->packets, SOL_PACKET, PACKET_STATISTICS, &counts, &length) < 0 ? 0 : counts.tp_drops;
}

#define _GNU_SOURCE
#include "mroute.h"

#include <errno.h>
#include <netinet/icmp6.h>
#include <netinet/in.h>
#include <sys/ioctl.h>
#include <sys/socket.h>
#include <unistd.h>

#include <linux/filter.h>
#include <linux/mroute.h>
#include <linux/mroute6.h>
#include <string.h>

/* The most bytes of upcalls that wait. */
enum { WAITING_BYTES = 1 << 20 };

static int option(const struct mroute *it, int name, const void *value, size_t length) {
    int level = it->is_mld ? IPPROTO_IPV6 : IPPROTO_IP;
    return setsockopt(it->file, level, name, value, (socklen_t)length) < 0 ? errno : 0;
}

/* Makes a socket receive upcalls alone, whose tenth byte is 0 for IPv4, and not the messages of hosts. */
static int hear_upcalls(const struct mroute *it) {
    static const struct sock_filter upcalls[] = {
        BPF_STMT(BPF_LD | BPF_B | BPF_ABS, 9),
        BPF_JUMP(BPF_JMP | BPF_JEQ | BPF_K, 0, 0, 1),
        BPF_STMT(BPF_RET | BPF_K, 256),
        BPF_STMT(BPF_RET | BPF_K, 0),
    };
    const int room = WAITING_BYTES;
    struct sock_fprog program = {.len = sizeof upcalls / sizeof *upcalls, .filter = (struct sock_filter *)upcalls};
    struct icmp6_filter none;
    ICMP6_FILTER_SETBLOCKALL(&none);
    setsockopt(it->file, SOL_SOCKET, SO_RCVBUF, &room, sizeof room);
    int done = it->is_mld ? setsockopt(it->file, IPPROTO_ICMPV6, ICMP6_FILTER, &none, sizeof none)
                          : setsockopt(it->file, SOL_SOCKET, SO_ATTACH_FILTER, &program, sizeof program);
    return done < 0 ? errno : 0;
}

int mroute_open(struct mroute *it, bool is_mld) {
    const int is_on = 1;
    int protocol = is_mld ? IPPROTO_ICMPV6 : IPPROTO_IGMP;
    it->is_mld = is_mld;
    it->file = socket(is_mld ? AF_INET6 : AF_INET, SOCK_RAW | SOCK_CLOEXEC | SOCK_NONBLOCK, protocol);
    int error = it->file < 0 ? errno : hear_upcalls(it);
    if (error == 0)
        error = option(it, is_mld ? MRT6_INIT : MRT_INIT, &is_on, sizeof is_on);
    if (error != 0 && it->file >= 0)
        close(it->file);
    if (error != 0)
        it->file = -1;
    return error;
}

int mroute_add_vif(const struct mroute *it, unsigned vif, int index) {
    struct vifctl ipv4 = {.vifc_vifi = (vifi_t)vif, .vifc_flags = VIFF_USE_IFINDEX, .vifc_threshold = 1, .vifc_lcl_ifindex = index};
    struct mif6ctl ipv6 = {.mif6c_mifi = (mifi_t)vif, .vifc_threshold = 1, .mif6c_pifi = (uint16_t)index};
    if (it->is_mld && index > UINT16_MAX)
        return ERANGE; /* the kernel's structure has two bytes for it */
    return it->is_mld ? option(it, MRT6_ADD_MIF, &ipv6, sizeof ipv6) : option(it, MRT_ADD_VIF, &ipv4, sizeof ipv4);
}

void mroute_remove_vif(const struct mroute *it, unsigned vif) {
    struct vifctl ipv4 = {.vifc_vifi = (vifi_t)vif};
    mifi_t ipv6 = (mifi_t)vif;
    if (it->is_mld)
        option(it, MRT6_DEL_MIF, &ipv6, sizeof ipv6);
    else
        option(it, MRT_DEL_VIF, &ipv4, sizeof ipv4);
}

static struct sockaddr_in6 ipv6_place(const uint8_t *address) {
    struct sockaddr_in6 place = {.sin6_family = AF_INET6};
    memcpy(&place.sin6_addr, address, sizeof place.sin6_addr);
    return place;
}

/* Makes the entry of a flow, or removes it. */
static int change(const struct mroute *it, bool is_set, const struct flow *flow, unsigned parent, uint32_t to) {
    struct mfcctl ipv4 = {.mfcc_parent = (vifi_t)parent};
    struct mf6cctl ipv6 = {.mf6cc_origin = ipv6_place(flow->source), .mf6cc_mcastgrp = ipv6_place(flow->group)};
    ipv6.mf6cc_parent = (mifi_t)parent;
    if (it->is_mld) {
        for (unsigned vif = 0; vif < GREATEST_VIFS; vif++)
            if (to >> vif & 1)
                IF_SET(vif, &ipv6.mf6cc_ifset);
        return option(it, is_set ? MRT6_ADD_MFC : MRT6_DEL_MFC, &ipv6, sizeof ipv6);
    }
    memcpy(&ipv4.mfcc_origin, flow->source, sizeof ipv4.mfcc_origin);
    memcpy(&ipv4.mfcc_mcastgrp, flow->group, sizeof ipv4.mfcc_mcastgrp);
    for (unsigned vif = 0; vif < GREATEST_VIFS; vif++)
        ipv4.mfcc_ttls[vif] = to >> vif & 1;
    return option(it, is_set ? MRT_ADD_MFC : MRT_DEL_MFC, &ipv4, sizeof ipv4);
}

int mroute_set(const struct mroute *it, const struct flow *flow, unsigned parent, uint32_t to) {
    return change(it, true, flow, parent, to);
}

void mroute_remove(const struct mroute *it, const struct flow *flow, unsigned parent) {
    change(it, false, flow, parent, 0);
}

bool mroute_usage(const struct mroute *it, const struct flow *flow, struct usage *usage) {
    struct sioc_sg_req ipv4 = {.pktcnt = 0};
    struct sioc_sg_req6 ipv6 = {.src = ipv6_place(flow->source), .grp = ipv6_place(flow->group)};
    memcpy(&ipv4.src, flow->source, sizeof ipv4.src);
    memcpy(&ipv4.grp, flow->group, sizeof ipv4.grp);
    if (it->is_mld ? ioctl(it->file, SIOCGETSGCNT_IN6, &ipv6) < 0 : ioctl(it->file, SIOCGETSGCNT, &ipv4) < 0)
        return false;
    *usage = it->is_mld ? (struct usage){ipv6.pktcnt, ipv6.bytecnt} : (struct usage){ipv4.pktcnt, ipv4.bytecnt};
    return true;
}

bool mroute_read(bool is_mld, const uint8_t *bytes, size_t length, struct flow *flow, unsigned *vif) {
    struct igmpmsg ipv4;
    struct mrt6msg ipv6;
    *flow = (struct flow){.is_mld = is_mld};
    if (is_mld) {
        if (length < sizeof ipv6)
            return false;
        memcpy(&ipv6, bytes, sizeof ipv6);
        memcpy(flow->source, &ipv6.im6_src, FLOW_ADDRESS);
        memcpy(flow->group, &ipv6.im6_dst, FLOW_ADDRESS);
        *vif = ipv6.im6_mif;
        return ipv6.im6_mbz == 0 && ipv6.im6_msgtype == MRT6MSG_NOCACHE && *vif < GREATEST_VIFS && flow->group[0] == 0xff;
    }
    if (length < sizeof ipv4)
        return false;
    memcpy(&ipv4, bytes, sizeof ipv4);
    memcpy(flow->source, &ipv4.im_src, sizeof ipv4.im_src);
    memcpy(flow->group, &ipv4.im_dst, sizeof ipv4.im_dst);
    *vif = ipv4.im_vif;
    return ipv4.im_mbz == 0 && ipv4.im_msgtype == IGMPMSG_NOCACHE && *vif < GREATEST_VIFS && flow->group[0] >> 4 == 14;
}

bool mroute_next(const struct mroute *it, struct flow *flow, unsigned *vif) {
    uint8_t bytes[256];
    for (;;) {
        ssize_t length = it->file < 0 ? -1 : recv(it->file, bytes, sizeof bytes, 0);
        if (length < 0)
            return false;
        if (mroute_read(it->is_mld, bytes, (size_t)length, flow, vif))
            return true;
    }
}

#define _GNU_SOURCE
#include "reverse.h"

#include "netlink.h"

#include <linux/rtnetlink.h>
#include <sys/socket.h>

int reverse_find(int netlink, bool is_mld, const uint8_t *source) {
    struct request request;
    struct answer answer;
    uint32_t index = 0;
    uint8_t bits = is_mld ? 128 : 32;
    struct rtmsg head = {.rtm_family = is_mld ? AF_INET6 : AF_INET, .rtm_dst_len = bits};
    request_begin(&request, RTM_GETROUTE, 0, &head, sizeof head);
    request_put(&request, RTA_DST, source, bits / 8);
    if (netlink_ask(netlink, &request, &answer) != 0 || answer.length < sizeof head)
        return 0;
    const struct rtmsg *found = (const void *)answer.message;
    if (found->rtm_type != RTN_UNICAST)
        return 0;
    attribute_number(answer.message + NLMSG_ALIGN(sizeof head), answer.message + answer.length, RTA_OIF, &index);
    return (int)index;
}

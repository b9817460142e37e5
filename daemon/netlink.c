#define _GNU_SOURCE
#include "netlink.h"

#include <errno.h>
#include <linux/rtnetlink.h>
#include <stdbool.h>
#include <string.h>
#include <sys/socket.h>
#include <sys/time.h>
#include <unistd.h>

enum { RECEIVE_ROOM = 1 << 20 };

int netlink_open(int protocol, uint32_t groups) {
    const int is_on = 1, room = RECEIVE_ROOM;
    struct timeval patience = {.tv_sec = 2};
    struct sockaddr_nl any = {.nl_family = AF_NETLINK, .nl_groups = groups};
    int netlink = socket(AF_NETLINK, SOCK_RAW | SOCK_CLOEXEC | (groups != 0 ? SOCK_NONBLOCK : 0), protocol);
    if (netlink < 0)
        return -1;
    if (setsockopt(netlink, SOL_SOCKET, SO_RCVBUFFORCE, &room, sizeof room) < 0)
        setsockopt(netlink, SOL_SOCKET, SO_RCVBUF, &room, sizeof room);
    /* The kernel explains errors in words, does not send requests back, and filters dumps as the request says. */
    if (setsockopt(netlink, SOL_NETLINK, NETLINK_EXT_ACK, &is_on, sizeof is_on) == 0
        && setsockopt(netlink, SOL_NETLINK, NETLINK_CAP_ACK, &is_on, sizeof is_on) == 0
        && setsockopt(netlink, SOL_NETLINK, NETLINK_GET_STRICT_CHK, &is_on, sizeof is_on) == 0
        && setsockopt(netlink, SOL_SOCKET, SO_RCVTIMEO, &patience, sizeof patience) == 0
        && bind(netlink, (struct sockaddr *)&any, sizeof any) == 0)
        return netlink;
    int error = errno;
    close(netlink);
    errno = error;
    return -1;
}

/* Appends bytes, and zeros up to a whole word. */
static void put_bytes(struct request *request, const void *data, size_t length) {
    uint8_t *to = (uint8_t *)request + request->header.nlmsg_len;
    memset(to, 0, NLMSG_ALIGN(length));
    if (length > 0)
        memcpy(to, data, length);
    request->header.nlmsg_len += NLMSG_ALIGN(length);
}

void request_begin(struct request *request, uint16_t type, uint16_t flags, const void *head, size_t length) {
    request->header = (struct nlmsghdr){
        .nlmsg_len = NLMSG_HDRLEN,
        .nlmsg_type = type,
        .nlmsg_flags = (uint16_t)(flags | NLM_F_REQUEST | NLM_F_ACK),
    };
    put_bytes(request, head, length);
}

void request_put(struct request *request, uint16_t type, const void *data, size_t length) {
    struct nlattr attribute = {.nla_len = (uint16_t)(NLA_HDRLEN + length), .nla_type = type};
    put_bytes(request, &attribute, sizeof attribute);
    put_bytes(request, data, length);
}

size_t request_begin_nest(struct request *request, uint16_t type) {
    size_t nest = request->header.nlmsg_len;
    request_put(request, type | NLA_F_NESTED, NULL, 0);
    return nest;
}

void request_end_nest(struct request *request, size_t nest) {
    uint16_t length = (uint16_t)(request->header.nlmsg_len - nest);
    memcpy((uint8_t *)request + nest + offsetof(struct nlattr, nla_len), &length, sizeof length);
}

const uint8_t *attribute_data(const struct nlattr *attribute) {
    return (const uint8_t *)attribute + NLA_HDRLEN;
}

const uint8_t *attribute_end(const struct nlattr *attribute) {
    return (const uint8_t *)attribute + attribute->nla_len;
}

const struct nlattr *attribute_next(const uint8_t **at, const uint8_t *end) {
    size_t left = *at < end ? (size_t)(end - *at) : 0;
    const struct nlattr *attribute = (const void *)*at;
    if (left < NLA_HDRLEN || attribute->nla_len < NLA_HDRLEN || attribute->nla_len > left)
        return NULL;
    *at += NLA_ALIGN(attribute->nla_len);
    return attribute;
}

const struct nlattr *attribute_find(const uint8_t *at, const uint8_t *end, uint16_t type) {
    const struct nlattr *attribute;
    while ((attribute = attribute_next(&at, end)) != NULL)
        if ((attribute->nla_type & NLA_TYPE_MASK) == type)
            return attribute;
    return NULL;
}

/* Keeps the kernel's words for an error, or those of <errno.h> if it has none. Returns the error. */
static int refused(struct answer *answer, int error, const struct nlattr *words) {
    const char *why = words != NULL ? (const char *)attribute_data(words) : strerror(error);
    size_t length = words != NULL ? strnlen(why, (size_t)(attribute_end(words) - attribute_data(words))) : strlen(why);
    size_t kept = length < LONGEST_WHY ? length : LONGEST_WHY - 1;
    memcpy(answer->why, why, kept);
    answer->why[kept] = '\0';
    return error;
}

/* Reads the error number in the last message of an answer. Returns 0 or an error of <errno.h>. */
static int read_error(const struct nlmsghdr *message) {
    int32_t code;
    if (message->nlmsg_len < NLMSG_LENGTH(sizeof code))
        return EBADMSG;
    memcpy(&code, NLMSG_DATA(message), sizeof code);
    return code > 0 || code == INT32_MIN ? EBADMSG : -code;
}

/* Reads the last message of an answer. Returns 0 or an error of <errno.h>. */
static int read_end(const struct nlmsghdr *message, struct answer *answer) {
    const uint8_t *behind = (const uint8_t *)NLMSG_DATA(message) + sizeof(struct nlmsgerr);
    const uint8_t *last = (const uint8_t *)message + message->nlmsg_len;
    int error = read_error(message);
    bool has_words = message->nlmsg_flags & NLM_F_ACK_TLVS;
    return error == 0 ? 0 : refused(answer, error, has_words ? attribute_find(behind, last, NLMSGERR_ATTR_MSG) : NULL);
}

static uint32_t number; /* the sequence number of the last request */

int netlink_ask(int netlink, struct request *request, struct answer *answer) {
    static uint8_t bytes[2 * GREATEST_ANSWER] __attribute__((aligned(NLMSG_ALIGNTO)));
    size_t kept = 0; /* the length of the message before the last one, if there is one */
    answer->message = bytes;
    answer->length = 0;
    request->header.nlmsg_seq = ++number;
    if (send(netlink, request, request->header.nlmsg_len, 0) < 0)
        return refused(answer, errno, NULL);
    for (;;) {
        ssize_t length = recv(netlink, bytes + kept, GREATEST_ANSWER, MSG_TRUNC);
        if (length < 0 || length > GREATEST_ANSWER)
            return refused(answer, length < 0 ? errno : EMSGSIZE, NULL);
        const struct nlmsghdr *message = (const void *)(bytes + kept);
        if (!NLMSG_OK(message, (int)length) || message->nlmsg_seq != number)
            continue; /* a rest of an earlier answer */
        if (message->nlmsg_type == NLMSG_ERROR)
            return read_end(message, answer);
        if (kept > 0)
            continue;
        answer->message = NLMSG_DATA(message);
        answer->length = message->nlmsg_len - NLMSG_HDRLEN;
        kept = NLMSG_ALIGN((size_t)length);
    }
}

void batch_put(int netlink, struct batch *batch, const struct request *request) {
    struct nlmsghdr header = request->header;
    size_t length = NLMSG_ALIGN(header.nlmsg_len);
    header.nlmsg_flags &= (uint16_t)~NLM_F_ACK;
    header.nlmsg_seq = 0; /* no request that waits for an answer has this number */
    if (batch->length + length > sizeof batch->requests)
        batch_send(netlink, batch);
    memcpy(batch->requests + batch->length, request, length);
    memcpy(batch->requests + batch->length, &header, sizeof header);
    batch->length += length;
}

void batch_send(int netlink, struct batch *batch) {
    if (batch->length > 0)
        send(netlink, batch->requests, batch->length, 0);
    batch->length = 0;
}

/* Reads the messages of one part of a dump. Returns whether it was the last part, and sets `*error` if something failed. */
static bool read_part(const uint8_t *bytes, size_t length, netlink_each *each, void *context, struct answer *answer, int *error) {
    const struct nlmsghdr *message = (const void *)bytes;
    for (int left = (int)length; NLMSG_OK(message, left); message = NLMSG_NEXT(message, left)) {
        if (message->nlmsg_seq != number)
            continue; /* a rest of an earlier answer */
        if (message->nlmsg_flags & NLM_F_DUMP_INTR)
            *error = EINTR;
        if (message->nlmsg_type == NLMSG_ERROR || message->nlmsg_type == NLMSG_DONE) {
            int code = message->nlmsg_len > NLMSG_HDRLEN ? read_error(message) : 0;
            if (code != 0)
                *error = refused(answer, code, NULL);
            return true;
        }
        each(context, message);
    }
    return false;
}

int netlink_dump(int netlink, struct request *request, netlink_each *each, void *context, struct answer *answer) {
    static uint8_t bytes[GREATEST_ANSWER] __attribute__((aligned(NLMSG_ALIGNTO)));
    int error = 0;
    request->header.nlmsg_seq = ++number;
    request->header.nlmsg_flags = NLM_F_REQUEST | NLM_F_DUMP;
    if (send(netlink, request, request->header.nlmsg_len, 0) < 0)
        return refused(answer, errno, NULL);
    for (;;) {
        ssize_t length = recv(netlink, bytes, sizeof bytes, 0);
        if (length < 0)
            return refused(answer, errno, NULL);
        if (read_part(bytes, (size_t)length, each, context, answer, &error))
            return error == EINTR ? refused(answer, error, NULL) : error;
    }
}

void request_link(struct request *request, uint16_t type, uint16_t flags, int index) {
    struct ifinfomsg head = {.ifi_family = AF_UNSPEC, .ifi_index = index};
    request_begin(request, type, flags, &head, sizeof head);
}

bool attribute_number(const uint8_t *at, const uint8_t *end, uint16_t type, uint32_t *number_of) {
    const struct nlattr *found = attribute_find(at, end, type);
    size_t length = found == NULL ? 0 : (size_t)(attribute_end(found) - attribute_data(found));
    uint8_t byte;
    if (length == sizeof byte) {
        memcpy(&byte, attribute_data(found), sizeof byte);
        *number_of = byte;
    } else if (length >= sizeof *number_of) {
        memcpy(number_of, attribute_data(found), sizeof *number_of);
    }
    return length == sizeof byte || length >= sizeof *number_of;
}

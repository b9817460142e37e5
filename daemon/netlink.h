/* Requests to the Linux kernel by netlink, one at a time, and its notifications. */
#ifndef NETLINK_H
#define NETLINK_H

#include <linux/netlink.h>
#include <stdbool.h>
#include <stddef.h>
#include <stdint.h>

enum { GREATEST_BODY = 2048, GREATEST_ANSWER = 1 << 16, LONGEST_WHY = 160 };

struct request {
    struct nlmsghdr header;
    uint8_t body[GREATEST_BODY];
};

/* The kernel's answer to the last request. */
struct answer {
    char why[LONGEST_WHY];  /* the reason if the kernel rejected the request */
    const uint8_t *message; /* the body of the message that the request asked for, or no bytes */
    size_t length;
};

/* Opens a socket of NETLINK_ROUTE or of another protocol. It is for requests; or, if `groups` is not 0, for notifications, and then
   a read never waits. Returns -1 with `errno` if that fails. */
int netlink_open(int protocol, uint32_t groups);

/* A request begins with its head. Then attributes follow, which must fit into it. A nest may contain nests. */
void request_begin(struct request *request, uint16_t type, uint16_t flags, const void *head, size_t length);
void request_put(struct request *request, uint16_t type, const void *data, size_t length);
size_t request_begin_nest(struct request *request, uint16_t type);
void request_end_nest(struct request *request, size_t nest);

/* Sends a request, and waits for its answer, which stands until the next call. Returns 0 or an error of <errno.h>. */
int netlink_ask(int netlink, struct request *request, struct answer *answer);

/* Requests that are sent together. The kernel handles them without a pause, and their answers are not read. */
struct batch {
    size_t length;
    uint8_t requests[GREATEST_ANSWER];
};

/* Adds a request. If there is no room for it, those before are sent. */
void batch_put(int netlink, struct batch *batch, const struct request *request);
/* Sends the requests, and empties the batch. The kernel has handled them when it returns. */
void batch_send(int netlink, struct batch *batch);

/* Sends a request for a dump, and passes each message to `each`, which sends no request. Returns 0 or an error of <errno.h>. EINTR
   means that the dump may be incomplete. */
typedef void netlink_each(void *context, const struct nlmsghdr *message);
int netlink_dump(int netlink, struct request *request, netlink_each *each, void *context, struct answer *answer);

/* Begins a request about an interface, or about all interfaces if `index` is 0. */
void request_link(struct request *request, uint16_t type, uint16_t flags, int index);

/* Returns the attribute at `*at`, and moves `*at` to the next one. Returns NULL if no whole attribute is left before `end`. */
const struct nlattr *attribute_next(const uint8_t **at, const uint8_t *end);
/* Returns the first attribute of a type from `at` on, or NULL. */
const struct nlattr *attribute_find(const uint8_t *at, const uint8_t *end, uint16_t type);
/* Reads an attribute that is a number of one or four bytes. Returns whether there is one. */
bool attribute_number(const uint8_t *at, const uint8_t *end, uint16_t type, uint32_t *number);
const uint8_t *attribute_data(const struct nlattr *attribute);
const uint8_t *attribute_end(const struct nlattr *attribute);

#endif

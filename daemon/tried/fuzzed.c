/* Frames, messages of netlink and upcalls from a fuzzer. `daemon/tried/fuzz SECONDS` builds this file with those of the program, and
   afl-fuzz runs it. The first byte of an input is its kind. For netlink and upcalls the rest is the bytes of each read after their
   length in two bytes. Sequence numbers of netlink are corrected. */
#define _GNU_SOURCE
#include "faults.h"
#include "hello.h"
#include "inherit.h"
#include "ports.h"

#include <errno.h>
#include <string.h>
#include <sys/socket.h>
#include <unistd.h>

#undef send
#undef recv

static uint8_t input[1 << 16];
static size_t at, end;
static uint32_t number; /* the sequence number of the last request */
static struct querier querier;
static struct options options;

/* Replaces `send` in the files of the program. */
ssize_t fuzzed_send(int to, const void *bytes, size_t length, int flags) {
    (void)to, (void)flags;
    number = ((const struct nlmsghdr *)bytes)->nlmsg_seq;
    return (ssize_t)length;
}

/* Replaces `recv`. */
ssize_t fuzzed_recv(int from, void *bytes, size_t room, int flags) {
    (void)from, (void)flags;
    if (end - at < 2) {
        errno = EAGAIN;
        return -1;
    }
    size_t length = (size_t)input[at] << 8 | input[at + 1];
    at += 2;
    length = length > end - at ? end - at : length;
    length = length > room ? room : length;
    memcpy(bytes, input + at, length);
    at += length;
    struct nlmsghdr *message = bytes;
    for (int left = (int)length; NLMSG_OK(message, left); message = NLMSG_NEXT(message, left))
        message->nlmsg_seq = number;
    return (ssize_t)length;
}

static void read_as_frame(void) {
    struct datagram datagram;
    static uint8_t copy[sizeof input];
    uint8_t *frame = copy + sizeof copy - (end - at); /* it ends where the memory ends */
    memcpy(frame, input + at, end - at);
    enum carried carried = read_frame(frame, end - at, &datagram);
    if (is_hello(&datagram))
        hello_seconds(&datagram);
    if (carried == CARRIED_DATAGRAM && datagram.length > 0)
        memcpy(copy, datagram.body, datagram.length);
}

static void read_as_netlink(void) {
    for (size_t port = 0; port < querier.room; port++) {
        querier.ports[port].index = 0;
        querier_forget(&querier, querier.ports + port);
    }
    querier.bridges[0].index = input[0] & 4 ? 3 : 0;
    if (input[0] & 2)
        ports_read_news(&querier);
    ports_refresh(&querier, moment());
    querier_repair(&querier, moment());
}

/* Makes a router of two interfaces downstream and one upstream, without the kernel's tables. */
static void open_route(void) {
    static struct route route;
    querier.route = &route;
    prefixes_read(&options.upstream, "up0");
    route = (struct route){.downstream = 2, .count = 3, .listening = -1};
    for (int at = 0; at < 3; at++)
        route.vifs[at] = (struct vif){.name = "dn0", .index = at + 1};
    for (int at = 0; at < 2; at++)
        route.tables[at] = (struct mroute){.file = STDIN_FILENO, .is_mld = at == 1};
    entries_open(&route.entries, 16);
    joins_open(&route.joins, 16);
    route.was_querier = take(2 * querier.room, sizeof *route.was_querier);
}

/* Reads entries of the kernel's, then upcalls. */
static void read_as_route(struct route *route) {
    bool is_mld = input[0] & 2;
    querier.route = route;
    for (struct route_entry *entry; (entry = entries_at(&route->entries, 0)) != NULL;)
        entries_remove(&route->entries, entry);
    if (input[0] & 4)
        inherit_read(&querier, is_mld);
    route->slice_ends = UINT64_MAX;
    route->slice_left = 1000;
    forward_hear(&querier, &route->tables[is_mld], moment());
    forward_all(&querier, is_mld, true, moment());
    forward_poll(&querier, 16, moment());
    querier.route = NULL;
}

int main(void) {
    static char bridge[] = "bridge", name[] = "br0", ports[] = "--ports", four[] = "4", groups[] = "--groups", few[] = "16";
    static char *words[] = {bridge, name, ports, four, groups, few, NULL};
    const char *why = options_read(&options, sizeof words / sizeof *words - 1, words);
    if (why != NULL)
        fail(STATUS_USAGE, "fuzzed", why);
    querier_open(&querier, &options);
    querier.bridges_count = 1;
    querier.bridges[0] = (struct bridge){.name = name, .before = -1, .listening = -1};
    querier.netlink = querier.news = querier.ring.packets = -1;
    open_route();
    struct route *route = querier.route;
#ifdef __AFL_LOOP
    while (__AFL_LOOP(10000))
#endif
    {
        ssize_t length = read(STDIN_FILENO, input, sizeof input);
        at = 1;
        end = length > 0 ? (size_t)length : 1;
        if (input[0] & 1)
            read_as_frame();
        else if (input[0] & 8)
            read_as_route(route);
        else
            read_as_netlink();
    }
    return 0;
}

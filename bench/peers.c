/* The loops that bench/peers measures, on the library of `make lib` and on an interface of Linux.

   peers library igmp|mld FILE ROUNDS       passes the messages of FILE to a link, and prints the nanoseconds for each
   peers send INTERFACE FILE ROUNDS [PID]   sends the frames of FILE, and prints its own nanoseconds for each. It waits before each
                                            burst until the sockets that the process PID sees are empty

   FILE is a sequence of messages or frames, each after its length in two bytes, most significant byte first. Those before an empty
   one are passed or sent once. Those after it are measured, ROUNDS times. Times are of the processor. */
#define _GNU_SOURCE
#include "mquerier.h"

#include <arpa/inet.h>
#include <linux/if_packet.h>
#include <net/if.h>
#include <stdbool.h>
#include <stdio.h>
#include <stdlib.h>
#include <string.h>
#include <sys/socket.h>
#include <time.h>

enum { MOST = 1 << 16, BURST = 32 };

struct part {
    const uint8_t *bytes;
    size_t length;
};

static struct part parts[MOST];
static size_t count, looked_at; /* all of them, and the first that is measured */

static void want(bool is_so, const char *otherwise) {
    if (is_so)
        return;
    fprintf(stderr, "peers: %s\n", otherwise);
    exit(1);
}

static void read_parts(const char *name) {
    static uint8_t bytes[1 << 24];
    FILE *file = fopen(name, "rb");
    want(file != NULL, "the file can't be opened");
    size_t length = fread(bytes, 1, sizeof bytes, file);
    fclose(file);
    for (size_t at = 0; at + 2 <= length; at += parts[count++].length) {
        want(count < MOST, "too many parts");
        parts[count] = (struct part){bytes + at + 2, (size_t)bytes[at] << 8 | bytes[at + 1]};
        at += 2;
        if (parts[count].length == 0)
            looked_at = count + 1;
    }
}

/* Returns the nanoseconds that the processor worked for this process. */
static uint64_t worked(void) {
    struct timespec now;
    clock_gettime(CLOCK_PROCESS_CPUTIME_ID, &now);
    return (uint64_t)now.tv_sec * 1000000000 + (uint64_t)now.tv_nsec;
}

static void tell(uint64_t nanoseconds, uint64_t rounds) {
    printf("%.1f\n", (double)nanoseconds / (double)(rounds * (count - looked_at)));
}

/* A link of either family, at the default limits. */
static bool is_mld;
static mq_igmp_on_heap igmp;
static mq_mld_on_heap mld;
static const uint8_t OWN[16] = {0xfe, 0x80, [15] = 9}, HOST[16] = {0xfe, 0x80, [15] = 7};
static const uint8_t ROUTERS[16] = {0xff, 2, [15] = 0x16};
static uint8_t *queries;
static size_t room;

static void begin(void) {
    mq_mld_config of_mld = mq_mld_defaults(OWN);
    mq_igmp_config of_igmp = mq_igmp_defaults((const uint8_t[]){10, 0, 0, 9});
    uint32_t status = is_mld ? mq_mld_new(of_mld, 0, &mld) : mq_igmp_new(of_igmp, 0, &igmp);
    want(status == 0, "the link wasn't made");
    room = is_mld ? mq_mld_outlet_bytes(of_mld, 65535) : mq_igmp_outlet_bytes(of_igmp, 65535);
    queries = malloc(room);
    want(queries != NULL, "no memory");
}

/* The destination of a Report of an older host is its group. */
static void receive(struct part part, uint64_t now) {
    static const uint8_t host[4] = {10, 0, 0, 7};
    const uint8_t *to = part.bytes[0] == 131 ? part.bytes + 8 : ROUTERS;
    mq_answer answer =
        is_mld ? mq_mld_receive(&mld.link, &mld.workspace, HOST, to, 1, true, part.bytes, part.length, now, queries, room)
               : mq_igmp_receive(&igmp.link, &igmp.workspace, host, part.bytes, part.length, now, queries, room);
    want(answer.dropped == 0 && answer.refused == 0 && answer.ignored == 0, "a message wasn't taken");
}

static void run_library(uint64_t rounds) {
    begin();
    for (size_t at = 0; at + 1 < looked_at; at++)
        receive(parts[at], 0);
    uint64_t begun = worked();
    for (uint64_t round = 0; round < rounds; round++)
        for (size_t at = looked_at; at < count; at++)
            receive(parts[at], round);
    tell(worked() - begun, rounds);
}

/* Returns whether any socket of a table of the kernel has bytes to read. Each line is a socket, with its bytes in a column. */
static bool is_filled(const char *name, int column, bool is_hexadecimal) {
    char line[512];
    bool found = false;
    FILE *table = fopen(name, "r");
    want(table != NULL, "no table of sockets");
    want(fgets(line, sizeof line, table) != NULL, "an empty table");
    while (fgets(line, sizeof line, table) != NULL) {
        char *word = strtok(line, " ");
        for (int at = 1; at < column && word != NULL; at++)
            word = strtok(NULL, " ");
        if (word != NULL)
            found |= (is_hexadecimal ? strtoul(word + 9, NULL, 16) : strtoul(word, NULL, 10)) != 0;
    }
    fclose(table);
    return found;
}

static void wait_for(const char *pid) {
    char packet[64], raw[64];
    snprintf(packet, sizeof packet, "/proc/%s/net/packet", pid);
    snprintf(raw, sizeof raw, "/proc/%s/net/raw", pid);
    while (is_filled(packet, 7, false) || is_filled(raw, 5, true)) {
        struct timespec some = {.tv_nsec = 20000};
        nanosleep(&some, NULL);
    }
}

static int open_interface(const char *name) {
    int packets = socket(AF_PACKET, SOCK_RAW, 0);
    struct sockaddr_ll at = {.sll_family = AF_PACKET, .sll_ifindex = (int)if_nametoindex(name)};
    want(packets >= 0 && at.sll_ifindex != 0 && bind(packets, (struct sockaddr *)&at, sizeof at) == 0, "no such interface");
    return packets;
}

/* Sends these frames in bursts. Returns the nanoseconds that this took. */
static uint64_t send_all(int packets, size_t from, size_t to, const char *pid) {
    uint64_t taken = 0;
    while (from < to) {
        struct mmsghdr heads[BURST] = {0};
        struct iovec rooms[BURST];
        unsigned some = 0;
        for (; some < BURST && from < to; some++, from++) {
            rooms[some] = (struct iovec){.iov_base = (void *)parts[from].bytes, .iov_len = parts[from].length};
            heads[some].msg_hdr = (struct msghdr){.msg_iov = &rooms[some], .msg_iovlen = 1};
        }
        if (pid != NULL)
            wait_for(pid);
        uint64_t begun = worked();
        want(sendmmsg(packets, heads, some, 0) == (int)some, "frames weren't sent");
        taken += worked() - begun;
    }
    return taken;
}

int main(int words, char **said) {
    want(words >= 5, "words are missing");
    uint64_t rounds = strtoull(said[4], NULL, 10);
    read_parts(said[3]);
    want(looked_at < count && rounds > 0, "nothing to look at");
    if (strcmp(said[1], "library") == 0) {
        is_mld = strcmp(said[2], "mld") == 0;
        run_library(rounds);
        return 0;
    }
    int packets = open_interface(said[2]);
    const char *pid = words > 5 ? said[5] : NULL;
    if (looked_at > 0)
        send_all(packets, 0, looked_at - 1, pid);
    uint64_t taken = 0;
    for (uint64_t round = 0; round < rounds; round++)
        taken += send_all(packets, looked_at, count, pid);
    if (pid != NULL)
        wait_for(pid);
    tell(taken, rounds);
    return 0;
}

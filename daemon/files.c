#define _GNU_SOURCE
#include "files.h"

#include "faults.h"

#include <errno.h>
#include <inttypes.h>
#include <stddef.h>
#include <stdint.h>
#include <stdio.h>
#include <string.h>
#include <sys/socket.h>
#include <sys/un.h>
#include <unistd.h>

#ifndef SO_NETNS_COOKIE
#define SO_NETNS_COOKIE 71
#endif

/* Returns the kernel's number of this network namespace. */
static uint64_t namespace(void) {
    uint64_t number = 0;
    socklen_t length = sizeof number;
    int any = socket(AF_UNIX, SOCK_DGRAM | SOCK_CLOEXEC, 0);
    if (any < 0 || getsockopt(any, SOL_SOCKET, SO_NETNS_COOKIE, &number, &length) < 0)
        fail(STATUS_FAILED, "network namespace", strerror(errno));
    close(any);
    return number;
}

bool files_name(char *to, size_t room, const char *run, const char *bridge, const char *file) {
    return (size_t)snprintf(to, room, "%s/%s/%s-%" PRIu64, run, bridge, file, namespace()) < room;
}

void files_lock(const char *bridge) {
    struct sockaddr_un at = {.sun_family = AF_UNIX};
    int lock = socket(AF_UNIX, SOCK_DGRAM | SOCK_CLOEXEC, 0);                                   /* it stays open */
    int length = snprintf(at.sun_path + 1, sizeof at.sun_path - 1, "mquerier-live/%s", bridge); /* an abstract name */
    if (lock < 0
        || bind(lock, (struct sockaddr *)&at, (socklen_t)(offsetof(struct sockaddr_un, sun_path) + 1 + (size_t)length)) < 0)
        fail(STATUS_FAILED, bridge, errno == EADDRINUSE ? "another mquerier-live serves it" : strerror(errno));
}

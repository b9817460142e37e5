#define _GNU_SOURCE
#include "holder.h"

#include "faults.h"

#include <errno.h>
#include <poll.h>
#include <signal.h>
#include <stdbool.h>
#include <stdint.h>
#include <stdio.h>
#include <string.h>
#include <sys/socket.h>
#include <sys/syscall.h>
#include <sys/un.h>
#include <sys/wait.h>
#include <unistd.h>

/* The most sockets that are held, and the milliseconds for which the next run may take them. */
enum { GREATEST_HELD = 16384, LONGEST_WORDS = 2048, HOLDS_MS = 60000, PATIENCE_S = 2 };

static int holder = -1; /* the way to the process */

static bool name_place(const char *name, struct sockaddr_un *at) {
    *at = (struct sockaddr_un){.sun_family = AF_UNIX};
    return (size_t)snprintf(at->sun_path, sizeof at->sun_path, "%s", name) < sizeof at->sun_path;
}

/* Sends a byte with a socket. Returns whether that succeeded. */
static bool pass(int to, uint8_t kind, int file) {
    union {
        struct cmsghdr head;
        uint8_t bytes[CMSG_SPACE(sizeof(int))];
    } control = {.bytes = {0}};
    struct iovec data = {&kind, 1};
    struct msghdr message = {.msg_iov = &data, .msg_iovlen = 1};
    if (file >= 0) {
        message.msg_control = &control;
        message.msg_controllen = sizeof control;
        control.head = (struct cmsghdr){.cmsg_len = CMSG_LEN(sizeof file), .cmsg_level = SOL_SOCKET, .cmsg_type = SCM_RIGHTS};
        memcpy(CMSG_DATA(&control.head), &file, sizeof file);
    }
    return sendmsg(to, &message, MSG_NOSIGNAL) == 1;
}

/* Receives a byte, and a socket or -1. Returns whether one came. */
static bool receive(int from, uint8_t *kind, int *file) {
    union {
        struct cmsghdr head;
        uint8_t bytes[CMSG_SPACE(sizeof(int))];
    } control;
    struct iovec data = {kind, 1};
    struct msghdr message = {.msg_iov = &data, .msg_iovlen = 1, .msg_control = &control, .msg_controllen = sizeof control};
    *file = -1;
    if (recvmsg(from, &message, MSG_CMSG_CLOEXEC) != 1)
        return false;
    if (message.msg_controllen >= CMSG_LEN(sizeof *file) && control.head.cmsg_type == SCM_RIGHTS)
        memcpy(file, CMSG_DATA(&control.head), sizeof *file);
    return true;
}

/* The sockets that the process holds. */
static struct {
    uint8_t kinds[GREATEST_HELD];
    int files[GREATEST_HELD];
    size_t count;
} held;

/* Closes the inherited sockets. */
static void close_inherited(void) {
    size_t count = held.count;
    held.count = 0;
    for (size_t at = 0; at < count; at++) {
        if (held.kinds[at] == HELD_INHERITED) {
            close(held.files[at]);
            continue;
        }
        held.kinds[held.count] = held.kinds[at];
        held.files[held.count++] = held.files[at];
    }
}

/* Holds sockets until the router is gone. Returns whether it was killed. */
static bool hold(int from) {
    uint8_t kind;
    int file;
    while (receive(from, &kind, &file)) {
        if (kind == HELD_END)
            return false;
        if (kind == HELD_GATHERED)
            close_inherited();
        if (file >= 0 && held.count < GREATEST_HELD) {
            held.kinds[held.count] = kind;
            held.files[held.count++] = file;
        }
    }
    return true;
}

/* Gives the sockets to the next run if it comes in time. */
static void hand_over(int listening, const char *words) {
    struct pollfd next = {.fd = listening, .events = POLLIN};
    bool is_sent = false;
    int to = -1;
    while (!is_sent && poll(&next, 1, HOLDS_MS) == 1) { /* a process that came before the kill may be gone */
        to = accept(listening, NULL, NULL);
        is_sent = to >= 0 && send(to, words, LONGEST_WORDS, MSG_NOSIGNAL) == LONGEST_WORDS;
    }
    for (size_t at = 0; at < held.count && is_sent; at++)
        is_sent = pass(to, held.kinds[at], held.files[at]);
}

/* The process: its files are the way from the router, and the socket where the next run comes. */
static void serve(int from, int listening, const char *words) {
    struct sigaction ignored = {.sa_handler = SIG_IGN};
    dup2(from, STDIN_FILENO);
    dup2(listening, STDOUT_FILENO);
    syscall(__NR_close_range, STDOUT_FILENO + 1, ~0U, 0); /* glibc has the call from 2.34 on */
    sigaction(SIGTERM, &ignored, NULL);
    sigaction(SIGINT, &ignored, NULL);
    sigaction(SIGHUP, &ignored, NULL);
    if (hold(STDIN_FILENO))
        hand_over(STDOUT_FILENO, words);
    _exit(0);
}

void holder_start(const char *name, const char *words) {
    static char text[LONGEST_WORDS];
    struct sockaddr_un at;
    int ways[2];
    snprintf(text, sizeof text, "%s", words);
    int listening = socket(AF_UNIX, SOCK_STREAM | SOCK_CLOEXEC, 0);
    unlink(name);
    bool is_open = listening >= 0 && name_place(name, &at) && bind(listening, (struct sockaddr *)&at, sizeof at) == 0
                   && listen(listening, 1) == 0 && socketpair(AF_UNIX, SOCK_STREAM | SOCK_CLOEXEC, 0, ways) == 0;
    if (!is_open)
        fail(STATUS_FAILED, name, strerror(errno));
    pid_t child = fork();
    if (child == 0) {
        if (fork() == 0) /* no child of the router, which waits for its own */
            serve(ways[1], listening, text);
        _exit(0);
    }
    if (child > 0)
        waitpid(child, NULL, 0);
    close(listening);
    close(ways[1]);
    holder = ways[0];
}

void holder_add(enum held_kind kind, int file) {
    if (holder >= 0 && file >= 0 && !pass(holder, (uint8_t)kind, file))
        fault(FAULT_JOINS, "holder", "it is gone: after a kill, forwarding would stop");
}

void holder_gathered(void) {
    if (holder >= 0)
        pass(holder, HELD_GATHERED, -1);
}

void holder_end(void) {
    if (holder >= 0)
        pass(holder, HELD_END, -1);
}

void holder_take(const char *name, const char *words, void (*each)(enum held_kind kind, int file)) {
    static char text[LONGEST_WORDS], own[LONGEST_WORDS];
    struct sockaddr_un at;
    struct timeval patience = {.tv_sec = PATIENCE_S};
    uint8_t kind;
    int file, from = socket(AF_UNIX, SOCK_STREAM | SOCK_CLOEXEC, 0);
    snprintf(own, sizeof own, "%s", words);
    if (from < 0 || !name_place(name, &at) || setsockopt(from, SOL_SOCKET, SO_RCVTIMEO, &patience, sizeof patience) < 0
        || connect(from, (struct sockaddr *)&at, sizeof at) < 0) {
        close(from);
        return;
    }
    bool is_same = recv(from, text, sizeof text, MSG_WAITALL) == sizeof text && strcmp(text, own) == 0;
    while (receive(from, &kind, &file)) {
        if (is_same && file >= 0)
            each(kind, file);
        else if (file >= 0)
            close(file);
    }
    close(from);
}

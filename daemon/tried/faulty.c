/* A kernel with faults, for tests: its sockets have no room, its bridges filter VLANs, its clock jumps, it lacks newer requests.
   LD_PRELOAD loads this file into mquerier-live. The file that FAULTY names has its orders. */
#define _GNU_SOURCE
#include <dlfcn.h>
#include <errno.h>
#include <fcntl.h>
#include <linux/if_link.h>
#include <linux/rtnetlink.h>
#include <stdbool.h>
#include <stdint.h>
#include <stdlib.h>
#include <string.h>
#include <sys/mman.h>
#include <sys/socket.h>
#include <sys/utsname.h>
#include <time.h>
#include <unistd.h>

/* The orders of the file. */
struct orders {
    int32_t each;    /* every `each`-th call of each kind fails with ENOBUFS; with 0 none fails */
    int32_t filters; /* bridges filter VLANs */
    int64_t ahead;   /* the milliseconds by which CLOCK_BOOTTIME is ahead */
};
static const struct orders none;
static const volatile struct orders *orders = &none;

__attribute__((constructor)) static void begin(void) {
    const char *name = getenv("FAULTY");
    int file = name == NULL ? -1 : open(name, O_RDONLY | O_CLOEXEC);
    void *read = file < 0 ? MAP_FAILED : mmap(NULL, sizeof *orders, PROT_READ, MAP_SHARED, file, 0);
    if (read != MAP_FAILED)
        orders = read;
    if (file >= 0)
        close(file);
}

/* Counts a call of one kind, and returns whether it fails. */
static bool fails(uint32_t *calls) {
    int32_t each = orders->each;
    if (each == 0 || ++*calls % (uint32_t)each != 0)
        return false;
    errno = ENOBUFS;
    return true;
}

/* The function of the C library with this name. */
#define BEHIND(name) __extension__((__typeof__(name) *)dlsym(RTLD_NEXT, #name))

int socket(int family, int type, int protocol) {
    if (family == AF_INET6 && getenv("FAULTY_NO_IPV6") != NULL) {
        errno = EAFNOSUPPORT;
        return -1;
    }
    return BEHIND(socket)(family, type, protocol);
}

enum { UNKNOWN_TYPE = 0xfff0 };

/* Gives a request that kernels of 6.2 to 6.7 lack a type that no kernel knows. */
static void forget_type(struct nlmsghdr *request) {
    bool reads_one = request->nlmsg_type == RTM_GETMDB && !(request->nlmsg_flags & NLM_F_DUMP);
    bool removes_all = request->nlmsg_type == RTM_DELMDB && (request->nlmsg_flags & NLM_F_BULK);
    if (reads_one || removes_all)
        request->nlmsg_type = UNKNOWN_TYPE;
}

int uname(struct utsname *kernel) {
    int status = BEHIND(uname)(kernel);
    if (status == 0 && getenv("FAULTY_OLDER") != NULL)
        strcpy(kernel->release, "6.6.100");
    return status;
}

ssize_t send(int to, const void *bytes, size_t length, int flags) {
    static uint32_t calls;
    char request[4096] __attribute__((aligned(NLMSG_ALIGNTO)));
    if (getenv("FAULTY_OLDER") != NULL && length >= NLMSG_HDRLEN && length <= sizeof request) {
        memcpy(request, bytes, length);
        forget_type((struct nlmsghdr *)(void *)request);
        bytes = request;
    }
    return fails(&calls) ? -1 : BEHIND(send)(to, bytes, length, flags);
}

ssize_t sendto(int to, const void *bytes, size_t length, int flags, const struct sockaddr *at, socklen_t at_length) {
    static uint32_t calls;
    return fails(&calls) ? -1 : BEHIND(sendto)(to, bytes, length, flags, at, at_length);
}

int setsockopt(int of, int level, int option, const void *value, socklen_t length) {
    static uint32_t calls;
    return fails(&calls) ? -1 : BEHIND(setsockopt)(of, level, option, value, length);
}

static struct rtattr *attribute(struct rtattr *at, size_t left, unsigned short type) {
    for (; RTA_OK(at, left); at = RTA_NEXT(at, left))
        if ((at->rta_type & NLA_TYPE_MASK) == type)
            return at;
    return NULL;
}

static struct rtattr *attribute_in(struct rtattr *nest, unsigned short type) {
    return nest == NULL ? NULL : attribute(RTA_DATA(nest), RTA_PAYLOAD(nest), type);
}

/* Makes a message about a bridge say that the bridge filters VLANs. */
static void set_filtering(struct nlmsghdr *message) {
    struct ifinfomsg *head = NLMSG_DATA(message);
    struct rtattr *about = attribute(IFLA_RTA(head), IFLA_PAYLOAD(message), IFLA_LINKINFO);
    struct rtattr *flag = attribute_in(attribute_in(about, IFLA_INFO_DATA), IFLA_BR_VLAN_FILTERING);
    if (flag != NULL && RTA_PAYLOAD(flag) == 1)
        *(uint8_t *)RTA_DATA(flag) = 1;
}

ssize_t recv(int from, void *bytes, size_t room, int flags) {
    static uint32_t calls;
    ssize_t length = fails(&calls) ? -1 : BEHIND(recv)(from, bytes, room, flags);
    struct nlmsghdr *message = bytes;
    for (ssize_t left = length; orders->filters && left > 0 && NLMSG_OK(message, left); message = NLMSG_NEXT(message, left))
        if (message->nlmsg_type == RTM_NEWLINK)
            set_filtering(message);
    return length;
}

int clock_gettime(clockid_t clock, struct timespec *now) {
    int status = BEHIND(clock_gettime)(clock, now);
    if (clock == CLOCK_BOOTTIME) {
        now->tv_sec += orders->ahead / 1000;
        now->tv_nsec += orders->ahead % 1000 * 1000000;
        now->tv_sec += now->tv_nsec / 1000000000;
        now->tv_nsec %= 1000000000;
    }
    return status;
}

/* Faults: the end of the program, and the counters and lines of the faults that it survives. */
#ifndef FAULTS_H
#define FAULTS_H

#include <stdint.h>

enum { STATUS_FAILED = 1, STATUS_USAGE = 2 };

/* The faults that the program survives. Each kind has a counter, named in `fault_names`. */
enum fault {
    FAULT_LOST,      /* frames that the kernel dropped because this program read too late */
    FAULT_LIMITS,    /* records that would exceed a limit */
    FAULT_MALFORMED, /* frames that carry no whole datagram of IGMP or MLD */
    FAULT_FRAGMENTS, /* fragments of IGMP, and first fragments of MLD */
    FAULT_ROUTERS,   /* other queriers that take over, queries of older versions, and routers of PIM without --router-port */
    FAULT_UNSENT,    /* queries that could not be sent */
    FAULT_REFUSED,   /* entries of the database that the kernel rejected */
    FAULT_SOURCES,   /* filters of more sources than an entry can have */
    FAULT_OTHERS,    /* entries of other programs, which prevent ours */
    FAULT_ALWAYS,    /* filters of groups that the kernel always forwards */
    FAULT_OVERRUN,   /* notifications of the kernel that were lost */
    FAULT_NETLINK,   /* other requests that the kernel rejected */
    FAULT_PORTS,     /* ports beyond --ports, and bridges that are gone or can't be served */
    FAULT_MISSING,   /* addresses and settings that are missing */
    FAULT_STATUS,    /* readers of the status that were turned away */
    FAULT_CLOCK,     /* times when nothing ran for more than a Query Interval */
    FAULT_JOINS,     /* groups that the kernel did not join upstream */
    FAULT_WIDER,     /* groups joined upstream for all sources, because the kernel's bounds do not allow the list */
    FAULT_ROUTES,    /* interfaces and entries that the kernel's multicast routing rejected */
    FAULT_ELSEWHERE, /* senders at an interface that the route to them does not take */
    FAULT_EVICTED,   /* entries of multicast routing removed for others, beyond --entries */
    FAULT_UPCALLS,   /* times when new senders had to wait, beyond --upcalls */
    FAULT_KINDS
};
extern const char *const fault_names[FAULT_KINDS];
extern uint64_t fault_counts[FAULT_KINDS];

/* Prints one line on standard error: what failed, and why. */
void tell(const char *what, const char *why);
/* Counts `count` faults of a kind. Prints a line, at most four at once and one a second for each kind. */
void fault_count(enum fault kind, uint64_t count, const char *what, const char *why);
void fault(enum fault kind, const char *what, const char *why);
/* Prints a line and ends the program. */
void fail(int status, const char *what, const char *why) __attribute__((noreturn));
/* Returns zeroed memory, only at the start. The program ends if allocation fails. */
void *take(uint64_t count, uint64_t size);
/* Returns zeroed memory that is never freed, or NULL with `errno`. */
void *grab(uint64_t count, uint64_t size);

#endif

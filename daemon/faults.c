#define _GNU_SOURCE
#include "faults.h"

#include <errno.h>
#include <inttypes.h>
#include <stdio.h>
#include <stdlib.h>
#include <string.h>
#include <sys/mman.h>
#include <time.h>

/* The most lines of a kind at once. Afterwards each second allows one more. */
enum { LINES_AT_ONCE = 4 };

/* An allocation of LARGE bytes is not from the heap, where AddressSanitizer would check it. */
#ifdef __SANITIZE_ADDRESS__
enum { LARGE = 1 << 20 };
#else
enum { LARGE = 1 << 17 };
#endif

const char *const fault_names[FAULT_KINDS] = {
    [FAULT_LOST] = "frames_lost",           [FAULT_LIMITS] = "records_refused",
    [FAULT_MALFORMED] = "frames_malformed", [FAULT_FRAGMENTS] = "frames_fragmented",
    [FAULT_ROUTERS] = "routers_heard",      [FAULT_UNSENT] = "queries_unsent",
    [FAULT_REFUSED] = "entries_refused",    [FAULT_SOURCES] = "entries_without_sources",
    [FAULT_OTHERS] = "entries_of_others",   [FAULT_ALWAYS] = "groups_forwarded_always",
    [FAULT_OVERRUN] = "netlink_overruns",   [FAULT_NETLINK] = "netlink_refusals",
    [FAULT_PORTS] = "ports_unserved",       [FAULT_MISSING] = "settings_missing",
    [FAULT_STATUS] = "status_refused",      [FAULT_CLOCK] = "clock_jumps",
    [FAULT_JOINS] = "joins_refused",        [FAULT_WIDER] = "joins_without_sources",
    [FAULT_ROUTES] = "routes_refused",      [FAULT_ELSEWHERE] = "senders_elsewhere",
    [FAULT_EVICTED] = "routes_evicted",     [FAULT_UPCALLS] = "upcalls_delayed",
};
uint64_t fault_counts[FAULT_KINDS];

void tell(const char *what, const char *why) {
    fprintf(stderr, "mquerier-live: %s: %s\n", what, why);
}

/* Returns whether a line of a kind may be printed now. */
static int may_tell(enum fault kind) {
    static int64_t earliest[FAULT_KINDS];
    struct timespec now;
    clock_gettime(CLOCK_BOOTTIME, &now);
    int64_t second = now.tv_sec + LINES_AT_ONCE;
    if (earliest[kind] < now.tv_sec)
        earliest[kind] = now.tv_sec;
    if (earliest[kind] >= second)
        return 0;
    earliest[kind]++;
    return 1;
}

void fault_count(enum fault kind, uint64_t count, const char *what, const char *why) {
    static uint64_t silent[FAULT_KINDS];
    fault_counts[kind] += count;
    if (!may_tell(kind)) {
        silent[kind]++;
    } else if (silent[kind] == 0) {
        tell(what, why);
    } else {
        fprintf(stderr, "mquerier-live: %s: %s (and %" PRIu64 " lines left out)\n", what, why, silent[kind]);
        silent[kind] = 0;
    }
}

void fault(enum fault kind, const char *what, const char *why) {
    fault_count(kind, 1, what, why);
}

void fail(int status, const char *what, const char *why) {
    tell(what, why);
    exit(status);
}

void *grab(uint64_t count, uint64_t size) {
    if (size > 0 && count >= LARGE / size) { /* no reserve, so that a small machine can fork */
        uint64_t length = count > SIZE_MAX / size ? SIZE_MAX : count * size;
        void *memory = mmap(NULL, length, PROT_READ | PROT_WRITE, MAP_PRIVATE | MAP_ANONYMOUS | MAP_NORESERVE, -1, 0);
        return memory == MAP_FAILED ? NULL : memory;
    }
    return calloc(count > 0 ? count : 1, size);
}

void *take(uint64_t count, uint64_t size) {
    void *memory = grab(count, size);
    if (memory == NULL)
        fail(STATUS_FAILED, "memory for --ports, --groups and --sources", strerror(errno));
    return memory;
}

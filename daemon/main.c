/* The program `mquerier-live`: a multicast querier on Linux, for one interface or for all ports of bridges. The library `mquerier`
   decides, and its decisions are proved. This program is plain C, and is not proved. */
#define _GNU_SOURCE
#include "advice.h"
#include "faults.h"
#include "files.h"
#include "loop.h"
#include "ports.h"
#include "route.h"
#include "service.h"
#include "setup.h"
#include "status.h"

#include <errno.h>
#include <grp.h>
#include <linux/capability.h>
#include <linux/if_link.h>
#include <stdio.h>
#include <stdlib.h>
#include <string.h>
#include <sys/prctl.h>
#include <sys/stat.h>
#include <sys/syscall.h>
#include <unistd.h>

enum { NOBODY = 65534 };
/* The bytes that standard output buffers. */
enum { PRINTED = 1 << 16 };

static struct querier querier;
static struct options options;

/* Makes the process nobody. It keeps CAP_NET_ADMIN if it keeps a database, drops all other capabilities, and gains none by a
   program that it executes. With `--setup`, these programs have CAP_NET_ADMIN too. */
static void drop_privileges(bool keeps_database) {
    struct __user_cap_header_struct header = {.version = _LINUX_CAPABILITY_VERSION_3};
    struct __user_cap_data_struct left[_LINUX_CAPABILITY_U32S_3] = {{0}};
    if (keeps_database)
        left[0].effective = left[0].permitted = 1u << CAP_NET_ADMIN;
    if (options.sets_up)
        left[0].inheritable = 1u << CAP_NET_ADMIN;
    bool is_kept = !keeps_database || prctl(PR_SET_KEEPCAPS, 1, 0, 0, 0) == 0;
    bool is_done = geteuid() != 0 || (setgroups(0, NULL) == 0 && setgid(NOBODY) == 0 && setuid(NOBODY) == 0);
    if (!is_kept || !is_done || syscall(SYS_capset, &header, left) < 0 || prctl(PR_SET_NO_NEW_PRIVS, 1, 0, 0, 0) < 0)
        fail(STATUS_FAILED, "privileges can't be dropped", strerror(errno));
    if (options.sets_up && prctl(PR_CAP_AMBIENT, PR_CAP_AMBIENT_RAISE, CAP_NET_ADMIN, 0, 0) < 0)
        fail(STATUS_FAILED, "capabilities", strerror(errno));
}

/* Leaves the bridges to the kernel. It runs at the end of the program, unless an unhandled signal ends it. */
static void end(void) {
    for (size_t at = 0; at < querier.bridges_count; at++)
        setup_end(&querier, &querier.bridges[at]);
}

static int index_of(const char *name, struct interface *found) {
    int error = interface_read(querier.netlink, name, found);
    if (error != 0)
        fail(STATUS_FAILED, name, strerror(error));
    return found->index;
}

/* Finds the bridge and the port of --mdb. */
static void open_database(void) {
    struct interface bridge, port;
    int bridge_index = index_of(options.bridge, &bridge), port_index = index_of(options.port, &port);
    mdb_try(querier.netlink, bridge_index, options.bridge);
    index_of(options.port, &port);
    if (port.master != bridge_index)
        fail(STATUS_FAILED, options.port, "it is no port of the bridge");
    querier.kept_bridge = bridge_index;
    querier.kept_port = port_index;
}

/* Finds the interface to serve, and the database of --mdb. */
static void open_interface(void) {
    struct interface found;
    int index = index_of(options.names[0], &found);
    if (!found.is_ethernet)
        fail(STATUS_FAILED, options.names[0], "not an Ethernet interface");
    if (ring_join(&querier.ring, index) < 0)
        fail(STATUS_FAILED, options.names[0], strerror(errno));
    if (options.bridge != NULL)
        open_database();
}

static void make_folder(const char *name) {
    if (mkdir(name, 0755) < 0 && errno != EEXIST)
        fail(STATUS_FAILED, name, strerror(errno));
}

/* Finds the bridges, and opens each bridge's files and socket. */
static void open_bridges(void) {
    struct interface found;
    uint32_t snoops;
    char folder[4096];
    for (size_t at = 0; at < querier.bridges_count; at++) {
        if (querier.bridges[at].is_port)
            continue;
        index_of(options.names[at], &found);
        if (!interface_setting(&found, false, IFLA_BR_MCAST_SNOOPING, &snoops))
            fail(STATUS_FAILED, options.names[at], "it is no bridge, or the kernel can't snoop");
        mdb_try(querier.netlink, found.index, options.names[at]);
        files_lock(options.names[at]);
    }
    make_folder(options.run);
    for (size_t at = 0; at < querier.bridges_count; at++) {
        if (querier.bridges[at].is_port)
            continue;
        snprintf(folder, sizeof folder, "%s/%s", options.run, options.names[at]);
        make_folder(folder);
    }
    setup_open(&querier);
    status_open(&querier);
}

static void run(int count, char **words) {
    static char printed[PRINTED];
    const char *why = options_read(&options, count, words);
    if (why != NULL) {
        fprintf(stderr, "mquerier-live: %s\n", why);
        exit(STATUS_USAGE);
    }
    prctl(PR_SET_THP_DISABLE, 1, 0, 0, 0); /* links use little of their memory until hosts come: no huge pages for it */
    querier_open(&querier, &options);
    ports_open(&querier);
    for (size_t at = 0; at < options.count; at++)
        querier.bridges[querier.bridges_count++] =
            (struct bridge){.name = options.names[at],
                            .is_port = options.is_interface || (options.is_route && !options.interfaces[at].is_bridge),
                            .before = -1,
                            .listening = -1};
    if (options.is_route) { /* it starts a process, which shares no ring */
        make_folder(options.run);
        route_open(&querier);
    }
    if (ring_open(&querier.ring) < 0)
        fail(STATUS_FAILED, "packets", strerror(errno));
    if (options.is_interface)
        open_interface();
    else
        open_bridges();
    loop_open(&querier);
    drop_privileges(!options.is_interface || options.bridge != NULL);
    ports_refresh(&querier, moment());
    advice_routers(&querier);
    querier_repair(&querier, moment());
    if (!options.is_interface || options.bridge != NULL)
        atexit(end);
    deadlines_set(&querier.deadlines, 2 * querier.room + DEADLINE_SECOND, moment());
    setvbuf(stdout, printed, _IOFBF, sizeof printed); /* the loop writes all that is ready at once */
    service_notify("READY=1");
    loop_run(&querier, count, words);
    service_notify("STOPPING=1");
}

int main(int count, char **words) {
    if (count > 1 && strcmp(words[1], "status") == 0)
        return status_print(count - 1, words + 1);
    run(count - 1, words + 1);
    return 0;
}

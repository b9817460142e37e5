#define _GNU_SOURCE
#include "sysctls.h"

#include "faults.h"
#include "files.h"

#include <errno.h>
#include <fcntl.h>
#include <inttypes.h>
#include <stdio.h>
#include <stdlib.h>
#include <string.h>
#include <unistd.h>

enum { LONGEST_NAME = 128, GREATEST_BEFORE = 4096 };

/* The kernel's settings, with the least values that --setup makes. */
static const struct {
    const char *name;
    bool is_mld;
    uint32_t least;
} settings[] = {
    {"ipv4/igmp_max_msf", false, PAGE_SOURCES},
    {"ipv6/mld_max_msf", true, PAGE_SOURCES},
};

static int before = -1; /* the file of earlier settings */

/* Opens a setting below /proc/sys/net. */
static int open_setting(const char *name, int flags) {
    char place[LONGEST_NAME];
    return (size_t)snprintf(place, sizeof place, "/proc/sys/net/%s", name) < sizeof place ? open(place, flags | O_CLOEXEC) : -1;
}

/* Reads a setting. Returns false if the kernel does not have it. */
static bool read_setting(const char *name, uint32_t *value) {
    char text[32] = {0};
    int file = open_setting(name, O_RDONLY);
    ssize_t length = file < 0 ? -1 : read(file, text, sizeof text - 1);
    if (file >= 0)
        close(file);
    *value = (uint32_t)strtoul(text, NULL, 10);
    return length > 0;
}

static bool write_setting(const char *name, uint32_t value) {
    char text[32];
    int length = snprintf(text, sizeof text, "%" PRIu32 "\n", value), file = open_setting(name, O_WRONLY);
    bool is_written = file >= 0 && write(file, text, (size_t)length) == length;
    if (!is_written)
        fault(FAULT_MISSING, name, strerror(errno));
    if (file >= 0)
        close(file);
    return is_written;
}

void sysctls_undo(void) {
    static char text[GREATEST_BEFORE + 1];
    char name[LONGEST_NAME], *left = NULL;
    uint32_t value;
    bool is_back = true;
    ssize_t length = before < 0 ? 0 : pread(before, text, GREATEST_BEFORE, 0);
    text[length < 0 ? 0 : length] = '\0';
    for (char *line = strtok_r(text, "\n", &left); line != NULL; line = strtok_r(NULL, "\n", &left))
        if (sscanf(line, "%127s %" SCNu32, name, &value) == 2)
            is_back &= write_setting(name, value);
    if (is_back && before >= 0 && ftruncate(before, 0) < 0)
        fault(FAULT_MISSING, "before", strerror(errno));
}

/* Makes a setting, after its earlier value was written down. */
static void make(const char *name, uint32_t value, uint32_t least) {
    char line[LONGEST_NAME + 16];
    int length = snprintf(line, sizeof line, "%s %" PRIu32 "\n", name, value);
    if (write(before, line, (size_t)length) == length)
        write_setting(name, least);
    else
        fault(FAULT_MISSING, name, "what was there before --setup can't be written down");
}

void sysctls_open(struct querier *querier) {
    char name[4096];
    uint32_t value;
    if (!files_name(name, sizeof name, querier->options->run, querier->options->upstream.names[0], "before"))
        fail(STATUS_FAILED, "before", strerror(ENAMETOOLONG));
    before = open(name, O_RDWR | O_CREAT | O_APPEND | O_CLOEXEC, 0600);
    if (before < 0)
        fail(STATUS_FAILED, name, strerror(errno));
    sysctls_undo();
    for (size_t at = 0; at < sizeof settings / sizeof *settings; at++) {
        bool is_low = read_setting(settings[at].name, &value) && value < settings[at].least;
        if (is_low && querier->options->serves[settings[at].is_mld] && querier->options->sets_up)
            make(settings[at].name, value, settings[at].least);
    }
    if (querier->options->sets_up)
        atexit(sysctls_undo);
}

/* Prints a setting of an interface if it is from `least` to `most`. */
static void tell_between(const struct vif *vif, const char *form, uint32_t least, uint32_t most, const char *otherwise) {
    char name[LONGEST_NAME], why[160];
    uint32_t value;
    snprintf(name, sizeof name, form, vif->name);
    if (!read_setting(name, &value) || value < least || value > most)
        return;
    snprintf(why, sizeof why, "net/%s is %" PRIu32 ": %s", name, value, otherwise);
    fault(FAULT_MISSING, vif->name, why);
}

void sysctls_tell(const struct querier *querier, const struct vif *vif, bool is_upstream) {
    static const char drops[] = "the kernel drops senders that it would not answer by this interface";
    static const char older[] = "the kernel asks upstream for groups without their sources";
    const bool *serves = querier->options->serves;
    uint32_t all = 0;
    if (serves[false] && read_setting("ipv4/conf/all/rp_filter", &all) && all == 1)
        tell_between(vif, "ipv4/conf/%s/rp_filter", 0, 1,
                     "with 1 for all interfaces, the kernel drops senders that it would not answer by this one");
    else if (serves[false])
        tell_between(vif, "ipv4/conf/%s/rp_filter", 1, 1, drops);
    if (serves[false] && is_upstream)
        tell_between(vif, "ipv4/conf/%s/force_igmp_version", 1, 2, older);
    if (serves[true] && is_upstream)
        tell_between(vif, "ipv6/conf/%s/force_mld_version", 1, 1, older);
}

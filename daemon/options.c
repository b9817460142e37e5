#define _GNU_SOURCE
#include "options.h"

#include "conf.h"
#include "faults.h"
#include "help.h"
#include "mroute.h"
#include "ring.h"

#include <arpa/inet.h>
#include <errno.h>
#include <fcntl.h>
#include <getopt.h>
#include <stddef.h>
#include <stdio.h>
#include <stdlib.h>
#include <string.h>
#include <unistd.h>

#ifndef MQUERIER_VERSION /* `make` sets it, with the date and hash of the commit */
#define MQUERIER_VERSION MQ_VERSION_TEXT
#endif

#define PLACE(field) offsetof(mq_config, field)
static const struct {
    const char *name;
    size_t place; /* its offset in a configuration */
} NUMBERS[] = {
    {"rv", PLACE(robustness)},         {"qi", PLACE(query_interval)},
    {"qri", PLACE(response_interval)}, {"lmqi", PLACE(last_member_interval)},
    {"groups", PLACE(groups)},         {"group-sources", PLACE(group_sources)},
    {"sources", PLACE(sources)},       {"scheduled", PLACE(scheduled)},
};
enum { COUNT = sizeof NUMBERS / sizeof *NUMBERS };
/* The default limit of groups and of schedules is what one port of a bridge may need. */
enum { NUMBER_GROUPS = 4, NUMBER_SCHEDULED = 7, PORT_GROUPS = 4096 };
enum {
    OWN = COUNT,
    UPSTREAM,
    SCOPE,
    ENTRIES,
    UNUSED,
    UPCALLS,
    OWN6,
    FAMILY,
    SSM,
    CHANGES,
    MDB,
    PORTS,
    LINKS,
    VLANS_OF,
    LIMIT,
    FAST_LEAVE,
    STATIC,
    ALLOW,
    DENY,
    SETUP,
    ROUTER_PORT,
    REPORT,
    RUN,
    CONFIG,
    FILE_OF,
    VERSION,
    ASKED_HELP,
    OPTIONS
};
static const struct option OTHERS[] = {
    {"own", required_argument, NULL, OWN},
    {"upstream", required_argument, NULL, UPSTREAM},
    {"scope", required_argument, NULL, SCOPE},
    {"entries", required_argument, NULL, ENTRIES},
    {"unused", required_argument, NULL, UNUSED},
    {"upcalls", required_argument, NULL, UPCALLS},
    {"own6", required_argument, NULL, OWN6},
    {"family", required_argument, NULL, FAMILY},
    {"ssm", no_argument, NULL, SSM},
    {"changes", no_argument, NULL, CHANGES},
    {"mdb", required_argument, NULL, MDB},
    {"ports", required_argument, NULL, PORTS},
    {"links", required_argument, NULL, LINKS},
    {"vlans", required_argument, NULL, VLANS_OF},
    {"limit", required_argument, NULL, LIMIT},
    {"fast-leave", required_argument, NULL, FAST_LEAVE},
    {"static", required_argument, NULL, STATIC},
    {"allow", required_argument, NULL, ALLOW},
    {"deny", required_argument, NULL, DENY},
    {"setup", no_argument, NULL, SETUP},
    {"router-port", required_argument, NULL, ROUTER_PORT},
    {"report", no_argument, NULL, REPORT},
    {"run", required_argument, NULL, RUN},
    {"config", required_argument, NULL, CONFIG},
    {"options", required_argument, NULL, FILE_OF},
    {"version", no_argument, NULL, VERSION},
    {"help", no_argument, NULL, ASKED_HELP},
};
static const char *const FAMILIES[2] = {"igmp", "mld"};

/* Returns the text of a fault, which stands until the next call. */
static const char *wrong(const char *what, const char *text) {
    static char line[200];
    snprintf(line, sizeof line, "%s%s (--help says more)", what, text);
    return line;
}

static bool read_number(const char *text, uint32_t *number) {
    char *end;
    errno = 0;
    unsigned long long read = strtoull(text, &end, 10);
    *number = (uint32_t)read;
    return *text >= '0' && *text <= '9' && *end == '\0' && errno == 0 && read <= UINT32_MAX;
}

/* Reads the number of a VLAN, up to `end`, which is set to the place after it. */
static bool read_vlan(const char *text, const char **end, uint16_t *vlan) {
    char *after;
    unsigned long number = strtoul(text, &after, 10);
    *end = after;
    *vlan = (uint16_t)number;
    return *text >= '0' && *text <= '9' && number >= 1 && number < VLANS - 1;
}

/* Reads VLAN=ADDR. */
static const char *read_own_in_vlan(struct options *options, bool is_mld, const char *text) {
    struct own_in_vlan own = {.is_mld = is_mld};
    const char *end;
    if (!read_vlan(text, &end, &own.vlan) || *end != '=')
        return wrong("a VLAN is from 1 to 4094: ", text);
    if (inet_pton(is_mld ? AF_INET6 : AF_INET, end + 1, own.address) != 1)
        return wrong("not an address of the family: ", text);
    if (options->owns_count == GREATEST_OWNS)
        return wrong("too many addresses of VLANs: ", text);
    options->owns[options->owns_count++] = own;
    return NULL;
}

static const char *read_address(struct options *options, bool is_mld, const char *text) {
    if (strchr(text, '=') != NULL && !options->is_interface)
        return read_own_in_vlan(options, is_mld, text);
    options->has_own[is_mld] = true;
    bool is_read = inet_pton(is_mld ? AF_INET6 : AF_INET, text, options->own[is_mld]) == 1;
    return is_read ? NULL : wrong("not an address of the family: ", text);
}

/* Reads a list of VLANs and ranges of them, as 10,20-29. */
static const char *read_vlans(struct options *options, const char *text) {
    options->chooses_vlans = true;
    for (const char *at = text;; at++) {
        uint16_t first, last;
        bool is_read = read_vlan(at, &at, &first);
        last = first;
        if (is_read && *at == '-')
            is_read = read_vlan(at + 1, &at, &last) && last >= first;
        if (!is_read || (*at != ',' && *at != '\0'))
            return wrong("--vlans is a list as 10,20-29, of VLANs from 1 to 4094: ", text);
        memset(options->vlans + first, true, (size_t)(last - first) + 1);
        if (*at == '\0')
            return NULL;
    }
}

static const char *read_family(struct options *options, const char *text) {
    for (int at = 0; at < 2; at++)
        options->serves[at] = strcmp(text, FAMILIES[at]) == 0;
    return options->serves[0] || options->serves[1] ? NULL : wrong("the family is igmp or mld, not ", text);
}

/* Puts a number into the configurations of both families. */
static void set_number(struct options *options, int which, uint32_t number) {
    for (int at = 0; at < 2; at++)
        memcpy((uint8_t *)&options->configuration[at] + NUMBERS[which].place, &number, sizeof number);
}

static const char *read_limit(struct options *options, int which, const char *text) {
    uint32_t number;
    if (!read_number(text, &number))
        return wrong("not a number below 2^32: ", text);
    set_number(options, which, number);
    return NULL;
}

/* Reads --mdb, whose port is the next word. */
static const char *read_database(struct options *options, int count, char **words) {
    if (optind >= count || words[optind][0] == '-')
        return wrong("--mdb wants a bridge and a port of it", "");
    options->bridge = optarg;
    options->port = words[optind++];
    return NULL;
}

static const char *read_router(struct options *options, const char *port) {
    if (options->router_count == GREATEST_ROUTERS)
        return wrong("too many ports of routers: ", port);
    if (strlen(port) >= IF_NAMESIZE)
        return wrong("no port has so long a name: ", port);
    strcpy(options->routers[options->router_count++], port);
    return NULL;
}

static const char *read_between(uint32_t *to, const char *text, uint32_t least, uint32_t most) {
    bool is_read = read_number(text, to) && *to >= least && *to <= most;
    return is_read ? NULL : wrong("a number is out of its range: ", text);
}

static const char *read_upstream(struct options *options, const char *words) {
    const char *why = prefixes_read(&options->upstream, words);
    return why == NULL ? NULL : wrong("--upstream: ", why);
}

static const char *read_folder(char to[LONGEST_RUN], const char *text) {
    if (strlen(text) >= LONGEST_RUN)
        return wrong("too long a name: ", text);
    strcpy(to, text);
    return NULL;
}

static const char *read_ports(struct options *options, const char *text) {
    bool is_read = read_number(text, &options->ports) && options->ports >= 1 && options->ports <= GREATEST_PORTS;
    return is_read ? NULL : wrong("--ports is from 1 to 1024, not ", text);
}

static const char *read_tuning(struct options *options, enum tuned kind, const char *text) {
    static char why[120];
    if (options->is_route)
        return wrong("--limit, --fast-leave, --static, --allow and --deny are for bridge: ", text);
    const char *fault_of = tunings_read(&options->tunings, kind, text);
    if (fault_of == NULL)
        return NULL;
    snprintf(why, sizeof why, "%s: ", fault_of);
    return wrong(why, text);
}

static bool is_for_bridge(int found) {
    return found == OWN6 || found == FAMILY || (found >= PORTS && found < VERSION);
}

/* Reads one option, whose value is `optarg`. */
static const char *read_option(struct options *options, int found, int count, char **words) {
    if (found < COUNT)
        return read_limit(options, found, optarg);
    if (options->is_interface && is_for_bridge(found))
        return wrong("that option is for bridge, not for interface: --", OTHERS[found - COUNT].name);
    switch (found) {
    case OWN: return read_address(options, !options->serves[false], optarg);
    case UPSTREAM: return read_upstream(options, optarg);
    case SCOPE: return read_between(&options->scope, optarg, 3, 14);
    case ENTRIES: return read_between(&options->entries, optarg, 16, 65536);
    case UNUSED: return read_between(&options->unused, optarg, 1, 86400);
    case UPCALLS: return read_between(&options->upcalls, optarg, 100, 1000000);
    case OWN6: return read_address(options, true, optarg);
    case FAMILY: return read_family(options, optarg);
    case SSM: options->configuration[0].source_specific = options->configuration[1].source_specific = true; break;
    case CHANGES: options->prints_changes = true; break;
    case MDB: return read_database(options, count, words);
    case PORTS: return read_ports(options, optarg);
    case LINKS: return read_between(&options->links, optarg, 1, GREATEST_LINKS);
    case VLANS_OF: return read_vlans(options, optarg);
    case LIMIT: return read_tuning(options, TUNED_LIMIT, optarg);
    case FAST_LEAVE: return read_tuning(options, TUNED_FAST_LEAVE, optarg);
    case STATIC: return read_tuning(options, TUNED_STATIC, optarg);
    case ALLOW: return read_tuning(options, TUNED_ALLOW, optarg);
    case DENY: return read_tuning(options, TUNED_DENY, optarg);
    case SETUP: options->sets_up = true; break;
    case ROUTER_PORT: return read_router(options, optarg);
    case REPORT: options->reports = true; break;
    case RUN: return read_folder(options->run, optarg);
    case CONFIG: return read_folder(options->config, optarg);
    case FILE_OF: options->file = optarg; break;
    case VERSION: exit(puts("mquerier-live " MQUERIER_VERSION) < 0 || fflush(stdout) != 0 ? STATUS_FAILED : 0);
    default: fputs(help_text, stderr); exit(STATUS_USAGE);
    }
    return NULL;
}

const char *options_read_words(struct options *options, int count, char **words) {
    struct option all[OPTIONS + 1] = {{0}};
    for (int at = 0; at < COUNT; at++)
        all[at] = (struct option){NUMBERS[at].name, required_argument, NULL, at};
    memcpy(all + COUNT, OTHERS, sizeof OTHERS);
    opterr = 0;
    optind = 0; /* getopt begins again */
    for (int found; (found = getopt_long(count, words, "", all, NULL)) != -1;) {
        const char *why = found == '?' ? wrong("no such option, or its value is missing: ", words[optind - 1])
                                       : read_option(options, found, count, words);
        if (why != NULL)
            return why;
    }
    for (; optind < count; optind++) {
        for (size_t at = 0; at < options->count && !options->is_interface; at++)
            if (strcmp(words[optind], options->names[at]) == 0)
                return wrong("named twice: ", words[optind]);
        if (options->count == GREATEST_BRIDGES)
            return wrong("too many names: ", words[optind]);
        options->names[options->count++] = words[optind];
    }
    return NULL;
}

void options_cut_comments(char *text) {
    for (char *at; (at = strchr(text, '#')) != NULL;)
        memset(at, ' ', strcspn(at, "\n"));
}

/* Reads the file of options. Its words stand until the next call, and no option that may change later points to them. */
static const char *read_file(struct options *options) {
    enum { GREATEST_FILE = 8192, GREATEST_WORDS = 512 };
    static char text[GREATEST_FILE + 1], name[] = "options";
    static char *words[GREATEST_WORDS + 1];
    const char *file_name = options->file;
    int count = 1, file = open(file_name, O_RDONLY | O_CLOEXEC);
    ssize_t length = file < 0 ? -1 : read(file, text, GREATEST_FILE);
    if (file >= 0)
        close(file);
    if (length < 0)
        return wrong("the file of options can't be read: ", file_name);
    text[length] = '\0';
    options_cut_comments(text);
    words[0] = name;
    char *left = NULL, *word = strtok_r(text, " \t\n", &left);
    for (; word != NULL && count < GREATEST_WORDS; word = strtok_r(NULL, " \t\n", &left))
        words[count++] = word;
    size_t names = options->count;
    const char *why = options_read_words(options, count, words);
    if (why == NULL && options->count != names && !options->is_route)
        why = wrong("the file of options has a word that is none: ", options->names[names]);
    return why;
}

/* Checks the words of `interface`: an interface, a family and --own. */
static const char *finish_interface(struct options *options) {
    if (options->count != 2)
        return wrong("an interface and a family are needed, and nothing else", "");
    options->count = 1;
    options->ports = 1;
    options->links = 0;
    return options->has_own[!options->serves[0]] ? NULL : wrong("--own is needed", "");
}

/* Returns whether an interface downstream is named twice, or is upstream too. */
static bool has_twice(const struct options *options) {
    for (size_t at = 0; at < options->count; at++) {
        for (size_t before = 0; before < at; before++)
            if (strcmp(options->names[before], options->names[at]) == 0)
                return true;
        for (size_t above = 0; above < options->upstream.names_count; above++)
            if (strcmp(options->upstream.names[above], options->names[at]) == 0)
                return true;
    }
    return false;
}

/* Checks the words of `route`: interfaces downstream, and --upstream. */
static const char *finish_route(struct options *options) {
    options->links = 0;
    for (size_t at = 0; at < options->count; at++) {
        const char *why = interfaces_read(options->names[at], &options->interfaces[at]);
        if (why != NULL)
            return wrong(options->names[at], why);
        options->names[at] = options->interfaces[at].name;
    }
    if (has_twice(options))
        return wrong("an interface is named twice", "");
    if (options->count == 0 || options->upstream.names_count == 0)
        return wrong("route needs --upstream, and an interface downstream", "");
    if (options->count + options->upstream.names_count > GREATEST_VIFS)
        return wrong("the kernel routes multicast between 32 interfaces at most", "");
    return NULL;
}

const char *options_read(struct options *options, int count, char **words) {
    static const uint8_t placeholders[2][16] = {{192, 0, 2, 1}, {0xfe, 0x80, [15] = 1}}; /* the bridge's address replaces it */
    *options = (struct options){.serves = {true, true},
                                .ports = 64,
                                .links = 1024,
                                .run = "/run/mquerier-live",
                                .config = "/etc/mquerier-live",
                                .scope = 14,
                                .entries = 4096,
                                .unused = 180,
                                .upcalls = 10000};
    for (int at = 0; at < 2; at++)
        options->configuration[at] = mq_config_defaults(at == 1, placeholders[at]);
    options->is_interface = count > 0 && strcmp(words[0], "interface") == 0;
    if (!options->is_interface) {
        set_number(options, NUMBER_GROUPS, PORT_GROUPS);
        set_number(options, NUMBER_SCHEDULED, PORT_GROUPS);
    }
    if (count > 0 && (strcmp(words[0], "--help") == 0 || strcmp(words[0], "--version") == 0))
        return read_option(options, words[0][2] == 'h' ? ASKED_HELP : VERSION, count, words);
    options->is_route = count > 0 && strcmp(words[0], "route") == 0;
    if (!options->is_interface && !options->is_route && (count == 0 || strcmp(words[0], "bridge") != 0))
        return wrong("the first word is interface, bridge, route or status", "");
    if (options->is_interface && count > 1 && words[count - 1] != NULL)
        for (int at = 1; at < count; at++) /* --own depends on the family, which may come later */
            if (strcmp(words[at], "igmp") == 0 || strcmp(words[at], "mld") == 0)
                read_family(options, words[at]);
    const char *why = options_read_words(options, count, words);
    if (why == NULL && options->file != NULL)
        why = read_file(options);
    size_t bridges = options->is_interface || options->is_route ? 0 : options->count;
    for (size_t at = 0; at < bridges && why == NULL; at++)
        why = conf_read(options, options->names[at]);
    if (why != NULL)
        return why;
    if (options->is_interface)
        return options->count == 2 && strcmp(options->names[1], FAMILIES[!options->serves[0]]) != 0
                   ? wrong("the family is igmp or mld, not ", options->names[1])
                   : finish_interface(options);
    if (options->bridge != NULL)
        return wrong("--mdb is for an interface", "");
    if (tunings_exceed(&options->tunings, &options->configuration[0]))
        return wrong("a --limit exceeds --groups or --sources", "");
    if (options->reports && options->router_count == 0)
        return wrong("--report is for a --router-port", "");
    return options->is_route ? finish_route(options) : options->count > 0 ? NULL : wrong("a bridge is needed", "");
}

/* Returns the name of an option whose value differs and cannot change while the program runs, or NULL. */
static const char *fixed_difference(const struct options *used, const struct options *next) {
    for (int which = NUMBER_GROUPS; which < COUNT; which++)
        for (int at = 0; at < 2; at++)
            if (memcmp((const uint8_t *)&used->configuration[at] + NUMBERS[which].place,
                       (const uint8_t *)&next->configuration[at] + NUMBERS[which].place, sizeof(uint32_t))
                != 0)
                return NUMBERS[which].name;
    if (used->configuration[0].source_specific != next->configuration[0].source_specific)
        return "ssm";
    if (memcmp(used->serves, next->serves, sizeof used->serves) != 0)
        return "family";
    return used->ports != next->ports                     ? "ports"
           : used->links != next->links                   ? "links"
           : used->sets_up != next->sets_up               ? "setup"
           : used->reports != next->reports               ? "report"
           : used->prints_changes != next->prints_changes ? "changes"
           : strcmp(used->run, next->run) != 0            ? "run"
                                                          : NULL;
}

void options_replace(struct options *used, const struct options *next) {
    const char *fixed = fixed_difference(used, next);
    for (int which = 0; which < NUMBER_GROUPS; which++)
        for (int at = 0; at < 2; at++)
            memcpy((uint8_t *)&used->configuration[at] + NUMBERS[which].place,
                   (const uint8_t *)&next->configuration[at] + NUMBERS[which].place, sizeof(uint32_t));
    memcpy(used->own, next->own, sizeof used->own);
    memcpy(used->has_own, next->has_own, sizeof used->has_own);
    used->chooses_vlans = next->chooses_vlans;
    memcpy(used->vlans, next->vlans, sizeof used->vlans);
    memcpy(used->owns, next->owns, sizeof used->owns);
    used->owns_count = next->owns_count;
    used->tunings = next->tunings;
    memcpy(used->routers, next->routers, sizeof used->routers);
    used->router_count = next->router_count;
    if (fixed != NULL)
        fault(FAULT_MISSING, "reload", wrong("the service has to start again for a change of --", fixed));
}

const uint8_t *options_own(const struct options *options, uint16_t vlan, bool is_mld) {
    for (size_t at = options->owns_count; at > 0 && vlan != 0; at--) /* the last one counts */
        if (options->owns[at - 1].vlan == vlan && options->owns[at - 1].is_mld == is_mld)
            return options->owns[at - 1].address;
    return options->has_own[is_mld] ? options->own[is_mld] : NULL;
}

bool options_serves_vlan(const struct options *options, uint16_t vlan) {
    return !options->chooses_vlans || options->vlans[vlan];
}

bool options_is_router(const struct options *options, const char *port) {
    for (size_t at = 0; at < options->router_count; at++)
        if (strcmp(options->routers[at], port) == 0)
            return true;
    return false;
}

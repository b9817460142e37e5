#define _GNU_SOURCE
#include "rules.h"

#include "faults.h"
#include "netlink.h"
#include "text.h"

#include <arpa/inet.h>
#include <ctype.h>
#include <errno.h>
#include <fcntl.h>
#include <linux/if_ether.h>
#include <linux/netfilter/nf_tables.h>
#include <linux/netfilter/nfnetlink.h>
#include <signal.h>
#include <spawn.h>
#include <string.h>
#include <sys/socket.h>
#include <sys/wait.h>
#include <unistd.h>

/* Room for the rules of all ports: six lists, with at most 12 bytes for each port. */
enum { GREATEST_RULES = 6 * 12 * GREATEST_PORTS + 4096 };

/* Room for each link of a bridge that filters VLANs: three lists of each family. */
enum { RULE_OF_LINK = 6 * 20 };
static char *text_of_rules;

/* The families and ports in the rules of each bridge. */
static struct ruled {
    bool is_known; /* the kernel has these rules */
    uint64_t sum;  /* a hash of the text of the rules, if the bridge filters VLANs */
    bool hides[2];
    int indexes[GREATEST_PORTS];
    bool leads[GREATEST_PORTS]; /* to a router */
    size_t count;
} ruled[GREATEST_BRIDGES];

/* The generation of the rules of nftables after the last change by this program, or 0 if it is not known. The kernel adds one for
   each change, by anybody. */
static uint32_t generation;
static int netfilter = -1; /* the socket that asks for it */
static bool was_run;       /* `nft` succeeded once */

/* Returns the generation that the kernel has now, or 0 if the kernel does not say. */
static uint32_t ask_generation(void) {
    struct request request;
    struct answer answer;
    const struct nfgenmsg head = {.nfgen_family = AF_UNSPEC, .version = NFNETLINK_V0};
    uint32_t number = 0;
    request_begin(&request, NFNL_SUBSYS_NFTABLES << 8 | NFT_MSG_GETGEN, 0, &head, sizeof head);
    if (netlink_ask(netfilter, &request, &answer) != 0 || answer.length < sizeof head)
        return 0;
    attribute_number(answer.message + sizeof head, answer.message + answer.length, NFTA_GEN_ID, &number);
    return ntohl(number);
}

void rules_open(const struct options *options) {
    text_of_rules = take(GREATEST_RULES + (uint64_t)options->links * RULE_OF_LINK, 1);
    netfilter = netlink_open(NETLINK_NETFILTER, 0);
    generation = ask_generation();
}

/* Starts `nft` with `end` as its standard input. It needs no memory for a copy of this process. Returns 0 or an error of <errno.h>.
   */
static int start_nft(int end, pid_t *child) {
    static char nft[] = "nft", option[] = "-f", input[] = "-";
    char *words[] = {nft, option, input, NULL};
    posix_spawn_file_actions_t files;
    posix_spawnattr_t signals;
    sigset_t none, broken_pipe;
    sigemptyset(&none);
    sigemptyset(&broken_pipe);
    sigaddset(&broken_pipe, SIGPIPE);
    posix_spawn_file_actions_init(&files);
    posix_spawn_file_actions_adddup2(&files, end, STDIN_FILENO);
    posix_spawnattr_init(&signals);
    posix_spawnattr_setsigmask(&signals, &none);
    posix_spawnattr_setsigdefault(&signals, &broken_pipe);
    posix_spawnattr_setflags(&signals, POSIX_SPAWN_SETSIGMASK | POSIX_SPAWN_SETSIGDEF);
    int error = posix_spawnp(child, words[0], &files, &signals, words, environ);
    posix_spawnattr_destroy(&signals);
    posix_spawn_file_actions_destroy(&files);
    return error;
}

/* Passes a text to `nft`, and waits for its end. Returns whether it succeeded. */
static bool run_nft(const char *text, size_t length) {
    int ends[2], status = 0;
    pid_t child;
    if (pipe2(ends, O_CLOEXEC) < 0) {
        fault(FAULT_NETLINK, "nft", strerror(errno));
        return false;
    }
    int error = start_nft(ends[0], &child);
    close(ends[0]);
    bool is_written = error == 0 && write(ends[1], text, length) == (ssize_t)length;
    close(ends[1]);
    bool is_done = error == 0 && waitpid(child, &status, 0) == child && status == 0 && is_written;
    was_run |= is_done;
    if (error != 0)
        fault(FAULT_NETLINK, "nft can't be run, and the kernel's own snooping learns and asks too", strerror(error));
    else if (!is_done)
        fault(FAULT_NETLINK, "nft", "the rules that keep the kernel's own snooping away can't be made");
    return is_done;
}

/* Writes the name of a bridge's table. `nft` allows letters, digits and underlines; other characters are written as numbers. */
static char *put_table(char *to, const struct bridge *bridge) {
    to = put_text(to, "table bridge mquerier_");
    for (const char *at = bridge->name; *at != '\0'; at++) {
        if (isalnum((unsigned char)*at))
            *to++ = *at;
        else
            to = put_hexadecimal(put_text(to, "_"), (const uint8_t *)at, 1);
    }
    return to;
}

/* Writes the words that match these ports: all of them, or only those that lead to routers, or only the others. Returns NULL if there
   is none. */
enum which { ALL_PORTS, ROUTERS, OTHERS };
static char *put_ports(char *to, const struct ruled *ports, enum which which, const char *side) {
    bool is_first = true;
    to = put_text(put_text(put_text(to, " "), side), " {");
    for (size_t at = 0; at < ports->count; at++) {
        if (which != ALL_PORTS && ports->leads[at] != (which == ROUTERS))
            continue;
        to = put_number(put_text(to, is_first ? " " : ", "), (uint64_t)ports->indexes[at]);
        is_first = false;
    }
    return is_first ? NULL : put_text(to, " }");
}

/* Writes a rule for the messages of each hidden family at these ports, with the words for each family. */
static char *put_rules(char *to, const struct ruled *ports, enum which which, const char *side, const char *const words[2]) {
    for (int family = 0; family < 2; family++) {
        char *next = ports->hides[family] ? put_ports(to, ports, which, side) : NULL;
        to = next == NULL ? to : put_text(put_text(next, words[family]), ";");
    }
    return to;
}

/* Writes the chains of a bridge. The kernel's snooping knows a message by its protocol, so a message from a port gets another one, and
   gets its own back on its way to this machine. A mark goes with it. It reaches no other port. */
static const char *const hide[2] = {" ip protocol igmp meta mark set 0x6d717101 ip protocol set 253",
                                    " ip6 nexthdr 0 icmpv6 type { 130, 131, 132, 143 } meta mark set 0x6d717102 @nh,48,8 set 253"};
static const char *const drop[2] = {" ip protocol igmp drop", " icmpv6 type { 130, 131, 132, 143 } drop"};
static const char *const drop_queries[2] = {" igmp type 0x11 drop", " icmpv6 type 130 drop"};
static const char to_host[] = "chain to_host { type filter hook input priority -400;"
                              " meta mark 0x6d717101 ip protocol set 2 meta mark set 0;"
                              " meta mark 0x6d717102 @nh,48,8 set 0 meta mark set 0; }\n";
static const char to_port[] = "chain to_port { type filter hook forward priority -400; meta mark { 0x6d717101, 0x6d717102 } drop;";
static char *put_chains(char *to, const struct ruled *ports) {
    to = put_text(to, "chain from_port { type filter hook prerouting priority 400;");
    to = put_text(put_rules(to, ports, ALL_PORTS, "iif", hide), " }\n");
    to = put_text(to, to_host);
    to = put_text(to, to_port);
    to = put_text(put_rules(to, ports, ALL_PORTS, "oif", drop), " }\n");
    to = put_text(to, "chain own_to_port { type filter hook output priority 0;");
    to = put_rules(to, ports, OTHERS, "oif", drop);
    return put_text(put_rules(to, ports, ROUTERS, "oif", drop_queries), " }\n");
}

/* Begins a text that replaces the table of a bridge in one step. */
static char *begin_table(char *to, const struct bridge *bridge) {
    to = put_text(put_table(to, bridge), "\ndelete ");
    return put_text(put_table(to, bridge), "\n");
}

/* Replaces the table of a bridge in one step. Returns whether that succeeded. */
static bool replace_table(const struct bridge *bridge, const struct ruled *ports) {
    static char text[GREATEST_RULES];
    char *to = begin_table(text, bridge);
    if (ports->count > 0 && (ports->hides[0] || ports->hides[1])) {
        to = put_text(put_table(to, bridge), " {\n");
        to = put_chains(to, ports);
        to = put_text(to, "}\n");
    }
    return run_nft(text, (size_t)(to - text));
}

/* The ports of a bridge that filters VLANs whose messages are hidden: in VLANs with a tag, and in those without. On their way out, own
   messages are dropped as well; to routers only queries are. */
static bool is_hidden(const struct port *port, const struct bridge *bridge, bool is_mld) {
    return port->bridge == bridge && port->vlan->own.has[is_mld];
}

static bool leads(const struct querier *querier, const struct port *port) {
    return port->keeps_router || options_is_router(querier->options, port->name);
}

/* Writes the words for the frames of a family's ports with a tag that come in or leave. A frame that comes in may have the tag of its
   port's own VLAN, or VLAN 0. Returns NULL if there is none. */
static char *put_tagged(const struct querier *querier, const struct bridge *bridge, bool is_mld, enum which which, bool comes_in,
                        char *to) {
    bool is_first = true;
    to = put_text(to, bridge->protocol == ETH_P_8021Q ? " ether type 8021q " : " ether type 8021ad ");
    to = put_text(to, comes_in ? "iif . vlan id {" : "oif . vlan id {");
    for (size_t at = 0; at < querier->ports_count; at++) {
        const struct port *port = querier->by_index[at].port;
        if (!is_hidden(port, bridge, is_mld) || (!comes_in && !port->is_tagged)
            || (which != ALL_PORTS && leads(querier, port) != (which == ROUTERS)))
            continue;
        to = put_number(put_text(put_number(put_text(to, is_first ? " " : ", "), (uint64_t)port->index), " . "), port->vlan->id);
        if (comes_in && port->is_pvid)
            to = put_text(put_number(put_text(to, ", "), (uint64_t)port->index), " . 0");
        is_first = false;
    }
    return is_first ? NULL : put_text(to, " }");
}

/* Writes the words for frames without a tag. Frames come in to the port's own VLAN, and leave from each VLAN without a tag. The kernel's
   own queries also leave a port that has no VLAN without a tag. */
static char *put_untagged(const struct querier *querier, const struct bridge *bridge, bool is_mld, enum which which, bool comes_in,
                          char *to) {
    bool is_first = true;
    int last = 0;
    to = put_text(to, is_mld ? " ether type ip6 " : " ether type ip ");
    to = put_text(to, comes_in ? "iif {" : "oif {");
    for (size_t at = 0; at < querier->ports_count; at++) {
        const struct port *port = querier->by_index[at].port;
        if (!is_hidden(port, bridge, is_mld) || port->index == last
            || (comes_in ? !port->is_pvid : port->is_tagged && !port->is_bare)
            || (which != ALL_PORTS && leads(querier, port) != (which == ROUTERS)))
            continue;
        to = put_number(put_text(to, is_first ? " " : ", "), (uint64_t)port->index);
        is_first = false;
        last = port->index;
    }
    return is_first ? NULL : put_text(to, " }");
}

/* Writes a rule for each family and for frames with and without a tag. */
static char *put_vlan_rules(const struct querier *querier, const struct bridge *bridge, enum which which, bool comes_in,
                            const char *const words[2], char *to) {
    for (int at = 0; at < 4; at++) {
        bool is_mld = at / 2;
        if (!querier->options->serves[is_mld])
            continue;
        char *next = (at % 2 ? put_tagged : put_untagged)(querier, bridge, is_mld, which, comes_in, to);
        to = next == NULL ? to : put_text(put_text(next, words[is_mld]), ";");
    }
    return to;
}

/* Writes the text of a bridge that filters VLANs. Its chains do what those of `put_chains` do. */
static char *put_vlan_table(const struct querier *querier, const struct bridge *bridge, char *to) {
    to = begin_table(to, bridge);
    to = put_text(put_table(to, bridge), " {\n");
    to = put_text(to, "chain from_port { type filter hook prerouting priority 400;");
    to = put_text(put_vlan_rules(querier, bridge, ALL_PORTS, true, hide, to), " }\n");
    to = put_text(to, to_host);
    to = put_text(to, to_port);
    to = put_text(put_vlan_rules(querier, bridge, ALL_PORTS, false, drop, to), " }\n");
    to = put_text(to, "chain own_to_port { type filter hook output priority 0;");
    to = put_vlan_rules(querier, bridge, OTHERS, false, drop, to);
    to = put_vlan_rules(querier, bridge, ROUTERS, false, drop_queries, to);
    return put_text(to, " }\n}\n");
}

static bool is_same(const struct ruled *one, const struct ruled *other) {
    return one->is_known == other->is_known && one->sum == other->sum && memcmp(one->hides, other->hides, sizeof one->hides) == 0
           && one->count == other->count && memcmp(one->indexes, other->indexes, one->count * sizeof *one->indexes) == 0
           && memcmp(one->leads, other->leads, one->count * sizeof *one->leads) == 0;
}

/* Notes the rules that the kernel has now, and their generation. */
static void note_rules(struct ruled *before, const struct ruled *now) {
    *before = *now;
    bool is_only_change = generation != 0 && ask_generation() == generation + 1;
    generation = is_only_change ? generation + 1 : 0;
}

static void apply_to_all(struct querier *querier, const struct bridge *bridge) {
    struct ruled *before = &ruled[bridge - querier->bridges], now = {.is_known = true};
    for (int at = 0; at < 2; at++)
        now.hides[at] = querier->options->serves[at] && bridge->has_own[at];
    for (size_t at = 0; at < querier->ports_count; at++) { /* in ascending order */
        const struct port *port = querier->by_index[at].port;
        if (port->bridge != bridge)
            continue;
        now.leads[now.count] = port->keeps_router || options_is_router(querier->options, port->name);
        now.indexes[now.count++] = port->index;
    }
    if (is_same(&now, before) || !replace_table(bridge, &now))
        return;
    note_rules(before, &now);
}

/* Makes the rules of a bridge that filters VLANs. */
static void apply_with_vlans(const struct querier *querier, const struct bridge *bridge) {
    struct ruled *before = &ruled[bridge - querier->bridges], now = {.is_known = true, .sum = 14695981039346656037u};
    const char *end = put_vlan_table(querier, bridge, text_of_rules);
    for (const char *at = text_of_rules; at < end; at++)
        now.sum = (now.sum ^ (uint8_t)*at) * 1099511628211u;
    if (!is_same(&now, before) && run_nft(text_of_rules, (size_t)(end - text_of_rules)))
        note_rules(before, &now);
}

void rules_apply(struct querier *querier, const struct bridge *bridge) {
    if (bridge->filters)
        apply_with_vlans(querier, bridge);
    else
        apply_to_all(querier, bridge);
}

void rules_check(void) {
    uint32_t now = ask_generation();
    if (now != 0 && now == generation)
        return;
    generation = now;
    for (size_t at = 0; at < GREATEST_BRIDGES; at++)
        ruled[at].is_known = false;
}

bool rules_remove(const struct bridge *bridge) {
    static const struct ruled none;
    return replace_table(bridge, &none) || !was_run;
}

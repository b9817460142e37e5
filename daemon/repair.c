/* The repair of databases: own entries of a dump are compared with what links want. */
#include "querier.h"

/* Own entries of VLANs that a port no longer has, from an earlier run. */
enum { STRAYS = 64 };
static struct place strays[STRAYS];
static size_t strays_count;

/* Notes an own entry of a bridge's port in a VLAN that is not served there. */
static void note_stray(const struct querier *querier, const struct entry *entry) {
    size_t at = querier_first(querier, entry->port);
    if (at == querier->ports_count || strays_count == STRAYS || !querier->options->serves[entry->is_mld])
        return; /* the next repair has room */
    struct place place = {querier->netlink, querier->by_index[at].port->bridge->index, entry->port, entry->vlan, entry->is_mld};
    const struct place *last = strays_count > 0 ? &strays[strays_count - 1] : NULL;
    if (last == NULL || last->port != place.port || last->vlan != place.vlan || last->is_mld != place.is_mld)
        strays[strays_count++] = place;
}

static void remove_strays(struct querier *querier) {
    for (size_t at = 0; at < strays_count; at++)
        if (strays[at].vlan != 0)
            mdb_remove_each(&strays[at]);
    querier->is_stale |= strays_count == STRAYS;
    strays_count = 0;
}

/* Notes an own entry of the dump at its link. */
static void note(void *context, const struct entry *entry) {
    const struct querier *querier = context;
    bool is_interface = querier->options->is_interface;
    struct port *port = is_interface ? querier->ports : querier_port(querier, entry->port, entry->vlan);
    if (port == NULL && entry->maker == MAKER_US)
        note_stray(querier, entry);
    struct served *served = port == NULL ? NULL : &port->served[entry->is_mld];
    bool is_ours = entry->maker == MAKER_US && querier->options->serves[entry->is_mld];
    if (served != NULL && is_ours && (!is_interface || entry->port == querier->kept_port))
        keeper_note(&served->keeper, served->is_on ? &served->link : NULL, entry);
}

/* Corrects the entries of a port after a dump was noted. */
static void repair(struct querier *querier, struct port *port, bool is_mld, bool is_whole) {
    struct served *served = &port->served[is_mld];
    struct place place;
    if (port->index != 0 && querier->options->serves[is_mld] && querier_place(querier, port, is_mld, &place))
        keeper_repair(&served->keeper, served->is_on ? &served->link : NULL, &place, is_whole);
}

void querier_repair(struct querier *querier, uint64_t now) {
    bool keeps = !querier->options->is_interface || querier->kept_port != 0;
    for (size_t at = 0; at < 2 * querier->room; at++)
        keeper_forget_seen(&querier->ports[at / 2].served[at % 2].keeper);
    bool is_whole = !keeps || mdb_dump(querier->netlink, note, querier);
    remove_strays(querier);
    for (size_t at = 0; at < 2 * querier->room; at++)
        repair(querier, querier->ports + at / 2, at % 2, is_whole);
    querier->is_stale |= !is_whole;
    deadlines_set(&querier->deadlines, 2 * querier->room + DEADLINE_REPAIR, now + querier_interval(querier));
}

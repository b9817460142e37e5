#include "retune.h"

#include <stdio.h>

/* Returns whether a link holds more than a configuration allows. */
static bool holds_more(const mq_link *link, const mq_config *configuration) {
    mq_group groups[PAGE_GROUPS];
    size_t first = 0, sources = 0;
    for (size_t count = 1; count > 0; first += count) {
        count = link_groups(link, first, groups);
        for (size_t at = 0; at < count; at++)
            sources += groups[at].count;
    }
    return first > configuration->groups || sources > configuration->sources;
}

const char *retune_fault(const struct querier *querier, const struct options *next) {
    static char why[LONGEST_LABEL + 80];
    if (tunings_exceed(&next->tunings, &querier->families[false].configuration))
        return "a --limit is above --groups or --sources of the start: nothing changes";
    for (size_t at = 0; at < 2 * querier->room; at++) {
        const struct port *port = querier->ports + at / 2;
        const struct served *served = &port->served[at % 2];
        if (port->index == 0 || !served->is_on)
            continue;
        mq_config configuration = querier->families[at % 2].configuration;
        struct tuned_port tuned = {&next->tunings, port->name, port->vlan->id};
        tunings_configure(&tuned, &configuration);
        if (!holds_more(&served->link, &configuration))
            continue;
        snprintf(why, sizeof why, "%s holds more than its new --limit: nothing changes", port->label);
        return why;
    }
    return NULL;
}

void retune(struct querier *querier, const struct tunings *before) {
    struct place place;
    for (size_t at = 0; at < 2 * querier->room; at++) {
        struct port *port = querier->ports + at / 2;
        struct served *served = &port->served[at % 2];
        if (port->index == 0 || !served->is_on)
            continue;
        querier_configure(querier, port, at % 2);
        if (querier_place(querier, port, at % 2, &place))
            keeper_change_statics(&served->keeper, &served->link, &place, before);
    }
}

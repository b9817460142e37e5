/* The options of a router that may change while it runs. */
#include "route.h"

#include <string.h>

/* Returns the configuration of an interface. */
static mq_config configured(const struct options *options, size_t at, bool is_mld) {
    mq_config configuration = options->configuration[is_mld];
    interfaces_configure(&options->interfaces[at], &configuration);
    return configuration;
}

/* Returns the first fault of a configuration as text, or NULL. */
static const char *fault_of(const struct options *options) {
    for (size_t at = 0; at < 2 * options->count; at++) {
        uint32_t status = options->serves[at % 2] ? mq_config_status(configured(options, at / 2, at % 2)) : MQ_DONE;
        if (status != MQ_DONE)
            return mq_status_text(status);
    }
    return NULL;
}

/* Takes over the configuration of an interface. Its limits stay. */
static void take_over(struct bridge *bridge, bool is_mld, const mq_config *next) {
    if (!bridge->is_configured[is_mld])
        bridge->configuration[is_mld] = *next;
    link_retime(&bridge->configuration[is_mld], next);
    bridge->is_configured[is_mld] = true;
}

const char *route_configure(struct querier *querier, const struct options *options) {
    const char *why = fault_of(options);
    for (size_t at = 0; at < 2 * querier->bridges_count && why == NULL; at++) {
        mq_config next = configured(options, at / 2, at % 2);
        if (querier->options->serves[at % 2])
            take_over(&querier->bridges[at / 2], at % 2, &next);
    }
    return why;
}

const char *route_reload(struct querier *querier, const struct options *options, uint64_t now) {
    struct options *used = querier->options;
    bool is_same = options->count == used->count;
    for (size_t at = 0; at < used->count && is_same; at++)
        is_same = strcmp(options->names[at], used->names[at]) == 0;
    is_same &= memcmp(options->upstream.names, used->upstream.names, sizeof used->upstream.names) == 0;
    const char *why = is_same ? route_configure(querier, options) : "other interfaces need a new start";
    if (why != NULL)
        return why;
    memcpy(used->interfaces, options->interfaces, sizeof used->interfaces);
    used->upstream = options->upstream;
    used->scope = options->scope;
    used->unused = options->unused;
    used->upcalls = options->upcalls;
    joins_read_bounds(&querier->route->joins);
    route_renew(querier, now);
    return NULL;
}

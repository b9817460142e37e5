#include "routed.h"

#include "merge.h"
#include "text.h"

#include <inttypes.h>

static const char *text_of(bool is_mld, const uint8_t *address) {
    static char text[LONGEST_ADDRESS + 1];
    *(is_mld ? put_ipv6_address : put_ipv4_address)(text, address) = '\0';
    return text;
}

/* Returns the interface where a group is joined, or NULL. */
static const char *upstream_of(const struct querier *querier, const struct join *join) {
    size_t vif = route_upstream(querier, join->wish.is_mld, join->wish.group);
    return vif == NO_VIF ? NULL : querier->route->vifs[vif].name;
}

static void text_join(const struct querier *querier, const struct join *join, FILE *to) {
    static struct merged merged;
    const char *name = upstream_of(querier, join), *state = join->is_failed ? ", refused" : join->index == 0 ? ", waits" : "";
    wishes_merge(querier, join->wish.is_mld, join->wish.group, &merged);
    fprintf(to, "  %s", text_of(join->wish.is_mld, join->wish.group));
    fprintf(to, " at %s %s", name == NULL ? "-" : name, merged.mode == MODE_EXCLUDE ? "exclude" : "include");
    for (size_t at = 0; at < merged.count; at++)
        fprintf(to, " %s%s", merged.mode == MODE_EXCLUDE ? "!" : "", text_of(join->wish.is_mld, merged.sources[at]));
    fprintf(to, "%s\n", state);
}

static void text_entry(const struct querier *querier, const struct route_entry *entry, FILE *to) {
    const struct route *route = querier->route;
    fprintf(to, "  %s", text_of(entry->flow.is_mld, entry->flow.source));
    fprintf(to, " %s from %s to", text_of(entry->flow.is_mld, entry->flow.group), route->vifs[entry->parent].name);
    for (size_t vif = 0; vif < route->count; vif++)
        if (entry->to >> vif & 1)
            fprintf(to, " %s", route->vifs[vif].name);
    fprintf(to, "%s, packets %" PRIu64 ", bytes %" PRIu64 "\n", entry->to == 0 ? " nobody" : "", entry->usage.packets,
            entry->usage.bytes);
}

void routed_text(const struct querier *querier, FILE *to) {
    const struct route *route = querier->route;
    const struct table *joins = &route->joins.table, *entries = &route->entries.table;
    for (size_t at = route->downstream; at < route->count; at++)
        fprintf(to, "upstream %s%s\n", route->vifs[at].name, route->vifs[at].index == 0 ? ", missing" : "");
    fprintf(to, "joined %zu\n", joins->count);
    for (size_t at = 0; at < joins->count; at++)
        text_join(querier, table_at(joins, at), to);
    fprintf(to, "entries %zu of %zu, upcalls %" PRIu64 "\n", entries->count, entries->room, route->upcalls);
    for (size_t at = 0; at < entries->count; at++)
        text_entry(querier, table_at(entries, at), to);
}

static void json_join(const struct querier *querier, const struct join *join, FILE *to) {
    static struct merged merged;
    const char *name = upstream_of(querier, join);
    wishes_merge(querier, join->wish.is_mld, join->wish.group, &merged);
    fprintf(to, "\n{\"group\":\"%s\",\"interface\":\"%s\",", text_of(join->wish.is_mld, join->wish.group),
            name == NULL ? "" : name);
    fprintf(to, "\"joined\":%s,\"mode\":\"%s\",\"sources\":[", join->parts > 0 ? "true" : "false",
            merged.mode == MODE_EXCLUDE ? "exclude" : "include");
    for (size_t at = 0; at < merged.count; at++)
        fprintf(to, "%s\"%s\"", at > 0 ? "," : "", text_of(join->wish.is_mld, merged.sources[at]));
    fputs("]}", to);
}

static void json_entry(const struct querier *querier, const struct route_entry *entry, FILE *to) {
    const struct route *route = querier->route;
    const char *before = "";
    fprintf(to, "\n{\"source\":\"%s\",", text_of(entry->flow.is_mld, entry->flow.source));
    fprintf(to, "\"group\":\"%s\",\"from\":\"%s\",\"to\":[", text_of(entry->flow.is_mld, entry->flow.group),
            route->vifs[entry->parent].name);
    for (size_t vif = 0; vif < route->count; vif++) {
        if (!(entry->to >> vif & 1))
            continue;
        fprintf(to, "%s\"%s\"", before, route->vifs[vif].name);
        before = ",";
    }
    fprintf(to, "],\"packets\":%" PRIu64 ",\"bytes\":%" PRIu64 "}", entry->usage.packets, entry->usage.bytes);
}

void routed_json(const struct querier *querier, FILE *to) {
    const struct route *route = querier->route;
    const struct table *joins = &route->joins.table, *entries = &route->entries.table;
    fputs(",\"upstream\":[", to);
    for (size_t at = route->downstream; at < route->count; at++)
        fprintf(to, "%s{\"interface\":\"%s\",\"up\":%s}", at > route->downstream ? "," : "", route->vifs[at].name,
                route->vifs[at].index == 0 ? "false" : "true");
    fputs("],\"joins\":[", to);
    for (size_t at = 0; at < joins->count; at++) {
        fputs(at > 0 ? "," : "", to);
        json_join(querier, table_at(joins, at), to);
    }
    fprintf(to, "],\"upcalls\":%" PRIu64 ",\"entries_room\":%zu,\"entries\":[", route->upcalls, entries->room);
    for (size_t at = 0; at < entries->count; at++) {
        fputs(at > 0 ? "," : "", to);
        json_entry(querier, table_at(entries, at), to);
    }
    putc(']', to);
}

void routed_metrics(const struct querier *querier, FILE *to) {
    const struct route *route = querier->route;
    const struct table *joins = &route->joins.table, *entries = &route->entries.table;
    struct usage all = {0, 0};
    for (size_t at = 0; at < entries->count; at++) {
        const struct route_entry *entry = table_at(entries, at);
        all.packets += entry->usage.packets;
        all.bytes += entry->usage.bytes;
    }
    const struct {
        const char *name, *type;
        uint64_t value;
    } metrics[] = {
        {"route_joins", "gauge", joins->count},
        {"route_entries", "gauge", entries->count},
        {"route_entries_wanted", "gauge", route->entries.lines[true].count},
        {"route_packets", "gauge", all.packets}, /* only present entries count */
        {"route_bytes", "gauge", all.bytes},
        {"route_upcalls_total", "counter", route->upcalls},
    };
    for (size_t at = 0; at < sizeof metrics / sizeof *metrics; at++)
        fprintf(to, "# TYPE mquerier_%s %s\nmquerier_%s %" PRIu64 "\n", metrics[at].name, metrics[at].type, metrics[at].name,
                metrics[at].value);
}

#include "link.h"

#include "faults.h"
#include "text.h"

#include <inttypes.h>

/* The longest body that a frame carries. */
enum { LONGEST_BODY = 65535 };

void family_open(struct family *it, mq_config configuration) {
    size_t size = mq_workspace_size(configuration), room = mq_outlet_bytes(configuration, LONGEST_BODY);
    *it = (struct family){.configuration = configuration,
                          .link_size = mq_link_size(configuration),
                          .entries = configuration.groups + configuration.sources};
    uint32_t status = mq_workspace_init(configuration, take(size, 1), size, take(room, 1), room, &it->workspace);
    if (status != MQ_DONE)
        fail(STATUS_FAILED, "configuration", mq_status_text(status));
}

void link_retime(mq_config *it, const mq_config *next) {
    it->robustness = next->robustness;
    it->query_interval = next->query_interval;
    it->response_interval = next->response_interval;
    it->last_member_interval = next->last_member_interval;
    it->last_member_query_count = next->last_member_query_count;
}

size_t link_changed(const mq_link *link, uint8_t (*groups)[LONG_ADDRESS]) {
    return mq_link_changed(link, 0, groups, mq_link_changed(link, 0, NULL, 0));
}

static mq_source sources[PAGE_SOURCES];

bool link_group_at(const mq_link *link, const uint8_t *address, mq_group *group) {
    return mq_link_group_at(link, address, group, sources, PAGE_SOURCES).groups > 0;
}

size_t link_groups(const mq_link *link, size_t first, mq_group *groups) {
    return mq_link_groups(link, (uint32_t)first, groups, PAGE_GROUPS, sources, PAGE_SOURCES).groups;
}

char *link_put_address(const mq_link *link, char *to, const uint8_t *address) {
    return (link->is_mld ? put_ipv6_address : put_ipv4_address)(to, address);
}

static void print_address(const mq_link *link, const uint8_t *address, FILE *to) {
    char text[LONGEST_ADDRESS];
    fwrite(text, 1, (size_t)(link_put_address(link, text, address) - text), to);
}

static void print_source(const mq_link *link, const mq_source *source, FILE *to) {
    fputs(source->deadline == MQ_NONE ? " !" : " ", to);
    print_address(link, source->address, to);
    if (source->deadline != MQ_NONE)
        fprintf(to, "=%" PRIu64, source->deadline);
}

static void print_group(const mq_link *link, const mq_group *group, FILE *to) {
    fputs("group ", to);
    print_address(link, group->address, to);
    if (group->deadline == MQ_NONE)
        fputs(" include", to);
    else
        fprintf(to, " exclude %" PRIu64, group->deadline);
    for (size_t at = 0; at < group->count; at++)
        print_source(link, &group->sources[at], to);
    if (group->v1 != MQ_NONE)
        fprintf(to, " v1 %" PRIu64, group->v1);
    if (group->v2 != MQ_NONE)
        fprintf(to, " v2 %" PRIu64, group->v2);
    putc('\n', to);
}

void link_print_state(const mq_link *link, uint64_t now, FILE *to) {
    mq_group groups[PAGE_GROUPS];
    mq_counts counts;
    fprintf(to, "end %" PRIu64 " %s\n", now, mq_link_is_querier(link) ? "querier" : "other");
    for (size_t first = 0, count = 1; count > 0; first += count) {
        count = link_groups(link, first, groups);
        for (size_t at = 0; at < count; at++)
            print_group(link, &groups[at], to);
    }
    mq_link_counts(link, &counts, sizeof counts);
    fprintf(to,
            "counts received %" PRIu64 " dropped %" PRIu64 " applied %" PRIu64 " ignored %" PRIu64 " refused %" PRIu64
            " sent %" PRIu64 " unsent %" PRIu64 "\n",
            counts.received, counts.dropped, counts.applied, counts.ignored, counts.refused, counts.sent, counts.unsent);
}

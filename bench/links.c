/* Measures many links that use one workspace in turn: links igmp|mld LINKS. Each has limits of 128 groups, 64 sources a group and
   1,024 in all. It receives Reports for 64 groups with four sources each, first to make the groups, then measured. Prints:
   - the bytes of the links and their workspace
   - the bytes of one link with its own workspace
   - the nanoseconds of the processor for a Report
   - the same at one of these links. */
#define _POSIX_C_SOURCE 199309L
#include "mquerier.h"

#include <stdio.h>
#include <stdlib.h>
#include <string.h>
#include <time.h>

enum { GROUPS = 64, SOURCES = 4, ROUNDS = 8, LONGEST = 128 };

static void want(bool is_so, const char *otherwise) {
    if (is_so)
        return;
    fprintf(stderr, "links: %s\n", otherwise);
    exit(1);
}

static const uint8_t own4[4] = {10, 0, 0, 9}, host4[4] = {10, 0, 0, 7};
static const uint8_t own6[16] = {0xfe, 0x80, [15] = 9}, host6[16] = {0xfe, 0x80, [15] = 7};
static const uint8_t routers6[16] = {0xff, 2, [15] = 0x16};

/* The links of one family, their workspace, and the Reports. */
static bool is_mld;
static mq_igmp *igmp;
static mq_mld *mld;
static mq_igmp_workspace workspace4;
static mq_mld_workspace workspace6;
static uint8_t reports[GROUPS][LONGEST];
static size_t length;

static uint32_t added(uint32_t sum, const uint8_t *bytes, size_t count) {
    for (size_t at = 0; at < count; at += 2)
        sum += (uint32_t)bytes[at] << 8 | bytes[at + 1];
    return sum;
}

/* Writes a Report of one record, ALLOW, with the checksum of its family. */
static void spell(uint8_t *out, uint8_t group) {
    size_t width = is_mld ? 16 : 4;
    uint32_t sum = 0;
    length = 8 + 4 + width + SOURCES * width;
    memset(out, 0, LONGEST);
    out[0] = is_mld ? 0x8f : 0x22;
    out[7] = 1;
    out[8] = 5;
    out[11] = SOURCES;
    memcpy(out + 12, is_mld ? (const uint8_t[2]){0xff, 0x0e} : (const uint8_t[2]){239, 1}, 2);
    out[12 + width - 1] = group;
    for (uint8_t source = 0; source < SOURCES; source++) {
        uint8_t *at = out + 12 + width * (1u + source);
        memcpy(at, is_mld ? (const uint8_t[2]){0x20, 1} : (const uint8_t[2]){10, 1}, 2);
        at[width - 1] = (uint8_t)(source + 1);
    }
    sum = added(sum, out, length);
    if (is_mld)
        sum = added(added(sum, host6, 16), routers6, 16) + (uint32_t)length + 58;
    while (sum >> 16)
        sum = (sum & 0xffff) + (sum >> 16);
    out[2] = (uint8_t)(~sum >> 8);
    out[3] = (uint8_t)~sum;
}

static mq_igmp_config limits4(void) {
    mq_igmp_config config = mq_igmp_defaults(own4);
    config.groups = 128;
    config.group_sources = 64;
    config.sources = 1024;
    return config;
}

static mq_mld_config limits6(void) {
    mq_mld_config config = mq_mld_defaults(own6);
    config.groups = 128;
    config.group_sources = 64;
    config.sources = 1024;
    return config;
}

/* The bytes of one link, and of a workspace. */
static size_t link_size, workspace_size;

/* They lie in one block, which stays to the end. */
static void make(size_t count) {
    link_size = is_mld ? mq_mld_size(limits6()) : mq_igmp_size(limits4());
    workspace_size = is_mld ? mq_mld_workspace_size(limits6()) : mq_igmp_workspace_size(limits4());
    uint8_t *memory = malloc(workspace_size + count * link_size), *at = memory;
    want(is_mld ? (mld = malloc(count * sizeof *mld)) != NULL : (igmp = malloc(count * sizeof *igmp)) != NULL, "no memory");
    want(memory != NULL, "no memory");
    want((is_mld ? mq_mld_workspace_init(limits6(), at, workspace_size, &workspace6)
                 : mq_igmp_workspace_init(limits4(), at, workspace_size, &workspace4))
             == MQ_DONE,
         "no workspace");
    at += workspace_size;
    for (size_t i = 0; i < count; i++, at += link_size)
        want((is_mld ? mq_mld_init(limits6(), 0, at, link_size, &mld[i]) : mq_igmp_init(limits4(), 0, at, link_size, &igmp[i]))
                 == MQ_DONE,
             "no link");
}

static void hear(size_t link, int group, uint64_t now) {
    static uint8_t queries[4096];
    const uint8_t *body = reports[group];
    mq_answer answer =
        is_mld ? mq_mld_receive(&mld[link], &workspace6, host6, routers6, 1, true, body, length, now, queries, sizeof queries)
               : mq_igmp_receive(&igmp[link], &workspace4, host4, body, length, now, queries, sizeof queries);
    want(answer.status == MQ_DONE && !answer.dropped && answer.applied == 1, "a Report was not taken");
}

static double worked(void) {
    struct timespec at;
    clock_gettime(CLOCK_PROCESS_CPUTIME_ID, &at);
    return (double)at.tv_sec * 1e9 + (double)at.tv_nsec;
}

/* Returns the nanoseconds of a Report if `count` links receive one in turn: the least of several rounds. */
static double took(size_t count, uint64_t from) {
    double least = 0;
    for (uint64_t round = 0; round < ROUNDS; round++) {
        double begun = worked();
        for (int group = 0; group < GROUPS; group++)
            for (size_t link = 0; link < count; link++)
                hear(link, group, from + round);
        double each = (worked() - begun) / ((double)count * GROUPS);
        if (round == 0 || each < least)
            least = each;
    }
    return least;
}

int main(int argc, char **argv) {
    want(argc == 3, "links igmp|mld LINKS");
    size_t count = strtoul(argv[2], NULL, 10);
    is_mld = strcmp(argv[1], "mld") == 0;
    for (int group = 0; group < GROUPS; group++)
        spell(reports[group], (uint8_t)group);
    make(count);
    for (int group = 0; group < GROUPS; group++)
        for (size_t link = 0; link < count; link++)
            hear(link, group, 0);
    double many = took(count, 1), one = took(1, 1 + ROUNDS);
    printf("%zu %zu %.0f %.0f\n", workspace_size + count * link_size, workspace_size + link_size, many, one);
    return 0;
}

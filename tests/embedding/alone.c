/* Links of both families in one static array, without a heap and without the C library: only what a compiler may call in a program
   that stands alone. If a fact doesn't hold, the program ends with its line as the status. */
#define MQ_NO_STDLIB
#include "mquerier.h"

/* The functions that the library needs. A compiler may emit calls to them here. */
void *memcpy(void *restrict to, const void *restrict from, size_t count) {
    uint8_t *out = to;
    const uint8_t *in = from;
    while (count--)
        *out++ = *in++;
    return to;
}

void *memmove(void *to, const void *from, size_t count) {
    uint8_t *out = to;
    const uint8_t *in = from;
    if (out < in)
        return memcpy(to, from, count);
    while (count--)
        out[count] = in[count];
    return to;
}

void *memset(void *to, int value, size_t count) {
    uint8_t *out = to;
    while (count--)
        *out++ = (uint8_t)value;
    return to;
}

int memcmp(const void *one, const void *two, size_t count) {
    const uint8_t *a = one, *b = two;
    for (; count; a++, b++, count--)
        if (*a != *b)
            return *a < *b ? -1 : 1;
    return 0;
}

/* All memory of the program: for each family a link, a workspace, and room for queries. */
enum { GROUPS = 64, GROUP_SOURCES = 32, SOURCES = 512, ROOM = 256 };
static uint8_t memory[MQ_IGMP_SIZE(GROUPS, SOURCES) + MQ_IGMP_WORKSPACE_SIZE(GROUPS, GROUP_SOURCES) + MQ_MLD_SIZE(GROUPS, SOURCES)
                      + MQ_MLD_WORKSPACE_SIZE(GROUPS, GROUP_SOURCES) + 2 * ROOM];

#define CHECK(fact) \
    do { \
        if (!(fact)) \
            return __LINE__; \
    } while (0)

/* Returns 0 or the line of a fact that does not hold, and sets how many bytes it used. */
static int igmp(uint8_t *queries, size_t *taken) {
    static const uint8_t own[4] = {10, 9, 0, 9}, host[4] = {10, 9, 0, 7}, group[4] = {232, 1, 1, 1}, source[4] = {10, 0, 0, 1};
    static const uint8_t allow[] = {0x22, 0, 0xdb, 0xf6, 0, 0, 0, 1, 5, 0, 0, 2, 232, 1, 1, 1, 10, 0, 0, 1, 10, 0, 0, 2};
    uint8_t changed[2][4], *work;
    mq_igmp_config config = mq_igmp_defaults(own);
    mq_igmp_group held;
    mq_igmp_source sources[2];
    mq_igmp link = {NULL};
    mq_igmp_workspace workspace = {NULL};
    mq_answer answer;
    mq_page page;
    mq_counts counts;
    config.groups = GROUPS, config.group_sources = GROUP_SOURCES, config.sources = SOURCES;
    const size_t size = mq_igmp_size(config), of_work = mq_igmp_workspace_size(config);
    work = queries + ROOM + size;
    *taken = size + of_work;
    CHECK(size <= MQ_IGMP_SIZE(GROUPS, SOURCES) && of_work <= MQ_IGMP_WORKSPACE_SIZE(GROUPS, GROUP_SOURCES));
    CHECK(mq_igmp_init(config, 0, memory, 0, &link) == MQ_MEMORY && mq_igmp_init(config, 0, memory, 4096, &link) == MQ_MEMORY);
    CHECK(mq_igmp_init(config, MQ_LATEST + 1, queries + ROOM, size, &link) == MQ_MOMENT && link.link == NULL);
    CHECK(mq_igmp_workspace_init(config, work, of_work, &workspace) == MQ_DONE && workspace.workspace != NULL);
    for (int again = 0; again < 2; again++) { /* the second link is made in the memory of the first */
        CHECK(mq_igmp_init(config, 0, queries + ROOM, size, &link) == MQ_DONE && link.link != NULL && mq_igmp_len(&link) == 0);
        answer = mq_igmp_tick(&link, &workspace, 0, queries, ROOM);
        CHECK(answer.status == MQ_DONE && answer.sent == 1 && answer.written == 18);
        answer = mq_igmp_receive(&link, &workspace, host, allow, sizeof allow, 40, queries, ROOM);
        CHECK(answer.status == MQ_DONE && answer.applied == 1 && mq_igmp_len(&link) == 1);
        CHECK(mq_igmp_forwards(&link, group, source) && !mq_igmp_forwards(&link, group, own));
        CHECK(mq_igmp_changed(&workspace, 0, changed, 2) == 1 && changed[0][0] == 232 && changed[0][3] == 1);
        page = mq_igmp_group_at(&link, group, &held, sources, 2);
        CHECK(page.groups == 1 && page.sources == 2 && held.deadline == MQ_NONE && sources[0].deadline == 260040);
        page = mq_igmp_groups(&link, 0, &held, 1, sources, 2);
        CHECK(page.groups == 1 && page.sources == 2 && sources[1].address[3] == 2);
        CHECK(mq_igmp_is_querier(&link) && mq_igmp_other_querier(&link, NULL, 0) == MQ_NONE);
        CHECK(mq_igmp_spent(&link) > 0 && mq_igmp_moved(&link) > 0);
        for (uint64_t now; (now = mq_igmp_next_deadline(&link)) <= 280000;)
            mq_igmp_tick(&link, &workspace, now, queries, ROOM);
        CHECK(mq_igmp_len(&link) == 0 && !mq_igmp_forwards(&link, group, source));
        mq_igmp_counts(&link, &counts, sizeof counts);
        CHECK(counts.received == 1 && counts.applied == 1 && counts.sent == 3 && counts.parsed[MQ_PARSED_REPORT] == 1);
    }
    return 0;
}

static int mld(uint8_t *queries, size_t *taken) {
    static const uint8_t own[16] = {0xfe, 0x80, [15] = 9}, host[16] = {0xfe, 0x80, [15] = 2},
                         group[16] = {0xff, 0x0e, [14] = 0x12, 0x34};
    static const uint8_t routers[16] = {0xff, 2, [15] = 0x16};
    static const uint8_t report[] = {0x8f, 0, 0x5d, 0xc9, 0, 0, 0, 1, 4, 0, 0, 0, 0xff, 0x0e,
                                     0,    0, 0,    0,    0, 0, 0, 0, 0, 0, 0, 0, 0x12, 0x34};
    mq_mld_config config = mq_mld_defaults(own);
    mq_mld link = {NULL};
    mq_mld_workspace workspace = {NULL};
    mq_answer answer;
    config.groups = GROUPS, config.group_sources = GROUP_SOURCES, config.sources = SOURCES;
    const size_t size = mq_mld_size(config), of_work = mq_mld_workspace_size(config);
    *taken = size + of_work;
    CHECK(size <= MQ_MLD_SIZE(GROUPS, SOURCES) && of_work <= MQ_MLD_WORKSPACE_SIZE(GROUPS, GROUP_SOURCES));
    CHECK(mq_mld_workspace_init(config, queries + ROOM + size, of_work - 32, &workspace) == MQ_MEMORY
          && workspace.workspace == NULL);
    CHECK(mq_mld_workspace_init(config, queries + ROOM + size, of_work, &workspace) == MQ_DONE);
    CHECK(mq_mld_init(config, 0, queries + ROOM, 16, &link) == MQ_MEMORY && link.link == NULL);
    CHECK(mq_mld_init(config, 0, queries + ROOM, size, &link) == MQ_DONE);
    answer = mq_mld_tick(&link, &workspace, 0, queries, ROOM);
    CHECK(answer.status == MQ_DONE && answer.sent == 1 && answer.written == 16 + 2 + 28);
    CHECK(mq_mld_next_deadline(&link) == 31250 && mq_mld_len(&link) == 0);
    answer = mq_mld_receive(&link, &workspace, host, routers, 1, true, report, sizeof report, 40, queries, ROOM);
    CHECK(answer.applied == 1 && mq_mld_forwards(&link, group, own) && mq_mld_changed(&workspace, 0, NULL, 0) == 1);
    return 0;
}

/* The program begins here: there is no `main`. */
void begin(void);

#if defined __x86_64__
__asm__(".globl _start\n_start:\n\txor %ebp, %ebp\n\tand $-16, %rsp\n\tcall begin\n");

static void end(long status) {
    __asm__ volatile("syscall" : : "a"(60L), "D"(status) : "rcx", "r11", "memory");
}
#elif defined __aarch64__
__asm__(".globl _start\n_start:\n\tbl begin\n");

static void end(long status) {
    register long call __asm__("x8") = 93;
    register long told __asm__("x0") = status;
    __asm__ volatile("svc 0" : : "r"(call), "r"(told) : "memory");
}
#endif

void begin(void) {
    size_t taken = 0, more;
    int line = igmp(memory, &taken);
    if (!line)
        line = mld(memory + taken + ROOM, &more);
    end(line > 255 ? 255 : line);
}

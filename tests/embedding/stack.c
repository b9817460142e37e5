/* Measures the stack of each call of the library with a painted stack: the greatest depth over hostile datagrams. Fails if a call
   uses more than the header says. */
#define _GNU_SOURCE
#include "check.h"

#include <ucontext.h>

enum { STACK = 1 << 18, PAINT = 0xa5, OF_IGMP = 8 * 1024, OF_MLD = 20 * 1024, LENGTH = 65528 };

static uint8_t stack[STACK], body[65536], queries[1 << 20];
static ucontext_t outside, inside;

static const uint8_t own4[4] = {10, 0, 0, 9}, host4[4] = {10, 0, 0, 7};
static const uint8_t own6[16] = {0xfe, 0x80, [15] = 9}, host6[16] = {0xfe, 0x80, [15] = 7}, routers6[16] = {0xff, 2, [15] = 0x16};
static mq_igmp_on_heap igmp;
static mq_mld_on_heap mld;
static bool is_mld;
static uint64_t now;
static size_t length;

/* The bytes of the stack that were written since it was painted. */
static size_t painted_over(void (*call)(void)) {
    memset(stack, PAINT, sizeof stack);
    getcontext(&inside);
    inside.uc_stack.ss_sp = stack;
    inside.uc_stack.ss_size = sizeof stack;
    inside.uc_link = &outside;
    makecontext(&inside, call, 0);
    swapcontext(&outside, &inside);
    size_t left = 0;
    while (left < sizeof stack && stack[left] == PAINT)
        left++;
    return sizeof stack - left;
}

static void nothing(void) {
}

static void make(void) {
    CHECK((is_mld ? mq_mld_new(mq_mld_defaults(own6), 0, &mld) : mq_igmp_new(mq_igmp_defaults(own4), 0, &igmp)) == MQ_DONE);
}

static void tick(void) {
    mq_answer it = is_mld ? mq_mld_tick(&mld.link, &mld.workspace, now, queries, sizeof queries)
                          : mq_igmp_tick(&igmp.link, &igmp.workspace, now, queries, sizeof queries);
    CHECK(it.status == MQ_DONE);
}

static void receive(void) {
    mq_answer it =
        is_mld ? mq_mld_receive(&mld.link, &mld.workspace, host6, routers6, 1, true, body, length, now, queries, sizeof queries)
               : mq_igmp_receive(&igmp.link, &igmp.workspace, host4, body, length, now, queries, sizeof queries);
    CHECK(it.status == MQ_DONE && !it.dropped);
}

static void ask(void) {
    static mq_igmp_group groups4[64];
    static mq_igmp_source sources4[1024];
    static mq_mld_group groups6[64];
    static mq_mld_source sources6[1024];
    static uint8_t changed4[64][4], changed6[64][16], line[1 << 16];
    mq_counts counts;
    if (is_mld) {
        mq_mld_groups(&mld.link, 0, groups6, 64, sources6, 1024);
        mq_mld_group_at(&mld.link, groups6[0].address, groups6, sources6, 1024);
        mq_mld_changed(&mld.workspace, 0, changed6, 64);
        mq_mld_forwards(&mld.link, groups6[0].address, host6);
        mq_mld_line(host6, routers6, body, length, line, sizeof line);
        mq_mld_counts(&mld.link, &counts, sizeof counts);
    } else {
        mq_igmp_groups(&igmp.link, 0, groups4, 64, sources4, 1024);
        mq_igmp_group_at(&igmp.link, groups4[0].address, groups4, sources4, 1024);
        mq_igmp_changed(&igmp.workspace, 0, changed4, 64);
        mq_igmp_forwards(&igmp.link, groups4[0].address, host4);
        mq_igmp_line(body, length, line, sizeof line);
        mq_igmp_counts(&igmp.link, &counts, sizeof counts);
    }
}

static uint32_t added(uint32_t sum, const uint8_t *bytes, size_t count) {
    for (size_t i = 0; i < count; i += 2)
        sum += (uint32_t)bytes[i] << 8 | bytes[i + 1];
    return sum;
}

/* Writes a Report of as many records as fit. Each has a kind and `count` sources, and begins at another source. */
static void make_up(uint8_t kind, unsigned count, unsigned first, unsigned groups) {
    const size_t width = is_mld ? 16 : 4;
    unsigned records = 0;
    length = 8;
    memset(body, 0, sizeof body);
    for (; length + 4 + width + count * width <= LENGTH; records++) {
        uint8_t *at = body + length;
        at[0] = kind, at[2] = (uint8_t)(count >> 8), at[3] = (uint8_t)count;
        at[4] = is_mld ? 0xff : 239, at[5] = is_mld ? 0x0e : 1;
        at[4 + width - 2] = (uint8_t)(records % groups >> 8), at[4 + width - 1] = (uint8_t)(records % groups);
        for (unsigned source = 0; source < count; source++) {
            uint8_t *to = at + 4 + width * (1 + source);
            to[0] = is_mld ? 0x20 : 10, to[1] = 1;
            to[width - 2] = (uint8_t)((first + count - source) >> 8), to[width - 1] = (uint8_t)(first + count - source);
        }
        length += 4 + width + count * width;
    }
    body[0] = is_mld ? 0x8f : 0x22;
    body[6] = (uint8_t)(records >> 8), body[7] = (uint8_t)records;
    uint32_t sum = added(0, body, length);
    if (is_mld)
        sum = added(added(sum, host6, 16), routers6, 16) + (uint32_t)length + 58;
    while (sum >> 16)
        sum = (sum & 0xffff) + (sum >> 16);
    body[2] = (uint8_t)(~sum >> 8), body[3] = (uint8_t)~sum;
}

static size_t greater(size_t one, size_t other) {
    return one > other ? one : other;
}

int main(void) {
    const size_t empty = painted_over(nothing);
    for (int family = 0; family < 2; family++) {
        is_mld = family == 1;
        const unsigned most = is_mld ? MQ_MLD_GROUP_SOURCES : MQ_IGMP_GROUP_SOURCES;
        size_t of_make = painted_over(make) - empty, of_receive = 0, of_tick = 0, of_ask = 0;
        now = 0;
        for (unsigned round = 0; round < 48; round++) {
            make_up((uint8_t)(1 + round % 6), round % 4 ? round % 4 * most / 3 : round % 3, round * 5, round % 5 ? 40 : 2000);
            of_receive = greater(of_receive, painted_over(receive) - empty);
            of_ask = greater(of_ask, painted_over(ask) - empty);
            now = round % 7 == 6 ? now + 130000 : now + 1000;
            of_tick = greater(of_tick, painted_over(tick) - empty);
        }
        printf("%s: init %zu, receive %zu, tick %zu, others %zu bytes of stack\n", is_mld ? "mld" : "igmp", of_make, of_receive,
               of_tick, of_ask);
        CHECK(of_receive <= (is_mld ? OF_MLD : OF_IGMP) && of_tick <= (is_mld ? OF_MLD : OF_IGMP));
        CHECK(of_make <= OF_IGMP && of_ask <= OF_IGMP);
    }
    mq_igmp_free(&igmp);
    mq_mld_free(&mld);
    return told();
}

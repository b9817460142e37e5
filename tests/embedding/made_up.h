/* Generated datagrams of either family: mostly Reports, with wrong fields among them. */
#ifndef MADE_UP_H
#define MADE_UP_H

#include <stdbool.h>
#include <stddef.h>
#include <stdint.h>
#include <string.h>

static const uint8_t own4[4] = {10, 0, 0, 9}, own6[16] = {0xfe, 0x80, [15] = 9}, routers6[16] = {0xff, 2, [15] = 0x16};
static bool is_mld;
static uint8_t source[16], body[2048];
static size_t width, length;
static uint64_t groups; /* the number of groups in a datagram */

/* Returns a number below this one, which follows from the seed. */
static uint64_t state;
static uint64_t below(uint64_t bound) {
    state ^= state >> 12;
    state ^= state << 25;
    state ^= state >> 27;
    return (state * UINT64_C(0x2545f4914f6cdd1d) >> 33) % bound;
}

static bool one_in(uint64_t count) {
    return below(count) == 0;
}

/* Parts of messages, which follow the bytes in the body. */
static void put(uint64_t byte) {
    body[length++] = (uint8_t)byte;
}

static void put_zeros(size_t count) {
    while (count--)
        put(0);
}

static void spell_group(uint8_t *to) {
    static const uint8_t firsts4[4] = {239, 232, 224, 10}, firsts6[4] = {0x0e, 0x3e, 2, 1};
    uint64_t kind = one_in(8) ? 1 + below(3) : 0;
    memset(to, 0, width);
    to[0] = is_mld ? 0xff : firsts4[kind];
    if (is_mld)
        to[1] = firsts6[kind];
    to[width - 1] = (uint8_t)below(groups);
}

static void spell_source(uint8_t *to) {
    memset(to, 0, width);
    to[0] = is_mld ? 0x20 : 10;
    to[1] = 1;
    to[width - 1] = (uint8_t)below(24);
}

static void put_group(void) {
    spell_group(body + length);
    length += width;
}

static void put_sources(uint64_t count) {
    for (; count; count--, length += width)
        spell_source(body + length);
}

static void put_record(void) {
    uint64_t count = one_in(2) ? 0 : below(one_in(4) ? 24 : 8), words = one_in(32);
    put(one_in(32) ? below(256) : 1 + below(6));
    put(words);
    put(0);
    put(count);
    put_group();
    put_sources(count);
    put_zeros(4 * words);
}

static void put_report(void) {
    uint64_t count = one_in(8) ? below(9) : 1;
    put(is_mld ? 0x8f : 0x22);
    put_zeros(6);
    put(count);
    while (count--)
        put_record();
}

static void put_older(void) {
    static const uint8_t types4[3] = {0x12, 0x16, 0x17}, types6[3] = {131, 131, 132};
    uint64_t kind = below(3);
    put(is_mld ? types6[kind] : types4[kind]);
    put_zeros(is_mld ? 7 : 3);
    put_group();
}

/* A query: of an older version if it ends with the group, and of no version if it ends a byte later. */
static void put_query(void) {
    uint64_t count = one_in(2) ? 0 : below(6);
    put(is_mld ? 130 : 0x11);
    put(one_in(8) ? 0 : below(256));
    put_zeros(2);
    for (int i = 0; is_mld && i < 4; i++)
        put(i < 2 ? below(256) : 0);
    if (one_in(2))
        put_group();
    else
        put_zeros(width);
    if (one_in(4))
        return;
    put(below(16));
    if (one_in(16))
        return;
    put(below(256));
    put(0);
    put(count);
    put_sources(count);
}

static uint32_t summed(uint32_t so_far, const uint8_t *bytes, size_t count) {
    for (size_t i = 0; i < count; i++)
        so_far += i % 2 ? bytes[i] : (uint32_t)bytes[i] << 8;
    return so_far;
}

static void put_checksum(void) {
    memset(body + 2, 0, 2);
    uint32_t all = summed(0, body, length);
    if (is_mld)
        all = summed(summed(all, source, 16), routers6, 16) + (uint32_t)length + 58;
    while (all >> 16)
        all = (all & 0xffff) + (all >> 16);
    body[2] = (uint8_t)(~all >> 8);
    body[3] = (uint8_t)~all;
}

/* A datagram: mostly Reports, few queries, and some damaged messages. */
static void make_up(void) {
    uint64_t kind = below(64);
    length = 0;
    groups = one_in(8) ? 2 : 40;
    memset(source, 0, sizeof source);
    memcpy(source, is_mld ? own6 : own4, width - 1);
    source[width - 1] = (uint8_t)below(32);
    if (one_in(32))
        memset(source, 0, width);
    if (kind < 2)
        put_query();
    else if (kind < 12)
        put_older();
    else if (kind < 14)
        for (uint64_t count = below(64); count; count--)
            put(below(256));
    else
        put_report();
    if (length > 3)
        put_checksum();
    if (length && one_in(32)) {
        size_t at = below(length);
        body[at] ^= (uint8_t)(1 + below(255));
    }
    if (length && one_in(32))
        length = below(length);
}

#endif

#include "records.h"

#include <string.h>

enum { HEAD = 8, IGMP_RECORD = 8, MLD_RECORD = 20, ICMPV6 = 58, TENTH = 100, IGMPV1_RESPONSE = 10000 };
enum { IS_IN = 1, IS_EX, TO_IN, TO_EX };
enum { IGMPV1_REPORT = 0x12, IGMPV2_REPORT = 0x16, IGMPV2_LEAVE = 0x17, IGMPV3_REPORT = 0x22 };
enum { MLDV1_REPORT = 131, MLDV1_DONE = 132, MLDV2_REPORT = 143 };
static const uint8_t all_routers[2][16] = {{224, 0, 0, 2}, {0xff, 2, [15] = 2}},
                     all_newest[2][16] = {{224, 0, 0, 22}, {0xff, 2, [15] = 0x16}};

static void put_word(uint8_t *to, size_t word) {
    to[0] = (uint8_t)(word >> 8);
    to[1] = (uint8_t)word;
}

static uint32_t add_up(uint32_t sum, const uint8_t *bytes, size_t length) {
    for (size_t at = 0; at < length; at++)
        sum += at % 2 == 0 ? (uint32_t)bytes[at] << 8 : bytes[at];
    return sum;
}

/* Puts the checksum into a message, for MLD with the pseudo-header (RFC 3810 section 5.1.2). */
static void put_checksum(const struct records *it, const uint8_t *destination, uint8_t *message, size_t length) {
    uint32_t sum = it->is_mld ? add_up(add_up((uint32_t)length + ICMPV6, it->own, 16), destination, 16) : 0;
    put_word(message + 2, 0);
    sum = add_up(sum, message, length);
    while (sum > 0xffff)
        sum = (sum & 0xffff) + (sum >> 16);
    put_word(message + 2, sum ^ 0xffff);
}

static void send_message(const struct records *it, const uint8_t *destination, uint8_t *message, size_t length) {
    static uint8_t frame[LONGEST_RECORDS + 128];
    put_checksum(it, destination, message, length);
    it->send(it->context, frame, write_frame(it->is_mld, it->mac, it->own, destination, message, length, frame));
}

void records_send(struct records *it) {
    if (it->count == 0)
        return;
    put_word(it->message + 6, it->count);
    it->message[0] = it->is_mld ? MLDV2_REPORT : IGMPV3_REPORT;
    send_message(it, all_newest[it->is_mld], it->message, it->length);
    it->count = 0;
}

/* Sends a message of an older version, which knows no sources: a Report, or a Leave or Done. IGMPv1 has no Leave. */
static void send_older(const struct records *it, const uint8_t *group, bool is_wanted) {
    uint8_t message[HEAD + 16] = {0};
    size_t width = it->is_mld ? 16 : 4;
    if (!is_wanted && !it->is_mld && it->version == 1)
        return;
    if (it->is_mld)
        message[0] = is_wanted ? MLDV1_REPORT : MLDV1_DONE;
    else
        message[0] = is_wanted ? (it->version == 1 ? IGMPV1_REPORT : IGMPV2_REPORT) : IGMPV2_LEAVE;
    memcpy(message + (it->is_mld ? HEAD : 4), group, width);
    send_message(it, is_wanted ? group : all_routers[it->is_mld], message, (it->is_mld ? HEAD : 4) + width);
}

void records_add(struct records *it, const uint8_t *group, const struct filter *filter) {
    size_t width = it->is_mld ? 16 : 4, head = it->is_mld ? MLD_RECORD : IGMP_RECORD, length = head + filter->count * width;
    if (it->version < (it->is_mld ? 2 : 3)) {
        send_older(it, group, filter->mode != MODE_NONE);
        return;
    }
    if (it->count > 0 && it->length + length > sizeof it->message)
        records_send(it);
    if (it->count == 0) {
        memset(it->message, 0, HEAD);
        it->length = HEAD;
    }
    uint8_t *record = it->message + it->length;
    bool excludes = filter->mode == MODE_EXCLUDE;
    record[0] = it->is_change ? (excludes ? TO_EX : TO_IN) : (excludes ? IS_EX : IS_IN);
    record[1] = 0;
    put_word(record + 2, filter->count);
    memcpy(record + 4, group, width);
    for (size_t at = 0; at < filter->count; at++)
        memcpy(record + head + at * width, filter->sources[at], width);
    it->length += length;
    it->count++;
}

/* Returns the value of a floating-point code with this many bits for the mantissa. */
static uint64_t value_of(unsigned code, unsigned bits) {
    unsigned mantissa = code & ((1u << bits) - 1), exponent = code >> bits & 7;
    return (uint64_t)(mantissa | 1u << bits) << (exponent + 3);
}

uint64_t records_response_time(bool is_mld, unsigned version, const struct datagram *query) {
    unsigned code = is_mld ? (unsigned)query->body[4] << 8 | query->body[5] : query->body[1];
    if (is_mld)
        return version == 1 || code < 0x8000 ? code : value_of(code, 12);
    if (version == 1)
        return IGMPV1_RESPONSE;
    return TENTH * (version == 2 || code < 0x80 ? code : value_of(code, 4));
}

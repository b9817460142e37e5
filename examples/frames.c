#include "frames.h"

#include <string.h>

enum {
    TYPE_IPV4 = 0x0800,
    TYPE_IPV6 = 0x86dd,
    SHORTEST_FRAME = 60,
    IPV4 = 20,
    IPV4_ALERT = 24, /* with a Router Alert option */
    IPV4_END = 0,
    IPV4_NOTHING = 1,
    IPV4_OPTION_ALERT = 0x94,
    IPV6 = 40,
    HOP_BY_HOP = 8,
    FRAGMENT = 8,
    PROTOCOL_IGMP = 2,
    NEXT_HOP_BY_HOP = 0,
    NEXT_FRAGMENT = 44,
    NEXT_ICMPV6 = 58,
    OPTION_PAD1 = 0,
    OPTION_ALERT = 5,
};

static size_t word_at(const uint8_t *bytes) {
    return (size_t)bytes[0] << 8 | bytes[1];
}

static void put_word(uint8_t *bytes, size_t word) {
    bytes[0] = (uint8_t)(word >> 8);
    bytes[1] = (uint8_t)word;
}

/* Returns the checksum of an IPv4 header of even length. It is 0 if the header's field is right (RFC 1071). */
static size_t header_checksum(const uint8_t *header, size_t length) {
    size_t sum = 0;
    for (size_t at = 0; at < length; at += 2)
        sum += word_at(header + at);
    while (sum > 0xffff)
        sum = (sum & 0xffff) + (sum >> 16);
    return sum ^ 0xffff;
}

/* Returns whether the options of an IPv4 header include Router Alert. */
static bool has_ipv4_alert(const uint8_t *options, size_t length) {
    for (size_t at = 0; at < length && options[at] != IPV4_END;) {
        size_t size = options[at] == IPV4_NOTHING ? 1 : length - at < 2 ? 0 : options[at + 1];
        if (size == 0 || size > length - at)
            return false;
        if (options[at] == IPV4_OPTION_ALERT && size == 4 && word_at(options + at + 2) == 0)
            return true;
        at += size;
    }
    return false;
}

/* Reads an IPv4 packet. Returns its protocol, NO_PROTOCOL if it is malformed, or ONLY_A_FRAGMENT for a fragment of IGMP. */
static unsigned read_ipv4(const uint8_t *packet, size_t length, struct datagram *datagram) {
    if (length < IPV4 || packet[0] >> 4 != 4)
        return NO_PROTOCOL;
    size_t header = 4 * (size_t)(packet[0] & 0x0f), total = word_at(packet + 2);
    if (header < IPV4 || total < header || total > length || header_checksum(packet, header) != 0)
        return NO_PROTOCOL;
    if (word_at(packet + 6) & 0x3fff) /* more fragments, or an offset */
        return packet[9] == PROTOCOL_IGMP ? ONLY_A_FRAGMENT : NO_PROTOCOL;
    mq_put_address(datagram->envelope.source, packet + 12, 4);
    mq_put_address(datagram->envelope.destination, packet + 16, 4);
    datagram->envelope.hop_limit = packet[8];
    datagram->envelope.alert = has_ipv4_alert(packet + IPV4, header - IPV4);
    datagram->body = packet + header; /* after the options */
    datagram->length = total - header;
    return packet[9];
}

/* Returns whether the options of a hop-by-hop header include Router Alert for MLD. */
static bool has_ipv6_alert(const uint8_t *options, size_t length) {
    for (size_t at = 0; at < length;) {
        if (options[at] == OPTION_PAD1) {
            at += 1;
            continue;
        }
        if (length - at < 2 || length - at - 2 < options[at + 1])
            return false;
        if (options[at] == OPTION_ALERT && options[at + 1] == 2 && word_at(options + at + 2) == 0)
            return true;
        at += 2 + (size_t)options[at + 1];
    }
    return false;
}

/* Returns whether an ICMPv6 message has a type of MLD: Query, Report or Done of version 1, or Report of version 2. */
static bool is_mld(const uint8_t *body, size_t length) {
    return length > 0 && ((body[0] >= 130 && body[0] <= 132) || body[0] == 143);
}

/* Returns whether a fragment header is the first of its packet, and MLD follows. A later fragment does not say what it carries (RFC
   8200 section 4.5). */
static bool is_first_of_mld(const uint8_t *header, size_t length) {
    return length > FRAGMENT && header[0] == NEXT_ICMPV6 && (word_at(header + 2) & 0xfff8) == 0
           && is_mld(header + FRAGMENT, length - FRAGMENT);
}

/* Reads an IPv6 packet. Returns the next header after those that it reads, NO_PROTOCOL if the packet is malformed, or
   ONLY_A_FRAGMENT for the first fragment of MLD. */
static unsigned read_ipv6(const uint8_t *packet, size_t length, struct datagram *datagram) {
    if (length < IPV6 || packet[0] >> 4 != 6 || word_at(packet + 4) > length - IPV6)
        return NO_PROTOCOL;
    const uint8_t *body = packet + IPV6;
    size_t payload = word_at(packet + 4);
    unsigned next = packet[6];
    datagram->envelope.alert = false;
    if (next == NEXT_HOP_BY_HOP) {
        size_t options = payload < HOP_BY_HOP ? 0 : 8 + 8 * (size_t)body[1];
        if (options == 0 || options > payload)
            return NO_PROTOCOL;
        next = body[0];
        datagram->envelope.alert = has_ipv6_alert(body + 2, options - 2);
        body += options;
        payload -= options;
    }
    if (next == NEXT_FRAGMENT)
        return is_first_of_mld(body, payload) ? ONLY_A_FRAGMENT : NO_PROTOCOL;
    mq_put_address(datagram->envelope.source, packet + 8, 16);
    mq_put_address(datagram->envelope.destination, packet + 24, 16);
    datagram->envelope.hop_limit = packet[7];
    datagram->body = body;
    datagram->length = payload;
    return next;
}

enum carried read_packet(const uint8_t *packet, size_t length, struct datagram *datagram) {
    datagram->is_ipv6 = length > 0 && packet[0] >> 4 == 6;
    datagram->protocol = (datagram->is_ipv6 ? read_ipv6 : read_ipv4)(packet, length, datagram);
    if (datagram->protocol == ONLY_A_FRAGMENT)
        return CARRIED_FRAGMENT;
    if (datagram->is_ipv6 ? datagram->protocol == NEXT_ICMPV6 && is_mld(datagram->body, datagram->length)
                          : datagram->protocol == PROTOCOL_IGMP)
        return CARRIED_DATAGRAM;
    return CARRIED_NOTHING;
}

enum carried read_frame(const uint8_t *frame, size_t length, struct datagram *datagram) {
    datagram->protocol = NO_PROTOCOL;
    if (length <= ETHERNET || word_at(frame + 12) != (frame[ETHERNET] >> 4 == 6 ? TYPE_IPV6 : TYPE_IPV4))
        return CARRIED_NOTHING;
    return read_packet(frame + ETHERNET, length - ETHERNET, datagram);
}

/* RFC 3376 section 4: TTL 1, Type of Service 0xc0, Router Alert. The packet says that it may not be fragmented. */
static size_t write_igmp(const uint8_t *own, const uint8_t *destination, const uint8_t *message, size_t length, uint8_t *packet) {
    static const uint8_t start[IPV4_ALERT] = {0x46, 0xc0, 0, 0, 0, 0, 0x40, 0, 1, PROTOCOL_IGMP, [20] = IPV4_OPTION_ALERT, 4, 0, 0};
    memcpy(packet, start, IPV4_ALERT);
    put_word(packet + 2, IPV4_ALERT + length);
    memcpy(packet + 12, own, 4);
    memcpy(packet + 16, destination, 4);
    put_word(packet + 10, header_checksum(packet, IPV4_ALERT));
    memcpy(packet + IPV4_ALERT, message, length);
    return IPV4_ALERT + length;
}

/* RFC 3810 section 5: hop limit 1, Router Alert in a hop-by-hop header, which PadN fills up. */
static size_t write_mld(const uint8_t *own, const uint8_t *destination, const uint8_t *message, size_t length, uint8_t *packet) {
    static const uint8_t options[HOP_BY_HOP] = {NEXT_ICMPV6, 0, OPTION_ALERT, 2, 0, 0, 1, 0};
    memset(packet, 0, IPV6);
    packet[0] = 0x60;
    put_word(packet + 4, HOP_BY_HOP + length);
    packet[6] = NEXT_HOP_BY_HOP;
    packet[7] = 1;
    memcpy(packet + 8, own, 16);
    memcpy(packet + 24, destination, 16);
    memcpy(packet + IPV6, options, HOP_BY_HOP);
    memcpy(packet + IPV6 + HOP_BY_HOP, message, length);
    return IPV6 + HOP_BY_HOP + length;
}

size_t write_packet(bool is_mld, const uint8_t *own, const uint8_t *destination, const uint8_t *message, size_t length,
                    uint8_t *packet) {
    return (is_mld ? write_mld : write_igmp)(own, destination, message, length, packet);
}

size_t write_frame(bool is_mld, const uint8_t mac[MAC], const uint8_t *own, const uint8_t *destination, const uint8_t *message,
                   size_t length, uint8_t *frame) {
    const uint8_t group[3] = {0x01, 0x00, 0x5e};
    if (is_mld) { /* 33-33 and the low 32 bits of the address */
        memset(frame, 0x33, 2);
        memcpy(frame + 2, destination + 12, 4);
    } else { /* 01-00-5e and its low 23 bits (RFC 1112 section 6.4) */
        memcpy(frame, group, 3);
        memcpy(frame + 3, destination + 1, 3);
        frame[3] &= 0x7f;
    }
    memcpy(frame + MAC, mac, MAC);
    put_word(frame + 12, is_mld ? TYPE_IPV6 : TYPE_IPV4);
    size_t whole = ETHERNET + write_packet(is_mld, own, destination, message, length, frame + ETHERNET);
    if (whole < SHORTEST_FRAME)
        memset(frame + whole, 0, SHORTEST_FRAME - whole);
    return whole < SHORTEST_FRAME ? SHORTEST_FRAME : whole;
}

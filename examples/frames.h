/* Packets and frames with messages of IGMP or MLD: reading and writing of the headers of IP and Ethernet. */
#ifndef FRAMES_H
#define FRAMES_H

#include "mquerier-link.h"

/* A packet has at most 65575 bytes. A written one has at most PACKET_HEAD bytes more than its message. */
enum { MAC = 6, ETHERNET = 14, PACKET_HEAD = 48, GREATEST_PACKET = 40 + 65535, GREATEST_FRAME = ETHERNET + GREATEST_PACKET };

/* The contents of a packet. */
enum carried {
    CARRIED_NOTHING,  /* no whole message of IGMP or MLD */
    CARRIED_FRAGMENT, /* a fragment of IGMP, or the first fragment of MLD */
    CARRIED_DATAGRAM  /* IGMP, or ICMPv6 of the types of MLD */
};

/* The number of a malformed packet, or of a fragment, in `protocol`. */
enum { NO_PROTOCOL = 256, ONLY_A_FRAGMENT = 257 };

/* A packet. If its `protocol` is below NO_PROTOCOL, its headers are whole, and the other fields are set. */
struct datagram {
    bool is_ipv6;
    unsigned protocol; /* the next header after those that are read */
    mq_envelope envelope;
    const uint8_t *body;
    size_t length;
};

/* Read an IP packet, and an Ethernet frame. The datagram points into it. */
enum carried read_packet(const uint8_t *packet, size_t length, struct datagram *datagram);
enum carried read_frame(const uint8_t *frame, size_t length, struct datagram *datagram);

/* Write a query of a router as a packet, and as a frame, with the headers that RFC 3376 section 4 or RFC 3810 section 5 requires.
   Return its length. A packet has room for PACKET_HEAD bytes more than the message, a frame for ETHERNET bytes more than that, and
   for at least 60. */
size_t write_packet(bool is_mld, const uint8_t *own, const uint8_t *destination, const uint8_t *message, size_t length,
                    uint8_t *packet);
size_t write_frame(bool is_mld, const uint8_t mac[MAC], const uint8_t *own, const uint8_t *destination, const uint8_t *message,
                   size_t length, uint8_t *frame);

#endif

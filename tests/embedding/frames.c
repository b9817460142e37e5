/* Tries examples/frames.c with a little-endian capture of Ethernet: frames CAPTURE. It prints each packet as `mquerier show` does, and
   writes each message as a packet and a frame of its own, which have to be read as the same. */
#include "frames.h"
#include "check.h"

#include <arpa/inet.h>
#include <inttypes.h>

enum { HEADER = 24, RECORD = 16, LONGEST_LINE = 65536 };

static uint32_t number_at(const uint8_t *bytes) {
    return bytes[0] | (uint32_t)bytes[1] << 8 | (uint32_t)bytes[2] << 16 | (uint32_t)bytes[3] << 24;
}

/* Prints a message without the family's name if the line has it. */
static void print_message(const struct datagram *it) {
    static uint8_t line[LONGEST_LINE];
    char source[INET6_ADDRSTRLEN];
    size_t written = it->is_ipv6
                         ? mq_mld_line(it->envelope.source, it->envelope.destination, it->body, it->length, line, sizeof line)
                         : mq_igmp_line(it->body, it->length, line, sizeof line);
    inet_ntop(it->is_ipv6 ? AF_INET6 : AF_INET, it->envelope.source, source, sizeof source);
    printf("%s %s %.*s\n", source, it->is_ipv6 ? "mld" : "igmp", (int)written, (const char *)line);
}

/* A written message has the headers that both standards require, and reads as it was. */
static void write_again(const struct datagram *it) {
    static const uint8_t mac[MAC] = {2, 0, 0, 0, 0, 9};
    static uint8_t frame[GREATEST_FRAME];
    struct datagram read;
    size_t length = write_frame(it->is_ipv6, mac, it->envelope.source, it->envelope.destination, it->body, it->length, frame);
    CHECK(length >= 60 && length <= ETHERNET + PACKET_HEAD + (it->length < 60 ? 60 : it->length));
    CHECK((frame[0] & 1) == 1 && !memcmp(frame + MAC, mac, MAC));
    CHECK(read_frame(frame, length, &read) == CARRIED_DATAGRAM && read.is_ipv6 == it->is_ipv6 && read.protocol == it->protocol);
    CHECK(read.length == it->length && !memcmp(read.body, it->body, it->length));
    CHECK(!memcmp(read.envelope.source, it->envelope.source, 16)
          && !memcmp(read.envelope.destination, it->envelope.destination, 16));
    CHECK(read.envelope.alert && read.envelope.hop_limit == 1);
    CHECK(it->is_ipv6 || frame[ETHERNET + 1] == 0xc0);
    size_t packet = write_packet(it->is_ipv6, it->envelope.source, it->envelope.destination, it->body, it->length, frame);
    CHECK(read_packet(frame, packet, &read) == CARRIED_DATAGRAM && read.length == it->length);
    for (size_t cut = 0; cut < packet; cut++) /* no part of it is a whole packet */
        CHECK(read_packet(frame, cut, &read) == CARRIED_NOTHING);
    frame[it->is_ipv6 ? 0 : 12] ^= 0x10;
    CHECK(read_packet(frame, packet, &read) == CARRIED_NOTHING);
}

int main(int count, char **words) {
    static uint8_t file[1 << 20];
    FILE *from = count == 2 ? fopen(words[1], "rb") : NULL;
    size_t size = from == NULL ? 0 : fread(file, 1, sizeof file, from), number = 0;
    uint64_t first = 0;
    for (size_t at = HEADER; at + RECORD <= size; at += RECORD + number_at(file + at + 8)) {
        static const char *const without[] = {"other", "fragment"};
        uint64_t now = number_at(file + at) * UINT64_C(1000) + number_at(file + at + 4) / 1000;
        struct datagram datagram;
        enum carried carried = read_frame(file + at + RECORD, number_at(file + at + 8), &datagram);
        first = number == 0 ? now : first;
        printf("%zu %" PRIu64 " ", ++number, now - first);
        if (carried == CARRIED_DATAGRAM) {
            print_message(&datagram);
            write_again(&datagram);
        } else {
            puts(without[carried]);
        }
    }
    return told();
}

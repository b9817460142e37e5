/* Reports as a host sends them: records of IGMPv3 or MLDv2 in as few messages as possible, or messages of older versions. */
#ifndef RECORDS_H
#define RECORDS_H

#include "filter.h"
#include "frames.h"

#include <stdbool.h>
#include <stddef.h>
#include <stdint.h>

/* LONGEST_RECORDS fits into a frame of Ethernet with its headers. A record of RECORD_SOURCES sources fits into a message. */
enum { LONGEST_RECORDS = 1400, RECORD_SOURCES = 80 };

/* A message that is being filled. `send` gets each whole message, as a frame. */
struct records {
    bool is_mld, is_change; /* State-Change Records, else Current-State Records */
    unsigned version;       /* 1 to 3 for IGMP, 1 or 2 for MLD */
    const uint8_t *mac, *own;
    void (*send)(void *context, const uint8_t *frame, size_t length);
    void *context;
    uint8_t message[LONGEST_RECORDS];
    size_t length, count;
};

/* Adds a record that says what is wanted of a group. The filter has at most RECORD_SOURCES sources. */
void records_add(struct records *records, const uint8_t *group, const struct filter *filter);
/* Sends the records that wait. */
void records_send(struct records *records);

/* Returns the milliseconds in which hosts have to answer a query (RFC 3376 section 4.1.1, RFC 3810 section 5.1.3). */
uint64_t records_response_time(bool is_mld, unsigned version, const struct datagram *query);

#endif

/* A ring of frames in memory that a packet socket shares with the kernel. One socket serves all ports: each frame has the index of
   its interface. */
#ifndef RING_H
#define RING_H

#include <linux/if_packet.h>
#include <stdbool.h>
#include <stddef.h>
#include <stdint.h>

enum { GREATEST_PORTS = 1024 };

struct ring {
    int packets; /* the socket */
    uint8_t *blocks;
    unsigned at;                       /* the block that is read next */
    const struct tpacket3_hdr *packet; /* its next frame if `left` is not 0 */
    unsigned left;
};

struct frame {
    const uint8_t *bytes;
    size_t length;
    int index;         /* the interface that it came in at */
    uint16_t vlan;     /* the VLAN of its tag, or 0 */
    uint16_t protocol; /* the EtherType of its tag */
};

/* Opens a socket that hears nothing yet. Returns 0, or -1 with `errno`. */
int ring_open(struct ring *ring);
/* Makes the socket hear messages of IGMP and MLD, their first fragments and Hellos of PIM: also those with a VLAN tag, if `hears_tags`.
   It hears at these interfaces, at most GREATEST_PORTS. Returns 0, or -1 with `errno`. */
int ring_listen(struct ring *ring, const int *indexes, size_t count, bool hears_tags);
/* Makes an interface receive all multicast frames. Returns 0, or -1 with `errno`. */
int ring_join(struct ring *ring, int index);
/* Reads the next frame that came from outside. It stands until the next call. Returns false if no frame waits. */
bool ring_next(struct ring *ring, struct frame *frame);
/* Returns how many frames the kernel dropped since the last call because no block was free. */
unsigned ring_lost(struct ring *ring);

#endif

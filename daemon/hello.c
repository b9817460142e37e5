#include "hello.h"

enum {
    PROTOCOL_PIM = 103,
    PIM = 4, /* the head of a message of PIM, in bytes */
    PIM_HELLO = 0x20,
    PIM_HOLDTIME = 1,
    PIM_DEFAULT_SECONDS = 105,
};

static size_t word_at(const uint8_t *bytes) {
    return (size_t)bytes[0] << 8 | bytes[1];
}

bool is_hello(const struct datagram *datagram) {
    return datagram->protocol == PROTOCOL_PIM && datagram->length >= PIM && datagram->body[0] == PIM_HELLO;
}

unsigned hello_seconds(const struct datagram *hello) {
    for (size_t at = PIM; hello->length - at >= 6;) {
        size_t length = 4 + word_at(hello->body + at + 2);
        if (word_at(hello->body + at) == PIM_HOLDTIME)
            return (unsigned)word_at(hello->body + at + 4);
        if (length > hello->length - at)
            break;
        at += length;
    }
    return PIM_DEFAULT_SECONDS;
}

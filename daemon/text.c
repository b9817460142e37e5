#include "text.h"

#include <string.h>

enum { WORDS = 8 };
static const char DIGITS[] = "0123456789abcdef";

char *put_text(char *to, const char *text) {
    size_t length = strlen(text);
    memcpy(to, text, length);
    return to + length;
}

char *put_number(char *to, uint64_t number) {
    char digits[LONGEST_NUMBER], *first = digits + sizeof digits;
    do {
        *--first = DIGITS[number % 10];
        number /= 10;
    } while (number > 0);
    size_t length = (size_t)(digits + sizeof digits - first);
    memcpy(to, first, length);
    return to + length;
}

char *put_hexadecimal(char *to, const uint8_t *bytes, size_t count) {
    for (size_t at = 0; at < count; at++) {
        *to++ = DIGITS[bytes[at] >> 4];
        *to++ = DIGITS[bytes[at] & 15];
    }
    return to;
}

char *put_ipv4_address(char *to, const uint8_t address[4]) {
    for (int at = 0; at < 4; at++) {
        if (at > 0)
            *to++ = '.';
        to = put_number(to, address[at]);
    }
    return to;
}

static unsigned word_at(const uint8_t *address, int at) {
    return (unsigned)address[2 * at] << 8 | address[2 * at + 1];
}

/* Writes a word without leading zeros. */
static char *put_word(char *to, unsigned word) {
    for (int shift = 12; shift >= 0; shift -= 4)
        if (word >> shift != 0 || shift == 0)
            *to++ = DIGITS[word >> shift & 15];
    return to;
}

/* Returns the place of the first longest run of at least two zero words. Sets its length, or 0 if there is none. */
static int longest_zeros(const uint8_t *address, int *length) {
    int first = 0;
    *length = 0;
    for (int at = 0, begin = 0; at < WORDS; at++) {
        if (word_at(address, at) != 0)
            begin = at + 1;
        else if (at + 1 - begin > *length) {
            first = begin;
            *length = at + 1 - begin;
        }
    }
    if (*length < 2)
        *length = 0;
    return first;
}

char *put_ipv6_address(char *to, const uint8_t address[16]) {
    int length, zeros = longest_zeros(address, &length);
    for (int at = 0; at < WORDS;) {
        if (length > 0 && at == zeros) {
            *to++ = ':';
            *to++ = ':';
            at += length;
            continue;
        }
        if (at > 0 && to[-1] != ':')
            *to++ = ':';
        to = put_word(to, word_at(address, at++));
    }
    return to;
}

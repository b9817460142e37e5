/* Texts without formats. Each call writes at `to`, without a NUL, and returns the place after the text. */
#ifndef TEXT_H
#define TEXT_H

#include <stddef.h>
#include <stdint.h>

/* The longest address: eight words of four digits, and seven colons. */
enum { LONGEST_ADDRESS = 39, LONGEST_NUMBER = 20 };

char *put_text(char *to, const char *text);
char *put_number(char *to, uint64_t number);
/* Writes two digits for each byte. */
char *put_hexadecimal(char *to, const uint8_t *bytes, size_t count);
/* Writes four decimal numbers with dots between them. */
char *put_ipv4_address(char *to, const uint8_t address[4]);
/* Writes an address in the form of RFC 5952 section 4. */
char *put_ipv6_address(char *to, const uint8_t address[16]);

#endif

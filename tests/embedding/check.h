/* Counted checks, shared by the programs of this folder. */
#ifndef CHECK_H
#define CHECK_H

#include "mquerier.h"
#include <stdio.h>
#include <stdlib.h>
#include <string.h>

static int passed, failed;

static void check(bool holds, const char *what, int line) {
    if (holds) {
        passed++;
    } else {
        failed++;
        printf("line %d: %s\n", line, what);
    }
}

#define CHECK(fact) check((fact), #fact, __LINE__)

/* Returns whether these bytes are those of a text of hexadecimal digits. */
static inline bool are_bytes(const uint8_t *bytes, size_t length, const char *text) {
    if (strlen(text) != 2 * length)
        return false;
    for (size_t i = 0; i < length; i++) {
        char digits[3];
        snprintf(digits, sizeof digits, "%02x", bytes[i]);
        if (memcmp(digits, text + 2 * i, 2))
            return false;
    }
    return true;
}

static int told(void) {
    printf("%d passed, %d failed\n", passed, failed);
    return failed || !passed;
}

#endif

/* Bytes that are given in hexadecimal digits, for the programs that show the calls. */
#ifndef DIGITS_H
#define DIGITS_H

#include <stdint.h>
#include <stdlib.h>
#include <string.h>

static inline int digit_value(char digit) {
    const char *digits = "0123456789abcdef", *found = digit == 0 ? NULL : strchr(digits, digit);
    return found == NULL ? -1 : (int)(found - digits);
}

/* The bytes that digits of lower case stand for, or a null pointer. They are to be freed. */
static inline uint8_t *bytes_of(const char *digits, size_t *len) {
    *len = strlen(digits) / 2;
    uint8_t *bytes = malloc(*len + 1);
    for (size_t i = 0; bytes != NULL && i < *len; i++) {
        int high = digit_value(digits[2 * i]), low = digit_value(digits[2 * i + 1]);
        if (high < 0 || low < 0) {
            free(bytes);
            return NULL;
        }
        bytes[i] = (uint8_t)(16 * high + low);
    }
    return bytes;
}

#endif

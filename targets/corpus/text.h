/* Text, by port_put. */
#ifndef TEXT_H
#define TEXT_H

#include "port.h"

static inline void put(const char *text) {
    uint32_t count = 0;
    while (text[count] != '\0') count++;
    port_put(text, count);
}

static inline void put_number(uint32_t number) {
    char digits[10];
    uint32_t first = sizeof digits;
    do {
        digits[--first] = (char)('0' + number % 10);
        number /= 10;
    } while (number > 0);
    port_put(digits + first, (uint32_t)sizeof digits - first);
}

static inline void put_signed(int32_t number) {
    if (number < 0) put("-");
    put_number(number < 0 ? 0u - (uint32_t)number : (uint32_t)number);
}

static inline void put_hex(uint32_t number) {
    char digits[8];
    for (int i = 7; i >= 0; i--, number >>= 4) digits[i] = "0123456789abcdef"[number & 15];
    port_put(digits, sizeof digits);
}

#endif

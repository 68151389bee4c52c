/* Numbers and texts as the tape has them; each function gives the place behind what it wrote. */
#ifndef PUT_H
#define PUT_H

#include <stdint.h>
#include <string.h>

/* Little-endian. */
static inline uint8_t *put_number(uint8_t *at, uint64_t number, int bytes) {
    for (; bytes > 0; bytes--) {
        *at++ = (uint8_t)number;
        number >>= 8;
    }
    return at;
}

/* A length byte, then the full width, with zeros behind the text. */
static inline uint8_t *put_text(uint8_t *at, const char *text, size_t width) {
    size_t length = strlen(text);
    memset(at, 0, 1 + width);
    *at = (uint8_t)length;
    memcpy(at + 1, text, length);
    return at + 1 + width;
}

/* A label that is absent. */
static inline uint8_t *put_absent(uint8_t *at, size_t width) {
    memset(at, 0, 1 + width);
    *at = 255;
    return at + 1 + width;
}

#endif

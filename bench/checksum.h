// A checksum by a plain loop: one look-up in a table for each byte.
#include <stddef.h>
#include <stdint.h>

#define POLYNOMIAL 0x42f0e1eba9ea3693u

static uint64_t table[256];

static void fill_table(void) {
    for (uint64_t byte = 0; byte < 256; byte++) {
        uint64_t rest = byte << 56;
        for (int bit = 0; bit < 8; bit++)
            rest = rest >> 63 ? rest << 1 ^ POLYNOMIAL : rest << 1;
        table[byte] = rest;
    }
}

static uint64_t crc64(uint64_t start, const uint8_t *at, size_t length) {
    uint64_t sum = start;
    while (length--)
        sum = sum << 8 ^ table[(sum >> 56 ^ *at++) & 0xff];
    return ~sum;
}

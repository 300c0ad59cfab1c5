// The checksum of crates/bc_bytes_bench by a plain loop: one look-up in a table for each byte.
// Run as: crc64 ROUNDS
#include "checksum.h"
#include <stdint.h>
#include <stdio.h>
#include <stdlib.h>
#include <time.h>

#define LENGTH 65536

static uint8_t bytes[LENGTH];

static long long micros(void) {
    struct timespec now;
    clock_gettime(CLOCK_MONOTONIC, &now);
    return now.tv_sec * 1000000LL + now.tv_nsec / 1000;
}

int main(int count, char **words) {
    if (count != 2)
        return 2;
    unsigned long rounds = strtoul(words[1], NULL, 10);
    fill_table();
    for (size_t place = 0; place < LENGTH; place++)
        bytes[place] = (uint8_t)(place * 167);
    uint64_t sum = UINT64_MAX;
    long long start = micros();
    for (unsigned long round = 0; round < rounds; round++)
        sum = crc64(sum, bytes, LENGTH);
    long long spent = micros() - start;
    printf("%016llx\n%lld us\n", (unsigned long long)sum, spent);
}

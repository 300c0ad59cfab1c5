// What crates/bc_records_bench reads, by plain loops: the checksum by one look-up in a table for each byte, and then a copy
// of the words. Run as: records ROUNDS
#include "checksum.h"
#include <stdint.h>
#include <stdio.h>
#include <stdlib.h>
#include <string.h>
#include <time.h>

#define POINTER 0x9000000000000000u

struct record {
    size_t header, keys;
    uint64_t start, magic;
    uint8_t *bytes;
};

static void put(struct record *r, size_t place, uint64_t number, int width) {
    memcpy(r->bytes + place, &number, width);
}

static uint64_t get(const struct record *r, size_t place, int width) {
    uint64_t number = 0;
    memcpy(&number, r->bytes + place, width);
    return number;
}

static size_t length_of(const struct record *r) {
    return r->header + 24 * r->keys;
}

static void make(struct record *r) {
    r->bytes = calloc(length_of(r), 1);
    if (!r->bytes)
        exit(1);
    put(r, 8, r->magic, 8);
    put(r, 16, 7, 8);
    put(r, 24, 1, 4);
    put(r, 28, 3 * r->keys, 4);
    for (size_t i = 0; i < r->keys; i++) {
        size_t at = r->header + 24 * i;
        put(r, at, POINTER | (uint64_t)1 << 36 | 8 << 20, 8);
        put(r, at + 8, 8 * (i + 1), 8);
        put(r, at + 16, (2048 + 8 * i) << 8, 8);
    }
    put(r, 0, crc64(r->start, r->bytes + 8, length_of(r) - 8), 8);
}

// How many keys the record has, or none where it isn't whole. The words are copied out of it.
static size_t read_words(const struct record *r) {
    size_t count = get(r, 28, 4), end = r->header + 8 * count;
    if (get(r, 8, 8) != r->magic || get(r, 24, 4) != 1 || end > length_of(r))
        return 0;
    if (get(r, 0, 8) != crc64(r->start, r->bytes + 8, end - 8))
        return 0;
    uint64_t *words = malloc(8 * count);
    if (!words)
        exit(1);
    for (size_t i = 0; i < count; i++)
        words[i] = get(r, r->header + 8 * i, 8);
    size_t keys = 0;
    for (size_t at = 0; at < count; at += 2 + (words[at] >> 60 & 7))
        keys++;
    free(words);
    return keys;
}

static long long micros(void) {
    struct timespec now;
    clock_gettime(CLOCK_MONOTONIC, &now);
    return now.tv_sec * 1000000LL + now.tv_nsec / 1000;
}

int main(int count, char **words) {
    if (count != 2)
        return 2;
    unsigned long rounds = strtoul(words[1], NULL, 10);
    fill_table();
    struct record records[] = {
        { 240, 1355, UINT64_MAX, 1 ^ 0x245235c1a3625032u, NULL },
        { 32, 10921, 0x80003, 1 ^ 0x90135c78b99e07f5u, NULL },
    };
    size_t keys[2] = { 0, 0 };
    long long spent[2];
    for (int kind = 0; kind < 2; kind++) {
        make(&records[kind]);
        long long start = micros();
        for (unsigned long round = 0; round < rounds; round++)
            keys[kind] = read_words(&records[kind]);
        spent[kind] = micros() - start;
    }
    printf("%zu %zu\n%lld %lld us\n", keys[0], keys[1], spent[0], spent[1]);
}

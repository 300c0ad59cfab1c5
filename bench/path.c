// The path of a sector by a binary search in a sorted array of leaves: bench/path.sh runs it beside bc_spine.
#define _POSIX_C_SOURCE 200809L
#include <inttypes.h>
#include <stdint.h>
#include <stdio.h>
#include <stdlib.h>
#include <time.h>

static const uint64_t LONG = 1024;

struct ptr {
    uint16_t dev;
    uint64_t offset;
    uint8_t generation;
};

struct leaf {
    uint32_t number;
    uint64_t from;
    uint64_t end;
    struct ptr ptr;
};

static uint64_t state = 7;

static uint64_t below(uint64_t limit) {
    state = state * 6364136223846793005u + 1442695040888963407u;
    return (state >> 33) % limit;
}

static uint32_t path(const struct leaf *leaves, size_t count, uint64_t sector) {
    size_t low = 0, high = count;
    while (low < high) {
        size_t middle = low + (high - low) / 2;
        if (leaves[middle].end <= sector)
            low = middle + 1;
        else
            high = middle;
    }
    return leaves[low].number;
}

static int64_t processor_time(void) {
    struct timespec now;
    clock_gettime(CLOCK_PROCESS_CPUTIME_ID, &now);
    return now.tv_sec * 1000000000ll + now.tv_nsec;
}

int main(int count, char **words) {
    if (count != 3)
        return 2;
    size_t many = strtoull(words[1], NULL, 10);
    uint64_t calls = strtoull(words[2], NULL, 10);
    struct leaf *leaves = calloc(many, sizeof *leaves);
    if (leaves == NULL)
        return 1;
    for (size_t i = 0; i < many; i++)
        leaves[i] = (struct leaf){.number = (uint32_t)i, .from = i * LONG, .end = (i + 1) * LONG};
    uint64_t sum = 0, end = many * LONG;
    int64_t begun = processor_time();
    for (uint64_t i = 0; i < calls; i++)
        sum = sum * 31 + path(leaves, many, below(end));
    int64_t found = processor_time();
    printf("%zu leaves, sum %" PRIu64 "\n%" PRId64 " us\n", many, sum, (found - begun) / 1000);
    free(leaves);
    return 0;
}

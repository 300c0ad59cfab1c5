// The calls of crates/bc_nodes_bench of plain nodes: a leaf is two sorted arrays of extents, the last ones and those that aren't in
// a set yet, and an entry of the journal is an array of keys.
// Run as: nodes SECTORS KEYS ROUNDS FILE
#include "checksum.h"
#include <algorithm>
#include <cstdint>
#include <cstdio>
#include <cstdlib>
#include <cstring>
#include <fcntl.h>
#include <time.h>
#include <unistd.h>
#include <vector>

static const uint64_t SET_MAGIC = 1 ^ 0x90135c78b99e07f5u, ENTRY_MAGIC = 1 ^ 0x245235c1a3625032u;
static const uint64_t POINTER = 0x9000000000000000u;
static const size_t SET_HEADER = 32, ENTRY_HEADER = 240, ENTRY_KEYS = 1355;

struct Extent {
    uint64_t first, end, offset;
    bool dirty;
};

// By their first sectors, and none over another.
using Extents = std::vector<Extent>;

// Puts an extent over those that are there.
static void put(Extents &map, const Extent &key) {
    auto at = std::lower_bound(map.begin(), map.end(), key.first, [](const Extent &e, uint64_t first) { return e.end <= first; });
    auto behind = at;
    while (behind != map.end() && behind->first < key.end)
        ++behind;
    Extent parts[3];
    size_t count = 0;
    if (at != behind && at->first < key.first)
        parts[count++] = Extent{at->first, key.first, at->offset, at->dirty};
    parts[count++] = key;
    if (at != behind && behind[-1].end > key.end) {
        const Extent &last = behind[-1];
        parts[count++] = Extent{key.end, last.end, last.offset + (key.end - last.first), last.dirty};
    }
    size_t gone = behind - at;
    if (gone >= count) {
        std::copy(parts, parts + count, at);
        map.erase(at + count, behind);
    } else {
        std::copy(parts, parts + gone, at);
        map.insert(behind, parts + gone, parts + count);
    }
}

static void put_word(uint8_t *bytes, size_t at, uint64_t word) {
    memcpy(bytes + at, &word, 8);
}

static uint64_t word_at(const uint8_t *bytes, size_t at) {
    uint64_t word;
    memcpy(&word, bytes + at, 8);
    return word;
}

static size_t put_keys(uint8_t *bytes, size_t at, const Extents &keys) {
    for (const Extent &key : keys) {
        put_word(bytes, at, POINTER | uint64_t(key.dirty) << 36 | (key.end - key.first) << 20);
        put_word(bytes, at + 8, key.end);
        put_word(bytes, at + 16, key.offset << 8);
        at += 24;
    }
    return at;
}

static size_t put_set(std::vector<uint8_t> &bytes, uint64_t start, const Extents &keys) {
    std::fill(bytes.begin(), bytes.end(), 0);
    size_t end = put_keys(bytes.data(), SET_HEADER, keys);
    put_word(bytes.data(), 8, SET_MAGIC);
    put_word(bytes.data(), 16, 7);
    put_word(bytes.data(), 24, 1 | uint64_t((end - SET_HEADER) / 8) << 32);
    put_word(bytes.data(), 0, crc64(start, bytes.data() + 8, end - 8));
    return end;
}

// The keys of the set at the front of a node, or none where it isn't whole.
static bool read_set(const std::vector<uint8_t> &bytes, uint64_t start, Extents &map) {
    const uint8_t *at = bytes.data();
    uint64_t count = word_at(at, 24) >> 32;
    size_t end = SET_HEADER + 8 * count;
    if (word_at(at, 8) != SET_MAGIC || uint32_t(word_at(at, 24)) != 1 || end > bytes.size())
        return false;
    if (word_at(at, 0) != crc64(start, at + 8, end - 8))
        return false;
    for (size_t i = SET_HEADER; i < end; i += 24) {
        uint64_t high = word_at(at, i), last = word_at(at, i + 8), size = high >> 20 & 0xffff;
        if (high >> 60 != 9 || last < size)
            return false;
        Extent key = Extent{last - size, last, word_at(at, i + 16) >> 8 & (((uint64_t)1 << 43) - 1), bool(high >> 36 & 1)};
        if (!map.empty() && map.back().end > key.first)
            return false;
        put(map, key);
    }
    return true;
}

// An entry of these keys, in whole sectors.
static size_t put_entry(std::vector<uint8_t> &bytes, uint64_t seq, uint64_t last_seq, const Extents &keys) {
    size_t end = put_keys(bytes.data(), ENTRY_HEADER, keys), whole = (end + 511) / 512 * 512;
    std::fill(bytes.begin(), bytes.begin() + ENTRY_HEADER, 0);
    std::fill(bytes.begin() + end, bytes.begin() + whole, 0);
    put_word(bytes.data(), 8, ENTRY_MAGIC);
    put_word(bytes.data(), 16, seq);
    put_word(bytes.data(), 24, 1 | uint64_t((end - ENTRY_HEADER) / 8) << 32);
    put_word(bytes.data(), 32, last_seq);
    put_word(bytes.data(), 0, crc64(UINT64_MAX, bytes.data() + 8, end - 8));
    return whole;
}

static long long nanos() {
    timespec now;
    clock_gettime(CLOCK_PROCESS_CPUTIME_ID, &now);
    return now.tv_sec * 1000000000LL + now.tv_nsec;
}

int main(int count, char **words) {
    if (count != 5)
        return 2;
    fill_table();
    uint64_t sectors = strtoull(words[1], nullptr, 10), keys = strtoull(words[2], nullptr, 10), rounds = strtoull(words[3], nullptr, 10);
    int file = open(words[4], O_RDWR);
    if (file < 0)
        return 1;
    uint64_t start = 64 * sectors << 8;
    long long adding = 0, appending = 0, loading = 0, sealing = 0;
    uint64_t sum = 0;
    std::vector<uint8_t> buffer(512 * sectors);
    for (uint64_t round = 0; round < rounds; round++) {
        Extents last, pending;
        last.reserve(2 * keys);
        pending.reserve(2 * keys);
        long long begun = nanos();
        for (uint64_t i = 0; i < keys; i++) {
            uint64_t slot = i * 7919 % keys;
            Extent key = Extent{8 * slot, 8 * slot + 8, 8 * slot, true};
            put(last, key);
            put(pending, key);
        }
        long long added = nanos();
        put_set(buffer, start, pending);
        if (pwrite(file, buffer.data(), buffer.size(), 512 * 64 * sectors) != ssize_t(buffer.size()))
            return 1;
        pending.clear();
        long long appended = nanos();
        std::vector<uint8_t> bytes(512 * sectors);
        if (pread(file, bytes.data(), bytes.size(), 512 * 64 * sectors) != ssize_t(bytes.size()))
            return 1;
        Extents read;
        if (!read_set(bytes, start, read))
            return 1;
        long long loaded = nanos();
        for (const Extent &key : read)
            sum = sum * 31 + key.end + key.offset;
        adding += added - begun;
        appending += appended - added;
        loading += loaded - appended;
    }
    Extents entry;
    for (uint64_t i = 0; i < ENTRY_KEYS; i++)
        entry.push_back(Extent{8 * i, 8 * i + 8, 2048 + 8 * i, true});
    uint64_t sealed = 0;
    std::vector<uint8_t> bytes(512 * 64);
    for (uint64_t round = 0; round < rounds; round++) {
        long long begun = nanos();
        sealed += put_entry(bytes, round + 2, round + 1, entry);
        sealing += nanos() - begun;
    }
    printf("sum %llu, %llu bytes\n", (unsigned long long)sum, (unsigned long long)sealed);
    for (long long spent : {adding, appending, loading, sealing})
        printf("%lld us\n", spent / 1000);
}

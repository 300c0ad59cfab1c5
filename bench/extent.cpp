// The calls of crates/bc_extent_bench of an ordered map: the same extents, with the same cuts of those that were there.
// Run as: extent KEYS CALLS
#include <cstdint>
#include <cstdio>
#include <cstdlib>
#include <map>
#include <time.h>

struct Extent {
    uint64_t end;
    uint64_t offset;
    bool dirty;
};

// By the first sector.
using Extents = std::map<uint64_t, Extent>;

static const uint64_t LONGEST = 8;

static uint64_t state = 7;

static uint64_t below(uint64_t limit) {
    state = state * 6364136223846793005u + 1442695040888963407u;
    return (state >> 33) % limit;
}

static uint64_t first_sector(uint64_t i) {
    return i * 11 / 4;
}

// What an extent has from this sector on.
static Extent tail(uint64_t first, const Extent &whole, uint64_t from) {
    return Extent{whole.end, whole.offset + (from - first), whole.dirty};
}

// Takes the sectors out, and says what comes behind them.
static Extents::iterator erase(Extents &map, uint64_t first, uint64_t end) {
    auto at = map.lower_bound(first);
    if (at != map.begin()) {
        auto before = std::prev(at);
        if (before->second.end > first) {
            if (before->second.end > end)
                at = map.emplace_hint(at, end, tail(before->first, before->second, end));
            before->second.end = first;
        }
    }
    while (at != map.end() && at->first < end) {
        if (at->second.end > end)
            map.emplace_hint(std::next(at), end, tail(at->first, at->second, end));
        at = map.erase(at);
    }
    return at;
}

static void insert(Extents &map, uint64_t first, uint64_t end, uint64_t offset) {
    auto at = erase(map, first, end);
    map.emplace_hint(at, first, Extent{end, offset, true});
}

// The extent that covers the sector.
static Extents::iterator lookup(Extents &map, uint64_t sector) {
    auto at = map.upper_bound(sector);
    if (at == map.begin())
        return map.end();
    at = std::prev(at);
    return at->second.end > sector ? at : map.end();
}

static bool replace(Extents &map, uint64_t first, const Extent &old, const Extent &other) {
    auto at = map.find(first);
    if (at == map.end() || at->second.end != old.end || at->second.offset != old.offset || at->second.dirty != old.dirty)
        return false;
    at->second = other;
    return true;
}

static void insert_one(Extents &map, uint64_t places, uint64_t number) {
    uint64_t first = below(places);
    uint64_t size = 1 + below(LONGEST);
    insert(map, first, first + size, LONGEST * number);
}

static void replace_one(Extents &map, uint64_t places) {
    auto at = lookup(map, below(places));
    if (at == map.end())
        return;
    Extent old = at->second;
    Extent other = old;
    other.dirty = !old.dirty;
    replace(map, at->first, old, other);
}

static void erase_one(Extents &map, uint64_t places) {
    uint64_t first = below(places);
    erase(map, first, first + 1 + below(LONGEST));
}

static long long nanos() {
    timespec now;
    clock_gettime(CLOCK_PROCESS_CPUTIME_ID, &now);
    return now.tv_sec * 1000000000LL + now.tv_nsec;
}

// The nanoseconds of processor time that the calls take.
template <typename Calls> static long long nanos_of(Calls calls) {
    long long start = nanos();
    calls();
    return nanos() - start;
}

int main(int count, char **words) {
    if (count != 3)
        return 2;
    uint64_t keys = strtoull(words[1], nullptr, 10);
    uint64_t calls = strtoull(words[2], nullptr, 10);
    Extents map;
    for (uint64_t i = 0; i < keys; i++)
        insert(map, first_sector(i), first_sector(i + 1), LONGEST * i);
    uint64_t all = first_sector(keys);
    uint64_t places = all - LONGEST;

    long long inserted = nanos_of([&] {
        for (uint64_t n = 0; n < calls; n++)
            insert_one(map, places, keys + n);
    });
    long long replaced = nanos_of([&] {
        for (uint64_t n = 0; n < calls; n++)
            replace_one(map, all);
    });
    // Some erases at a time, with as many inserts after them.
    uint64_t block = keys / 8 + 1;
    long long erased = 0;
    for (uint64_t round = 0; round < calls / block; round++) {
        erased += nanos_of([&] {
            for (uint64_t n = 0; n < block; n++)
                erase_one(map, places);
        });
        for (uint64_t n = 0; n < block; n++)
            insert_one(map, places, keys + n);
    }

    uint64_t sum = 0;
    for (auto &[first, extent] : map)
        for (uint64_t word : {first, extent.end, extent.offset, uint64_t(extent.dirty)})
            sum = sum * 31 + word;
    printf("%zu keys, sum %llu\n", map.size(), (unsigned long long)sum);
    printf("%lld us\n%lld us\n%lld us\n", inserted / 1000, replaced / 1000, erased / 1000);
}

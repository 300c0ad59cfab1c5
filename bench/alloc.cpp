// Chooses the buckets that a refill gives up, by a sort of the first ones: those with the least priorities, and of those
// with the same one the ones with the least numbers.
#include <algorithm>
#include <cstdint>
#include <cstdio>
#include <cstdlib>
#include <time.h>
#include <vector>

struct Bucket {
    std::uint8_t generation;
    std::uint8_t last_gc;
    std::uint16_t priority;
};

// How many buckets the four lists have room for: a priority set holds 174,749 buckets.
static std::size_t room_for(std::size_t buckets)
{
    std::size_t sets = (buckets + 174748) / 174749;
    std::size_t plain = std::min<std::size_t>(std::max<std::size_t>(buckets / 1024, 8), 1024);
    return sets + 4 + 8 + plain;
}

// Microseconds of processor time.
static long long now()
{
    timespec at;
    clock_gettime(CLOCK_PROCESS_CPUTIME_ID, &at);
    return at.tv_sec * 1000000ll + at.tv_nsec / 1000;
}

int main(int words, char **word)
{
    if (words != 3)
        return 2;
    std::size_t count = std::strtoul(word[1], nullptr, 10);
    unsigned refills = std::strtoul(word[2], nullptr, 10);
    std::vector<Bucket> buckets(count);
    std::uint64_t random = 7;
    for (Bucket &bucket : buckets) {
        random = random * 6364136223846793005u + 1442695040888963407u;
        bucket = {0, 0, static_cast<std::uint16_t>(random >> 48)};
    }
    std::vector<std::uint32_t> open;
    open.reserve(count);
    std::uint64_t raised = 0;
    auto before = [&](std::uint32_t a, std::uint32_t b) {
        return buckets[a].priority != buckets[b].priority ? buckets[a].priority < buckets[b].priority : a < b;
    };
    long long begun = now();
    for (unsigned n = 0; n < refills; ++n) {
        open.clear();
        for (std::uint32_t k = 0; k < count; ++k)
            if (static_cast<std::uint8_t>(buckets[k].generation - buckets[k].last_gc) < 96)
                open.push_back(k);
        std::size_t chosen = std::min(room_for(count), open.size());
        std::partial_sort(open.begin(), open.begin() + chosen, open.end(), before);
        for (std::size_t i = 0; i < chosen; ++i)
            ++buckets[open[i]].generation;
        raised += chosen;
    }
    long long spent = now() - begun;
    std::uint64_t sum = 0;
    for (const Bucket &bucket : buckets)
        sum = sum * 31 + bucket.generation;
    std::printf("%llu raised, sum %llu\n", static_cast<unsigned long long>(raised), static_cast<unsigned long long>(sum));
    std::printf("%lld us\n", spent);
}

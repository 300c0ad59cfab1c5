// The rounds of crates/bc_containers_bench over plain lists.
// Run as: containers WHAT SIZE ROUNDS
#include <algorithm>
#include <cstdint>
#include <cstdio>
#include <cstdlib>
#include <cstring>
#include <deque>
#include <optional>
#include <time.h>
#include <vector>

static uint64_t state = 7;

static uint32_t next() {
    state = state * 6364136223846793005u + 1442695040888963407u;
    return state >> 33;
}

static uint32_t below(uint32_t limit) {
    return next() % limit;
}

// Microseconds of processor time.
static uint64_t now() {
    timespec at;
    clock_gettime(CLOCK_PROCESS_CPUTIME_ID, &at);
    return at.tv_sec * 1000000ull + at.tv_nsec / 1000;
}

enum Mark : uint8_t { None, Reclaimable, Dirty, Metadata };

struct Bucket {
    uint8_t generation;
    uint8_t last_gc;
    uint16_t priority;
    Mark mark;
    uint32_t used;
    bool held;
};

struct Found {
    Mark mark;
    uint32_t used;
    std::optional<uint8_t> last_gc;
};

static const uint32_t DATA_FROM = 9;

static uint64_t sum_of(const std::vector<Bucket> &buckets) {
    uint64_t sum = 0;
    for (const Bucket &b : buckets)
        for (uint64_t word : {uint64_t(b.last_gc), uint64_t(b.priority), uint64_t(b.used)})
            sum = sum * 31 + word;
    return sum;
}

static void find(Found &found, uint8_t own, uint8_t generation, uint32_t sectors, bool dirty) {
    uint8_t behind = own - generation;
    if (!found.last_gc || behind > uint8_t(own - *found.last_gc))
        found.last_gc = generation;
    if (behind >= 1 && behind <= 128)
        return;
    if (dirty)
        found.mark = Dirty;
    else if (found.mark == None)
        found.mark = Reclaimable;
    found.used = std::min<uint64_t>(uint64_t(found.used) + sectors, UINT32_MAX);
}

static uint64_t walks(uint32_t size, uint32_t rounds, uint64_t &spent) {
    std::vector<Bucket> buckets(size, Bucket{});
    std::vector<Found> walk(size);
    std::vector<uint8_t> touched(size);
    uint64_t begun = now();
    for (uint32_t n = 0; n < rounds; ++n) {
        std::fill(touched.begin(), touched.end(), 0);
        std::fill(walk.begin(), walk.end(), Found{None, 0, std::nullopt});
        for (uint32_t k = 0; k < 4 * size; ++k) {
            uint32_t at = below(size), choice = next();
            uint8_t own = buckets[at].generation;
            find(walk[at], own, own - choice / 8 % 4, choice / 32 % 64 + 1, choice / 2048 % 8 == 0);
            if (choice % 16 == 0)
                touched[at] = 1;
        }
        for (uint32_t k = 0; k < size; ++k) {
            if (touched[k])
                continue;
            Bucket &b = buckets[k];
            b.last_gc = walk[k].last_gc.value_or(b.generation);
            if (b.mark != Metadata) {
                b.mark = walk[k].mark;
                b.used = walk[k].used;
            }
        }
    }
    spent = now() - begun;
    return sum_of(buckets);
}

static uint64_t aging(uint32_t size, uint32_t rounds, uint64_t &spent) {
    std::vector<Bucket> buckets(size, Bucket{});
    uint64_t begun = now();
    for (uint32_t n = 0; n < rounds; ++n) {
        for (uint32_t k = 0; k < size / 16; ++k) {
            uint32_t at = below(size);
            if (at >= DATA_FROM && buckets[at].mark != Metadata)
                buckets[at].priority = 32768;
        }
        for (uint32_t k = 0; k < size; ++k) {
            Bucket &b = buckets[k];
            if (k >= DATA_FROM && b.mark != Metadata && b.priority > 0)
                --b.priority;
        }
    }
    spent = now() - begun;
    return sum_of(buckets);
}

struct Open {
    uint32_t bucket;
    uint16_t next;
};

static uint64_t places(uint32_t size, uint32_t rounds, uint64_t &spent) {
    std::vector<Bucket> buckets(size, Bucket{});
    uint32_t room = std::min<uint32_t>(std::max<uint32_t>(size / 1024, 8), 1024);
    std::deque<uint32_t> list;
    std::vector<Open> open;
    uint64_t sum = 0;
    spent = 0;
    for (uint32_t n = 0; n < rounds; ++n) {
        for (uint32_t k = 0; k < room; ++k)
            list.push_back(k);
        while (open.size() < 16 && !list.empty()) {
            buckets[list.front()].held = true;
            open.push_back(Open{list.front(), 0});
            list.pop_front();
        }
        uint64_t given = 0, begun = now();
        for (;;) {
            uint32_t count = 1 + below(8);
            if (open.empty()) {
                if (list.empty())
                    break;
                buckets[list.front()].held = true;
                open.push_back(Open{list.front(), 0});
                list.pop_front();
            }
            Open &first = open.front();
            count = std::min<uint32_t>(count, 1024 - first.next);
            uint64_t begins = (uint64_t(first.bucket) * 1024 + first.next) % 1024;
            given = given * 31 + begins * 1024 + count;
            first.next += count;
            if (first.next == 1024) {
                buckets[first.bucket].held = false;
                open.erase(open.begin());
            }
        }
        spent += now() - begun;
        sum = sum * 31 + given;
    }
    return sum;
}

struct Claim {
    uint32_t seat;
    uint64_t first;
    uint32_t count;
    bool exclusive;
};

static uint64_t claims(uint32_t seats, uint32_t rounds, uint64_t &spent) {
    std::vector<Claim> standing;
    standing.reserve(seats);
    uint64_t sum = 0, begun = now();
    for (uint32_t n = 0; n < rounds; ++n) {
        uint64_t granted = 0;
        for (uint32_t seat = 0; seat < seats; ++seat) {
            uint64_t first = below(1 << 16);
            uint32_t choice = below(256);
            Claim claim{seat, first, 1 + choice / 4, choice % 4 == 0};
            bool free = std::none_of(standing.begin(), standing.end(), [&](const Claim &other) {
                return claim.first < other.first + other.count && other.first < claim.first + claim.count
                    && (claim.exclusive || other.exclusive);
            });
            if (free) {
                standing.push_back(claim);
                granted += first;
            }
        }
        sum = sum * 31 + granted;
        while (!standing.empty()) {
            uint32_t seat = standing[below(standing.size())].seat;
            standing.erase(std::find_if(standing.begin(), standing.end(), [&](const Claim &c) { return c.seat == seat; }));
        }
    }
    spent = now() - begun;
    return sum;
}

struct Key {
    uint64_t end;
    uint32_t size;
    unsigned char rest[156];
};

struct Candidate {
    uint64_t number;
    Key key;
    bool killed;
};

static uint64_t candidates(uint32_t size, uint32_t rounds, uint64_t &spent) {
    std::vector<Candidate> waiting;
    waiting.reserve(64);
    uint64_t number = 0, sum = 0, begun = now();
    for (uint32_t n = 0; n < rounds; ++n) {
        for (uint32_t k = 0; k < size; ++k) {
            uint64_t first = below(1 << 10);
            if (waiting.size() < 64)
                waiting.push_back(Candidate{number++, Key{first + 8, 8, {}}, false});
        }
        for (uint32_t k = 0; k < 3; ++k) {
            uint64_t first = below(1 << 10);
            for (Candidate &c : waiting)
                if (std::max(first, c.key.end - c.key.size) < std::min(first + 64, c.key.end))
                    c.killed = true;
        }
        uint64_t taken = 0;
        for (;;) {
            auto at = std::find_if(waiting.begin(), waiting.end(), [](const Candidate &c) { return c.killed; });
            if (at == waiting.end())
                break;
            taken = taken * 31 + at->key.end;
            waiting.erase(at);
        }
        for (;;) {
            auto at = std::find_if(waiting.begin(), waiting.end(), [&](const Candidate &c) { return !c.killed && c.number < number; });
            if (at == waiting.end())
                break;
            taken = taken * 37 + at->key.end;
            waiting.erase(at);
        }
        sum = sum * 31 + taken;
    }
    spent = now() - begun;
    return sum;
}

static uint64_t streaks(uint32_t workers, uint32_t rounds, uint64_t &spent) {
    struct Tail {
        bool some;
        uint64_t end, streak;
    } tails[16] = {};
    uint64_t sum = 0, begun = now();
    for (uint32_t n = 0; n < 1000 * rounds; ++n) {
        Tail &tail = tails[below(workers)];
        uint64_t first = 8 * below(4), streak = 8;
        if (tail.some && tail.end == first)
            streak = tail.streak > UINT64_MAX - 8 ? UINT64_MAX : tail.streak + 8;
        tail = Tail{true, first + 8, streak};
        sum = sum * 31 + streak;
    }
    spent = now() - begun;
    return sum;
}

int main(int words, char **word) {
    if (words != 4)
        return 2;
    const struct {
        const char *name;
        uint64_t (*rounds)(uint32_t, uint32_t, uint64_t &);
    } all[] = {{"walk", walks}, {"age", aging}, {"place", places}, {"claim", claims}, {"candidate", candidates}, {"streak", streaks}};
    uint32_t size = std::strtoul(word[2], nullptr, 10), rounds = std::strtoul(word[3], nullptr, 10);
    for (const auto &one : all)
        if (std::strcmp(word[1], one.name) == 0) {
            uint64_t spent = 0, sum = one.rounds(size, rounds, spent);
            std::printf("%s %u: sum %llu\n%llu us\n", one.name, size, (unsigned long long)sum, (unsigned long long)spent);
            return 0;
        }
    return 2;
}

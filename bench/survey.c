/*
 * A pair with a large cache device, made and read by plain loops.
 *
 * survey make CACHE BACKING KEYS LATER
 *
 *     makes both files anew, with holes: a cache device of 64 GiB in 131,072 buckets, whose index
 *     has so many keys, and in a second set of its leaf each LATER-th of these (0: none).
 *
 * survey read CACHE BACKING [list]
 *
 *     reads all of the pair but its data, and says `unserved`, as the program does. With the last
 *     word it prints the lines of `bcache check --list` of a sound pair instead: the use of each
 *     bucket, and what the verdict counts.
 *
 * The reader makes the calls that the program makes, of the same lengths and in the same order. It
 * tests magics, versions and checksums, and keeps the last keys in one array in the order of their
 * sectors: the sets of a leaf are merged as sorted lists.
 */
#define _FILE_OFFSET_BITS 64
#include "checksum.h"
#include <fcntl.h>
#include <stdint.h>
#include <stdio.h>
#include <stdlib.h>
#include <string.h>
#include <unistd.h>

enum {
    SECTOR = 512,
    BUCKET = 1024,
    BUCKETS = 131072,
    BLOCK = 8,
    NODE = 512,
    FIRST = 1,
    JOURNAL = 256,
    PRIO = FIRST + JOURNAL,
    UUIDS,
    ROOT,
    LEAF,
    IN_LEAF = 8000,
    ENTRIES = 8,
    IN_ENTRY = 1000,
    STRIDE = 16,
    SIZE = 8,
    DATA = 16,
};

#define END ((uint64_t)1 << 40)
#define SET_MAGIC (set ^ 0x90135c78b99e07f5u)
#define ENTRY_MAGIC (set ^ 0x245235c1a3625032u)
#define PRIO_MAGIC (set ^ 0x6750e15f87337f91u)

static const uint8_t magic[16] = { 0xc6, 0x85, 0x73, 0xf6, 0x4e, 0x1a, 0x45, 0xca,
                                   0x82, 0x65, 0xf5, 0x7f, 0x48, 0xba, 0x6d, 0x81 };
static uint64_t set = 0x5e70000000000001;
static int cache, backing;

/* A key of one pointer or none. */
struct key {
    uint64_t end, ptr;
    uint16_t size;
    uint8_t dirty, count;
};

static void stop(const char *why)
{
    fprintf(stderr, "survey: %s\n", why);
    exit(1);
}

static void *room(size_t bytes)
{
    void *found = calloc(bytes, 1);
    if (!found)
        stop("no memory");
    return found;
}

static void put(uint8_t *bytes, size_t at, uint64_t number, int width)
{
    memcpy(bytes + at, &number, width);
}

static uint64_t get(const uint8_t *bytes, size_t at, int width)
{
    uint64_t number = 0;
    memcpy(&number, bytes + at, width);
    return number;
}

/* ---- the maker */

static void write_at(int file, const void *bytes, size_t length, uint64_t sector)
{
    if (pwrite(file, bytes, length, SECTOR * sector) != (ssize_t)length)
        stop("a write failed");
}

static unsigned generation_of(unsigned bucket)
{
    return bucket % 7;
}

static uint64_t pointer_to(uint64_t sector)
{
    return sector << 8 | generation_of(sector / BUCKET);
}

/* Puts the words of a key, and says how many bytes they take. */
static size_t put_key(uint8_t *at, uint64_t end, uint64_t size, uint64_t dirty, uint64_t ptr)
{
    put(at, 0, (uint64_t)9 << 60 | dirty << 36 | size << 20, 8);
    put(at, 8, end, 8);
    put(at, 16, ptr, 8);
    return 24;
}

/* Puts key i of the index. The places of data are in another order than the keys, and those of
 * later writes behind them. */
static size_t put_data(uint8_t *at, uint64_t i, uint64_t keys, int is_later)
{
    uint64_t first = (LEAF + (keys + IN_LEAF - 1) / IN_LEAF + 1) * (uint64_t)BUCKET;
    uint64_t place = is_later ? keys + i : i * 611953 % keys;
    return put_key(at, STRIDE * i + SIZE, SIZE, i % 2, pointer_to(first + SIZE * place));
}

/* Puts the header of a set before the words of its keys, and says in whole blocks how many bytes it
 * takes. */
static size_t put_set(uint8_t *at, uint64_t seq, size_t words, uint64_t start)
{
    size_t block = BLOCK * SECTOR, bytes = 32 + 8 * words;
    put(at, 8, SET_MAGIC, 8);
    put(at, 16, seq, 8);
    put(at, 24, 1, 4);
    put(at, 28, words, 4);
    put(at, 0, crc64(start, at + 8, bytes - 8), 8);
    return (bytes + block - 1) / block * block;
}

static void make_supers(uint64_t keys)
{
    uint8_t sb[8 * SECTOR] = { 0 };
    size_t end = 208 + 8 * JOURNAL;
    put(sb, 8, 8, 8);
    put(sb, 16, 3, 8);
    memcpy(sb + 24, magic, 16);
    memset(sb + 40, 0xca, 16);
    put(sb, 56, set, 8);
    put(sb, 104, 1, 8);
    put(sb, 184, BUCKETS, 8);
    put(sb, 192, BLOCK, 2);
    put(sb, 194, BUCKET, 2);
    put(sb, 196, 1, 2);
    put(sb, 204, FIRST, 2);
    put(sb, 206, JOURNAL, 2);
    for (int i = 0; i < JOURNAL; i++)
        put(sb, 208 + 8 * i, FIRST + i, 8);
    put(sb, 0, crc64(UINT64_MAX, sb + 8, end - 8), 8);
    write_at(cache, sb, sizeof sb, 8);

    memset(sb, 0, sizeof sb);
    put(sb, 8, 8, 8);
    put(sb, 16, 1, 8);
    memcpy(sb + 24, magic, 16);
    memset(sb + 40, 0xba, 16);
    put(sb, 56, set, 8);
    put(sb, 104, (uint64_t)2 << 61 | 1, 8);
    put(sb, 192, BLOCK, 2);
    put(sb, 0, crc64(UINT64_MAX, sb + 8, 200), 8);
    write_at(backing, sb, SECTOR, 8);
    if (ftruncate(cache, (uint64_t)SECTOR * BUCKET * BUCKETS) ||
        ftruncate(backing, SECTOR * (DATA + STRIDE * keys + 4096)))
        stop("no such large files");
}

/* Entries of the journal, each with keys that write over some of the index. */
static void make_journal(uint64_t keys)
{
    uint8_t *bytes = room(SECTOR * BUCKET);
    uint64_t sector = FIRST * BUCKET, written = keys ? IN_ENTRY : 0;
    for (uint64_t entry = 1; entry <= ENTRIES; entry++) {
        size_t end = 240;
        for (uint64_t k = 0; k < written; k++)
            end += put_data(bytes + end, (k * ENTRIES + entry - 1) * 125 % keys, keys, 1);
        put(bytes, 8, ENTRY_MAGIC, 8);
        put(bytes, 16, entry, 8);
        put(bytes, 24, 1, 4);
        put(bytes, 28, (end - 240) / 8, 4);
        put(bytes, 32, 1, 8);
        put_key(bytes + 40, BUCKET, BUCKET, 0, pointer_to((uint64_t)UUIDS * BUCKET));
        put_key(bytes + 104, END, NODE, 0, pointer_to((uint64_t)ROOT * BUCKET));
        put(bytes, 168, 1, 2);
        put(bytes, 176, PRIO, 8);
        put(bytes, 0, crc64(UINT64_MAX, bytes + 8, end - 8), 8);
        write_at(cache, bytes, end, sector);
        sector += (end + BLOCK * SECTOR - 1) / (BLOCK * SECTOR) * BLOCK;
    }
    free(bytes);
}

static void make_tables(void)
{
    uint8_t *bytes = room(SECTOR * BUCKET);
    put(bytes, 8, PRIO_MAGIC, 8);
    for (unsigned bucket = 0; bucket < BUCKETS; bucket++) {
        put(bytes, 40 + 3 * bucket, bucket % 65536, 2);
        put(bytes, 42 + 3 * bucket, generation_of(bucket), 1);
    }
    put(bytes, 0, crc64(UINT64_MAX, bytes + 8, SECTOR * BUCKET - 8), 8);
    write_at(cache, bytes, SECTOR * BUCKET, (uint64_t)PRIO * BUCKET);
    memset(bytes, 0, SECTOR * BUCKET);
    memset(bytes, 0xba, 16);
    write_at(cache, bytes, SECTOR * BUCKET, (uint64_t)UUIDS * BUCKET);
    free(bytes);
}

/* The leaf of the keys from `from` on up to `to`. */
static void make_leaf(uint64_t leaf, uint64_t from, uint64_t to, uint64_t keys, uint64_t later)
{
    uint8_t *bytes = room(SECTOR * NODE);
    uint64_t at = (LEAF + leaf) * (uint64_t)BUCKET;
    size_t begun = 0;
    for (int second = 0; second < (later ? 2 : 1); second++) {
        size_t end = 32;
        for (uint64_t i = from; i < to; i++)
            if ((later && i % later == 0) == second)
                end += put_data(bytes + begun + end, i, keys, 0);
        begun += put_set(bytes + begun, 65536 + leaf, (end - 32) / 8, pointer_to(at));
    }
    write_at(cache, bytes, SECTOR * NODE, at);
    free(bytes);
}

static void make_tree(uint64_t keys, uint64_t later)
{
    uint64_t leaves = keys ? (keys + IN_LEAF - 1) / IN_LEAF : 1;
    uint8_t *bytes = room(SECTOR * NODE);
    size_t end = 32;
    for (uint64_t leaf = 0; leaf < leaves; leaf++) {
        uint64_t to = leaf + 1 < leaves ? (leaf + 1) * IN_LEAF : keys;
        make_leaf(leaf, leaf * IN_LEAF, to, keys, later);
        end += put_key(bytes + end, leaf + 1 < leaves ? STRIDE * to : END, NODE, 0,
                       pointer_to((LEAF + leaf) * (uint64_t)BUCKET));
    }
    put_set(bytes, 1 << 20, (end - 32) / 8, pointer_to((uint64_t)ROOT * BUCKET));
    write_at(cache, bytes, SECTOR * NODE, (uint64_t)ROOT * BUCKET);
    free(bytes);
}

/* ---- the reader */

static struct key *keys;
static size_t count, most;

static void read_at(int file, void *into, size_t length, uint64_t sector)
{
    if (pread(file, into, length, SECTOR * sector) != (ssize_t)length)
        stop("a read failed");
}

static void test(int holds, const char *what)
{
    if (!holds)
        stop(what);
}

static uint64_t start_of(const struct key *key)
{
    return key->end - key->size;
}

/* The key as far as it lies within a range. */
static struct key part_of(struct key key, uint64_t from, uint64_t to)
{
    if (start_of(&key) < from) {
        key.ptr += (from - start_of(&key)) << 8;
        key.size = key.end - from;
    }
    if (to < key.end) {
        key.size -= key.end - to;
        key.end = to;
    }
    return key;
}

/* Reads a key of one pointer or none, and says how many words it has. */
static size_t read_key(const uint8_t *at, struct key *key)
{
    uint64_t high = get(at, 0, 8);
    key->count = high >> 60 & 7;
    key->dirty = high >> 36 & 1;
    key->size = high >> 20;
    key->end = get(at, 8, 8);
    test(key->count <= 1 && key->size <= key->end, "a key");
    key->ptr = key->count ? get(at, 16, 8) & ~((uint64_t)1 << 63) : 0;
    return 2 + key->count;
}

/* Reads the keys of so many words. */
static size_t read_keys(const uint8_t *at, size_t words, struct key *into)
{
    size_t found = 0, word = 0;
    while (word < words)
        word += read_key(at + 8 * word, &into[found++]);
    test(word == words, "the end of the last key");
    return found;
}

static void reserve(size_t more)
{
    if (count + more <= most)
        return;
    most = 2 * most + more;
    keys = realloc(keys, most * sizeof *keys);
    if (!keys)
        stop("no memory");
}

/* Puts the older keys and the newer ones, both in order, into a list in order: of each older one
 * what no newer one covers. */
static size_t merge(const struct key *old, size_t olds, const struct key *new, size_t news,
                    struct key *into)
{
    size_t n = 0, i = 0, made = 0;
    uint64_t from = 0;
    while (i < olds || n < news) {
        if (i == olds || (n < news && new[n].end <= start_of(&old[i])) ||
            (n < news && start_of(&new[n]) <= from && start_of(&new[n]) <= start_of(&old[i]))) {
            into[made++] = new[n];
            from = new[n++].end;
        } else if (old[i].end <= from) {
            i++;
        } else {
            uint64_t low = start_of(&old[i]) < from ? from : start_of(&old[i]);
            uint64_t high =
                n < news && start_of(&new[n]) < old[i].end ? start_of(&new[n]) : old[i].end;
            if (low < high)
                into[made++] = part_of(old[i], low, high);
            from = high > from ? high : from;
            if (high == old[i].end)
                i++;
        }
    }
    return made;
}

/* Puts a key over those that there are. */
static void overlay(struct key key)
{
    size_t low = 0, high = count, to;
    struct key parts[3];
    int made = 0;
    while (low < high) {
        size_t middle = low + (high - low) / 2;
        if (keys[middle].end <= start_of(&key))
            low = middle + 1;
        else
            high = middle;
    }
    for (to = low; to < count && start_of(&keys[to]) < key.end; to++)
        ;
    if (low < to && start_of(&keys[low]) < start_of(&key))
        parts[made++] = part_of(keys[low], 0, start_of(&key));
    parts[made++] = key;
    if (low < to && key.end < keys[to - 1].end)
        parts[made++] = part_of(keys[to - 1], key.end, UINT64_MAX);
    if (to - low != (size_t)made) {
        reserve(2);
        memmove(keys + low + made, keys + to, (count - to) * sizeof *keys);
        count = count - (to - low) + made;
    }
    memcpy(keys + low, parts, made * sizeof *keys);
}

struct entry {
    uint64_t seq, last;
    size_t begin, end;
    uint8_t head[240];
};

static struct entry *entries;
static struct key *waiting;
static size_t found, waits;

/* Reads the entries of a journal bucket. */
static void read_bucket(const uint8_t *bytes)
{
    size_t at = 0, block = BLOCK * SECTOR;
    while (at + 240 <= SECTOR * BUCKET && get(bytes, at + 8, 8) == ENTRY_MAGIC &&
           get(bytes, at + 24, 4) == 1) {
        size_t words = get(bytes, at + 28, 4), length = 240 + 8 * words;
        if (words > 4066 || at + length > SECTOR * BUCKET ||
            get(bytes, at, 8) != crc64(UINT64_MAX, bytes + at + 8, length - 8))
            return;
        entries = realloc(entries, (found + 1) * sizeof *entries);
        waiting = realloc(waiting, (waits + words / 2) * sizeof *waiting + 1);
        if (!entries || !waiting)
            stop("no memory");
        struct entry *entry = &entries[found++];
        entry->seq = get(bytes, at + 16, 8);
        entry->last = get(bytes, at + 32, 8);
        entry->begin = waits;
        waits += read_keys(bytes + at + 240, words, waiting + waits);
        entry->end = waits;
        memcpy(entry->head, bytes + at, 240);
        at += (length + block - 1) / block * block;
    }
}

static int by_number(const void *a, const void *b)
{
    const struct entry *one = a, *other = b;
    return (one->seq > other->seq) - (one->seq < other->seq);
}

/* Reads the journal, and gives the first of the entries that count, which are the last ones then.
 */
static size_t read_journal(void)
{
    uint8_t *bytes = room(SECTOR * BUCKET);
    for (unsigned i = 0; i < JOURNAL; i++) {
        read_at(cache, bytes, SECTOR * BUCKET, (FIRST + i) * (uint64_t)BUCKET);
        read_bucket(bytes);
    }
    free(bytes);
    test(found > 0, "no entry");
    qsort(entries, found, sizeof *entries, by_number);
    struct entry *newest = &entries[found - 1];
    size_t first = found - 1;
    while (newest->last < entries[first].seq) {
        test(first > 0 && entries[first - 1].seq + 1 == entries[first].seq, "a gap in the journal");
        first--;
    }
    return first;
}

static uint8_t *generations;

static void read_generations(uint64_t bucket)
{
    uint8_t *bytes = room(SECTOR * BUCKET);
    read_at(cache, bytes, SECTOR * BUCKET, bucket * BUCKET);
    test(get(bytes, 8, 8) == PRIO_MAGIC &&
             get(bytes, 0, 8) == crc64(UINT64_MAX, bytes + 8, SECTOR * BUCKET - 8) &&
             !get(bytes, 32, 8),
         "the priorities");
    generations = room(BUCKETS);
    for (unsigned i = 0; i < BUCKETS; i++)
        generations[i] = bytes[42 + 3 * i];
    free(bytes);
}

static void read_uuids(uint64_t ptr, const uint8_t *uuid)
{
    uint8_t *bytes = room(SECTOR * BUCKET);
    read_at(cache, bytes, SECTOR * BUCKET, (ptr >> 8) / BUCKET * BUCKET);
    test(!memcmp(bytes, uuid, 16), "the table of uuids");
    free(bytes);
}

static uint8_t *uses;
static const char *const names[] = { "", "super", "journal", "priority", "uuid", "node", "data" };

/* Whether so many sectors lie whole in a data bucket. */
static int lies_in_data(uint64_t ptr, unsigned size)
{
    uint64_t sector = ptr >> 8;
    return sector / BUCKET >= FIRST + JOURNAL && sector / BUCKET < BUCKETS &&
           sector % BUCKET + size <= BUCKET;
}

static void use(uint64_t bucket, int kind)
{
    test(!uses[bucket] || (uses[bucket] == kind && kind == 6), "a bucket that is used twice");
    uses[bucket] = kind;
}

/* The whole sets of a node, merged: `made` has the keys. */
static size_t read_node(const struct key *node, uint64_t from, struct key *made, struct key *spare)
{
    uint8_t *bytes = room(SECTOR * NODE);
    uint64_t sector = node->ptr >> 8, seq = 0;
    size_t at = 0, block = BLOCK * SECTOR, result = 0, most_keys = SECTOR * NODE / 16;
    test(node->count == 1 && node->size == NODE && lies_in_data(node->ptr, NODE),
         "the key of a node");
    use(sector / BUCKET, 5);
    read_at(cache, bytes, SECTOR * NODE, sector);
    while (at + 32 <= SECTOR * NODE && get(bytes, at + 8, 8) == SET_MAGIC &&
           get(bytes, at + 24, 4) <= 1) {
        size_t words = get(bytes, at + 28, 4), length = 32 + 8 * words, more;
        uint64_t start = get(bytes, at + 24, 4) ? node->ptr : UINT64_MAX;
        if (at + length > SECTOR * NODE ||
            get(bytes, at, 8) != crc64(start, bytes + at + 8, length - 8))
            break;
        if (at == 0)
            seq = get(bytes, at + 16, 8);
        else if (get(bytes, at + 16, 8) != seq)
            break;
        more = read_keys(bytes + at + 32, words, spare);
        if (at == 0) {
            memcpy(made, spare, more * sizeof *made);
            result = more;
        } else {
            result = merge(made, result, spare, more, spare + most_keys);
            memcpy(made, spare + most_keys, result * sizeof *made);
        }
        at += (length + block - 1) / block * block;
    }
    test(at > 0, "a node");
    free(bytes);
    for (size_t i = 0; i < result; i++)
        test(from < made[i].end && made[i].end <= node->end &&
                 (i == 0 || made[i - 1].end < made[i].end),
             "the range of a key");
    return result;
}

/* Reads the tree of two levels below the root, and adds the keys of its leaves. */
static void read_tree(const struct key *root)
{
    size_t most_keys = SECTOR * NODE / 16;
    struct key *children = room(most_keys * sizeof *children),
               *made = room(2 * most_keys * sizeof *made);
    struct key *spare = room(3 * most_keys * sizeof *spare);
    size_t leaves = read_node(root, 0, children, spare);
    uint64_t from = 0;
    test(root->end == END && leaves > 0 && children[leaves - 1].end == END, "the root");
    for (size_t i = 0; i < leaves; i++) {
        size_t more = read_node(&children[i], from, made, spare);
        reserve(more);
        memcpy(keys + count, made, more * sizeof *keys);
        count += more;
        from = children[i].end;
    }
    free(children);
    free(made);
    free(spare);
}

static int is_live(const struct key *key)
{
    uint8_t age = key->count ? generations[(key->ptr >> 8) / BUCKET] - key->ptr : 1;
    return age < 1 || age > 128;
}

static void print_list(void)
{
    uint64_t *live = room(BUCKETS * sizeof *live), *dirty = room(BUCKETS * sizeof *dirty),
             all[2] = { 0, 0 };
    for (size_t i = 0; i < count; i++)
        if (is_live(&keys[i])) {
            live[(keys[i].ptr >> 8) / BUCKET] += keys[i].size;
            dirty[(keys[i].ptr >> 8) / BUCKET] += keys[i].dirty ? keys[i].size : 0;
            all[keys[i].dirty] += keys[i].size;
        }
    for (unsigned bucket = 0; bucket < BUCKETS; bucket++)
        if (uses[bucket])
            printf("bucket %u %s gen %u live %llu dirty %llu\n", bucket, names[uses[bucket]],
                   generations[bucket], (unsigned long long)live[bucket],
                   (unsigned long long)dirty[bucket]);
    printf("check sound dirty %llu clean %llu\n", (unsigned long long)all[1],
           (unsigned long long)all[0]);
    free(live);
    free(dirty);
}

static void survey(int lists)
{
    uint8_t sb[5 * SECTOR], back[SECTOR];
    uint64_t sectors;
    unsigned spare = 0;
    read_at(backing, back, SECTOR, 8);
    test(!memcmp(back + 24, magic, 16) && get(back, 0, 8) == crc64(UINT64_MAX, back + 8, 200),
         "the backing superblock");
    read_at(cache, sb, sizeof sb, 8);
    test(!memcmp(sb + 24, magic, 16) && get(sb, 206, 2) == JOURNAL &&
             get(sb, 0, 8) == crc64(UINT64_MAX, sb + 8, 200 + 8 * JOURNAL),
         "the cache superblock");
    test(get(sb, 184, 8) == BUCKETS && get(sb, 194, 2) == BUCKET && get(sb, 192, 2) == BLOCK &&
             !memcmp(sb + 56, back + 56, 16),
         "another pair");
    set = get(sb, 56, 8);
    sectors = lseek(backing, 0, SEEK_END) / SECTOR - DATA;

    size_t first = read_journal();
    const uint8_t *head = entries[found - 1].head;
    struct key uuids, root;
    read_key(head + 40, &uuids);
    read_key(head + 104, &root);
    read_generations(get(head, 176, 8));
    read_uuids(uuids.ptr, back + 40);
    uses = room(BUCKETS);
    for (unsigned bucket = 0; bucket < FIRST + JOURNAL; bucket++)
        use(bucket, bucket < FIRST ? 1 : 2);
    use(get(head, 176, 8), 3);
    use((uuids.ptr >> 8) / BUCKET, 4);
    read_tree(&root);
    for (size_t i = first; i < found; i++)
        for (size_t k = entries[i].begin; k < entries[i].end; k++)
            overlay(waiting[k]);
    for (size_t i = 0; i < count; i++) {
        test(!keys[i].count || (lies_in_data(keys[i].ptr, keys[i].size) && keys[i].end <= sectors),
             "a pointer");
        if (is_live(&keys[i]))
            use((keys[i].ptr >> 8) / BUCKET, 6);
    }
    for (unsigned bucket = 0; bucket < BUCKETS; bucket++)
        spare += !uses[bucket];
    test(spare >= 1, "no bucket is spare");
    if (lists)
        print_list();
    else
        puts("unserved");
}

int main(int words, char **word)
{
    int makes = words == 6 && !strcmp(word[1], "make");
    if (!makes && !(words >= 4 && !strcmp(word[1], "read")))
        return 2;
    cache = open(word[2], makes ? O_RDWR | O_CREAT | O_TRUNC : O_RDWR, 0600);
    backing = open(word[3], makes ? O_RDWR | O_CREAT | O_TRUNC : O_RDWR, 0600);
    if (cache < 0 || backing < 0)
        stop("no such files");
    fill_table();
    if (makes) {
        uint64_t many = strtoull(word[4], NULL, 10);
        make_supers(many);
        make_journal(many);
        make_tables();
        make_tree(many, strtoull(word[5], NULL, 10));
    } else {
        survey(words == 5);
    }
    return 0;
}

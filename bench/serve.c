/*
 * What the proved program does for `serve` over a pass-through backing device, in plain C: the same barriers, reads and
 * writes of the same file, and the same lines on standard output. It is the yardstick of bench/serve.sh and proves nothing.
 *
 * serve BACKING < TRACE ends with 0; 2 for a wrong command line, 3 for a refused line of the trace, 4 for a superblock that
 * isn't served, 6 for a failed call of the file, 8 for a failed write of the answers.
 */
#define _GNU_SOURCE
#include <fcntl.h>
#include <inttypes.h>
#include <stdint.h>
#include <stdio.h>
#include <stdlib.h>
#include <string.h>
#include <unistd.h>

enum { SECTOR = 512, SUPER_SECTOR = 8, DATA_START = 16, PIECE = 256, MOST_SECTORS = 2048, MOST_BYTES = 80 };

static const uint8_t MAGIC[16] = {
    0xc6, 0x85, 0x73, 0xf6, 0x4e, 0x1a, 0x45, 0xca, 0x82, 0x65, 0xf5, 0x7f, 0x48, 0xba, 0x6d, 0x81,
};

struct line {
    char letter;
    uint32_t count;
    uint64_t first;
    uint64_t stamp;
};

struct trace {
    struct line *lines;
    size_t length;
    size_t room;
};

static int backing;
static uint64_t size;
static uint8_t buffer[MOST_SECTORS * SECTOR];

static void end_with(int status, const char *message)
{
    puts(message);
    exit(fflush(stdout) ? 8 : status);
}

static void barrier(void)
{
    if (fdatasync(backing))
        end_with(6, "fault backing");
}

/* A read or a write of whole sectors, gone on with where the system takes a part. */
static void transfer(char letter, uint64_t sector, uint8_t *bytes, size_t length)
{
    off_t at = (off_t)(SECTOR * sector);
    while (length > 0) {
        ssize_t moved = letter == 'w' ? pwrite(backing, bytes, length, at) : pread(backing, bytes, length, at);
        if (moved <= 0)
            end_with(6, "fault backing");
        bytes += moved;
        length -= (size_t)moved;
        at += moved;
    }
}

/* The range in pieces, cut at the multiples of 256 sectors. */
static void transfer_pieces(char letter, uint64_t first, uint32_t count)
{
    uint8_t *bytes = buffer;
    while (count > 0) {
        uint32_t piece = PIECE - first % PIECE;
        if (piece > count)
            piece = count;
        transfer(letter, DATA_START + first, bytes, (size_t)SECTOR * piece);
        bytes += (size_t)SECTOR * piece;
        first += piece;
        count -= piece;
    }
}

static void open_backing(const char *path)
{
    uint8_t super[SECTOR];
    uint64_t version, flags;
    backing = open(path, O_RDWR | O_CLOEXEC);
    off_t length = backing < 0 ? -1 : lseek(backing, 0, SEEK_END);
    if (length < 0)
        end_with(6, "fault backing");
    barrier();
    if (length / SECTOR <= DATA_START)
        end_with(4, length / SECTOR < DATA_START ? "superblock backing 9" : "superblock backing 14");
    transfer('r', SUPER_SECTOR, super, SECTOR);
    if (memcmp(super + 24, MAGIC, sizeof MAGIC))
        end_with(4, "superblock backing 1");
    memcpy(&version, super + 16, sizeof version);
    if (version != 1)
        end_with(4, "superblock backing 3");
    memcpy(&flags, super + 104, sizeof flags);
    if ((flags & 15) != 3 || (flags >> 61 & 3) != 0)
        end_with(4, "superblock cache 15");
    size = (uint64_t)length / SECTOR - DATA_START;
}

/* Whether the text is a line of a trace. It takes some texts that the proved program refuses, as `1w 0 1 1`. */
static int parse(const char *text, struct line *line)
{
    int taken = 0;
    *line = (struct line){.count = 1, .stamp = 1};
    if (sscanf(text, " 1 w %" SCNu64 " %" SCNu32 " %" SCNu64 " %n", &line->first, &line->count, &line->stamp, &taken) == 3)
        line->letter = 'w';
    else if (sscanf(text, " 1 r %" SCNu64 " %" SCNu32 " %n", &line->first, &line->count, &taken) == 2)
        line->letter = 'r';
    else if (sscanf(text, " 1 f %n", &taken) == 0)
        line->letter = 'f';
    return taken > 0 && text[taken] == 0 && line->first <= (uint64_t)1 << 40 && line->count >= 1 && line->count <= MOST_SECTORS
        && line->stamp >= 1;
}

static void refuse_line(size_t number)
{
    char message[40];
    snprintf(message, sizeof message, "trace %zu 2", number);
    end_with(3, message);
}

static void read_trace(struct trace *trace)
{
    char text[MOST_BYTES + 3];
    while (fgets(text, sizeof text, stdin)) {
        size_t length = strcspn(text, "\n");
        text[length] = 0;
        if (trace->length == trace->room) {
            trace->room = trace->room ? 2 * trace->room : 1024;
            trace->lines = realloc(trace->lines, trace->room * sizeof *trace->lines);
            if (!trace->lines)
                end_with(9, "memory");
        }
        if (length > MOST_BYTES || !parse(text, &trace->lines[trace->length]))
            refuse_line(trace->length + 1);
        trace->length++;
    }
    if (ferror(stdin))
        end_with(7, "fault source");
}

/* Sixty-four words, the lowest byte first: the even ones are the stamp, the odd ones the sector. */
static void fill(uint8_t *value, uint64_t stamp, uint64_t sector)
{
    uint64_t words[2] = {stamp, sector};
    for (int i = 0; i < SECTOR; i += 16)
        memcpy(value + i, words, sizeof words);
}

enum seen { ZERO, STAMP, RAW };

static enum seen seen_in(const uint8_t *value, uint64_t sector, uint64_t *stamp)
{
    static const uint8_t zeros[SECTOR];
    uint8_t wanted[SECTOR];
    if (!memcmp(value, zeros, SECTOR))
        return ZERO;
    memcpy(stamp, value, sizeof *stamp);
    fill(wanted, *stamp, sector);
    return *stamp && !memcmp(value, wanted, SECTOR) ? STAMP : RAW;
}

static void print_run(enum seen seen, uint64_t stamp, uint32_t count, const uint8_t *value)
{
    if (seen == ZERO)
        printf("zerox%" PRIu32, count);
    else if (seen == STAMP)
        printf("%" PRIu64 "x%" PRIu32, stamp, count);
    else {
        fputs("raw:", stdout);
        for (int i = 0; i < SECTOR; i++)
            printf("%02x", value[i]);
    }
}

static void print_runs(uint64_t first, uint32_t count)
{
    for (uint32_t from = 0, to; from < count; from = to) {
        uint64_t stamp = 0, other = 0;
        enum seen seen = seen_in(buffer + (size_t)SECTOR * from, first + from, &stamp);
        for (to = from + 1; to < count && seen != RAW; to++)
            if (seen_in(buffer + (size_t)SECTOR * to, first + to, &other) != seen || (seen == STAMP && other != stamp))
                break;
        print_run(seen, stamp, to - from, buffer + (size_t)SECTOR * from);
        putchar(to < count ? ' ' : '\n');
    }
}

static void serve(const struct line *line)
{
    if (line->letter == 'f') {
        barrier();
        puts("done");
    } else if (line->first >= size || line->count > size - line->first) {
        puts("out-of-range");
    } else if (line->letter == 'r') {
        transfer_pieces('r', line->first, line->count);
        print_runs(line->first, line->count);
    } else {
        for (uint32_t i = 0; i < line->count; i++)
            fill(buffer + (size_t)SECTOR * i, line->stamp, line->first + i);
        transfer_pieces('w', line->first, line->count);
        puts("done");
    }
}

int main(int many, char **words)
{
    struct trace trace = {0};
    if (many != 2)
        end_with(2, "usage");
    read_trace(&trace);
    open_backing(words[1]);
    for (size_t i = 0; i < trace.length; i++)
        serve(&trace.lines[i]);
    barrier();
    free(trace.lines);
    return fflush(stdout) || ferror(stdout) ? 8 : 0;
}

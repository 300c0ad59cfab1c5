// What crates/bc_script_bench does, by plain loops: it reads the text of a trace, prints the runs of eight sectors for each of
// its lines, generates as many lines, and prints these. Run as: trace LINES WORKERS SIZE
#include <stdint.h>
#include <stdio.h>
#include <stdlib.h>
#include <string.h>
#include <time.h>

struct line {
    uint8_t worker, letter;
    uint32_t count;
    uint64_t first, stamp;
};

static void *take(size_t bytes) {
    void *memory = malloc(bytes ? bytes : 1);
    if (!memory)
        exit(1);
    return memory;
}

static long long micros(void) {
    struct timespec now;
    clock_gettime(CLOCK_MONOTONIC, &now);
    return now.tv_sec * 1000000LL + now.tv_nsec / 1000;
}

// The number at *at, which is moved behind it and behind one space.
static uint64_t number(const char **at) {
    uint64_t value = 0;
    while (**at >= '0' && **at <= '9')
        value = 10 * value + (uint64_t)(*(*at)++ - '0');
    if (**at == ' ')
        ++*at;
    return value;
}

// Reads the lines of a text that ends with a newline.
static size_t read_lines(const char *text, const char *end, struct line *lines) {
    size_t count = 0;
    while (text < end) {
        struct line *line = &lines[count++];
        line->worker = (uint8_t)number(&text);
        line->letter = (uint8_t)*text++;
        if (*text == ' ')
            text++;
        line->first = number(&text);
        line->count = (uint32_t)number(&text);
        line->stamp = number(&text);
        if (line->worker != 1 || line->count < 1 || line->count > 2048 || *text++ != '\n')
            exit(1);
    }
    return count;
}

// Neighbouring sectors with the patterns of one stamp, as the proved program keeps them.
struct run {
    uint64_t stamp, first;
    unsigned count;
};

// Prints the runs of an answer from a sector on: neighbours of one stamp are one run.
static char *print_runs(char *into, uint64_t first, const struct run *runs, size_t many) {
    uint64_t stamp = 0, next = first;
    unsigned count = 0;
    for (size_t i = 0; i < many; i++) {
        if (runs[i].first != next)
            exit(1);
        if (count && runs[i].stamp == stamp)
            count += runs[i].count;
        else {
            if (count)
                into += sprintf(into, "%llux%u ", (unsigned long long)stamp, count);
            stamp = runs[i].stamp;
            count = runs[i].count;
        }
        next += runs[i].count;
    }
    return into + sprintf(into, "%llux%u\n", (unsigned long long)stamp, count);
}

// Prints the lines that were generated.
static char *print_lines(char *into, const struct line *lines, size_t count) {
    for (size_t k = 0; k < count; k++) {
        const struct line *line = &lines[k];
        if (line->letter == 'f')
            into += sprintf(into, "%u f\n", line->worker);
        else if (line->letter == 'r')
            into += sprintf(into, "%u r %llu %u\n", line->worker, (unsigned long long)line->first, line->count);
        else
            into += sprintf(into, "%u w %llu %u %llu\n", line->worker, (unsigned long long)line->first, line->count,
                            (unsigned long long)line->stamp);
    }
    return into;
}

static void generate(struct line *lines, size_t count, uint64_t workers, uint64_t size) {
    uint64_t x = 5, room = size / workers;
    for (size_t k = 0; k < count; k++) {
        x = (1103515245 * x + 12345) % (1u << 31);
        uint64_t h = x / 65536;
        lines[k].worker = (uint8_t)(1 + k % workers);
        lines[k].letter = (uint8_t)"wwwwrrrf"[h % 8];
        lines[k].first = k % workers * room + x % (room - 63);
        lines[k].count = (uint32_t)(1 + h / 8 % 64);
        lines[k].stamp = k + 1;
    }
}

int main(int count, char **words) {
    if (count != 4)
        return 2;
    size_t lines = strtoul(words[1], NULL, 10);
    uint64_t workers = strtoul(words[2], NULL, 10), size = strtoul(words[3], NULL, 10);
    struct line *read = take(lines * sizeof *read), *made = take(lines * sizeof *made);
    struct run *runs = take(lines * sizeof *runs);
    char *text = take(lines * 64), *end = text, *printed = take(lines * 64), *last = printed;
    for (size_t k = 0; k < lines; k++) {
        end += sprintf(end, "1 w %zu 8 %zu\n", 8 * k, k + 1);
        runs[k] = (struct run){.stamp = k + 1, .first = 8 * k, .count = 8};
    }
    long long start = micros();
    size_t found = read_lines(text, end, read);
    long long reading = micros() - start;
    start = micros();
    for (size_t k = 0; k < lines; k++)
        last = print_runs(last, read[k].first, &runs[k], 1);
    long long printing = micros() - start;
    start = micros();
    generate(made, lines, workers, size);
    long long generating = micros() - start;
    char *shown = take(lines * 64);
    start = micros();
    char *behind = print_lines(shown, made, lines);
    long long showing = micros() - start;
    volatile uint64_t kept = lines ? made[lines - 1].first + (uint64_t)behind[-1] : 0;
    (void)kept;
    printf("%zu %zu %zu\n%lld %lld %lld %lld us\n", found, (size_t)(last - printed), lines, reading, printing, generating, showing);
}

/* Times writing a study that is read from standard input, proved (crates/bench_c/out/libbench_c.a) and by a plain writer that checks
   nothing, in one process and turn about: nanoseconds, the least of many short runs. Prints a name and a number to a line. Stops where
   the two do not write the same bytes. */
#include <stdint.h>
#include <stdio.h>
#include <string.h>
#include <time.h>

size_t study_writes(const char *text, size_t length, char *buffer, size_t room, uint32_t times);

enum { RUNS = 2000, TIMES = 16, TEXT = 65537, BUSES = 128, BUS = 10, SOURCES = 512, SOURCE = 12 };

struct records {
    uint32_t tolerance, bus[BUSES][BUS], source[SOURCES][SOURCE];
    int buses, sources;
};

static char text[TEXT], proved[TEXT], plain[TEXT];
static size_t length;
static struct records records;

static double now(void)
{
    struct timespec t;
    clock_gettime(CLOCK_MONOTONIC, &t);
    return 1e9 * (double)t.tv_sec + (double)t.tv_nsec;
}

/* The numbers behind a row's letter, and past the row's end; the text is taken to be in order. */
static const char *numbers(const char *at, uint32_t *to)
{
    while (*at == ',') {
        uint32_t n = 0;
        for (at++; *at >= '0' && *at <= '9'; at++)
            n = 10 * n + (uint32_t)(*at - '0');
        *to++ = n;
    }
    return at + 2;
}

static void read_records(void)
{
    const char *at = text;
    while (at < text + length) {
        char letter = *at++;
        uint32_t *to = letter == 'S'   ? &records.tolerance
                       : letter == 'B' ? records.bus[records.buses++]
                                       : records.source[records.sources++];
        at = numbers(at, to);
    }
}

static char *put_number(char *at, uint32_t n)
{
    char digits[10];
    int k = 0;
    do
        digits[k++] = (char)('0' + n % 10);
    while (n /= 10);
    while (k)
        *at++ = digits[--k];
    return at;
}

static char *put_row(char *at, char letter, const uint32_t *n, int count)
{
    *at++ = letter;
    for (int i = 0; i < count; i++) {
        *at++ = ',';
        at = put_number(at, n[i]);
    }
    *at++ = '\r';
    *at++ = '\n';
    return at;
}

static size_t plain_write(char *buffer)
{
    char *at = put_row(buffer, 'S', &records.tolerance, 1);
    for (int i = 0; i < records.buses; i++)
        at = put_row(at, 'B', records.bus[i], BUS);
    for (int i = 0; i < records.sources; i++)
        at = put_row(at, 'P', records.source[i], SOURCE);
    return (size_t)(at - buffer);
}

static size_t plain_writes(uint32_t times)
{
    size_t size = 0;
    for (uint32_t i = 0; i < times; i++) {
        size = plain_write(plain);
        __asm__ volatile("" : : "r"(plain) : "memory"); /* what is written counts as used, each time */
    }
    return size;
}

static double least(double before, double took)
{
    return took < before ? took : before;
}

int main(void)
{
    double read = 1e18, all = 1e18, bare = 1e18;
    length = fread(text, 1, TEXT, stdin);
    read_records();
    size_t size = study_writes(text, length, proved, TEXT, 1);
    if (size == 0 || plain_writes(1) != size || memcmp(proved, plain, size)) {
        puts("the two writers differ");
        return 1;
    }
    for (int run = 0; run < RUNS; run++) {
        double began = now();
        study_writes(text, length, proved, TEXT, 0);
        double middle = now();
        study_writes(text, length, proved, TEXT, TIMES);
        double end = now();
        plain_writes(TIMES);
        bare = least(bare, now() - end);
        read = least(read, middle - began);
        all = least(all, end - middle);
    }
    printf("bytes %zu\nproved %.1f\nplain %.1f\n", size, (all - read) / TIMES, bare / TIMES);
    return 0;
}

/* Times breaking calls of a study on standard input, proved (crates/bench_c/out/libbench_c.a) and in plain doubles, and proved queries, in
   one process and turn about: nanoseconds of the processor, the least of many runs; of the processor, since a run of calls takes some
   milliseconds, in which other work may well come between. Prints a name and a number to a line. Stops where the proved figure or bounds
   and the plain ones do not agree, for any bus and delay. */
#include "plain.h"

#include <stdint.h>
#include <stdio.h>
#include <time.h>

double network_sums(const char *text, size_t length, uint8_t last, uint32_t queries);
double network_breakings(const char *text, size_t length, uint8_t last, uint32_t delay, double *table, size_t room, uint32_t calls);

enum { RUNS = 200, AT_LEAST = 64, TEXT = 65537, WORKS = 3, DELAY = 100 };

static char text[TEXT];
static size_t length;
static struct study study;
static double table[2 * SOURCES], shares[SOURCES], mu[FACTORS];
static volatile double sink;

static double now(void)
{
    struct timespec t;
    clock_gettime(CLOCK_PROCESS_CPUTIME_ID, &t);
    return 1e9 * (double)t.tv_sec + (double)t.tv_nsec;
}

/* The figures of the first calls for the buses in turn, added up; the table is that of the last. */
static double called(int delay, int calls)
{
    return network_breakings(text, length, (uint8_t)(study.buses - 1), (uint32_t)delay, table, 2 * SOURCES, (uint32_t)calls);
}

static double proved(int calls)
{
    return called(DELAY, calls);
}

static double queries(int calls)
{
    return network_sums(text, length, (uint8_t)(study.buses - 1), (uint32_t)calls);
}

static double plain(int calls)
{
    double total = 0;
    read_study(text, length, &study);
    for (int i = 0; i < calls; i++) {
        total += plain_breaking(&study, i % study.buses, mu, shares);
        __asm__ volatile("" : : "r"(shares) : "memory"); /* the shares count as used, each time */
    }
    return total;
}

/* Plain shares lie within the proved bounds, and the proved figure is from the plain one to 3 % and 4 A above, but for rounding. A figure
   is what one call more adds to the sum of whole numbers. */
static int agrees(int bus, int delay, double *before)
{
    double after = called(delay, bus + 1), figure = after - *before;
    *before = after;
    double other = plain_breaking(&study, bus, mu, shares);
    for (int j = 0; j < study.sources; j++)
        if (shares[j] * (1 + 1e-9) < table[2 * j] || table[2 * j + 1] < shares[j] * (1 - 1e-9)) {
            printf("bus %d, %d ms, source %d: %.17g is not from %.17g to %.17g\n", bus, delay, j, shares[j], table[2 * j], table[2 * j + 1]);
            return 0;
        }
    if (figure < other * (1 - 1e-9) || 1.03 * other + 4 < figure) {
        printf("bus %d, %d ms: %.17g proved, %.17g plain\n", bus, delay, figure, other);
        return 0;
    }
    return 1;
}

static double least(double before, double (*work)(int), int calls)
{
    double began = now();
    sink = work(calls);
    double took = now() - began;
    return took < before ? took : before;
}

int main(void)
{
    double (*const works[WORKS])(int) = {proved, queries, plain};
    const char *const names[WORKS] = {"proved", "queries", "plain"};
    const int delays[] = {20, 50, 250, DELAY};
    double none[WORKS] = {1e18, 1e18, 1e18}, all[WORKS] = {1e18, 1e18, 1e18};
    length = fread(text, 1, TEXT, stdin);
    read_study(text, length, &study);
    for (int i = 0; i < 4; i++) {
        double before = 0;
        plain_factors(delays[i], mu);
        for (int bus = 0; bus < study.buses; bus++)
            if (!agrees(bus, delays[i], &before))
                return 1;
    }
    int calls = study.buses * ((AT_LEAST + study.buses - 1) / study.buses);
    for (int run = 0; run < RUNS; run++)
        for (int i = 0; i < WORKS; i++) {
            none[i] = least(none[i], works[i], 0);
            all[i] = least(all[i], works[i], calls);
        }
    for (int i = 0; i < WORKS; i++)
        printf("%s %.1f\n", names[i], (all[i] - none[i]) / calls);
    return 0;
}

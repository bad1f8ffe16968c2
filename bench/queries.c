/* Times queries of a study on standard input, proved (crates/bench_c/out/libbench_c.a) and in plain doubles, in one process and turn
   about: nanoseconds, the least of many short runs. Prints a name and a number to a line. */
#include "plain.h"

#include <stdint.h>
#include <stdio.h>
#include <time.h>

double network_sums(const char *text, size_t length, uint8_t last, uint32_t queries);

enum { RUNS = 400, AT_LEAST = 64, TEXT = 65537 };

static char text[TEXT];
static size_t length;
static struct study study;
static struct prepared prepared;
static volatile double sink;

static double now(void)
{
    struct timespec t;
    clock_gettime(CLOCK_MONOTONIC, &t);
    return 1e9 * (double)t.tv_sec + (double)t.tv_nsec;
}

static void proved(int queries)
{
    sink = network_sums(text, length, (uint8_t)(study.buses - 1), (uint32_t)queries);
}

static void plain(int queries)
{
    double total = 0;
    read_study(text, length, &study);
    for (int i = 0; i < queries; i++)
        total += plain_query(&study, i % study.buses).peak;
    sink = total;
}

static void ready(int queries)
{
    double total = 0;
    read_study(text, length, &study);
    prepare(&study, &prepared);
    for (int i = 0; i < queries; i++)
        total += prepared_query(&study, &prepared, i % study.buses).peak;
    sink = total;
}

static double least(double before, void (*work)(int), int queries)
{
    double began = now();
    work(queries);
    double took = now() - began;
    return took < before ? took : before;
}

int main(void)
{
    void (*const works[])(int) = {proved, plain, ready};
    const char *const names[] = {"proved", "plain", "prepared"};
    double none[] = {1e18, 1e18, 1e18}, all[] = {1e18, 1e18, 1e18};
    length = fread(text, 1, TEXT, stdin);
    read_study(text, length, &study);
    int queries = study.buses * ((AT_LEAST + study.buses - 1) / study.buses);
    for (int run = 0; run < RUNS; run++)
        for (int i = 0; i < 3; i++) {
            none[i] = least(none[i], works[i], 0);
            all[i] = least(all[i], works[i], queries);
        }
    for (int i = 0; i < 3; i++) {
        printf("%s_read %.1f\n", names[i], none[i]);
        printf("%s_query %.1f\n", names[i], (all[i] - none[i]) / queries);
    }
    return 0;
}

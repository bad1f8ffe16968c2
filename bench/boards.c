/* Times whole boards of a study on standard input, proved by reports (crates/bench_c/out/libbench_c.a) and in plain doubles, and the
   queries of all its buses one by one, in one process and turn about: nanoseconds, the least of many short runs. Prints a name and a
   number to a line.
   Stops where the reports and the queries do not give the same sum. */
#include "plain.h"

#include <stdint.h>
#include <stdio.h>
#include <time.h>

double network_sums(const char *text, size_t length, uint8_t last, uint32_t queries);
double network_reports(const char *text, size_t length, double *table, size_t room, uint32_t reports);

enum { RUNS = 400, TIMES = 16, QUERIES = 64, TEXT = 65537, WORKS = 3, ROW = 6 };

static char text[TEXT];
static size_t length;
static struct study study;
static struct figures rows[BUSES];
static double table[ROW * BUSES];
static volatile double sink;

static double now(void)
{
    struct timespec t;
    clock_gettime(CLOCK_MONOTONIC, &t);
    return 1e9 * (double)t.tv_sec + (double)t.tv_nsec;
}

static double proved(int boards)
{
    return network_reports(text, length, table, (size_t)(ROW * study.buses), (uint32_t)boards);
}

static double plain(int boards)
{
    double total = 0;
    read_study(text, length, &study);
    for (int i = 0; i < boards; i++) {
        plain_board(&study, rows);
        for (int b = 0; b < study.buses; b++)
            total += rows[b].machines + rows[b].converters + rows[b].peak + rows[b].converters_peak;
    }
    return total;
}

/* As many queries as a board has buses, proved. */
static double one_by_one(int boards)
{
    return network_sums(text, length, (uint8_t)(study.buses - 1), (uint32_t)(boards * study.buses));
}

static double least(double before, double (*work)(int), int boards)
{
    double began = now();
    sink = work(boards);
    double took = now() - began;
    return took < before ? took : before;
}

int main(void)
{
    double (*const works[WORKS])(int) = {proved, plain, one_by_one};
    const char *const names[WORKS] = {"proved", "plain", "queries"};
    double none[WORKS] = {1e18, 1e18, 1e18}, all[WORKS] = {1e18, 1e18, 1e18};
    length = fread(text, 1, TEXT, stdin);
    read_study(text, length, &study);
    /* queries take much longer than boards, so that fewer do */
    int times[WORKS] = {TIMES, TIMES, (QUERIES + study.buses - 1) / study.buses};
    if (proved(TIMES) != one_by_one(TIMES)) {
        puts("the reports and the queries differ");
        return 1;
    }
    for (int run = 0; run < RUNS; run++)
        for (int i = 0; i < WORKS; i++) {
            none[i] = least(none[i], works[i], 0);
            all[i] = least(all[i], works[i], times[i]);
        }
    for (int i = 0; i < WORKS; i++)
        printf("%s %.1f\n", names[i], (all[i] - none[i]) / times[i]);
    return 0;
}

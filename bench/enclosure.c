/* Times enclosing arithmetic, a call from C at a time: nanoseconds per call, the least of several runs. README.md says how to run it. */
#include <stdint.h>
#include <stdio.h>
#include <time.h>

void enclosure_add(double, double, double, double, double *, double *);
void enclosure_inverse(double, double, double *, double *);
void enclosure_scale(double, double, uint32_t, uint32_t, double *, double *);
uint64_t enclosure_root_below(double);

enum { POINTS = 4096, ROUNDS = 4, RUNS = 300 };

static double re[POINTS], im[POINTS];
static uint32_t p[POINTS], q[POINTS];

static uint64_t next(void)
{
    static uint64_t s = 88172645463325252u;
    s ^= s << 13;
    s ^= s >> 7;
    s ^= s << 17;
    return s;
}

static double now(void)
{
    struct timespec t;
    clock_gettime(CLOCK_MONOTONIC, &t);
    return 1e9 * (double)t.tv_sec + (double)t.tv_nsec;
}

/* Runs a call on the points i and j, and prints the least time of all runs. */
#define MEASURE(name, call)                                         \
    do {                                                            \
        double least = 1e18;                                        \
        for (int run = 0; run < RUNS; run++) {                      \
            double began = now();                                   \
            for (int round = 0; round < ROUNDS; round++)            \
                for (int i = 0; i < POINTS; i++) {                  \
                    int j = (7 * i + round) & (POINTS - 1);         \
                    (void)j;                                        \
                    call;                                           \
                }                                                   \
            double took = (now() - began) / ROUNDS / POINTS;        \
            if (took < least)                                       \
                least = took;                                       \
        }                                                           \
        printf("%-10s %6.1f ns\n", name, least);                    \
    } while (0)

int main(void)
{
    double a, b;
    for (int i = 0; i < POINTS; i++) {
        p[i] = (uint32_t)(next() >> 40) + 1;
        q[i] = (uint32_t)(next() >> 44) + 1;
        re[i] = (double)(next() >> 40) * p[i] / q[i];
        im[i] = (double)(next() >> 36) * p[i] / q[i];
    }
    MEASURE("add", enclosure_add(re[i], im[i], re[j], im[j], &a, &b));
    MEASURE("inverse", enclosure_inverse(re[i], im[i], &a, &b));
    MEASURE("scale", enclosure_scale(re[i], im[i], p[j], q[j], &a, &b));
    MEASURE("root_below", enclosure_root_below(re[i] * re[i]));
    return 0;
}

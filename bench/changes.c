/* Times changes of the sources of a study (crates/bench_c/out/libbench_c.a): of the study that is read from standard input, and of that with
   its first source alone, to which sources are added until the table is full. Prints a name and the nanoseconds of a change to a line, the
   least of many short runs. */
#include <stdint.h>
#include <stdio.h>
#include <string.h>
#include <time.h>

size_t study_changes(const char *text, size_t length, uint32_t change, uint32_t place, uint32_t times);

enum { RUNS = 500, TIMES = 64, TEXT = 65537, SOURCES = 512 };
enum { ADDITION, WITHDRAWAL, REPLACEMENT };

static char text[TEXT], fed[TEXT];

static double now(void)
{
    struct timespec t;
    clock_gettime(CLOCK_MONOTONIC, &t);
    return 1e9 * (double)t.tv_sec + (double)t.tv_nsec;
}

static double least(double before, double took)
{
    return took < before ? took : before;
}

/* The text without the rows of the sources behind the first; its length. */
static size_t without_sources(size_t length)
{
    size_t to = 0;
    int sources = 0;
    for (const char *at = text; at < text + length;) {
        size_t row = (size_t)((const char *)memchr(at, '\n', (size_t)(text + length - at)) + 1 - at);
        if (*at != 'P' || sources++ == 0) {
            memcpy(fed + to, at, row);
            to += row;
        }
        at += row;
    }
    return to;
}

/* Nanoseconds of one of so many changes; reading and reopening apart. */
static double taken(const char *study, size_t length, uint32_t change, uint32_t place, uint32_t times)
{
    double bare = 1e18, all = 1e18;
    for (int run = 0; run < RUNS; run++) {
        double began = now();
        study_changes(study, length, change, place, 0);
        double middle = now();
        study_changes(study, length, change, place, times);
        all = least(all, now() - middle);
        bare = least(bare, middle - began);
    }
    return (all - bare) / times;
}

int main(void)
{
    size_t length = fread(text, 1, TEXT, stdin), few = without_sources(length);
    uint32_t count = (uint32_t)study_changes(text, length, REPLACEMENT, 1, 0);
    if (count < 2 || study_changes(fed, few, ADDITION, 0, SOURCES - 1) != SOURCES || study_changes(text, length, WITHDRAWAL, 1, TIMES) != count) {
        puts("the study has too few sources, or a change is refused");
        return 1;
    }
    double addition = taken(fed, few, ADDITION, 0, SOURCES - 1);
    printf("addition %.1f\n", addition);
    printf("withdrawal_of_the_first %.1f\n", taken(text, length, WITHDRAWAL, 1, TIMES) - addition);
    printf("withdrawal_of_the_last %.1f\n", taken(text, length, WITHDRAWAL, count - 1, TIMES) - addition);
    printf("replacement %.1f\n", taken(text, length, REPLACEMENT, count - 1, TIMES));
    return 0;
}

/* files RUNS INPUT PROGRAM ARGUMENTS..: starts the program so many times on the input, up to 1,000, and prints the milliseconds of the
   processor that it took from its start to its end, waiting for other programs left out, in the middle one of the runs, and the most
   kilobytes that it held. The middle one, since the kernel now and then counts next to nothing for a short run. A child counts what its
   parent held when it was started, so this one is small. */
#include <fcntl.h>
#include <stdio.h>
#include <stdlib.h>
#include <sys/resource.h>
#include <sys/time.h>
#include <sys/wait.h>
#include <unistd.h>

static double milliseconds(struct timeval t)
{
    return 1e3 * (double)t.tv_sec + 1e-3 * (double)t.tv_usec;
}

/* In the child: standard input and output, and the program. */
static void become(const char *input, char **words)
{
    dup2(open(input, O_RDONLY), 0);
    dup2(open("/dev/null", O_WRONLY), 1);
    execvp(words[0], words);
    _exit(127);
}

enum { RUNS = 1000 };

static int order(const void *a, const void *b)
{
    double x = *(const double *)a, y = *(const double *)b;
    return (x > y) - (x < y);
}

int main(int count, char **words)
{
    static double took[RUNS];
    long most = 0;
    int runs = count < 4 ? 0 : atoi(words[1]);
    if (runs < 1 || RUNS < runs)
        return 2;
    for (int run = 0; run < runs; run++) {
        struct rusage used;
        int status;
        pid_t child = fork();
        if (child == 0)
            become(words[2], words + 3);
        if (wait4(child, &status, 0, &used) != child || status != 0)
            return 1;
        took[run] = milliseconds(used.ru_utime) + milliseconds(used.ru_stime);
        most = used.ru_maxrss > most ? used.ru_maxrss : most;
    }
    qsort(took, (size_t)runs, sizeof took[0], order);
    printf("%.3f %ld\n", took[runs / 2], most);
    return 0;
}

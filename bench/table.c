/* The table of crates/noldveig/out/noldveig from plain doubles, by `queries` one by one or by a whole `board`, as the first argument says; with a
   second one the four figures of each bus as they are. */
#include "plain.h"

#include <math.h>
#include <stdio.h>
#include <string.h>

static char verdict(const struct study *s, int b, struct figures f)
{
    if (ceil(f.peak) + ceil(f.converters_peak) > s->peak_rating[b])
        return 'O';
    if (floor(f.machines) + floor(f.converters) > s->rating[b])
        return 'O';
    return ceil(f.machines) + ceil(f.converters) <= s->rating[b] ? 'W' : 'C';
}

int main(int count, char **words)
{
    static char text[65537];
    static struct study s;
    static struct figures rows[BUSES];
    read_study(text, fread(text, 1, sizeof text, stdin), &s);
    if (count > 1 && !strcmp(words[1], "board"))
        plain_board(&s, rows);
    else
        for (int b = 0; b < s.buses; b++)
            rows[b] = plain_query(&s, b);
    for (int b = 0; b < s.buses; b++) {
        struct figures f = rows[b];
        if (count > 2)
            printf("%.17g,%.17g,%.17g,%.17g\r\n", f.machines, f.converters, f.peak, f.converters_peak);
        else
            printf("%d,%.0f,%.0f,%.0f,%.0f,%.0f,%.0f,%c\r\n", b, floor(f.machines), ceil(f.machines), floor(f.converters),
                   ceil(f.converters), ceil(f.peak), ceil(f.converters_peak), verdict(&s, b, f));
    }
    return 0;
}

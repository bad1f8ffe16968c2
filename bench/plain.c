/* plain.h says what this is. */
#include "plain.h"

#include <math.h>

/* One number, and past the comma or the line end behind it. */
static double number(const char **at, const char *end)
{
    double n = 0;
    const char *p = *at;
    while (p < end && *p >= '0' && *p <= '9')
        n = 10 * n + (*p++ - '0');
    while (p < end && (*p == ',' || *p == '\r' || *p == '\n'))
        p++;
    *at = p;
    return n;
}

static void read_bus(const char **at, const char *end, struct study *s)
{
    int b = s->buses++;
    s->parent[b] = (int)number(at, end);
    s->volts[b] = number(at, end);
    s->branch[b] = (int)number(at, end);
    for (int i = 0; i < FIELDS; i++)
        s->of_branch[b][i] = number(at, end);
    s->rating[b] = number(at, end);
    s->peak_rating[b] = number(at, end);
}

static void read_source(const char **at, const char *end, struct study *s)
{
    int j = s->sources++;
    s->source[j] = (int)number(at, end);
    s->at[j] = (int)number(at, end);
    for (int i = 0; i < SOURCE_FIELDS; i++) /* a row without a transformer's fields ends before them */
        s->of_source[j][i] = i < FIELDS || (*at)[-1] == ',' ? number(at, end) : 0;
}

/* The text is taken to be in order. */
void read_study(const char *text, size_t length, struct study *s)
{
    const char *at = text, *end = text + length;
    s->buses = s->sources = 0;
    while (at + 2 < end) {
        char letter = *at;
        at += 2;
        if (letter == 'S')
            s->tolerance = number(&at, end);
        else if (letter == 'B')
            read_bus(&at, end, s);
        else
            read_source(&at, end, s);
    }
}

static struct point plus(struct point a, struct point b)
{
    return (struct point){a.re + b.re, a.im + b.im};
}

static struct point times(struct point z, double t)
{
    return (struct point){z.re * t, z.im * t};
}

/* One over z; an admittance G - jB is kept as G and B. */
static struct point inverse(struct point z)
{
    return times(z, 1 / (z.re * z.re + z.im * z.im));
}

static double factor_c(const struct study *s, double volts)
{
    return volts <= 1000 && s->tolerance == 6 ? 1.05 : 1.10;
}

static struct point split(double z, double rho)
{
    double x = z * floor(sqrt(1e16 / (10000 + rho * rho))) / 1e6;
    return (struct point){x * rho / 100, x};
}

/* In millionths of a percent, rounded down; uk and uR are in thousandths. */
static double reactance(double uk, double ur)
{
    return floor(sqrt((uk * uk - ur * ur) * 1e6));
}

static struct point branch_impedance(const struct study *s, int b)
{
    const double *f = s->of_branch[b];
    if (s->branch[b] == 1)
        return times((struct point){f[0], f[1]}, f[2] / (f[3] * 1e6));
    double ux = reactance(f[3], f[4]);
    double c = factor_c(s, fmin(s->volts[b], s->volts[s->parent[b]]));
    double k = 0.95 * c / (1 + 0.6 * ux / 1e8);
    return times((struct point){1000 * f[4], ux}, k / 1e8 * f[1] * f[1] / (1000 * f[2]));
}

static double sine_of(double power_factor)
{
    return ceil(sqrt(1e8 - 1e4 * power_factor * power_factor)) / 1e4;
}

/* A generator and its own transformer, f its fields, at a bus of these volts. */
static struct point unit_impedance(const double *f, double volts, double c)
{
    double ux = reactance(f[8], f[9]), t = f[6] / f[5], k = volts / (f[0] * t);
    double x = t * t * f[2] / 1e5 * f[0] * f[0] / (1000 * f[1]);
    struct point generator = {x * f[3] / 100, x}, transformer = times((struct point){1000 * f[9], ux}, f[6] * f[6] / (1e11 * f[7]));
    return times(plus(generator, transformer), k * k * c / (1 + fabs(1000 * f[2] - ux) / 1e8 * sine_of(f[4])));
}

static struct point machine_impedance(const struct study *s, int j)
{
    const double *f = s->of_source[j];
    double volts = s->volts[s->at[j]], c = factor_c(s, volts);
    if (s->source[j] == 5)
        return unit_impedance(f, volts, c);
    if (s->source[j] == 1)
        return split(c * volts * volts / (1000 * f[0]), f[1]);
    if (s->source[j] == 3)
        return split(10 / f[2] * f[0] * f[0] / (1000 * f[1]), f[3]);
    double k = volts / f[0] * c / (1 + f[2] / 1e5 * sine_of(f[4]));
    double x = k * f[2] / 1e5 * f[0] * f[0] / (1000 * f[1]);
    return (struct point){x * f[3] / 100, x};
}

/* Also each machine's admittance, where there is room for them. */
static void fill_columns(const struct study *s, struct columns *c, struct point *machines)
{
    for (int b = 0; b < s->buses; b++) {
        c->own[b] = (struct point){0, 0};
        c->supplied[b] = 0;
        c->above[b] = s->branch[b] == 2 ? s->of_branch[b][0] : 1;
        c->below[b] = s->branch[b] == 2 ? s->of_branch[b][1] : 1;
        if (b > 0)
            c->z[b] = branch_impedance(s, b);
    }
    for (int j = 0; j < s->sources; j++) {
        int b = s->at[j];
        if (s->source[j] == 4) {
            c->supplied[b] += s->of_source[j][0] * s->of_source[j][1] / 1000;
        } else {
            struct point y = inverse(machine_impedance(s, j));
            if (machines)
                machines[j] = y;
            c->own[b].re += y.re;
            c->own[b].im += y.im;
        }
    }
}

/* The admittance y at i, seen from its neighbour b. */
static struct point through(const struct columns *c, int b, int i, struct point y)
{
    struct point z = inverse(y);
    if (i < b) {
        double t = c->below[b] / c->above[b];
        z = times(z, t * t);
        return inverse((struct point){c->z[b].re + z.re, c->z[b].im + z.im});
    }
    double t = c->above[i] / c->below[i];
    return inverse(times((struct point){c->z[i].re + z.re, c->z[i].im + z.im}, t * t));
}

/* The same, where y may be nothing. */
static struct point seen_through(const struct columns *c, int b, int i, struct point y)
{
    return y.re + y.im == 0 ? y : through(c, b, i, y);
}

/* The admittance at b without its neighbour w; without none is w = b. */
static struct point seen(const struct study *s, const struct columns *c, int b, int w)
{
    struct point total = c->own[b];
    for (int i = 0; i < s->buses; i++) {
        if (i == w || i == b || (i < b ? s->parent[b] != i : s->parent[i] != b))
            continue;
        struct point y = seen(s, c, i, b);
        if (y.re + y.im == 0)
            continue;
        y = through(c, b, i, y);
        total.re += y.re;
        total.im += y.im;
    }
    return total;
}

/* The converters' currents carried to bus 0 and added up. */
static double gathered(const struct study *s, const struct columns *c)
{
    double total = 0;
    for (int i = 0; i < s->buses; i++) {
        double x = c->supplied[i];
        for (int k = i; k > 0; k = s->parent[k])
            x *= c->below[k] / c->above[k];
        total += x;
    }
    return total;
}

/* The figures from the admittance at a bus and the converters' current there. */
static struct figures figures_at(const struct study *s, int bus, struct point y, double converters)
{
    double volts = s->volts[bus];
    double machines = factor_c(s, volts) * volts * sqrt((y.re * y.re + y.im * y.im) / 3);
    double peak = sqrt(2) * machines * (1.02 + 0.98 * exp(-3 * y.re / y.im));
    return (struct figures){machines, converters, peak, sqrt(2) * converters};
}

/* The same from the converters' current at bus 0. */
static struct figures figures_of(const struct study *s, const struct columns *c, int bus, struct point y, double gathered)
{
    double converters = gathered;
    for (int k = bus; k > 0; k = s->parent[k])
        converters *= c->above[k] / c->below[k];
    return figures_at(s, bus, y, converters);
}

struct figures plain_query(const struct study *s, int bus)
{
    struct columns c;
    fill_columns(s, &c, NULL);
    return figures_of(s, &c, bus, seen(s, &c, bus, bus), gathered(s, &c));
}

void prepare(const struct study *s, struct prepared *p)
{
    fill_columns(s, &p->columns, NULL);
    p->gathered = gathered(s, &p->columns);
    for (int b = s->buses - 1; b >= 0; b--) {
        p->first[b] = -1;
        for (int i = s->buses - 1; i > b; i--)
            if (s->parent[i] == b) {
                p->next[i] = p->first[b];
                p->first[b] = i;
            }
    }
}

static struct point seen_by_lists(const struct study *s, const struct prepared *p, int b, int w);

/* What b sees of its neighbour i. */
static struct point part(const struct study *s, const struct prepared *p, int b, int i)
{
    return seen_through(&p->columns, b, i, seen_by_lists(s, p, i, b));
}

static struct point seen_by_lists(const struct study *s, const struct prepared *p, int b, int w)
{
    struct point total = p->columns.own[b];
    if (b > 0 && s->parent[b] != w)
        total = plus(total, part(s, p, b, s->parent[b]));
    for (int i = p->first[b]; i >= 0; i = p->next[i])
        if (i != w)
            total = plus(total, part(s, p, b, i));
    return total;
}

struct figures prepared_query(const struct study *s, const struct prepared *p, int bus)
{
    return figures_of(s, &p->columns, bus, seen_by_lists(s, p, bus, bus), p->gathered);
}

/* What the sweeps leave at each bus i: what is seen at i without its parent (up); what is seen of i at its parent (rise), and what the
   parent had before that (before); the sum of the rises of those of its children that are done (beside); what is seen at its parent
   without i (down), and of that at i (fall); the converters' current. */
struct swept {
    struct point up[BUSES], rise[BUSES], before[BUSES], beside[BUSES], down[BUSES], fall[BUSES];
    double current[BUSES];
};

/* Towards bus 0: a bus is handed to its parent once its children were handed to it. */
static void sweep_up(const struct study *s, const struct columns *c, struct swept *w)
{
    for (int i = 0; i < s->buses; i++) {
        w->up[i] = c->own[i];
        w->current[i] = c->supplied[i];
    }
    for (int i = s->buses - 1; i > 0; i--) {
        int p = s->parent[i];
        w->before[i] = w->up[p];
        w->rise[i] = seen_through(c, p, i, w->up[i]);
        w->up[p] = plus(w->up[p], w->rise[i]);
        w->current[p] += w->current[i] * c->below[i] / c->above[i];
    }
}

/* Away from it: what is seen at the parent without i is what it had of the children past i, those before i, added again, and what is
   seen of its own parent. */
static void sweep_down(const struct study *s, const struct columns *c, struct swept *w)
{
    for (int i = 0; i < s->buses; i++)
        w->beside[i] = w->fall[i] = (struct point){0, 0};
    for (int i = 1; i < s->buses; i++) {
        int p = s->parent[i];
        w->down[i] = plus(plus(w->before[i], w->beside[p]), w->fall[p]);
        w->fall[i] = seen_through(c, i, p, w->down[i]);
        w->beside[p] = plus(w->beside[p], w->rise[i]);
        w->current[i] = w->current[p] * c->above[i] / c->below[i];
    }
}

void plain_board(const struct study *s, struct figures *rows)
{
    struct columns c;
    struct swept w;
    fill_columns(s, &c, NULL);
    sweep_up(s, &c, &w);
    sweep_down(s, &c, &w);
    for (int b = 0; b < s->buses; b++)
        rows[b] = figures_at(s, b, plus(w.up[b], w.fall[b]), w.current[b]);
}

/* The square of |x|/|z + x|, y being one over x; 1 where y is nothing, since nothing then flows behind z. */
static double divided(struct point z, struct point y, double turns)
{
    if (y.re + y.im == 0)
        return 1;
    struct point x = times(inverse(y), turns * turns), sum = plus(z, x);
    return (x.re * x.re + x.im * x.im) / (sum.re * sum.re + sum.im * sum.im);
}

/* From a bus to each: the product of the dividers' squares, and that of the rated ratios by which a current is carried back. */
struct reach {
    double dividers[BUSES], ratios[BUSES];
};

/* First the buses between this one and bus 0, then all others, each from its parent. */
static void reach_from(const struct study *s, const struct columns *c, const struct swept *w, int bus, struct reach *r)
{
    for (int i = 0; i < s->buses; i++)
        r->dividers[i] = 0;
    r->dividers[bus] = r->ratios[bus] = 1;
    for (int i = bus; i > 0; i = s->parent[i]) {
        int p = s->parent[i];
        r->dividers[p] = r->dividers[i] * divided(c->z[i], w->down[i], c->below[i] / c->above[i]);
        r->ratios[p] = r->ratios[i] * c->above[i] / c->below[i];
    }
    for (int i = 1; i < s->buses; i++) {
        int p = s->parent[i];
        if (r->dividers[i] > 0)
            continue;
        r->dividers[i] = r->dividers[p] * divided(c->z[i], w->up[i], 1);
        r->ratios[i] = r->ratios[p] * c->below[i] / c->above[i];
    }
}

void plain_factors(int delay, double *mu)
{
    double base = delay == 20 ? 0.84 : delay == 50 ? 0.71 : delay == 100 ? 0.62 : 0.56;
    double height = delay == 20 ? 0.26 : delay == 50 ? 0.51 : delay == 100 ? 0.72 : 0.94;
    double decay = delay == 20 ? 0.26 : delay == 50 ? 0.30 : delay == 100 ? 0.32 : 0.38;
    for (int i = 0; i < FACTORS; i++)
        mu[i] = i < 20 ? 1 : fmin(1, ceil(1000 * (base + height * exp(-decay * i / 10))) / 1000);
}

double plain_breaking(const struct study *s, int bus, const double *mu, double *shares)
{
    struct columns c;
    struct swept w;
    struct reach r;
    struct point machines[SOURCES];
    fill_columns(s, &c, machines);
    sweep_up(s, &c, &w);
    sweep_down(s, &c, &w);
    reach_from(s, &c, &w, bus, &r);
    double drive = factor_c(s, s->volts[bus]) * s->volts[bus] / sqrt(3), total = w.current[bus];
    for (int j = 0; j < s->sources; j++) {
        int b = s->at[j];
        const double *f = s->of_source[j];
        shares[j] = 0;
        if (s->source[j] == 4)
            continue;
        struct point y = machines[j];
        double terminal = drive * r.ratios[b] * sqrt((y.re * y.re + y.im * y.im) * r.dividers[b]);
        double share = terminal * r.ratios[b];
        if (s->source[j] == 2 || s->source[j] == 5) {
            double low = s->source[j] == 5 ? terminal * f[6] / f[5] : terminal;
            double q = low * sqrt(3) * f[0] / (1000 * f[1]);
            shares[j] = share;
            share *= q <= 2 ? 1 : mu[q >= 10 ? 100 : (int)(10 * q)];
        }
        total += share;
    }
    return total;
}

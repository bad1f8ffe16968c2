/* The calculation of a network in plain doubles: what crates/network calculates, without bounds, checks or proofs. */
#include <stddef.h>

enum { BUSES = 128, SOURCES = 512, FIELDS = 5, SOURCE_FIELDS = 10, FACTORS = 101 };

struct point {
    double re, im;
};

/* A study as its text gives it. */
struct study {
    double tolerance;
    int buses, sources;
    int parent[BUSES], branch[BUSES];
    double volts[BUSES], of_branch[BUSES][FIELDS], rating[BUSES], peak_rating[BUSES];
    int source[SOURCES], at[SOURCES];
    double of_source[SOURCES][SOURCE_FIELDS];
};

/* What a walk or a sweep reads: impedance of each branch, admittance and converters' current at each bus, rated volts of each branch. */
struct columns {
    struct point z[BUSES], own[BUSES];
    double supplied[BUSES], above[BUSES], below[BUSES];
};

/* Machines' and converters' part at a bus, and their peaks. */
struct figures {
    double machines, converters, peak, converters_peak;
};

/* All that does not depend on the bus asked for: the columns, the children of each bus (-1 after the last), the converters at bus 0. */
struct prepared {
    struct columns columns;
    int first[BUSES], next[BUSES];
    double gathered;
};

void read_study(const char *text, size_t length, struct study *s);

/* A query by a walk from its bus: the columns filled, and each bus on the way looks for its neighbours among all. */
struct figures plain_query(const struct study *s, int bus);

/* The same figures with everything prepared once for all buses. */
void prepare(const struct study *s, struct prepared *p);
struct figures prepared_query(const struct study *s, const struct prepared *p, int bus);

/* The figures of all buses by two sweeps over the tree, towards bus 0 and away from it; nothing is subtracted. */
void plain_board(const struct study *s, struct figures *rows);

/* The factors of generators for a delay, one for each tenth of q; and the breaking current at a bus by them, with each generator's share, 0
   for any other source: both sweeps, and one product over the way from the bus to each. */
void plain_factors(int delay, double *mu);
double plain_breaking(const struct study *s, int bus, const double *mu, double *shares);

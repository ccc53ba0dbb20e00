/* Times the fits of two libraries in turn: speed EARLIER.so PRESENT.so. Of each call the least time of many, and the ratio of the present to the earlier.
 * Both are called with the present header's arguments. A library from before the lightness factor has one argument fewer; on x86-64 a double more, behind
 * the others, stands in a register that it does not read. */
#define _POSIX_C_SOURCE 200809L
#include <dlfcn.h>
#include <math.h>
#include <stdio.h>
#include <stdlib.h>
#include <string.h>
#include <time.h>

#include "../include/nigorzai.h"

#define MOST 1024
#define DEGREES 26
#define SIDE 64
#define ENTRIES 6
#define ROUNDS 60

static const char *const names[ENTRIES] = {
    "nigorzai_interpolate", "nigorzai_approximate", "nigorzai_approximate_within", "nigorzai_search_spread", "nigorzai_approximate_grid", "nigorzai_approximate_grid_within",
};

static double points[3 * SIDE * SIDE], poles[3 * SIDE * SIDE], work[NIGORZAI_WORK_LENGTH(MOST, DEGREES)], largest[2];
static double flat[2][MOST + DEGREES + 1], knots[2][MOST + DEGREES + 1];
static uint32_t mults[2][MOST + DEGREES + 1];
static size_t index_[NIGORZAI_INDEX_LENGTH(MOST)], counts[8];

/* As long as needed, for n points of degree p, and for a grid of n by n. */
#define KNOTS(k) flat[k], NIGORZAI_KNOTS_LENGTH(n, p), knots[k], NIGORZAI_KNOTS_LENGTH(n, p), mults[k], NIGORZAI_KNOTS_LENGTH(n, p)
#define LADDER_LENT poles, NIGORZAI_POLES_LENGTH(n), KNOTS(0), work, NIGORZAI_WORK_LENGTH(n, p), index_, NIGORZAI_INDEX_LENGTH(n), largest, 1, counts, 4
#define GRID_LENT \
    poles, NIGORZAI_GRID_POLES_LENGTH(n, n), KNOTS(0), KNOTS(1), work, NIGORZAI_GRID_WORK_LENGTH(n, n, n, p), index_, NIGORZAI_GRID_INDEX_LENGTH(n), largest, 2, counts, 8

/* One call: n points, or a grid of n rows and columns; half as many poles where they are chosen. */
struct call {
    int entry, noisy;
    size_t n, degree;
};

static double uniform(void) {
    static uint64_t state = 1;
    state = state * 6364136223846793005u + 1442695040888963407u;
    return (double)(state >> 11) / 9007199254740992.0;
}

static void lay_points(const struct call *c) {
    size_t rows = c->entry < 4 ? 1 : c->n, noise = c->noisy;
    for (size_t i = 0; i < rows; i++) {
        for (size_t j = 0; j < c->n; j++) {
            double t = (double)j / (c->n - 1), s = (double)i / c->n, *q = points + 3 * (i * c->n + j);
            q[0] = 95 - 45 * t - 20 * s + noise * (uniform() - 0.5);
            q[1] = 40 * sin(2 * t) + 10 * s * s + noise * (uniform() - 0.5);
            q[2] = 52 * sqrt(t + 0.01) - 9 * t * s + noise * (uniform() - 0.5);
        }
    }
}

static uint32_t run(void *f, const struct call *c) {
    size_t n = c->n, p = c->degree, half = n / 2 > p ? n / 2 : p + 1;
    double within = c->noisy ? 1e-4 : 1e-5;
    switch (c->entry) {
    case 0: return ((__typeof__(&nigorzai_interpolate))f)(points, 3 * n, p, NIGORZAI_CHORDAL, NIGORZAI_PLAIN, LADDER_LENT);
    case 1: return ((__typeof__(&nigorzai_approximate))f)(points, 3 * n, p, half, NIGORZAI_CHORDAL, NIGORZAI_PLAIN, LADDER_LENT);
    case 2: return ((__typeof__(&nigorzai_approximate_within))f)(points, 3 * n, p, within, NIGORZAI_CHORDAL, NIGORZAI_PLAIN, LADDER_LENT);
    case 3: return ((__typeof__(&nigorzai_search_spread))f)(points, 3 * n, p, within, NIGORZAI_CHORDAL, NIGORZAI_PLAIN, LADDER_LENT);
    case 4: return ((__typeof__(&nigorzai_approximate_grid))f)(points, 3 * n * n, n, n, p, p, half, half, NIGORZAI_CENTRIPETAL, NIGORZAI_PLAIN, GRID_LENT);
    default: return ((__typeof__(&nigorzai_approximate_grid_within))f)(points, 3 * n * n, n, n, p, p, within, NIGORZAI_CENTRIPETAL, NIGORZAI_PLAIN, GRID_LENT);
    }
}

static double seconds(void) {
    struct timespec t;
    clock_gettime(CLOCK_MONOTONIC, &t);
    return (double)t.tv_sec + 1e-9 * (double)t.tv_nsec;
}

/* The least seconds of a call of each of the two, in turn. */
static void time_both(void *const f[2], const struct call *c, double least[2]) {
    double start = seconds();
    uint32_t refusal = run(f[1], c);
    size_t times = (size_t)(5e-5 / (seconds() - start)) + 1;
    if (refusal != 0) {
        printf("%s of %zu, degree %zu: refused %u\n", names[c->entry], c->n, c->degree, (unsigned)refusal);
        exit(1);
    }
    least[0] = least[1] = INFINITY;
    for (int round = 0; round < 2 * ROUNDS; round++) {
        int which = round % 2;
        start = seconds();
        for (size_t k = 0; k < times; k++) run(f[which], c);
        double each = (seconds() - start) / (double)times;
        if (each < least[which]) least[which] = each;
    }
}

static int by_size(const void *a, const void *b) {
    double x = *(const double *)a, y = *(const double *)b;
    return (x > y) - (x < y);
}

int main(int argc, char **argv) {
    static const size_t ladders[] = {16, 64, 256, 1024}, grids[] = {8, 16, 33, 64}, degrees[] = {3, 10};
    void *f[ENTRIES][2];
    double ratios[ENTRIES * 16];
    size_t made = 0;
    if (argc != 3) return fprintf(stderr, "speed EARLIER.so PRESENT.so\n"), 2;
    for (int k = 0; k < 2; k++) {
        void *library = dlopen(argv[1 + k], RTLD_NOW | RTLD_LOCAL);
        for (int entry = 0; entry < ENTRIES; entry++) {
            f[entry][k] = library ? dlsym(library, names[entry]) : NULL;
            if (!f[entry][k]) return fprintf(stderr, "%s: %s\n", argv[1 + k], dlerror()), 2;
        }
    }
    for (int entry = 0; entry < ENTRIES; entry++) {
        for (int k = 0; k < 16; k++) {
            struct call c = {entry, k / 8, (entry < 4 ? ladders : grids)[k % 4], degrees[k / 4 % 2]};
            double least[2];
            if (c.n <= c.degree) continue;
            lay_points(&c);
            time_both(f[entry], &c, least);
            ratios[made++] = least[1] / least[0];
            printf("%s, %s, n %zu, degree %zu, us: earlier %.2f, present %.2f, ratio %.3f\n", names[entry] + 9, c.noisy ? "noisy" : "smooth", c.n, c.degree,
                   1e6 * least[0], 1e6 * least[1], ratios[made - 1]);
            fflush(stdout);
        }
    }
    qsort(ratios, made, sizeof *ratios, by_size);
    printf("%zu calls, ratio of the present to the earlier: least %.3f, median %.3f, largest %.3f\n", made, ratios[0], ratios[made / 2], ratios[made - 1]);
    return 0;
}

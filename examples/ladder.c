/* Fits a colorant's ladder within a tolerance, by the plain distance and as for rough board, where lightness counts half, and reads each curve back at
 * both ends and in the middle. */
#include <stdio.h>

#include "nigorzai.h"

#define N 9
#define DEGREE 3

/* L*, a*, b* of nine cards, in rising doses. */
static const double points[3 * N] = {
    95.2, -0.4, 1.8,  90.1, 2.1, 9.6,   84.3, 5.9, 19.7,  78.0, 11.2, 30.4,  71.6, 17.5, 40.1,
    65.5, 24.0, 47.2, 59.9, 30.2, 51.0, 54.8, 35.7, 52.3, 50.3, 40.1, 51.8,
};

/* 0, or the number of a refusal. */
static uint32_t fit_and_read(double factor) {
    double poles[NIGORZAI_POLES_LENGTH(N)], work[NIGORZAI_WORK_LENGTH(N, DEGREE)], largest[1], point[3];
    double flat[NIGORZAI_KNOTS_LENGTH(N, DEGREE)], knots[NIGORZAI_KNOTS_LENGTH(N, DEGREE)];
    uint32_t mults[NIGORZAI_KNOTS_LENGTH(N, DEGREE)];
    size_t index[NIGORZAI_INDEX_LENGTH(N)], counts[4];
    static const char *const marks[] = {"", "refined", "spread", "interpolated", "chosen"};

    uint32_t refusal = nigorzai_approximate_within(
        points, 3 * N, DEGREE, 0.5, NIGORZAI_CENTRIPETAL, factor, poles, sizeof poles / sizeof *poles, flat, sizeof flat / sizeof *flat,
        knots, sizeof knots / sizeof *knots, mults, sizeof mults / sizeof *mults, work, sizeof work / sizeof *work,
        index, sizeof index / sizeof *index, largest, 1, counts, 4);
    if (refusal != 0) return refusal;
    printf("factor %.2f: %s, %zu poles, largest deviation %.6f, unreadable %zu\n", factor, marks[counts[NIGORZAI_MARK]], counts[NIGORZAI_POLES],
           largest[0], counts[NIGORZAI_UNREADABLE]);
    for (int k = 0; k <= 2; k++) {
        refusal = nigorzai_read(poles, 3 * counts[NIGORZAI_POLES], DEGREE, knots, counts[NIGORZAI_KNOTS], mults, counts[NIGORZAI_KNOTS], k / 2.0, point, 3);
        if (refusal != 0) return refusal;
        printf("at %.1f: %.6f %.6f %.6f\n", k / 2.0, point[0], point[1], point[2]);
    }
    return 0;
}

int main(void) {
    static const double factors[] = {NIGORZAI_PLAIN, 0.5};
    for (int k = 0; k < 2; k++) {
        uint32_t refusal = fit_and_read(factors[k]);
        if (refusal != 0) {
            printf("refused %u\n", (unsigned)refusal);
            return 1;
        }
    }
    return 0;
}

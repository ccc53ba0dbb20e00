/* Fits a grid of two colorants within a tolerance, and reads one corner of the surface back: along v the corner's row of poles is a curve. */
#include <stdio.h>

#include "nigorzai.h"

#define ROWS 5
#define COLS 6
#define LARGER 6
#define DEGREE 2

#define SLICE(s) s, sizeof s / sizeof *s

static void show(const char *direction, const size_t *counts, double largest) {
    static const char *const marks[] = {"", "refined", "spread", "interpolated", "chosen"};
    printf(
        "%s: %s, %zu poles, %zu distinct knots, largest deviation %.6f, unreadable %zu\n", direction, marks[counts[NIGORZAI_MARK]],
        counts[NIGORZAI_POLES], counts[NIGORZAI_KNOTS], largest, counts[NIGORZAI_UNREADABLE]);
}

int main(void) {
    /* L*, a*, b* of the cards: down the rows more of the first colorant, along a row more of the second. */
    static const double points[3 * ROWS * COLS] = {
        95.2, -0.4, 1.8,  90.0, 2.0, 9.5,   84.1, 5.8, 19.6,  77.7, 11.0, 30.1,  71.2, 17.1, 39.5, 64.8, 23.5, 46.4, /* row 0 */
        88.9, -6.1, 0.9,  84.2, -3.4, 8.1,  78.8, 0.6, 17.4,  72.9, 5.9, 27.0,   66.9, 11.8, 35.6, 61.0, 17.9, 42.0, /* row 1 */
        82.0, -11.9, -0.8, 77.8, -8.9, 5.9, 72.9, -4.7, 14.4, 67.6, 0.4, 23.2,   62.2, 6.0, 31.1,  56.9, 11.7, 37.1, /* row 2 */
        74.8, -17.2, -3.0, 71.1, -14.1, 3.1, 66.7, -9.9, 10.9, 62.0, -5.0, 18.9, 57.2, 0.3, 26.2,  52.5, 5.6, 31.7,  /* row 3 */
        67.6, -21.7, -5.6, 64.3, -18.6, 0.0, 60.5, -14.5, 7.0, 56.3, -9.8, 14.3, 52.1, -4.8, 20.9, 48.0, 0.2, 26.0,  /* row 4 */
    };
    double poles[NIGORZAI_GRID_POLES_LENGTH(ROWS, COLS)], work[NIGORZAI_GRID_WORK_LENGTH(ROWS, COLS, LARGER, DEGREE)], largest[2], point[3];
    double uflat[NIGORZAI_KNOTS_LENGTH(ROWS, DEGREE)], uknots[NIGORZAI_KNOTS_LENGTH(ROWS, DEGREE)];
    double vflat[NIGORZAI_KNOTS_LENGTH(COLS, DEGREE)], vknots[NIGORZAI_KNOTS_LENGTH(COLS, DEGREE)];
    uint32_t umults[NIGORZAI_KNOTS_LENGTH(ROWS, DEGREE)], vmults[NIGORZAI_KNOTS_LENGTH(COLS, DEGREE)];
    size_t index[NIGORZAI_GRID_INDEX_LENGTH(LARGER)], counts[8];

    uint32_t refusal = nigorzai_approximate_grid_within(
        points, 3 * ROWS * COLS, ROWS, COLS, DEGREE, DEGREE, 1.0, NIGORZAI_CHORDAL, NIGORZAI_PLAIN, SLICE(poles), SLICE(uflat), SLICE(uknots), SLICE(umults),
        SLICE(vflat), SLICE(vknots), SLICE(vmults), SLICE(work), SLICE(index), SLICE(largest), SLICE(counts));
    if (refusal != 0) {
        printf("refused %u\n", (unsigned)refusal);
        return 1;
    }
    show("u", counts, largest[0]);
    show("v", counts + NIGORZAI_V, largest[1]);
    refusal = nigorzai_read(
        poles, 3 * counts[NIGORZAI_V + NIGORZAI_POLES], DEGREE, vknots, counts[NIGORZAI_V + NIGORZAI_KNOTS], vmults, counts[NIGORZAI_V + NIGORZAI_KNOTS],
        0.0, point, 3);
    if (refusal != 0) {
        printf("refused %u\n", (unsigned)refusal);
        return 1;
    }
    printf("at 0, 0: %.6f %.6f %.6f\n", point[0], point[1], point[2]);
    return 0;
}

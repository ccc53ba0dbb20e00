/* Curves from colour ladders and surfaces from colour grids, for C. Link target/staticlib/libinterface.a (`./library interface`) on x86-64.
 *
 * A slice is lent as a pointer and the number of its places. Points and poles have three places each (L*, a*, b*). No function
 * keeps a pointer, allocates, or writes outside the slices that it is lent. The slices of a call do not overlap; a pointer is
 * aligned and not null, also where its length is 0. With such slices each function takes every input and ends.
 *
 * The result is 0, or the number of a refusal:
 *   1  fewer than 2 points; grid: fewer than 2 rows or columns
 *   2  the degree is not in 1 to 25
 *   3  the degree is above the chosen poles less one (0 poles count as 1), or above the points less one where none are chosen (rows
 *      along u, columns along v)
 *   4  more poles chosen than there are points
 *   5  two neighbouring points of a ladder are no further apart than 10^-7; grid: no line has a length, or the parameters do not rise
 *   6  least squares gives no poles for the chosen count; grid: not 3 * rows * cols places; reader: the multiplicities do not fit the
 *      number of poles
 *   7  the places of the points, or of the reader's poles, are no whole triples
 *   8  more than 1,024 points or poles; grid: more than 64 rows or columns; reader: more than 1,050 knots
 *   9  a lent slice is too short
 *  10  a coordinate is not finite or above 1,000,000 in size
 *  12  reader: fewer than two knots or multiplicities, or not as many of each
 *  13  reader: a knot is at or below the one before it
 *  14  reader: a multiplicity above degree + 1 at an end or above the degree inside
 *  15  reader: a multiplicity 0, a knot not finite, fewer than degree + 1 poles, an empty range, or a parameter that is NaN
 *  17  the lightness factor is NaN or not in 0.25 to 4
 * Of several causes a ladder is refused for the first in the order 7, 8, 1, 2, 3, 4, 9, 17, 10, 5, 6; a grid in the order 8, 2 (u, then
 * v), 1, 6 for the places, 9, 17, 10, 5 (u, then v), 3 and 4 along u, 3 and 4 along v, 6; a reading in the order 9, 7, 8, 2, 12, 13, 14,
 * 6, 15.
 */
#ifndef NIGORZAI_H
#define NIGORZAI_H

#include <stddef.h>
#include <stdint.h>

/* How the parameters of the points are spaced: any other number than 0 is centripetal. */
#define NIGORZAI_CHORDAL 0
#define NIGORZAI_CENTRIPETAL 1

/* The lightness factor of a fit, from 0.25 to 4: in every distance of the call the difference of the first coordinates is multiplied by it
 * before it is squared, so below 1 lightness counts less. With 1 it is the plain distance. */
#define NIGORZAI_PLAIN 1.0

/* counts[NIGORZAI_MARK]: which step gave the knots and poles. */
#define NIGORZAI_REFINED 1
#define NIGORZAI_SPREAD 2
#define NIGORZAI_INTERPOLATED 3
#define NIGORZAI_CHOSEN 4

/* What stands in the places of `counts` after a fit. */
#define NIGORZAI_MARK 0
#define NIGORZAI_POLES 1
#define NIGORZAI_KNOTS 2
#define NIGORZAI_UNREADABLE 3

/* The needed lengths for n points of degree p, in places. `largest` needs 1 place and `counts` 4. */
#define NIGORZAI_POLES_LENGTH(n) (3 * (n))
#define NIGORZAI_KNOTS_LENGTH(n, p) ((n) + (p) + 1) /* flat, knots and mults, each */
#define NIGORZAI_WORK_LENGTH(n, p) (4 * (p) * (n) + 16 * (n) + 64)
#define NIGORZAI_INDEX_LENGTH(n) (4 * (n))

/* The lent slices of a ladder call, in this order. After a fit:
 *   poles    the poles, three places each, counts[NIGORZAI_POLES] of them
 *   flat     the flat knots, poles + degree + 1 of them
 *   knots    the distinct knots, counts[NIGORZAI_KNOTS] of them, and as many multiplicities in mults
 *   work     0 in every place, and index too: they are for the call's own use
 *   largest  the largest computed deviation of a point from the curve, by the distance with the factor, NaN passed over
 *   counts   the mark, the poles, the distinct knots, and how many deviations are unreadable (NaN)
 * Places beyond are as they were. After a refusal poles, flat, knots, mults, largest and counts are as they were; work and index
 * are as they were after 1 to 4, 7 to 10 and 17, and 0 in every place after 5 and 6.
 */
#define NIGORZAI_LENT \
    double *poles, size_t poles_length, double *flat, size_t flat_length, double *knots, size_t knots_length, \
    uint32_t *mults, size_t mults_length, double *work, size_t work_length, size_t *index, size_t index_length, \
    double *largest, size_t largest_length, size_t *counts, size_t counts_length

#ifdef __cplusplus
extern "C" {
#endif

/* The curve through the points, with as many poles. */
uint32_t nigorzai_interpolate(const double *points, size_t points_length, size_t degree, size_t spacing, double factor, NIGORZAI_LENT);

/* Least squares with a chosen number of poles. */
uint32_t nigorzai_approximate(const double *points, size_t points_length, size_t degree, size_t count, size_t spacing, double factor, NIGORZAI_LENT);

/* Within a tolerance: by refinement of the knots, else by the search over pole counts on spread knots (what it finds passes, one pole fewer does not), else through the points. */
uint32_t nigorzai_approximate_within(const double *points, size_t points_length, size_t degree, double tolerance, size_t spacing, double factor, NIGORZAI_LENT);

/* The search over pole counts on spread knots alone, else through the points. */
uint32_t nigorzai_search_spread(const double *points, size_t points_length, size_t degree, double tolerance, size_t spacing, double factor, NIGORZAI_LENT);

/* A grid is rows * cols points, row after row; u runs along the rows' numbers and v along a row. The needed lengths, in places, with M
 * for the larger of rows and cols and P for the larger degree. `largest` needs 2 places and `counts` 8. */
#define NIGORZAI_GRID_POLES_LENGTH(rows, cols) (3 * (rows) * (cols))
#define NIGORZAI_GRID_WORK_LENGTH(rows, cols, M, P) (12 * (rows) * (cols) + (M) * (6 * (P) + 24) + 128)
#define NIGORZAI_GRID_INDEX_LENGTH(M) (8 * (M)) /* uflat, uknots, umults: NIGORZAI_KNOTS_LENGTH(rows, udegree); v's: of cols and vdegree */

/* Where the second direction's places of `counts` begin: u's are the first four, v's the next. */
#define NIGORZAI_V 4

/* The lent slices of a grid call, in this order. After a fit:
 *   poles          the surface's poles, counts[NIGORZAI_POLES] rows of counts[NIGORZAI_V + NIGORZAI_POLES], three places each
 *   uflat, vflat   the flat knots along u and along v, poles + degree + 1 of each direction's
 *   uknots, vknots and umults, vmults   the distinct knots with their multiplicities
 *   work, index    0 in every place
 *   largest        the largest computed deviation, by the distance with the factor: along u of a point from the surface, and then along v of a
 *                  point from its row's curve
 *   counts         u's mark, poles, distinct knots and unreadable deviations, and then v's
 * Places beyond are as they were. After a refusal all but work and index are as they were; work and index are as they were after 1, 2,
 * 8, 9, 10, 17 and 6 for the places, and 0 in every place after 3, 4, 5 and 6 for the poles.
 */
#define NIGORZAI_GRID_LENT \
    double *poles, size_t poles_length, double *uflat, size_t uflat_length, double *uknots, size_t uknots_length, \
    uint32_t *umults, size_t umults_length, double *vflat, size_t vflat_length, double *vknots, size_t vknots_length, \
    uint32_t *vmults, size_t vmults_length, double *work, size_t work_length, size_t *index, size_t index_length, \
    double *largest, size_t largest_length, size_t *counts, size_t counts_length

/* Least squares with chosen numbers of poles along u and v. */
uint32_t nigorzai_approximate_grid(
    const double *points, size_t points_length, size_t rows, size_t cols, size_t udegree, size_t vdegree, size_t ucount,
    size_t vcount, size_t spacing, double factor, NIGORZAI_GRID_LENT);

/* Within a tolerance: the rows within 0.8 of it along v, then the whole grid within it along u, each over the fewer poles of refinement
 * and the search on spread knots, each through its points where neither fits. */
uint32_t nigorzai_approximate_grid_within(
    const double *points, size_t points_length, size_t rows, size_t cols, size_t udegree, size_t vdegree, double tolerance,
    size_t spacing, double factor, NIGORZAI_GRID_LENT);

/* The point of a curve at a parameter, in the first three places of `out`. `degree` is the one of the fit: of a ladder's curve one less than
 * the first multiplicity. Worked out from the number of poles it would hide that a line of the archive is missing. */
uint32_t nigorzai_read(
    const double *poles, size_t poles_length, size_t degree, const double *knots, size_t knots_length, const uint32_t *mults,
    size_t mults_length, double u, double *out, size_t out_length);

#ifdef __cplusplus
}
#endif

#endif

/* Nardlintel: dense systems of 1 to 128 linear equations in binary64 (_f64) and binary32 (_f32).
 *
 * Link with libcapi.a (`tools/build capi`), which needs memcpy, memmove and memset of the C library and nothing else. The
 * calls allocate nothing, keep nothing between calls, and may be made from several threads at once, on buffers of their
 * own.
 *
 * A matrix of size n is n * n numbers, row by row. An order is n numbers: in place i stands the given row order[i]. The
 * factors are one matrix: the multipliers below the diagonal, the upper factor on and above it. Rows and columns are
 * counted from 0.
 *
 * What the caller owes, and no call can test:
 *   - each pointer is not null, even where its length is 0; it is aligned for its type and begins as many elements as
 *     the length after it says, all of them initialised, those of an output too;
 *   - an output (a pointer that is not to const, column included) overlaps no other argument;
 *   - the processor rounds to nearest and keeps subnormal numbers: no -ffast-math start-up code, no flush to zero.
 * What a size or a length may be is not owed: it is tested, and refused by 1 or 2.
 *
 * Each call returns 0 if it answers, or the number of its refusal. It tests in this order and returns the first:
 *   1  the size n is not 1 to 128
 *   2  a length is not n * n (a, lu) or n (b, x, y, order)
 *   3  an entry of a, of b, or of the vector x of multiply is not finite
 *   4  again: order does not have each of 0 to n - 1 once, an entry of lu is not finite, or one on its diagonal is zero
 *   5  solve, factor: a column without a pivot
 *   6  an intermediate result or a result is not in range: a product or a quotient of numbers that are not zero that is
 *      not finite or below 2^-1000 (binary32: 2^-110) in magnitude, or a sum or a difference that is not finite
 *
 * column gets, after
 *   5               the column, 0 to n - 1, that has no pivot;
 *   6 in factoring  the column, 0 to n - 1, whose elimination is not in range;
 *   6 in solving    n (solve, and every 6 of again).
 * After 0, 1, 2, 3 and 4 it is left as it was.
 */
#ifndef NARDLINTEL_H
#define NARDLINTEL_H

#include <stddef.h>
#include <stdint.h>

#ifdef __cplusplus
extern "C" {
#endif

/* Factors, order and answer of the system a x = b.
 *   0           lu holds the factors, order the order, x the answer
 *   1, 2, 3     all three are left as they were
 *   5, 6        lu and order hold the work up to the refused column, its rows exchanged already; or the factors and the
 *               order, after a 6 in solving. x is left as it was */
uint32_t nardlintel_solve_f64(size_t n, const double *a, size_t a_len, const double *b, size_t b_len, double *lu,
                              size_t lu_len, uint16_t *order, size_t order_len, double *x, size_t x_len,
                              size_t *column);
uint32_t nardlintel_solve_f32(size_t n, const float *a, size_t a_len, const float *b, size_t b_len, float *lu,
                              size_t lu_len, uint16_t *order, size_t order_len, float *x, size_t x_len,
                              size_t *column);

/* Factors and order of the matrix a.
 *   0           lu holds the factors, order the order
 *   1, 2, 3     both are left as they were
 *   5, 6        they hold the work up to the refused column, its rows exchanged already */
uint32_t nardlintel_factor_f64(size_t n, const double *a, size_t a_len, double *lu, size_t lu_len, uint16_t *order,
                               size_t order_len, size_t *column);
uint32_t nardlintel_factor_f32(size_t n, const float *a, size_t a_len, float *lu, size_t lu_len, uint16_t *order,
                               size_t order_len, size_t *column);

/* The answer for another right side b, with factors and an order that are there already. With those of a factor that
 * returned 0, it answers and refuses as solve does on the same matrix, digit for digit.
 *   0               x holds the answer
 *   1, 2, 3, 4, 6   x is left as it was */
uint32_t nardlintel_again_f64(size_t n, const double *lu, size_t lu_len, const uint16_t *order, size_t order_len,
                              const double *b, size_t b_len, double *x, size_t x_len, size_t *column);
uint32_t nardlintel_again_f32(size_t n, const float *lu, size_t lu_len, const uint16_t *order, size_t order_len,
                              const float *b, size_t b_len, float *x, size_t x_len, size_t *column);

/* The product of the matrix a and the vector x.
 *   0            y holds it
 *   1, 2, 3, 6   y is left as it was */
uint32_t nardlintel_multiply_f64(size_t n, const double *a, size_t a_len, const double *x, size_t x_len, double *y,
                                 size_t y_len);
uint32_t nardlintel_multiply_f32(size_t n, const float *a, size_t a_len, const float *x, size_t x_len, float *y,
                                 size_t y_len);

#ifdef __cplusplus
}
#endif

#endif

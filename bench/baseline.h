/* The baselines that baseline.c has for each kind and format. */
#ifndef BASELINE_H
#define BASELINE_H

#include <stddef.h>
#include <stdint.h>

#define BASELINE(kind, format, real)                                                                                   \
    uint32_t kind##_solve_##format(size_t n, const real *a, const real *b, real *lu, uint16_t *order, real *x);        \
    uint32_t kind##_factor_##format(size_t n, const real *a, real *lu, uint16_t *order);                               \
    uint32_t kind##_again_##format(size_t n, const real *lu, const uint16_t *order, const real *b, real *x);           \
    uint32_t kind##_multiply_##format(size_t n, const real *a, const real *x, real *y);

BASELINE(plain, f64, double)
BASELINE(plain, f32, float)
BASELINE(tested, f64, double)
BASELINE(tested, f32, float)

#endif

/* The four calls as plain C loops: the same operations in the same order, for one format (REAL is 64 or 32), without
 * range tests (TESTED is 0) or with a test after each operation, as the rules write them (TESTED is 1). The caller's
 * sizes and entries are not tested. */
#include "baseline.h"

#include <math.h>
#include <string.h>

#if REAL == 64
typedef double real;
#define MAGNITUDE fabs
#define LEAST 0x1p-1000
#define FORMAT f64
#else
typedef float real;
#define MAGNITUDE fabsf
#define LEAST 0x1p-110f
#define FORMAT f32
#endif

#if TESTED
#define KIND tested
#else
#define KIND plain
#endif

#define JOIN_(kind, name, format) kind##_##name##_##format
#define JOIN(kind, name, format) JOIN_(kind, name, format)
#define NAME(name) JOIN(KIND, name, FORMAT)

#if TESTED
static int in_range(real v) { return isfinite(v) && LEAST <= MAGNITUDE(v); }
#define PRODUCT_OR(q, a, b, refusal) if (!((a) == 0 || (b) == 0 || in_range(q))) return refusal
#define QUOTIENT_OR(q, a, refusal) if (!((a) == 0 || in_range(q))) return refusal
#define SUM_OR(s, refusal) if (!isfinite(s)) return refusal

static int rows_in_range(size_t n, const real *m, size_t k) {
    const real *pivot = m + k * n;
    for (size_t r = k + 1; r < n; r++) {
        const real *row = m + r * n;
        real l = row[k] / pivot[k];
        QUOTIENT_OR(l, row[k], 0);
        for (size_t j = k + 1; j < n; j++) {
            real q = l * pivot[j];
            real d = row[j] - q;
            PRODUCT_OR(q, l, pivot[j], 0);
            SUM_OR(d, 0);
        }
    }
    return 1;
}
#else
#define PRODUCT_OR(q, a, b, refusal)
#define QUOTIENT_OR(q, a, refusal)
#define SUM_OR(s, refusal)
#endif

static size_t find_pivot(size_t n, const real *m, size_t k) {
    size_t p = k;
    for (size_t i = k + 1; i < n; i++)
        if (MAGNITUDE(m[i * n + k]) > MAGNITUDE(m[p * n + k])) p = i;
    return p;
}

static void swap_rows(size_t n, real *m, uint16_t *order, size_t k, size_t p) {
    uint16_t place = order[k];
    order[k] = order[p];
    order[p] = place;
    if (p == k) return;
    real *restrict a = m + k * n, *restrict b = m + p * n;
    for (size_t j = 0; j < n; j++) {
        real v = a[j];
        a[j] = b[j];
        b[j] = v;
    }
}

static void eliminate_rows(size_t n, real *m, size_t k) {
    const real *restrict pivot = m + k * n;
    for (size_t r = k + 1; r < n; r++) {
        real *restrict row = m + r * n;
        real l = row[k] / pivot[k];
        row[k] = l;
        for (size_t j = k + 1; j < n; j++) row[j] -= l * pivot[j];
    }
}

uint32_t NAME(factor)(size_t n, const real *a, real *lu, uint16_t *order) {
    memcpy(lu, a, n * n * sizeof *a);
    for (size_t i = 0; i < n; i++) order[i] = (uint16_t)i;
    for (size_t k = 0; k < n; k++) {
        swap_rows(n, lu, order, k, find_pivot(n, lu, k));
        if (lu[k * n + k] == 0) return 5;
#if TESTED
        if (!rows_in_range(n, lu, k)) return 6;
#endif
        eliminate_rows(n, lu, k);
    }
    return 0;
}

uint32_t NAME(again)(size_t n, const real *lu, const uint16_t *order, const real *b, real *x) {
    real work[128];
    for (size_t i = 0; i < n; i++) {
        const real *row = lu + i * n;
        real s = b[order[i]];
        for (size_t j = 0; j < i; j++) {
            real q = row[j] * work[j];
            PRODUCT_OR(q, row[j], work[j], 6);
            s -= q;
            SUM_OR(s, 6);
        }
        work[i] = s;
    }
    for (size_t i = n; i-- > 0;) {
        const real *row = lu + i * n;
        real s = work[i];
        for (size_t j = i + 1; j < n; j++) {
            real q = row[j] * work[j];
            PRODUCT_OR(q, row[j], work[j], 6);
            s -= q;
            SUM_OR(s, 6);
        }
        work[i] = s / row[i];
        QUOTIENT_OR(work[i], s, 6);
    }
    memcpy(x, work, n * sizeof *x);
    return 0;
}

uint32_t NAME(solve)(size_t n, const real *a, const real *b, real *lu, uint16_t *order, real *x) {
    uint32_t number = NAME(factor)(n, a, lu, order);
    return number != 0 ? number : NAME(again)(n, lu, order, b, x);
}

uint32_t NAME(multiply)(size_t n, const real *a, const real *x, real *y) {
    real work[128];
    for (size_t i = 0; i < n; i++) {
        const real *row = a + i * n;
        real s = 0;
        for (size_t j = 0; j < n; j++) {
            real q = row[j] * x[j];
            PRODUCT_OR(q, row[j], x[j], 6);
            s += q;
            SUM_OR(s, 6);
        }
        work[i] = s;
    }
    memcpy(y, work, n * sizeof *y);
    return 0;
}

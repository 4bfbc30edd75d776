/* The calls from C: a system, another right side, a product, and the three kinds of refusal that have a column. */
#include "nardlintel.h"

#include <stdint.h>
#include <stdio.h>

#define LENGTH(v) (sizeof(v) / sizeof *(v))

/* The numbers of an answer, exactly; or the refusal, with the column at which the factoring ended. */
static void print_outcome(const char *name, uint32_t number, size_t column, const double *x, size_t n) {
    printf("%s:", name);
    if (number == 0) {
        printf(" answer");
        for (size_t i = 0; i < n; i++) printf(" %.13a", x[i]);
    } else {
        printf(" no answer %u", (unsigned)number);
        if (number == 6 && column == n) printf(" solving");
        else if (number >= 5) printf(" %zu", column);
    }
    printf("\n");
}

static uint32_t solve(size_t n, const double *a, const double *b, double *lu, uint16_t *order, double *x,
                      size_t *column) {
    return nardlintel_solve_f64(n, a, n * n, b, n, lu, n * n, order, n, x, n, column);
}

int main(void) {
    double lu[4] = {0}, x[2] = {0}, y[2] = {0};
    uint16_t order[2] = {0};
    size_t column = 0;

    const double a[] = {2, 1, 4, 3}, b[] = {3, 7};
    uint32_t number = solve(2, a, b, lu, order, x, &column);
    print_outcome("solve", number, column, x, 2);

    const double other[] = {0.1, 0.3};
    number = nardlintel_again_f64(2, lu, LENGTH(lu), order, LENGTH(order), other, LENGTH(other), x, LENGTH(x), &column);
    print_outcome("again", number, column, x, 2);

    number = nardlintel_multiply_f64(2, a, LENGTH(a), x, LENGTH(x), y, LENGTH(y));
    print_outcome("multiply", number, 0, y, 2);

    const double singular[] = {1, 1, 1, 1};
    number = nardlintel_factor_f64(2, singular, LENGTH(singular), lu, LENGTH(lu), order, LENGTH(order), &column);
    print_outcome("no pivot", number, column, x, 2);

    const double small[] = {0x1p-1001, 1, 1, 1};
    number = solve(2, small, b, lu, order, x, &column);
    print_outcome("small pivot", number, column, x, 2);

    const double tiny[] = {0x1p-600}, large[] = {0x1p600};
    number = solve(1, tiny, large, lu, order, x, &column);
    print_outcome("large quotient", number, column, x, 1);

    const float three[] = {3}, one[] = {1};
    float lu32[1] = {0}, x32[1] = {0};
    number = nardlintel_solve_f32(1, three, 1, one, 1, lu32, 1, order, 1, x32, 1, &column);
    x[0] = x32[0];
    print_outcome("solve, binary32", number, column, x, 1);
    return 0;
}

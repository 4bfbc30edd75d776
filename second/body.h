/* What depends on the format. second.c includes this once for each, with these defined:
 *
 *     REAL             the type of the numbers
 *     NAME(name)       the name of a function for this format
 *     DIGITS           the binary digits of a normal value
 *     LEAST_POWER      the least positive value is 2^LEAST_POWER
 *     TOP_POWER        every finite value is below 2^TOP_POWER
 *     LEAST_IN_RANGE   the least magnitude of a product or quotient in range
 *     FACTORS          the first word of a text of factors
 *
 * A matrix of size n is the n rows and n columns at the front of a square array of the largest size.
 */

typedef REAL NAME(matrix)[LARGEST_SIZE][LARGEST_SIZE];

/* ---- Numbers ---- */

/* Reads a word as a number of the format. */
static bool NAME(read)(struct word word, REAL *value)
{
    struct number number;
    if (!parse_number(word, &number))
        return false;
    if (number.exact) {
        reduce(&number.whole, &number.scale);
        int digits = width(number.whole);
        if (digits > DIGITS || (digits > 0 && (number.scale < LEAST_POWER || digits + number.scale > TOP_POWER)))
            return false;
        *value = digits == 0 ? 0 : ldexp((REAL)number.whole, number.scale);
    } else {
        *value = NAME(quotient)(number.whole, power_of_ten(number.scale));
    }
    if (number.negative)
        *value = -*value;
    return true;
}

/* Whether a product or quotient without a zero operand is in range. */
static bool NAME(is_large_enough)(REAL z)
{
    return isfinite(z) && fabs(z) >= LEAST_IN_RANGE;
}

/* x / y; whether it is in range. */
static bool NAME(over)(REAL x, REAL y, REAL *quotient)
{
    *quotient = x / y;
    return x == 0 || NAME(is_large_enough)(*quotient);
}

/* s - x * y; whether the product and the difference are in range. */
static bool NAME(minus_product)(REAL s, REAL x, REAL y, REAL *difference)
{
    REAL product = x * y;
    *difference = s - product;
    return (x == 0 || y == 0 || NAME(is_large_enough)(product)) && isfinite(*difference);
}

/* ---- Factoring ---- */

/* The first row from k on with the largest magnitude in column k. */
static unsigned NAME(pivot)(unsigned n, NAME(matrix) m, unsigned k)
{
    unsigned p = k;
    for (unsigned i = k + 1; i < n; i++)
        if (fabs(m[i][k]) > fabs(m[p][k]))
            p = i;
    return p;
}

static void NAME(exchange)(unsigned n, NAME(matrix) m, unsigned order[], unsigned k, unsigned p)
{
    for (unsigned j = 0; j < n; j++) {
        REAL entry = m[k][j];
        m[k][j] = m[p][j];
        m[p][j] = entry;
    }
    unsigned row = order[k];
    order[k] = order[p];
    order[p] = row;
}

/* Whether all of column k's elimination is in range. */
static bool NAME(column_in_range)(unsigned n, NAME(matrix) m, unsigned k)
{
    for (unsigned r = k + 1; r < n; r++) {
        REAL l, d;
        if (!NAME(over)(m[r][k], m[k][k], &l))
            return false;
        for (unsigned j = k + 1; j < n; j++)
            if (!NAME(minus_product)(m[r][j], l, m[k][j], &d))
                return false;
    }
    return true;
}

static void NAME(eliminate)(unsigned n, NAME(matrix) m, unsigned k)
{
    for (unsigned r = k + 1; r < n; r++) {
        REAL l;
        NAME(over)(m[r][k], m[k][k], &l);
        for (unsigned j = k + 1; j < n; j++)
            NAME(minus_product)(m[r][j], l, m[k][j], &m[r][j]);
        m[r][k] = l;
    }
}

/* Turns a matrix into its factors, and gives their order. */
static struct outcome NAME(factor)(unsigned n, NAME(matrix) m, unsigned order[])
{
    for (unsigned i = 0; i < n; i++)
        order[i] = i;
    for (unsigned k = 0; k < n; k++) {
        NAME(exchange)(n, m, order, k, NAME(pivot)(n, m, k));
        if (m[k][k] == 0)
            return refusal_at(5, k);
        if (!NAME(column_in_range)(n, m, k))
            return refusal_at(6, k);
        NAME(eliminate)(n, m, k);
    }
    return ANSWERED;
}

/* ---- Solving ---- */

/* Solves with factors and an order; whether all is in range. */
static bool NAME(substitute)(unsigned n, NAME(matrix) m, const unsigned order[], const REAL b[], REAL x[])
{
    REAL s, y[LARGEST_SIZE];
    for (unsigned i = 0; i < n; i++) {
        s = b[order[i]];
        for (unsigned j = 0; j < i; j++)
            if (!NAME(minus_product)(s, m[i][j], y[j], &s))
                return false;
        y[i] = s;
    }
    for (unsigned i = n; i-- > 0;) {
        s = y[i];
        for (unsigned j = i + 1; j < n; j++)
            if (!NAME(minus_product)(s, m[i][j], x[j], &s))
                return false;
        if (!NAME(over)(s, m[i][i], &x[i]))
            return false;
    }
    return true;
}

/* Solves, and prints what `solve` prints. */
static void NAME(print_solution)(unsigned n, NAME(matrix) m, const unsigned order[], const REAL b[])
{
    REAL x[LARGEST_SIZE];
    if (!NAME(substitute)(n, m, order, b, x)) {
        print_refusal(refusal_at(6, SOLVING));
        return;
    }
    printf("answer\n");
    for (unsigned i = 0; i < n; i++) {
        print_number(x[i]);
        putchar('\n');
    }
}

/* ---- Texts ---- */

/* Reads the n rows of a system, with their right sides, and nothing after them. */
static struct outcome NAME(read_system)(unsigned n, struct text rest, NAME(matrix) a, REAL b[])
{
    struct word word;
    size_t wanted = (size_t)n * (n + 1), count = 0;
    for (; next_word(&rest, &word); count++) {
        REAL value;
        if (!NAME(read)(word, &value))
            return refusal(7);
        size_t i = count / (n + 1), j = count % (n + 1);
        if (i < n && j < n)
            a[i][j] = value;
        else if (i < n)
            b[i] = value;
    }
    return count == wanted ? ANSWERED : refusal(8);
}

/* Reads an order and the rows of factors off the text. */
static struct outcome NAME(read_factors)(unsigned n, struct text *rest, unsigned order[], NAME(matrix) m)
{
    struct word word;
    size_t wanted = (size_t)n + n * n, count = 0;
    for (; count < wanted && next_word(rest, &word); count++) {
        size_t place = count - n;
        if (count < n ? !read_whole(word, &order[count]) : !NAME(read)(word, &m[place / n][place % n]))
            return refusal(7);
    }
    if (count < wanted)
        return refusal(8);
    if (!is_permutation(n, order))
        return refusal(4);
    for (unsigned i = 0; i < n; i++)
        if (m[i][i] == 0)
            return refusal(4);
    return ANSWERED;
}

/* Reads a right side off the text, or as much of it as is left; `count` is the number of its words. */
static struct outcome NAME(read_right_side)(unsigned n, struct text *rest, REAL b[], unsigned *count)
{
    struct word word;
    for (*count = 0; *count < n && next_word(rest, &word); ++*count)
        if (!NAME(read)(word, &b[*count]))
            return refusal(7);
    return *count == 0 || *count == n ? ANSWERED : refusal(8);
}

/* ---- The programs, after the size ---- */

static NAME(matrix) NAME(rows);
static unsigned NAME(order)[LARGEST_SIZE];
static REAL NAME(right)[LARGEST_SIZE];

static struct outcome NAME(solve)(unsigned n, struct text rest)
{
    struct outcome outcome = NAME(read_system)(n, rest, NAME(rows), NAME(right));
    if (outcome.number == 0)
        outcome = NAME(factor)(n, NAME(rows), NAME(order));
    if (outcome.number == 0)
        NAME(print_solution)(n, NAME(rows), NAME(order), NAME(right));
    return outcome;
}

static struct outcome NAME(factors)(unsigned n, struct text rest)
{
    struct outcome outcome = NAME(read_system)(n, rest, NAME(rows), NAME(right));
    if (outcome.number == 0)
        outcome = NAME(factor)(n, NAME(rows), NAME(order));
    if (outcome.number != 0)
        return outcome;
    printf(FACTORS " %u\n", n);
    for (unsigned i = 0; i < n; i++)
        printf("%u%c", NAME(order)[i], i + 1 < n ? ' ' : '\n');
    for (unsigned i = 0; i < n; i++)
        for (unsigned j = 0; j < n; j++) {
            print_number(NAME(rows)[i][j]);
            putchar(j + 1 < n ? ' ' : '\n');
        }
    return ANSWERED;
}

static struct outcome NAME(again)(unsigned n, struct text rest)
{
    unsigned count;
    struct outcome outcome = NAME(read_factors)(n, &rest, NAME(order), NAME(rows));
    while (outcome.number == 0) {
        outcome = NAME(read_right_side)(n, &rest, NAME(right), &count);
        if (outcome.number == 0 && count == 0)
            break;
        if (outcome.number == 0)
            NAME(print_solution)(n, NAME(rows), NAME(order), NAME(right));
    }
    return outcome;
}

#undef REAL
#undef NAME
#undef DIGITS
#undef LEAST_POWER
#undef TOP_POWER
#undef LEAST_IN_RANGE
#undef FACTORS

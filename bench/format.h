/* The variants of the four calls in one format, on one system. Included once for each format: REAL is its C type, FORMAT
 * its suffix, BLAS its letter in LAPACK. */
#define JOIN2_(a, b) a##_##b
#define JOIN2(a, b) JOIN2_(a, b)
#define NAME(a) JOIN2(a, FORMAT)
#define NARDLINTEL(call) JOIN2(nardlintel_##call, FORMAT)
#define PLAIN(call) JOIN2(plain_##call, FORMAT)
#define TESTED(call) JOIN2(tested_##call, FORMAT)

/* LAPACK counts places from 1 and lays matrices out by columns: it factors the transposed matrix, which takes as long. */
struct NAME(lapack) {
    void (*gesv)(const int *, const int *, REAL *, const int *, int *, REAL *, const int *, int *);
    void (*getrf)(const int *, const int *, REAL *, const int *, int *, int *);
    void (*getrs)(const char *, const int *, const int *, const REAL *, const int *, const int *, REAL *, const int *, int *);
    void (*gemv)(const char *, const int *, const int *, const REAL *, const REAL *, const int *, const REAL *, const int *,
                 const REAL *, REAL *, const int *);
};

struct NAME(system) {
    size_t n;
    REAL a[SIZE_MAX_SQUARED], b[SIZE_MAX_TAKEN];
    /* what each variant leaves */
    REAL lu[VARIANTS][SIZE_MAX_SQUARED], x[VARIANTS][SIZE_MAX_TAKEN];
    uint16_t order[VARIANTS][SIZE_MAX_TAKEN];
    int places[VARIANTS][SIZE_MAX_TAKEN];
    const struct NAME(lapack) *lapack[VARIANTS];
};

/* Entries between -1 and 1. */
static void NAME(fill)(struct NAME(system) *s, size_t n, uint64_t *seed) {
    s->n = n;
    for (size_t i = 0; i < n * n; i++) s->a[i] = (REAL)next_number(seed);
    for (size_t i = 0; i < n; i++) s->b[i] = (REAL)next_number(seed);
}

static uint32_t NAME(lapack_run)(struct NAME(system) *s, enum call call, enum variant v) {
    const struct NAME(lapack) *f = s->lapack[v];
    const int n = (int)s->n, one = 1;
    const REAL unit = 1, zero = 0;
    int info = 0;
    if (call == SOLVE || call == FACTOR) memcpy(s->lu[v], s->a, s->n * s->n * sizeof(REAL));
    if (call == SOLVE || call == AGAIN) memcpy(s->x[v], s->b, s->n * sizeof(REAL));
    switch (call) {
    case SOLVE: f->gesv(&n, &one, s->lu[v], &n, s->places[v], s->x[v], &n, &info); break;
    case FACTOR: f->getrf(&n, &n, s->lu[v], &n, s->places[v], &info); break;
    case AGAIN: f->getrs("N", &n, &one, s->lu[v], &n, s->places[v], s->x[v], &n, &info); break;
    case MULTIPLY: f->gemv("T", &n, &n, &unit, s->a, &n, s->b, &one, &zero, s->x[v], &one); break;
    }
    return (uint32_t)info;
}

/* One run of a call by a variant; `again` takes the factors that the same variant left. */
static uint32_t NAME(run)(void *system, enum call call, enum variant v) {
    struct NAME(system) *s = system;
    size_t n = s->n, column;
    if (v == LAPACK || v == OPENBLAS) return NAME(lapack_run)(s, call, v);
    REAL *lu = s->lu[v], *x = s->x[v];
    uint16_t *order = s->order[v];
    switch (call) {
    case SOLVE:
        if (v == OURS) return NARDLINTEL(solve)(n, s->a, n * n, s->b, n, lu, n * n, order, n, x, n, &column);
        return (v == PLAIN_C ? PLAIN(solve) : TESTED(solve))(n, s->a, s->b, lu, order, x);
    case FACTOR:
        if (v == OURS) return NARDLINTEL(factor)(n, s->a, n * n, lu, n * n, order, n, &column);
        return (v == PLAIN_C ? PLAIN(factor) : TESTED(factor))(n, s->a, lu, order);
    case AGAIN:
        if (v == OURS) return NARDLINTEL(again)(n, lu, n * n, order, n, s->b, n, x, n, &column);
        return (v == PLAIN_C ? PLAIN(again) : TESTED(again))(n, lu, order, s->b, x);
    case MULTIPLY:
        if (v == OURS) return NARDLINTEL(multiply)(n, s->a, n * n, s->b, n, x, n);
        return (v == PLAIN_C ? PLAIN(multiply) : TESTED(multiply))(n, s->a, s->b, x);
    }
    return 1;
}

/* Whether two variants leave the same bits after each call. */
static int NAME(same)(struct NAME(system) *s, enum variant v, enum variant w) {
    size_t n = s->n;
    for (int call = 0; call < CALLS; call++) {
        if (NAME(run)(s, call, v) != NAME(run)(s, call, w)) return 0;
        if (memcmp(s->x[v], s->x[w], n * sizeof(REAL)) != 0) return 0;
        if (memcmp(s->lu[v], s->lu[w], n * n * sizeof(REAL)) != 0) return 0;
        if (memcmp(s->order[v], s->order[w], n * sizeof(uint16_t)) != 0) return 0;
    }
    return 1;
}

/* The number of systems, 4 of each size from 1 to 128, on which ours or the tested baseline differs from plain C. */
static int NAME(differences)(struct NAME(system) *s) {
    uint64_t seed = 1;
    int differences = 0;
    for (size_t n = 1; n <= SIZE_MAX_TAKEN; n++)
        for (int i = 0; i < 4; i++) {
            NAME(fill)(s, n, &seed);
            differences += !NAME(same)(s, OURS, PLAIN_C) || !NAME(same)(s, TESTED_C, PLAIN_C);
        }
    return differences;
}

static struct NAME(system) NAME(one_system);
static struct NAME(lapack) NAME(reference), NAME(open);

static const struct NAME(lapack) *NAME(find)(struct NAME(lapack) *f, void *lapack, void *blas) {
    if (lapack == NULL || blas == NULL) return NULL;
    *(void **)&f->gesv = dlsym(lapack, BLAS "gesv_");
    *(void **)&f->getrf = dlsym(lapack, BLAS "getrf_");
    *(void **)&f->getrs = dlsym(lapack, BLAS "getrs_");
    *(void **)&f->gemv = dlsym(blas, BLAS "gemv_");
    return f->gesv && f->getrf && f->getrs && f->gemv ? f : NULL;
}

/* All sizes and calls of the format. The result is the number of systems with other digits. */
static int NAME(measure)(const struct libraries *found) {
    struct NAME(system) *s = &NAME(one_system);
    s->lapack[LAPACK] = NAME(find)(&NAME(reference), found->lapack, found->blas);
    s->lapack[OPENBLAS] = NAME(find)(&NAME(open), found->openblas, found->openblas);
    int present[VARIANTS] = {1, 1, 1, s->lapack[LAPACK] != NULL, s->lapack[OPENBLAS] != NULL};
    int differences = NAME(differences)(s);
    uint64_t seed = 7;
    double medians[CALLS][SIZES][VARIANTS];
    for (int i = 0; i < SIZES; i++) {
        NAME(fill)(s, sizes[i], &seed);
        for (int call = 0; call < CALLS; call++) take_medians(NAME(run), s, call, present, medians[call][i]);
    }
    print_medians(medians, present);
    return differences;
}

#undef JOIN2_
#undef JOIN2
#undef NAME
#undef NARDLINTEL
#undef PLAIN
#undef TESTED
#undef REAL
#undef FORMAT
#undef BLAS

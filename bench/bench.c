/* The time of the four calls beside that of plain C and of LAPACK, as ratios; and whether the digits are those of plain C.
 * Arguments: the paths of reference BLAS, of reference LAPACK and of OpenBLAS, or "-" for one that is not there. */
#define _GNU_SOURCE
#include "baseline.h"
#include "nardlintel.h"

#include <dlfcn.h>
#include <stdio.h>
#include <stdlib.h>
#include <string.h>
#include <time.h>

#define SIZE_MAX_TAKEN 128
#define SIZE_MAX_SQUARED (128 * 128)

enum call { SOLVE, FACTOR, AGAIN, MULTIPLY };
enum variant { OURS, PLAIN_C, TESTED_C, LAPACK, OPENBLAS };
#define CALLS 4
#define VARIANTS 5
#define SIZES 5
#define SAMPLES 31

static const size_t sizes[SIZES] = {8, 16, 32, 64, 128};
static const char *const call_names[CALLS] = {"solve", "factor", "again", "multiply"};

struct libraries {
    void *blas, *lapack, *openblas;
};

/* A number between -1 and 1, of 53 binary digits. */
static double next_number(uint64_t *seed) {
    uint64_t z = (*seed += 0x9e3779b97f4a7c15u);
    z = (z ^ (z >> 30)) * 0xbf58476d1ce4e5b9u;
    z = (z ^ (z >> 27)) * 0x94d049bb133111ebu;
    return (double)(int64_t)(z ^ (z >> 31)) * 0x1p-63;
}

/* The processor's time of this process, in microseconds. */
static double now(void) {
    struct timespec t;
    clock_gettime(CLOCK_PROCESS_CPUTIME_ID, &t);
    return (double)t.tv_sec * 1e6 + (double)t.tv_nsec * 1e-3;
}

typedef uint32_t run_call(void *system, enum call call, enum variant v);

static double time_of(run_call *run, void *system, enum call call, enum variant v, long count) {
    double start = now();
    for (long i = 0; i < count; i++)
        if (run(system, call, v) != 0) {
            fprintf(stderr, "%s has no answer\n", call_names[call]);
            exit(1);
        }
    return (now() - start) / (double)count;
}

static int compare(const void *a, const void *b) {
    double x = *(const double *)a, y = *(const double *)b;
    return (x > y) - (x < y);
}

/* The median of the samples of each variant; the variants take turns, so that what else the machine does meets all. */
static void take_medians(run_call *run, void *system, enum call call, const int *present, double *medians) {
    static double samples[VARIANTS][SAMPLES];
    long count = 1;
    for (int v = 0; v < VARIANTS; v++)
        if (present[v]) run(system, FACTOR, v);
    while (time_of(run, system, call, PLAIN_C, count) * (double)count < 300) count *= 2;
    for (int i = 0; i < SAMPLES; i++)
        for (int v = 0; v < VARIANTS; v++)
            if (present[v]) samples[v][i] = time_of(run, system, call, v, count);
    for (int v = 0; v < VARIANTS; v++) {
        if (!present[v]) continue;
        qsort(samples[v], SAMPLES, sizeof(double), compare);
        medians[v] = samples[v][SAMPLES / 2];
    }
}

static void print_growth(double before, double after) {
    if (before > 0) printf(" %5.1f", after / before);
    else printf("     -");
}

static void print_medians(double medians[CALLS][SIZES][VARIANTS], const int *present) {
    printf("call       n   plain us  grows   ours  grows  tested  LAPACK  OpenBLAS\n");
    for (int call = 0; call < CALLS; call++)
        for (int i = 0; i < SIZES; i++) {
            const double *m = medians[call][i];
            const double *before = i > 0 ? medians[call][i - 1] : NULL;
            printf("%-8s %3zu %10.3f ", call_names[call], sizes[i], m[PLAIN_C]);
            print_growth(before ? before[PLAIN_C] : 0, m[PLAIN_C]);
            printf(" %6.2f ", m[OURS] / m[PLAIN_C]);
            print_growth(before ? before[OURS] : 0, m[OURS]);
            printf(" %7.2f", m[TESTED_C] / m[PLAIN_C]);
            if (present[LAPACK]) printf(" %7.2f", m[LAPACK] / m[PLAIN_C]);
            else printf("       -");
            if (present[OPENBLAS]) printf(" %9.2f\n", m[OPENBLAS] / m[PLAIN_C]);
            else printf("         -\n");
        }
}

#define REAL double
#define FORMAT f64
#define BLAS "d"
#include "format.h"

#define REAL float
#define FORMAT f32
#define BLAS "s"
#include "format.h"

static void *opened(const char *path) {
    if (strcmp(path, "-") == 0) return NULL;
    void *library = dlopen(path, RTLD_NOW | RTLD_LOCAL);
    if (library == NULL) fprintf(stderr, "%s\n", dlerror());
    return library;
}

int main(int argc, char **argv) {
    if (argc != 4) return 2;
    struct libraries found;
    found.blas = opened(argv[1]);
    found.lapack = opened(argv[2]);
    found.openblas = opened(argv[3]);
    printf("Medians of %d samples. ours, tested, LAPACK and OpenBLAS: times plain C; grows: from the size before.\n", SAMPLES);
    printf("\nbinary64\n");
    int differences64 = measure_f64(&found);
    printf("\nbinary32\n");
    int differences32 = measure_f32(&found);
    printf("\nSystems of sizes 1 to 128 on which the digits are not those of plain C: %d in binary64, %d in binary32, of 512 each\n",
           differences64, differences32);
    return differences64 + differences32 == 0 ? 0 : 1;
}

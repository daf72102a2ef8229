/* After refusals 13 and 14 every number of the factor and of d has the bits 0x7FF8000000000000, and nothing beyond them is
   touched. The logic has one NaN and cannot say which, so this test of the compiled library does. */
#include <inttypes.h>
#include <math.h>
#include <stdint.h>
#include <stdio.h>
#include <string.h>

#include "beyqaloosh.h"

static const uint64_t SPOILT = UINT64_C(0x7FF8000000000000);
enum { MOST = 16, ROOM = MOST * MOST + 2 };
static const double GUARD = 7.25;
static int checks, wrong;

static void check(int holds, const char *call, size_t n, size_t row, const char *what)
{
    checks++;
    if (!holds) {
        wrong++;
        printf("spoilt_bits: %s, n %zu, row %zu: %s\n", call, n, row, what);
    }
}

static uint64_t bits(double x)
{
    uint64_t b;
    memcpy(&b, &x, sizeof b);
    return b;
}

/* The slice stands at 1..=len of its room; the numbers on either side are guards. */
static void check_spoilt(const double *room, size_t len, const char *call, size_t n, size_t row, const char *what)
{
    int all = 1;
    for (size_t i = 1; i <= len; i++)
        if (bits(room[i]) != SPOILT)
            all = 0;
    check(all, call, n, row, what);
    check(room[0] == GUARD && room[len + 1] == GUARD, call, n, row, "a number beyond the slice was touched");
}

/* The unit matrix of n rows with `pivot` at (row, row). */
static void fill(double *a, size_t n, size_t row, double pivot)
{
    for (size_t i = 0; i < ROOM; i++)
        a[i] = GUARD;
    for (size_t c = 0; c < n; c++)
        for (size_t r = 0; r < n; r++)
            a[1 + r + c * n] = r != c ? 0.0 : r == row ? pivot : 1.0;
}

static void both(size_t n, size_t row, double pivot, uint32_t dense, uint32_t block, double tol)
{
    double a[ROOM], l[ROOM], d[ROOM];
    fill(a, n, row, pivot);
    fill(d, 0, 0, 0.0);
    check(beyqaloosh_ldlt_decompose_inplace(n, a + 1, n * n, d + 1, n, tol) == dense, "ldlt_decompose_inplace", n, row, "another number");
    if (dense == 13) {
        check_spoilt(a, n * n, "ldlt_decompose_inplace", n, row, "the block is not spoilt in full");
        check_spoilt(d, n, "ldlt_decompose_inplace", n, row, "d is not spoilt in full");
    }
    fill(a, n, row, pivot);
    fill(l, 0, 0, 0.0);
    fill(d, 0, 0, 0.0);
    check(beyqaloosh_decompose(n, a + 1, n * n, l + 1, n * n, d + 1, n, tol) == block, "decompose", n, row, "another number");
    check_spoilt(l, n * n, "decompose", n, row, "the factor is not spoilt in full");
    check_spoilt(d, n, "decompose", n, row, "d is not spoilt in full");
}

int main(void)
{
    const double tolerances[] = {0.0, -0.0, 1e-12, 1e300};
    for (size_t n = 1; n <= MOST; n++)
        for (size_t row = 0; row < n; row++) {
            for (size_t t = 0; t < sizeof tolerances / sizeof *tolerances; t++) {
                both(n, row, INFINITY, 13, 13, tolerances[t]);
                both(n, row, -INFINITY, 13, 13, tolerances[t]);
                both(n, row, NAN, 13, 13, tolerances[t]);
                both(n, row, -NAN, 13, 13, tolerances[t]);
            }
            /* kept, indefinite, and below 1e-10 of the greatest: 14 for the block of a diagonal alone */
            both(n, row, -1e-11, 0, 14, 1e-12);
            both(n, row, -1e-11, 0, 14, 0.0);
        }
    printf("spoilt_bits: %d checks, %d wrong\n", checks, wrong);
    return wrong != 0;
}

/* The factorization from C: document 01's two-block sheet, P1 to P4 with blocks of several dimensions, the bits of NaN after 13 and
   14 at every row of every block, every lent buffer one short, and wrong tables. Each is called without a cache and with one, which leaves
   the same. What is lent stands between guards, which no call may touch. */
#include <inttypes.h>
#include <math.h>
#include <stdint.h>
#include <stdio.h>
#include <string.h>

#include "beyqaloosh.h"

enum {
    ORDER, PARENTS, L_STARTS, L_ROWS, L_OFFSETS, L_VALUES, DIAG, D, COLUMN, INVERSE, SIZES, COUNT, HEADS, INTO, STAMPS, TABLE, UPPER,
    BODIES, UNIT_STARTS, D_STARTS, PLACES, CACHE, BUFFERS,
    BLOCKS = 4, MOST = 8, ROOM = 96, SCALARS = 32
};
static const uint64_t SPOILT = UINT64_C(0x7FF8000000000000), GUARD = UINT64_C(777777777);
static int checks, wrong;

struct night {
    const char *name;
    size_t n, m;
    uint32_t dims[BLOCKS], starts[BLOCKS + 1], rows[MOST], perm[BLOCKS];
    uint32_t order[BLOCKS], parents[BLOCKS], l_starts[BLOCKS + 1], l_rows[MOST];
    uint64_t products;
};

/* The patterns of P1 to P4 with every diagonal block stored. */
static const struct night SHEET = {"two blocks", 2, 3, {1, 1}, {0, 2, 3}, {0, 1, 1}, {0, 1}, {0, 1}, {1, UINT32_MAX}, {0, 1, 1}, {1}, 1};
static const struct night NIGHTS[] = {
    {"P1", 4, 7, {2, 1, 3, 2}, {0, 3, 5, 6, 7}, {0, 1, 3, 1, 2, 2, 3}, {0, 1, 2, 3}, {0, 1, 2, 3}, {1, 2, 3, UINT32_MAX},
     {0, 2, 4, 5, 5}, {1, 3, 2, 3, 3}, 7},
    {"P2", 3, 5, {3, 1, 2}, {0, 2, 4, 5}, {0, 2, 1, 2, 2}, {0, 1, 2}, {0, 1, 2}, {2, 2, UINT32_MAX}, {0, 1, 2, 2}, {2, 2}, 2},
    {"P3", 4, 7, {1, 2, 1, 3}, {0, 4, 5, 6, 7}, {0, 1, 2, 3, 1, 2, 3}, {0, 1, 2, 3}, {0, 1, 2, 3}, {1, 2, 3, UINT32_MAX},
     {0, 3, 5, 6, 6}, {1, 2, 3, 2, 3, 3}, 10},
    {"P4", 4, 7, {2, 3, 1, 2}, {0, 4, 5, 6, 7}, {0, 1, 2, 3, 1, 2, 3}, {3, 2, 1, 0}, {3, 2, 1, 0}, {3, 3, 3, UINT32_MAX},
     {0, 1, 2, 3, 3}, {3, 3, 3}, 3},
};
enum { COUNT_OF_NIGHTS = sizeof NIGHTS / sizeof *NIGHTS };

static const uint32_t LATE[BLOCKS];
static double values[ROOM];
static size_t values_len;
static uint32_t words[BUFFERS][ROOM];
static double floats[BUFFERS][ROOM];
static uint64_t told[3];
static double value[1];
/* How many places each buffer has beyond its need. */
static size_t spare;
/* A second buffer that is one place short, or none. */
static int also_short = -1;

static int of_floats(int which)
{
    return which == L_VALUES || which == DIAG || which == D || which == COLUMN || which == CACHE;
}

static void check(int holds, const char *night, int which, const char *what)
{
    checks++;
    if (!holds) {
        wrong++;
        printf("factor: %s, buffer %d: %s\n", night, which, what);
    }
}

static uint64_t bits(double x)
{
    uint64_t b;
    memcpy(&b, &x, sizeof b);
    return b;
}

/* The dimension of a block by new number. */
static uint32_t dim(const struct night *a, size_t k)
{
    return a->dims[a->order[k]];
}

/* Where the body of each block of L begins, and the end of all. */
static void offsets(const struct night *a, uint32_t ends[MOST + 1])
{
    ends[0] = 0;
    for (size_t k = 0; k < a->n; k++)
        for (size_t p = a->l_starts[k]; p < a->l_starts[k + 1]; p++)
            ends[p + 1] = ends[p] + dim(a, a->l_rows[p]) * dim(a, k);
}

/* A cache's need is L's numbers where these are few beside what is handed in, as they are here; tests/needs.c has a night where they are not. */
static size_t need(const struct night *a, int which)
{
    size_t squares = 0, scalars = 0, widest = 0, blocks = a->l_starts[a->n];
    uint32_t ends[MOST + 1];
    for (size_t k = 0; k < a->n; k++) {
        squares += a->dims[k] * a->dims[k];
        scalars += a->dims[k];
        widest = a->dims[k] > widest ? a->dims[k] : widest;
    }
    offsets(a, ends);
    switch (which) {
    case L_STARTS: case HEADS: case INTO: case UNIT_STARTS: case D_STARTS: return a->n + 1;
    case L_ROWS: return blocks;
    case L_OFFSETS: return blocks + 1;
    case L_VALUES: case CACHE: return ends[blocks];
    case DIAG: return squares;
    case D: return scalars;
    case COLUMN: return scalars * widest;
    case TABLE: case UPPER: return a->m;
    case BODIES: return a->m + 1;
    default: return a->n;
    }
}

/* The scalars before a block, by old number. */
static size_t before(const struct night *a, size_t block)
{
    size_t scalars = 0;
    for (size_t k = 0; k < block; k++)
        scalars += a->dims[k];
    return scalars;
}

/* The values of a symmetric matrix of all scalars, by the tables of A. */
static void take_values(const struct night *a, double full[SCALARS][SCALARS])
{
    values_len = 0;
    for (size_t j = 0; j < a->n; j++)
        for (size_t p = a->starts[j]; p < a->starts[j + 1]; p++)
            for (size_t c = 0; c < a->dims[j]; c++)
                for (size_t r = 0; r < a->dims[a->rows[p]]; r++)
                    values[values_len++] = full[before(a, a->rows[p]) + r][before(a, j) + c];
}

/* A matrix whose diagonal outweighs the rest; zero where the tables of A store nothing. */
static void fill(const struct night *a, double full[SCALARS][SCALARS])
{
    uint32_t drawn = 12345;
    memset(full, 0, sizeof(double[SCALARS][SCALARS]));
    for (size_t j = 0; j < a->n; j++)
        for (size_t p = a->starts[j]; p < a->starts[j + 1]; p++)
            for (size_t c = 0; c < a->dims[j]; c++)
                for (size_t r = 0; r < a->dims[a->rows[p]]; r++) {
                    size_t i = before(a, a->rows[p]) + r, k = before(a, j) + c;
                    drawn = drawn * 1664525 + 1013904223;
                    full[i][k] = full[k][i] = i == k ? 20.0 + (double)i : (double)(drawn >> 8) / (1 << 24) - 0.5;
                }
}

/* The unit matrix. */
static void fill_unit(const struct night *a, double full[SCALARS][SCALARS])
{
    memset(full, 0, sizeof(double[SCALARS][SCALARS]));
    for (size_t i = 0; i < before(a, a->n); i++)
        full[i][i] = 1.0;
}

#define WORDS(b) words[b] + 1, len[b]
#define FLOATS(b) floats[b] + 1, len[b]
#define HANDED a->dims, a->n, starts, a->n + 1, a->rows, a->m, values, values_len, a->perm, a->n, LATE, a->n, tol
#define LENT                                                                                                                          \
    WORDS(ORDER), WORDS(PARENTS), WORDS(L_STARTS), WORDS(L_ROWS), WORDS(L_OFFSETS), FLOATS(L_VALUES), FLOATS(DIAG), FLOATS(D),           \
        FLOATS(COLUMN), WORDS(INVERSE), WORDS(SIZES), WORDS(COUNT), WORDS(HEADS), WORDS(INTO), WORDS(STAMPS), WORDS(TABLE), WORDS(UPPER), \
        WORDS(BODIES), WORDS(UNIT_STARTS), WORDS(D_STARTS), WORDS(PLACES)

/* Each buffer has its need and what is spare at 1 of its room, less one place of the need where it is a short one. */
static uint32_t lend(const struct night *a, const uint32_t *starts, double tol, int short_one, int cached)
{
    size_t len[BUFFERS];
    for (int b = 0; b < BUFFERS; b++) {
        for (size_t i = 0; i < ROOM; i++) {
            words[b][i] = (uint32_t)GUARD;
            memcpy(&floats[b][i], &GUARD, sizeof GUARD);
        }
        len[b] = b == short_one || b == also_short ? need(a, b) - 1 : need(a, b) + spare;
    }
    for (size_t i = 0; i < 3; i++)
        told[i] = GUARD;
    value[0] = 7.25;
    return cached ? beyqaloosh_factorize_with_cache(HANDED, LENT, FLOATS(CACHE), told, value)
                  : beyqaloosh_factorize(HANDED, LENT, told, value);
}

/* What the call with a cache answers; without one it answers and leaves the same. */
static uint32_t call(const struct night *a, const uint32_t *starts, double tol, int short_one)
{
    static uint32_t plain_words[BUFFERS][ROOM];
    static double plain_floats[BUFFERS][ROOM];
    uint64_t plain_told[3], plain_value;
    uint32_t plain, answer;
    if (short_one == CACHE)
        return lend(a, starts, tol, short_one, 1);
    plain = lend(a, starts, tol, short_one, 0);
    memcpy(plain_words, words, sizeof words);
    memcpy(plain_floats, floats, sizeof floats);
    memcpy(plain_told, told, sizeof told);
    plain_value = bits(value[0]);
    answer = lend(a, starts, tol, short_one, 1);
    check(answer == plain && memcmp(told, plain_told, sizeof told) == 0 && bits(value[0]) == plain_value, a->name, -1,
          "another answer with a cache");
    for (int b = 0; b < CACHE; b++)
        check(memcmp(words[b], plain_words[b], sizeof words[b]) == 0 && memcmp(floats[b], plain_floats[b], sizeof floats[b]) == 0,
              a->name, b, "another content with a cache");
    return answer;
}

static uint64_t at(int which, size_t i)
{
    return of_floats(which) ? bits(floats[which][i]) : words[which][i];
}

/* The first `len` places of a buffer have the bits `all`; the rest is as it was. */
static void holds_all(const char *night, int which, uint64_t all, size_t len, const char *what)
{
    int same = 1;
    for (size_t i = 0; i < ROOM; i++)
        if (at(which, i) != (i < 1 || i > len ? GUARD : all))
            same = 0;
    check(same, night, which, what);
}

/* The same of a table, whose places are those of `expected`. */
static void holds(const char *night, int which, const uint32_t *expected, size_t len, const char *what)
{
    int same = 1;
    for (size_t i = 0; i < ROOM; i++)
        if (words[which][i] != (i < 1 || i > len ? GUARD : expected[i - 1]))
            same = 0;
    check(same, night, which, what);
}

/* Nothing before or after the need of a buffer is touched. */
static void guarded(const struct night *a, int which)
{
    int same = 1;
    for (size_t i = 0; i < ROOM; i++)
        if ((i < 1 || i > need(a, which)) && at(which, i) != GUARD)
            same = 0;
    check(same, a->name, which, "a place beyond the need was touched");
}

/* The plan's tables are written, and scratch is zeros. */
static void planned(const struct night *a)
{
    uint32_t ends[MOST + 1];
    offsets(a, ends);
    holds(a->name, ORDER, a->order, need(a, ORDER), "order");
    holds(a->name, PARENTS, a->parents, need(a, PARENTS), "parents");
    holds(a->name, L_STARTS, a->l_starts, need(a, L_STARTS), "starts of L");
    holds(a->name, L_ROWS, a->l_rows, need(a, L_ROWS), "rows of L");
    holds(a->name, L_OFFSETS, ends, need(a, L_OFFSETS), "offsets of L");
    for (int b = COLUMN; b < BUFFERS; b++)
        holds_all(a->name, b, 0, need(a, b), "scratch is not zeros");
}

static void accepted(const struct night *a)
{
    check(call(a, a->starts, 1e-12, -1) == 0, a->name, -1, "not accepted");
    check(told[0] == need(a, L_ROWS) && told[1] == need(a, L_VALUES), a->name, -1, "other counts");
    check(told[2] == a->products, a->name, -1, "other products");
    check(bits(value[0]) == 0, a->name, -1, "a float where there is none");
    planned(a);
    for (int b = L_VALUES; b <= D; b++)
        guarded(a, b);
}

/* L D Lᵀ is the permuted matrix: block (i, k) of the factor is L(i, k) times the unit factor of k. */
static void multiplies(const struct night *a, double full[SCALARS][SCALARS])
{
    static double l[SCALARS][SCALARS];
    size_t first[BLOCKS + 1] = {0}, unit = 1, scalars = before(a, a->n);
    uint32_t ends[MOST + 1];
    offsets(a, ends);
    memset(l, 0, sizeof l);
    for (size_t k = 0; k < a->n; k++)
        first[k + 1] = first[k] + dim(a, k);
    for (size_t k = 0; k < a->n; k++) {
        size_t w = dim(a, k);
        const double *u = floats[DIAG] + unit;
        for (size_t c = 0; c < w; c++) {
            for (size_t r = 0; r < w; r++) {
                l[first[k] + r][first[k] + c] = u[r + c * w];
                if (r <= c)
                    check(u[r + c * w] == (r == c ? 1.0 : 0.0), a->name, DIAG, "not a unit factor");
            }
            for (size_t p = a->l_starts[k]; p < a->l_starts[k + 1]; p++) {
                size_t h = dim(a, a->l_rows[p]);
                const double *body = floats[L_VALUES] + 1 + ends[p];
                for (size_t r = 0; r < h; r++)
                    for (size_t t = 0; t < w; t++)
                        l[first[a->l_rows[p]] + r][first[k] + c] += body[r + t * h] * u[t + c * w];
            }
        }
        unit += w * w;
    }
    for (size_t i = 0; i < a->n; i++)
        for (size_t j = 0; j <= i; j++) {
            double worst = 0.0;
            for (size_t r = 0; r < dim(a, i); r++)
                for (size_t c = 0; c < dim(a, j); c++) {
                    double sum = 0.0;
                    for (size_t t = 0; t < scalars; t++)
                        sum += l[first[i] + r][t] * floats[D][1 + t] * l[first[j] + c][t];
                    double off = fabs(sum - full[before(a, a->order[i]) + r][before(a, a->order[j]) + c]);
                    if (!(off <= worst))
                        worst = off;
                }
            check(worst < 1e-12, a->name, -1, "the factor does not multiply to A");
        }
}

/* After 13 and 14: NaN of the one kind in all numbers of the factor, the plan's tables, scratch zeros. */
static void spoilt(const struct night *a)
{
    for (int b = L_VALUES; b <= D; b++)
        holds_all(a->name, b, SPOILT, need(a, b), "not spoilt in full, or beyond the need");
    planned(a);
}

static void refused(const struct night *a)
{
    static double full[SCALARS][SCALARS];
    const double pivots[] = {INFINITY, -INFINITY, NAN, -NAN};
    const double tolerances[] = {0.0, -0.0, 1e-12, 1e300};
    for (size_t k = 0; k < a->n; k++)
        for (size_t row = 0; row < dim(a, k); row++) {
            size_t scalar = before(a, a->order[k]) + row;
            for (size_t x = 0; x < 4; x++)
                for (size_t t = 0; t < 4; t++) {
                    fill(a, full);
                    full[scalar][scalar] = pivots[x];
                    take_values(a, full);
                    check(call(a, a->starts, tolerances[t], -1) == 13, a->name, -1, "not 13");
                    check(told[0] == k && told[1] == row && told[2] == 0, a->name, -1, "13 at another place");
                    check(isnan(pivots[x]) ? isnan(value[0]) : value[0] == pivots[x], a->name, -1, "13 with another pivot");
                    spoilt(a);
                }
            /* kept, indefinite, and below 1e-10 */
            fill_unit(a, full);
            full[scalar][scalar] = -1e-11;
            take_values(a, full);
            for (size_t t = 0; t < 3; t++) {
                check(call(a, a->starts, tolerances[t], -1) == 14, a->name, -1, "not 14");
                check(told[0] == k && told[1] == 0 && told[2] == 0, a->name, -1, "14 at another block");
                check(value[0] == 1e-11, a->name, -1, "14 with another condition");
                spoilt(a);
            }
        }
}

static void shorts(const struct night *a)
{
    for (int s = 0; s < BUFFERS; s++) {
        if (need(a, s) == 0)
            continue;
        check(call(a, a->starts, 1e-12, s) == 11, a->name, s, "not 11");
        check(told[0] == (uint64_t)s && told[1] == need(a, s) && told[2] == 0, a->name, s, "11 with another need");
        check(bits(value[0]) == 0, a->name, s, "a float where there is none");
        for (int b = 0; b < BUFFERS; b++) {
            int shown = s == L_ROWS || s == L_OFFSETS || s == L_VALUES || s == CACHE;
            holds_all(a->name, b, shown && b >= COLUMN ? 0 : GUARD, need(a, b) - (b == s), "after 11");
        }
    }
}

/* Of two needs that only the plan shows the first in this order is told. */
static void in_order(const struct night *a)
{
    static const int TESTED[] = {L_OFFSETS, L_VALUES, CACHE, L_ROWS};
    for (int f = 0; f < 4; f++)
        for (int s = f + 1; s < 4; s++) {
            also_short = TESTED[s];
            check(lend(a, a->starts, 1e-12, TESTED[f], 1) == 11, a->name, TESTED[f], "not 11 where two are short");
            check(told[0] == (uint64_t)TESTED[f] && told[1] == need(a, TESTED[f]), a->name, TESTED[f], "the other of two that are short");
            also_short = -1;
        }
}

/* A refusal by the tables: its number and place, and all as it was. */
static void untouched(const struct night *a, const uint32_t *starts, double tol, uint32_t number, uint64_t place, const char *what)
{
    check(call(a, starts, tol, -1) == number && told[0] == place && told[1] == 0 && told[2] == 0, what, -1, "another answer");
    check(bits(value[0]) == 0, what, -1, "a float where there is none");
    for (int b = 0; b < BUFFERS; b++)
        holds_all(what, b, GUARD, 0, "touched");
}

int main(void)
{
    static double full[SCALARS][SCALARS];
    const double sheet[] = {4.0, 2.0, 5.0};
    memcpy(values, sheet, sizeof sheet);
    values_len = 3;
    accepted(&SHEET);
    check(floats[L_VALUES][1] == 0.5, SHEET.name, L_VALUES, "L(1, 0) is not 0.5");
    check(floats[DIAG][1] == 1.0 && floats[DIAG][2] == 1.0, SHEET.name, DIAG, "not the unit factors");
    check(floats[D][1] == 4.0 && floats[D][2] == 4.0, SHEET.name, D, "d is not 4, 4");
    shorts(&SHEET);
    refused(&SHEET);
    for (size_t k = 0; k < COUNT_OF_NIGHTS; k++) {
        const struct night *a = &NIGHTS[k];
        fill(a, full);
        take_values(a, full);
        spare = 2;
        accepted(a);
        shorts(a);
        in_order(a);
        spare = 0;
        accepted(a);
        multiplies(a, full);
        shorts(a);
        refused(a);
    }
    uint32_t falls[] = {0, 3, 2, 6, 7};
    fill(&NIGHTS[0], full);
    take_values(&NIGHTS[0], full);
    untouched(&NIGHTS[0], falls, 1e-12, 3, 2, "starts that fall");
    untouched(&NIGHTS[0], NIGHTS[0].starts, -1.0, 10, 0, "a tolerance below zero");
    untouched(&NIGHTS[0], NIGHTS[0].starts, NAN, 10, 0, "a tolerance that is NaN");
    values_len--;
    untouched(&NIGHTS[0], NIGHTS[0].starts, 1e-12, 7, 0, "a value too few");
    printf("factor: %d checks, %d wrong\n", checks, wrong);
    return wrong != 0;
}

/* The solve and the marks from C: document 01's two-block sheet, random systems, scratch one short, every table wrong in turn, the
   factor of another system, a factor that was refused, no block and 4,096. What is handed over and lent stands between guards, and after
   each call all of it is compared byte for byte: x and the needed scratch change where the call is accepted, else nothing does. */
#include <math.h>
#include <stdint.h>
#include <stdio.h>
#include <string.h>

#include "beyqaloosh.h"

/* The slices of a solve, in the order of its call. L_VALUES to Y are floats. */
enum {
    DIMS, STARTS, ROWS, PERM, LATE, ORDER, PARENTS, L_STARTS, L_ROWS, L_OFFSETS, L_VALUES, DIAG, D, X, Y, SCALAR_PERM, SIZES,
    SCALAR_STARTS, SLICES,
    BLOCKS = 12, WIDEST = 16, SCALARS = BLOCKS * WIDEST, STORED = BLOCKS * (BLOCKS + 1) / 2, VALUES = STORED * WIDEST * WIDEST,
    SPARE = 3, ROOM = 4104, NUMBERS = (STORED - BLOCKS) * WIDEST * WIDEST + 8
};
/* The floats' guard is a signalling NaN, whose bits any arithmetic would change. */
static const uint64_t GUARD = UINT64_C(0x7FF4000000000309);
static const uint32_t NONE = UINT32_MAX;
static int checks, wrong;

/* Every slice begins at 1 of its room. */
struct memory {
    uint32_t words[SLICES][ROOM];
    double floats[Y - L_VALUES + 1][NUMBERS];
    size_t len[SLICES];
};
static struct memory now, was, good, yesterday;
static uint64_t told[3];

/* A in full, by old number, and its values by the tables. */
static double full[SCALARS][SCALARS], right[SCALARS], values[VALUES];
static int linked[BLOCKS][BLOCKS], silent[SCALARS];
static size_t values_len;

static int check(int holds, const char *night, const char *what)
{
    checks++;
    if (!holds) {
        wrong++;
        printf("solve: %s: %s\n", night, what);
    }
    return holds;
}

static uint64_t bits(double x)
{
    uint64_t b;
    memcpy(&b, &x, sizeof b);
    return b;
}

static uint32_t *words(int which)
{
    return now.words[which] + 1;
}

static double *floats(int which)
{
    return now.floats[which - L_VALUES] + 1;
}

/* The scalars before an old block. */
static size_t before(size_t block)
{
    size_t scalars = 0;
    for (size_t k = 0; k < block; k++)
        scalars += words(DIMS)[k];
    return scalars;
}

/* The dimension of a new block, by an order. */
static uint32_t dim(const uint32_t *order, size_t k)
{
    return words(DIMS)[order[k]];
}

static size_t need(int which)
{
    size_t n = now.len[DIMS];
    return which == SIZES ? n : which == SCALAR_STARTS ? n + 1 : before(n);
}

static uint32_t drawn(uint32_t below)
{
    static uint64_t seed = 1;
    seed = seed * UINT64_C(6364136223846793005) + UINT64_C(1442695040888963407);
    return (uint32_t)(seed >> 33) % below;
}

/* From -0.5 to 0.5. */
static double drawn_number(void)
{
    return (double)drawn(1 << 24) / (1 << 24) - 0.5;
}

/* ---- systems */

static void clear(void)
{
    for (int s = 0; s < SLICES; s++) {
        for (size_t i = 0; i < ROOM; i++)
            now.words[s][i] = UINT32_C(777777777);
        now.len[s] = 0;
    }
    for (int s = 0; s <= Y - L_VALUES; s++)
        for (size_t i = 0; i < NUMBERS; i++)
            memcpy(&now.floats[s][i], &GUARD, sizeof GUARD);
}

/* n blocks of these dimensions, permutation and late flags, and what the solve is lent. */
static void blocks(size_t n, const uint32_t *dims, const uint32_t *perm, const uint32_t *late)
{
    clear();
    memcpy(words(DIMS), dims, n * sizeof *dims);
    memcpy(words(PERM), perm, n * sizeof *perm);
    memcpy(words(LATE), late, n * sizeof *late);
    now.len[DIMS] = now.len[PERM] = now.len[LATE] = n;
    now.len[STARTS] = n + 1;
    now.len[X] = need(X);
    for (int s = Y; s <= SCALAR_STARTS; s++)
        now.len[s] = need(s) + SPARE;
}

/* A's tables by `linked`, and its values by `full`. */
static void store(void)
{
    size_t n = now.len[DIMS], m = 0;
    values_len = 0;
    words(STARTS)[0] = 0;
    for (size_t j = 0; j < n; j++) {
        for (size_t i = j; i < n; i++)
            if (linked[i][j]) {
                words(ROWS)[m++] = (uint32_t)i;
                for (size_t c = before(j); c < before(j + 1); c++)
                    for (size_t r = before(i); r < before(i + 1); r++)
                        values[values_len++] = full[r][c];
            }
        words(STARTS)[j + 1] = (uint32_t)m;
    }
    now.len[ROWS] = m;
}

/* Numbers for the stored blocks, and a right side. The diagonal, of either sign, outweighs the rest; a silent scalar has zeros, and some
   bodies are all zeros. */
static void fill(void)
{
    size_t n = now.len[DIMS];
    memset(full, 0, sizeof full);
    for (size_t j = 0; j < n; j++)
        for (size_t i = j; i < n; i++)
            if (linked[i][j] && (i == j || drawn(8)))
                for (size_t r = before(i); r < before(i + 1); r++)
                    for (size_t c = before(j); c < before(j + 1); c++) {
                        double a = r == c ? (drawn(4) ? 1.0 : -1.0) * (100.0 + drawn(50)) : drawn_number();
                        if (r >= c && !silent[r] && !silent[c])
                            full[r][c] = full[c][r] = a;
                    }
    for (size_t i = 0; i < before(n); i++)
        right[i] = drawn_number();
    memcpy(floats(X), right, before(n) * sizeof *right);
    store();
}

static void draw_perm(size_t n, uint32_t *perm)
{
    for (size_t k = 0; k < n; k++)
        perm[k] = (uint32_t)k;
    for (size_t k = 1; k < n; k++) {
        size_t other = drawn((uint32_t)k + 1);
        uint32_t old = perm[k];
        perm[k] = perm[other];
        perm[other] = old;
    }
}

/* Blocks are stored by chance, but the diagonal ones always unless the last scalar of the block is silent. */
static void draw_links(size_t n)
{
    uint32_t one_in = 1 + drawn(6);
    for (size_t j = 0; j < n; j++) {
        linked[j][j] = !silent[before(j + 1) - 1] || drawn(2);
        for (size_t i = j + 1; i < n; i++)
            linked[i][j] = drawn(one_in) == 0;
    }
}

static void draw_night(void)
{
    uint32_t dims[BLOCKS], perm[BLOCKS], late[BLOCKS];
    size_t n = 1 + drawn(BLOCKS);
    for (size_t k = 0; k < n; k++) {
        dims[k] = 1 + drawn(WIDEST);
        late[k] = drawn(4) == 0;
    }
    draw_perm(n, perm);
    blocks(n, dims, perm, late);
    for (size_t k = 0; k < n; k++) {
        int whole = drawn(8) == 0;
        for (size_t r = before(k); r < before(k + 1); r++)
            silent[r] = whole || drawn(10) == 0;
        /* so that the last says whether all are */
        silent[before(k + 1) - 1] = whole;
    }
    draw_links(n);
    fill();
}

/* The factor of the system at hand goes to its slices, whatever the answer. */
static uint32_t factor(void)
{
    static double column[SCALARS * WIDEST];
    static uint32_t scratch[12][STORED + 1];
    size_t n = now.len[DIMS], m = now.len[ROWS], stored;
    uint64_t counts[3];
    double value[1];
    uint32_t answer = beyqaloosh_factorize(
        words(DIMS), n, words(STARTS), n + 1, words(ROWS), m, values, values_len, words(PERM), n, words(LATE), n, 1e-12,
        words(ORDER), n, words(PARENTS), n, words(L_STARTS), n + 1, words(L_ROWS), ROOM - 2, words(L_OFFSETS), ROOM - 2,
        floats(L_VALUES), NUMBERS - 2, floats(DIAG), NUMBERS - 2, floats(D), NUMBERS - 2, column, SCALARS * WIDEST,
        scratch[0], STORED + 1, scratch[1], STORED + 1, scratch[2], STORED + 1, scratch[3], STORED + 1, scratch[4], STORED + 1,
        scratch[5], STORED + 1, scratch[6], STORED + 1, scratch[7], STORED + 1, scratch[8], STORED + 1, scratch[9], STORED + 1,
        scratch[10], STORED + 1, scratch[11], STORED + 1, counts, value);
    stored = words(L_STARTS)[n];
    now.len[ORDER] = now.len[PARENTS] = n;
    now.len[L_STARTS] = n + 1;
    now.len[L_ROWS] = stored;
    now.len[L_OFFSETS] = stored + 1;
    now.len[L_VALUES] = words(L_OFFSETS)[stored];
    now.len[DIAG] = 0;
    for (size_t k = 0; k < n; k++)
        now.len[DIAG] += words(DIMS)[k] * words(DIMS)[k];
    now.len[D] = need(X);
    return answer;
}

/* ---- calls */

static uint32_t call_with(const uint32_t *rows)
{
    was = now;
    for (size_t i = 0; i < 3; i++)
        told[i] = GUARD;
    return beyqaloosh_solve_inplace(
        words(DIMS), now.len[DIMS], words(STARTS), now.len[STARTS], rows, now.len[ROWS], words(PERM), now.len[PERM], words(LATE),
        now.len[LATE], words(ORDER), now.len[ORDER], words(PARENTS), now.len[PARENTS], words(L_STARTS), now.len[L_STARTS],
        words(L_ROWS), now.len[L_ROWS], words(L_OFFSETS), now.len[L_OFFSETS], floats(L_VALUES), now.len[L_VALUES], floats(DIAG),
        now.len[DIAG], floats(D), now.len[D], floats(X), now.len[X], floats(Y), now.len[Y], words(SCALAR_PERM),
        now.len[SCALAR_PERM], words(SIZES), now.len[SIZES], words(SCALAR_STARTS), now.len[SCALAR_STARTS], told);
}

static int tells(uint64_t first, uint64_t second, uint64_t third)
{
    return told[0] == first && told[1] == second && told[2] == third;
}

/* x is for the caller to test. */
static void accepted(const char *night)
{
    if (!check(call_with(words(ROWS)) == 0 && tells(0, 0, 0), night, "not accepted"))
        return;
    memcpy(was.floats[X - L_VALUES] + 1, floats(X), need(X) * sizeof(double));
    memset(was.floats[Y - L_VALUES] + 1, 0, need(Y) * sizeof(double));
    for (int s = SCALAR_PERM; s <= SCALAR_STARTS; s++)
        memset(was.words[s] + 1, 0, need(s) * sizeof(uint32_t));
    check(memcmp(&now, &was, sizeof now) == 0, night, "scratch is not zeros, or a place beyond the need was touched");
}

static void refused_with(const uint32_t *rows, const char *what, uint32_t number, uint64_t first, uint64_t second, uint64_t third)
{
    uint32_t answer = call_with(rows);
    if (!check(answer == number && tells(first, second, third), what, "another answer"))
        printf("    %u (%llu %llu %llu), not %u (%llu %llu %llu)\n", answer, (unsigned long long)told[0], (unsigned long long)told[1],
               (unsigned long long)told[2], number, (unsigned long long)first, (unsigned long long)second, (unsigned long long)third);
    check(memcmp(&now, &was, sizeof now) == 0, what, "refused, and something was touched");
}

/* Refused, and then the good call is there again. */
static void refused(const char *what, uint32_t number, uint64_t first, uint64_t second, uint64_t third)
{
    refused_with(words(ROWS), what, number, first, second, third);
    now = good;
}

/* A x is the right side where a scalar is heard; x is 0.0 where it is silent. */
static void solves(const char *night)
{
    size_t scalars = need(X);
    const double *x = floats(X);
    for (size_t i = 0; i < scalars; i++) {
        double off = -right[i], size = fabs(right[i]);
        for (size_t k = 0; k < scalars; k++) {
            off += full[i][k] * x[k];
            size += fabs(full[i][k] * x[k]);
        }
        if (silent[i])
            check(bits(x[i]) == 0, night, "a silent scalar is not 0.0");
        else
            check(fabs(off) <= 1e-13 * size, night, "A x is not the right side");
    }
}

/* ---- marks */

static uint8_t bytes[ROOM], bytes_were[ROOM];

static uint32_t call_marks(double tol, size_t len)
{
    memset(bytes, 165, sizeof bytes);
    memcpy(bytes_were, bytes, sizeof bytes);
    for (size_t i = 0; i < 3; i++)
        told[i] = GUARD;
    return beyqaloosh_marks(words(DIMS), now.len[DIMS], words(ORDER), now.len[ORDER], floats(D), now.len[D], tol, bytes + 1, len, told);
}

/* 0 where the stored d equals 0.0, by the old number of its scalar, else 1. */
static void marked(const char *night)
{
    size_t new = 0, count = 0;
    check(call_marks(1e-12, need(X) + SPARE) == 0, night, "marks not accepted");
    for (size_t k = 0; k < now.len[ORDER]; k++)
        for (size_t s = 0; s < dim(words(ORDER), k); s++) {
            int zero = floats(D)[new++] == 0.0;
            bytes_were[1 + before(words(ORDER)[k]) + s] = !zero;
            count += (size_t)zero;
        }
    check(memcmp(bytes, bytes_were, sizeof bytes) == 0, night, "other marks, or a place beyond them was touched");
    check(tells(count, 0, 0), night, "another count of silent scalars");
}

static void marks_refused(const char *what, double tol, size_t len, uint32_t number, uint64_t first, uint64_t second)
{
    check(call_marks(tol, len) == number && tells(first, second, 0), what, "another answer of the marks");
    check(memcmp(bytes, bytes_were, sizeof bytes) == 0, what, "marks refused, and a byte was touched");
    now = good;
}

static void wrong_marks(void)
{
    size_t n = now.len[DIMS], scalars = need(X);
    double tolerances[] = {NAN, INFINITY, -INFINITY, -1e-300};
    good = now;
    for (size_t t = 0; t < 4; t++)
        marks_refused("marks, 10", tolerances[t], scalars, 10, 0, 0);
    for (size_t k = 0; k < n; k++) {
        words(DIMS)[k] = 17;
        marks_refused("marks, 2", 1e-12, scalars, 2, k, 0);
        words(ORDER)[k] = (uint32_t)n;
        marks_refused("marks, 8", 1e-12, scalars, 8, k, 0);
    }
    now.len[ORDER]--;
    marks_refused("marks, 8, an entry less", 1e-12, scalars, 8, n - 1, 0);
    marks_refused("marks, 11", 1e-12, scalars - 1, 11, 0, scalars);
    now.len[D]--;
    marks_refused("marks, 12, a pivot less", 1e-12, scalars, 12, 2, 0);
    now.len[D]++;
    marks_refused("marks, 12, a pivot more", 1e-12, scalars, 12, 2, 0);
    now.len[DIMS] = 4097;
    marks_refused("marks, 1", 1e-12, scalars, 1, 0, 0);
}

/* ---- refusals */

/* 3, 5, 6 of A's tables or of the factor's, whose rows begin past the diagonal. A refusal of the latter carries a 2. */
static void wrong_columns(int starts, int rows)
{
    size_t n = now.len[DIMS], past = starts == L_STARTS, mine = 2 * past;
    words(starts)[0] = 1;
    refused("3, not from 0", 3, 0, mine, 0);
    words(starts)[n]++;
    refused("3, not to the rows", 3, n, mine, 0);
    words(starts)[n] = UINT32_MAX;
    refused("3, far past the rows", 3, n, mine, 0);
    now.len[starts] = n;
    refused("3, one less", 3, n, mine, 0);
    now.len[starts] = n + 2;
    refused("3, one more", 3, n + 1, mine, 0);
    for (size_t j = 0; j < n; j++) {
        if (words(starts)[j] > 0) {
            words(starts)[j + 1] = words(starts)[j] - 1;
            refused("3, falling", 3, j + 1, mine, 0);
        }
        for (size_t p = words(starts)[j]; p < words(starts)[j + 1]; p++) {
            words(rows)[p] = (uint32_t)n;
            refused("5, past the last block", 5, p, mine, 0);
            if (j + past > 0) {
                words(rows)[p] = (uint32_t)(j + past - 1);
                refused("5, before the first", 5, p, mine, 0);
            }
            if (p > words(starts)[j]) {
                words(rows)[p] = words(rows)[p - 1];
                refused("6, twice the same", 6, p, mine, 0);
            }
        }
    }
}

/* A slice one shorter, then one longer: the number, and what is told of each. */
static void wrong_length(int which, const char *what, uint32_t number, uint64_t less, uint64_t more)
{
    if (now.len[which] > 0) {
        now.len[which]--;
        refused(what, number, less, 0, 0);
    }
    now.len[which]++;
    refused(what, number, more, 0, 0);
}

/* 2, 8, 9. */
static void wrong_blocks(void)
{
    size_t n = now.len[DIMS];
    for (size_t k = 0; k < n; k++) {
        words(DIMS)[k] = 0;
        refused("2, a dimension 0", 2, k, 0, 0);
        words(DIMS)[k] = 17;
        refused("2, a dimension 17", 2, k, 0, 0);
        words(PERM)[k] = (uint32_t)n;
        refused("8, too large", 8, k, 0, 0);
        for (size_t i = 0; i < k; i++) {
            words(PERM)[k] = words(PERM)[i];
            refused("8, twice the same", 8, k, 0, 0);
        }
        words(LATE)[k] = 2;
        refused("9, a flag 2", 9, k, 0, 0);
    }
    wrong_length(PERM, "8, another length", 8, n - 1, n);
    wrong_length(LATE, "9, another length", 9, n - 1, n);
}

/* 11: each scratch buffer one short, and empty; of several the first. At the need exactly, the call is accepted. */
static void shorts(void)
{
    for (int s = Y; s <= SCALAR_STARTS; s++) {
        now.len[s] = need(s) - 1;
        refused("11, one short", 11, (uint64_t)(s - X), need(s), 0);
        for (int later = s; later <= SCALAR_STARTS; later++)
            now.len[later] = 0;
        refused("11, empty", 11, (uint64_t)(s - X), need(s), 0);
    }
    for (int s = Y; s <= SCALAR_STARTS; s++)
        now.len[s] = need(s);
    accepted("scratch at its need");
    now = good;
}

/* L's offsets and the count of its numbers, by its rows. */
static void lay_out(void)
{
    uint32_t end = 0;
    size_t p = 0;
    words(L_OFFSETS)[0] = 0;
    for (size_t k = 0; k < now.len[DIMS]; k++)
        for (; p < words(L_STARTS)[k + 1]; p++)
            words(L_OFFSETS)[p + 1] = end += dim(words(ORDER), words(L_ROWS)[p]) * dim(words(ORDER), k);
    now.len[L_ROWS] = p;
    now.len[L_OFFSETS] = p + 1;
    now.len[L_VALUES] = end;
}

/* The row at place p of column k is taken out of L. */
static void take_out(size_t k, size_t p)
{
    memmove(words(L_ROWS) + p, words(L_ROWS) + p + 1, (now.len[L_ROWS] - p - 1) * sizeof(uint32_t));
    for (size_t j = k + 1; j <= now.len[DIMS]; j++)
        words(L_STARTS)[j]--;
    lay_out();
}

/* A row is put in at place p of column k. */
static void put_in(size_t k, size_t p, size_t row)
{
    memmove(words(L_ROWS) + p + 1, words(L_ROWS) + p, (now.len[L_ROWS] - p) * sizeof(uint32_t));
    words(L_ROWS)[p] = (uint32_t)row;
    for (size_t j = k + 1; j <= now.len[DIMS]; j++)
        words(L_STARTS)[j]++;
    lay_out();
}

/* 5: a parent that is not a greater block, nor none. */
static void wrong_parents(void)
{
    size_t n = now.len[DIMS];
    for (size_t k = 0; k < n; k++) {
        words(PARENTS)[k] = (uint32_t)n;
        refused("5, a parent past the last block", 5, k, 1, 0);
        for (size_t block = 0; block <= k; block++) {
            words(PARENTS)[k] = (uint32_t)block;
            refused("5, a parent that is not greater", 5, k, 1, 0);
        }
    }
    words(PARENTS)[n] = 0;
    now.len[PARENTS]++;
    refused("5, a parent too many that may not be", 5, n, 1, 0);
}

/* 12: the columns and the parents of the factor. */
static void wrong_factor_columns(void)
{
    size_t n = now.len[DIMS];
    for (size_t k = 0; k < n; k++) {
        size_t p = words(L_STARTS)[k];
        for (size_t row = k + 1; row < n; row++) {
            int stored = p < words(L_STARTS)[k + 1] && words(L_ROWS)[p] == row;
            if (stored) {
                take_out(k, p);
                refused("12, a row less", 12, 8, k, 0);
            } else {
                put_in(k, p, row);
                refused("12, a row more", 12, 8, k, 1);
            }
            if (words(PARENTS)[k] != row) {
                words(PARENTS)[k] = (uint32_t)row;
                refused("12, another parent", 12, 6, k, 2);
            }
            p += (size_t)stored;
        }
        if (words(PARENTS)[k] != NONE) {
            words(PARENTS)[k] = NONE;
            refused("12, no parent", 12, 6, k, 2);
        }
    }
}

/* 7, and the rest of 12. */
static void wrong_lists(void)
{
    for (size_t k = 0; k + 1 < now.len[ORDER]; k++) {
        uint32_t old = words(ORDER)[k];
        words(ORDER)[k] = words(ORDER)[k + 1];
        words(ORDER)[k + 1] = old;
        refused("12, two blocks of the order swapped", 12, ORDER, 0, 0);
    }
    for (size_t p = 0; p < now.len[L_OFFSETS]; p++) {
        words(L_OFFSETS)[p]++;
        refused("12, an offset off by one", 12, L_OFFSETS, 0, 0);
        words(L_OFFSETS)[p] = UINT32_MAX;
        refused("12, an offset far off", 12, L_OFFSETS, 0, 0);
    }
    wrong_length(ORDER, "12, an order of another length", 12, ORDER, ORDER);
    wrong_length(PARENTS, "12, parents of another count", 12, PARENTS, PARENTS);
    wrong_length(L_OFFSETS, "12, offsets of another count", 12, L_OFFSETS, L_OFFSETS);
    wrong_length(L_VALUES, "7, values of another count", 7, 0, 0);
    wrong_length(DIAG, "12, unit factors of another count", 12, DIAG, DIAG);
    wrong_length(D, "12, pivots of another count", 12, D, D);
    wrong_length(X, "12, a right side of another length", 12, X, X);
}

/* Every table wrong in turn. The right side is signalling NaN, as y is, so that a number worked with would show. */
static void wrong_tables(void)
{
    for (size_t i = 0; i < now.len[X]; i++)
        memcpy(&floats(X)[i], &GUARD, sizeof GUARD);
    /* a parent too many is one that may be */
    words(PARENTS)[now.len[PARENTS]] = NONE;
    good = now;
    wrong_blocks();
    wrong_columns(STARTS, ROWS);
    wrong_columns(L_STARTS, L_ROWS);
    wrong_parents();
    shorts();
    wrong_factor_columns();
    wrong_lists();
}

/* 1 and 4, which are tested before anything else is read. */
static void too_many(void)
{
    static uint32_t many[65537];
    good = now;
    for (size_t k = 0; k < 4097; k++)
        words(DIMS)[k] = 1;
    now.len[DIMS] = 4097;
    refused("1", 1, 0, 0, 0);
    now.len[ROWS] = words(STARTS)[now.len[DIMS]] = 65537;
    refused_with(many, "4", 4, 0, 0, 0);
    now = good;
}

/* ---- the factor of another system */

/* What the system at hand, whose own factor stands in its slices, must answer to yesterday's: 7 where that has another count of values
   under today's order, else the first table that differs. Returns the number and what is told. */
static uint32_t difference(uint64_t place[3])
{
    size_t n = now.len[DIMS], area = 0;
    const uint32_t *starts = yesterday.words[L_STARTS] + 1, *rows = yesterday.words[L_ROWS] + 1;
    memset(place, 0, 3 * sizeof *place);
    for (size_t k = 0; k < n; k++)
        for (size_t p = starts[k]; p < starts[k + 1]; p++)
            area += dim(words(ORDER), rows[p]) * dim(words(ORDER), k);
    if (area != yesterday.len[L_VALUES])
        return 7;
    place[0] = ORDER;
    if (memcmp(words(ORDER), yesterday.words[ORDER] + 1, n * sizeof(uint32_t)) != 0)
        return 12;
    for (size_t k = 0; k < n; k++) {
        int has[BLOCKS] = {0}, wants[BLOCKS] = {0};
        for (size_t p = starts[k]; p < starts[k + 1]; p++)
            has[rows[p]] = 1;
        for (size_t p = words(L_STARTS)[k]; p < words(L_STARTS)[k + 1]; p++)
            wants[words(L_ROWS)[p]] = 1;
        place[0] = L_ROWS;
        place[1] = k;
        for (place[2] = 0; place[2] < 2; place[2]++)
            for (size_t i = 0; i < n; i++)
                if (has[i] != wants[i] && has[i] == (int)place[2])
                    return 12;
    }
    place[1] = place[2] = 0;
    for (int s = L_OFFSETS; s <= D; s++)
        if (now.len[s] != yesterday.len[s]
            || (s == L_OFFSETS && memcmp(words(s), yesterday.words[s] + 1, now.len[s] * sizeof(uint32_t)) != 0)) {
            place[0] = (uint64_t)s;
            return 12;
        }
    place[0] = 0;
    return 0;
}

/* A solve of today's system with yesterday's factor. Returns how that differs: 0, 7, or for 12 1000 + 10 × the table + the kind. */
static uint64_t stale(const char *what)
{
    uint64_t place[3];
    uint32_t number = difference(place);
    for (int s = ORDER; s <= D; s++) {
        now.len[s] = yesterday.len[s];
        if (s < L_VALUES)
            memcpy(now.words[s], yesterday.words[s], sizeof now.words[s]);
        else
            memcpy(now.floats[s - L_VALUES], yesterday.floats[s - L_VALUES], sizeof now.floats[s - L_VALUES]);
    }
    good = now;
    if (number == 0)
        accepted(what);
    else
        refused(what, number, place[0], place[1], place[2]);
    return number < 12 ? number : 1000 + 10 * place[0] + place[2];
}

/* The same blocks with other links, another permutation, other late flags, or one other dimension. */
static uint64_t stale_night(size_t turn)
{
    size_t n;
    draw_night();
    factor();
    yesterday = now;
    n = now.len[DIMS];
    switch (turn % 4) {
    case 0: draw_links(n); break;
    case 1: draw_perm(n, words(PERM)); break;
    case 2: words(LATE)[drawn((uint32_t)n)] ^= 1; break;
    default: words(DIMS)[drawn((uint32_t)n)] = 1 + drawn(WIDEST); break;
    }
    memset(silent, 0, sizeof silent);
    for (size_t k = 0; k < n; k++)
        linked[k][k] = 1;
    now.len[X] = need(X);
    for (int s = Y; s <= SCALAR_STARTS; s++)
        now.len[s] = need(s) + SPARE;
    fill();
    check(factor() == 0, "today's system", "not factored");
    return stale("yesterday's factor");
}

/* P1's factor where a link has come, and where one has gone. */
static void stale_by_hand(void)
{
    const uint32_t dims[] = {2, 1, 3, 2}, perm[] = {0, 1, 2, 3}, late[4] = {0};
    const int p1[4][4] = {{1}, {1, 1}, {0, 1, 1}, {1, 0, 0, 1}};
    memset(silent, 0, sizeof silent);
    for (int turn = 0; turn < 3; turn++) {
        memset(linked, 0, sizeof linked);
        for (size_t i = 0; i < 4; i++)
            for (size_t j = 0; j < 4; j++)
                linked[i][j] = p1[i][j];
        blocks(4, dims, perm, late);
        fill();
        factor();
        yesterday = now;
        /* (3, 2) is filled in already, so its coming changes no table */
        linked[turn == 0 ? 2 : 3][turn == 2 ? 2 : 0] = turn != 1;
        blocks(4, dims, perm, late);
        fill();
        factor();
        check(stale("P1's factor") == (turn == 2 ? 0 : 1000 + 10 * L_ROWS + (uint64_t)turn), "P1's factor", "another answer");
        check(turn == 2 || tells(8, 0, (uint64_t)turn), "P1's factor", "another column");
    }
}

/* ---- whole nights */

static void two_blocks(void)
{
    const uint32_t dims[] = {1, 1}, perm[] = {0, 1}, late[] = {0, 0};
    const double sheet[] = {4.0, 2.0, 5.0};
    blocks(2, dims, perm, late);
    memset(linked, 0, sizeof linked);
    linked[0][0] = linked[1][0] = linked[1][1] = 1;
    store();
    memcpy(values, sheet, sizeof sheet);
    check(factor() == 0, "two blocks", "not factored");
    floats(X)[0] = floats(X)[1] = 8.0;
    accepted("two blocks");
    check(bits(floats(X)[0]) == UINT64_C(0x3FF8000000000000), "two blocks", "x is not 1.5 first");
    check(bits(floats(X)[1]) == UINT64_C(0x3FF0000000000000), "two blocks", "x is not 1.0 second");
    marked("two blocks");
    check(bytes[1] == 1 && bytes[2] == 1 && told[0] == 0, "two blocks", "not both heard");
    wrong_marks();
    too_many();
    wrong_tables();
}

/* 0.0 and -0.0 are silent; a NaN and the least number are heard; in old order. */
static void marks_by_hand(void)
{
    const uint32_t dims[] = {2, 1, 2}, perm[] = {2, 0, 1}, late[] = {0, 0, 0};
    const double d[] = {0.0, NAN, -0.0, 0x1p-1074, -3.0};
    const uint8_t expected[] = {0, 1, 1, 0, 1};
    blocks(3, dims, perm, late);
    memcpy(words(ORDER), perm, sizeof perm);
    memcpy(floats(D), d, sizeof d);
    now.len[ORDER] = 3;
    now.len[D] = 5;
    marked("marks by hand");
    check(memcmp(bytes + 1, expected, 5) == 0 && tells(2, 0, 0), "marks by hand", "other marks");
}

/* A factor that was refused is NaN, and so is all that is solved with it. */
static void spoilt(void)
{
    int all = 1;
    draw_night();
    linked[0][0] = 1;
    full[0][0] = INFINITY;
    store();
    check(factor() == 13, "a spoilt factor", "not 13");
    accepted("a spoilt factor");
    for (size_t i = 0; i < need(X); i++)
        all &= isnan(floats(X)[i]) != 0;
    check(all, "a spoilt factor", "a solution that is not NaN");
    marked("a spoilt factor");
    check(told[0] == 0, "a spoilt factor", "a silent scalar");
}

/* n blocks of one scalar with no links: no block, and as many as there may be. */
static void apart(size_t n)
{
    int halved = 1;
    clear();
    for (size_t k = 0; k <= n; k++) {
        words(DIMS)[k] = 1;
        words(PERM)[k] = words(ORDER)[k] = (uint32_t)k;
        words(STARTS)[k] = words(L_STARTS)[k] = words(LATE)[k] = 0;
        words(PARENTS)[k] = NONE;
        floats(DIAG)[k] = 1.0;
        floats(D)[k] = 2.0;
        floats(X)[k] = (double)k;
    }
    words(L_OFFSETS)[0] = 0;
    for (int s = 0; s < SLICES; s++)
        now.len[s] = n;
    now.len[STARTS] = now.len[L_STARTS] = now.len[SCALAR_STARTS] = n + 1;
    now.len[ROWS] = now.len[L_ROWS] = now.len[L_VALUES] = 0;
    now.len[L_OFFSETS] = 1;
    accepted("blocks apart");
    for (size_t k = 0; k < n; k++)
        halved &= floats(X)[k] == (double)k / 2.0;
    check(halved, "blocks apart", "not halved");
    marked("blocks apart");
}

int main(void)
{
    int same = 0, values_differ = 0, order_differs = 0, lacks = 0, has_more = 0, shape_differs = 0;
    two_blocks();
    marks_by_hand();
    stale_by_hand();
    apart(0);
    apart(4096);
    for (size_t night = 0; night < 60 && wrong < 20; night++) {
        draw_night();
        check(factor() == 0, "a random night", "not factored");
        good = now;
        accepted("a random night");
        solves("a random night");
        marked("a random night");
        for (size_t i = 0; i < need(X); i++)
            check(bytes[1 + i] == !silent[i], "a random night", "another mark");
        now = good;
        if (night % 3 == 0) {
            wrong_marks();
            wrong_tables();
        }
        spoilt();
    }
    for (size_t turn = 0; turn < 200 && wrong < 20; turn++) {
        uint64_t how = stale_night(turn);
        same += how == 0;
        values_differ += how == 7;
        order_differs += how == 1000 + 10 * ORDER;
        lacks += how == 1000 + 10 * L_ROWS;
        has_more += how == 1000 + 10 * L_ROWS + 1;
        shape_differs += how >= 1000 + 10 * L_OFFSETS;
    }
    check(same && values_differ && order_differs && lacks && has_more && shape_differs, "yesterday's factor", "a kind never met");
    printf("solve: %d checks, %d wrong\n", checks, wrong);
    return wrong != 0;
}

/* The needs from C: random nights are planned, factored without a cache and with one, solved and marked in buffers that have exactly the
   needs that were told, and with each buffer one short in turn, which is 11 with that buffer and that need. Then a night whose cache needs
   less than L's numbers, the limits, what is refused, and needs that no plan has. The needs and the report stand between guards, and every
   call writes both in full. */
#include <stdint.h>
#include <stdio.h>
#include <string.h>

#include "beyqaloosh.h"

/* The lent buffers of a factorization, in the order of its call, the cache last. A plan has the first four and INVERSE to UPPER; a solve's come
   after. */
enum {
    ORDER, PARENTS, L_STARTS, L_ROWS, L_OFFSETS, L_VALUES, DIAG, D, COLUMN, INVERSE, SIZES, COUNT, HEADS, INTO, STAMPS, TABLE, UPPER,
    BODIES, UNIT_STARTS, D_STARTS, PLACES, FACTOR, CACHE = FACTOR, CACHED, X = CACHED, Y, SCALAR_PERM, SOLVE_SIZES, SCALAR_STARTS, BUFFERS,
    PLAN = 12, SOLVE = 5, BLOCKS = 7, WIDEST = 16, STORED = BLOCKS * (BLOCKS + 1) / 2, ROOM = STORED * WIDEST * WIDEST, MOST = 22
};
static const int PLANNED[PLAN] = {ORDER, PARENTS, L_STARTS, L_ROWS, INVERSE, SIZES, COUNT, HEADS, INTO, STAMPS, TABLE, UPPER};
static const uint64_t GUARD = UINT64_C(777777777);
static int checks, wrong;

/* The night. */
static uint32_t dims[BLOCKS], starts[BLOCKS + 1], rows[STORED], perm[BLOCKS], late[BLOCKS];
static double values[ROOM];
static size_t n, m, values_len;

/* What is lent, and how much of it. */
static uint32_t words[BUFFERS][ROOM];
static double floats[BUFFERS][ROOM];
static uint8_t bytes[ROOM];
static size_t len[BUFFERS];

/* The needs and the report begin at 1. */
static uint64_t needs[MOST + 2], told[5];

static void check(int holds, const char *call, int which, const char *what)
{
    checks++;
    if (!holds) {
        wrong++;
        printf("needs: %s, buffer %d: %s\n", call, which, what);
    }
}

static uint32_t drawn(uint32_t below)
{
    static uint64_t seed = 1;
    seed = seed * UINT64_C(6364136223846793005) + UINT64_C(1442695040888963407);
    return (uint32_t)(seed >> 33) % below;
}

/* ---- the needs */

static void guard(void)
{
    for (size_t i = 0; i < MOST + 2; i++)
        needs[i] = GUARD;
    for (size_t i = 0; i < 5; i++)
        told[i] = GUARD;
}

static int tells(uint64_t first, uint64_t second, uint64_t third)
{
    return told[0] == GUARD && told[1] == first && told[2] == second && told[3] == third && told[4] == GUARD;
}

/* Nothing beside the `count` needs is written. */
static int guarded(size_t count)
{
    int same = needs[0] == GUARD;
    for (size_t i = count + 1; i < MOST + 2; i++)
        same = same && needs[i] == GUARD;
    return same;
}

static void accepted(uint32_t answer, size_t count, const char *call)
{
    check(answer == 0 && tells(0, 0, 0) && guarded(count), call, -1, "needs: not accepted");
}

/* Refused, the needs are zeros. */
static void refused(uint32_t answer, size_t count, const char *call, uint32_t number, uint64_t place)
{
    int zeros = 1;
    for (size_t i = 1; i <= count; i++)
        zeros = zeros && needs[i] == 0;
    check(answer == number && tells(place, 0, 0), call, -1, "needs: number or report");
    check(zeros && guarded(count), call, -1, "needs: not zeros");
}

static uint32_t tree_needs(size_t blocks)
{
    guard();
    return beyqaloosh_elimination_tree_needs(blocks, needs + 1, told + 1);
}

static uint32_t reach_needs(size_t blocks)
{
    guard();
    return beyqaloosh_reach_needs(blocks, needs + 1, told + 1);
}

static uint32_t plan_needs(size_t blocks, size_t stored, uint32_t l_blocks)
{
    guard();
    return beyqaloosh_plan_needs(blocks, stored, l_blocks, needs + 1, told + 1);
}

static uint32_t factor_needs(const uint32_t *of, size_t blocks, size_t stored, uint32_t l_blocks, uint32_t l_numbers)
{
    guard();
    return beyqaloosh_factorize_needs(of, blocks, stored, l_blocks, l_numbers, needs + 1, told + 1);
}

static uint32_t cached_needs(const uint32_t *of, size_t blocks, size_t stored, uint32_t numbers, uint32_t l_blocks, uint32_t l_numbers)
{
    guard();
    return beyqaloosh_factorize_with_cache_needs(of, blocks, stored, numbers, l_blocks, l_numbers, needs + 1, told + 1);
}

static uint32_t solve_needs(const uint32_t *of, size_t blocks)
{
    guard();
    return beyqaloosh_solve_inplace_needs(of, blocks, needs + 1, told + 1);
}

static uint32_t marks_needs(const uint32_t *of, size_t blocks)
{
    guard();
    return beyqaloosh_marks_needs(of, blocks, needs + 1, told + 1);
}

/* ---- a night */

/* The scalars, and the sum of the dimensions' squares. */
static size_t scalars(void)
{
    size_t sum = 0;
    for (size_t k = 0; k < n; k++)
        sum += dims[k];
    return sum;
}

static size_t squares(void)
{
    size_t sum = 0;
    for (size_t k = 0; k < n; k++)
        sum += dims[k] * dims[k];
    return sum;
}

/* Each diagonal block is stored, and outweighs what is stored beside it. */
static void draw_night(void)
{
    uint32_t one_in = 1 + drawn(5);
    n = drawn(BLOCKS + 1);
    m = values_len = 0;
    for (size_t k = 0; k < n; k++) {
        dims[k] = 1 + drawn(drawn(4) ? 4 : WIDEST);
        perm[k] = (uint32_t)k;
        late[k] = drawn(4) == 0;
    }
    for (size_t k = 1; k < n; k++) {
        size_t other = drawn((uint32_t)k + 1);
        uint32_t old = perm[k];
        perm[k] = perm[other];
        perm[other] = old;
    }
    starts[0] = 0;
    for (size_t j = 0; j < n; j++) {
        for (size_t i = j; i < n; i++)
            if (i == j || drawn(one_in) == 0) {
                rows[m++] = (uint32_t)i;
                for (size_t c = 0; c < dims[j]; c++)
                    for (size_t r = 0; r < dims[i]; r++)
                        values[values_len++] = i == j && r == c ? 200.0 + drawn(50) : (double)drawn(100) / 100 - 0.5;
            }
        starts[j + 1] = (uint32_t)m;
    }
}

/* A hub of one scalar, eliminated first, that reaches 4 blocks of 16, and nothing else stored: L has every block below the diagonal. The
   numbers are powers of two, so that none is rounded. */
static void draw_hub(void)
{
    n = m = 5;
    values_len = starts[0] = 0;
    for (size_t k = 0; k < n; k++) {
        dims[k] = k == 0 ? 1 : 16;
        perm[k] = rows[k] = (uint32_t)k;
        late[k] = 0;
        starts[k + 1] = 5;
        for (size_t r = 0; r < dims[k]; r++)
            values[values_len++] = k == 0 ? -1.0 : 1.0 / (double)(1 << (r + k) % 8);
    }
}

/* ---- the calls, each in buffers of the lengths at hand */

#define WORDS(b) words[b], len[b]
#define FLOATS(b) floats[b], len[b]
#define NIGHT dims, n, starts, n + 1, rows, m

static uint32_t call_plan(uint64_t out[3])
{
    return beyqaloosh_plan(NIGHT, perm, n, late, n, WORDS(ORDER), WORDS(PARENTS), WORDS(L_STARTS), WORDS(L_ROWS), WORDS(INVERSE),
                           WORDS(SIZES), WORDS(COUNT), WORDS(HEADS), WORDS(INTO), WORDS(STAMPS), WORDS(TABLE), WORDS(UPPER), out);
}

#define NUMBERED NIGHT, values, values_len, perm, n, late, n, 1e-12
#define LENT                                                                                                                          \
    WORDS(ORDER), WORDS(PARENTS), WORDS(L_STARTS), WORDS(L_ROWS), WORDS(L_OFFSETS), FLOATS(L_VALUES), FLOATS(DIAG), FLOATS(D),           \
        FLOATS(COLUMN), WORDS(INVERSE), WORDS(SIZES), WORDS(COUNT), WORDS(HEADS), WORDS(INTO), WORDS(STAMPS), WORDS(TABLE), WORDS(UPPER), \
        WORDS(BODIES), WORDS(UNIT_STARTS), WORDS(D_STARTS), WORDS(PLACES)

static uint32_t call_factor(uint64_t out[3])
{
    double value[1];
    return beyqaloosh_factorize(NUMBERED, LENT, out, value);
}

static uint32_t call_cached(uint64_t out[3])
{
    double value[1];
    return beyqaloosh_factorize_with_cache(NUMBERED, LENT, FLOATS(CACHE), out, value);
}

/* The factor's lists have the lengths that it was made in. */
static uint32_t call_solve(uint64_t out[3])
{
    return beyqaloosh_solve_inplace(NIGHT, perm, n, late, n, WORDS(ORDER), WORDS(PARENTS), WORDS(L_STARTS), WORDS(L_ROWS),
                                    WORDS(L_OFFSETS), FLOATS(L_VALUES), FLOATS(DIAG), FLOATS(D), FLOATS(X), FLOATS(Y),
                                    WORDS(SCALAR_PERM), WORDS(SOLVE_SIZES), WORDS(SCALAR_STARTS), out);
}

/* The call that lends `count` buffers, of which the one at place k is buffer `which[k]`, or first + k: with exactly its needs it is
   accepted, and with one of them one short it is 11, or 12 of a right side, whose length is no matter of 11. */
static void lends(uint32_t (*call)(uint64_t[3]), const int *which, int first, int count, const char *name, uint64_t out[3])
{
    uint64_t carried[3];
    for (int k = 0; k < count; k++)
        len[which ? which[k] : first + k] = needs[1 + k];
    for (int k = 0; k < count; k++) {
        int b = which ? which[k] : first + k;
        if (len[b] == 0)
            continue;
        len[b]--;
        if (b == X)
            check(call(carried) == 12 && carried[0] == 13, name, k, "one short is not 12");
        else
            check(call(carried) == 11 && carried[0] == (uint64_t)k && carried[1] == needs[1 + k] && carried[2] == 0, name, k,
                  "one short is not 11 with its need");
        len[b]++;
    }
    check(call(out) == 0, name, -1, "not accepted with exactly its needs");
}

/* The plan, with L's blocks as it tells them. */
static void plans(uint64_t plan[3])
{
    uint32_t l_blocks;
    accepted(plan_needs(n, m, 0), PLAN, "plan, L's blocks not known");
    for (int k = 0; k < PLAN; k++)
        len[PLANNED[k]] = needs[1 + k];
    /* the plan itself tells the need that it alone shows */
    l_blocks = call_plan(plan) == 11 && plan[0] == 3 ? (uint32_t)plan[1] : 0;
    accepted(plan_needs(n, m, l_blocks), PLAN, "plan");
    lends(call_plan, PLANNED, 0, PLAN, "plan", plan);
    check(plan[0] == l_blocks, "plan", L_ROWS, "other blocks of L");
}

/* The factorization without a cache and with one, by what the plan has told: both leave the same, and the cache ends as zeros. */
static void factors(const uint64_t plan[3])
{
    static uint32_t plain_words[FACTOR][ROOM];
    static double plain_floats[FACTOR][ROOM];
    static uint8_t untouched[sizeof floats[CACHE]];
    static double zeros[ROOM];
    uint64_t out[3], plain_needs[FACTOR];
    accepted(factor_needs(dims, n, m, (uint32_t)plan[0], (uint32_t)plan[1]), FACTOR, "factorize");
    check(needs[1 + D] == scalars() && needs[1 + DIAG] == squares(), "factorize", D, "d or the unit factors");
    lends(call_factor, NULL, ORDER, FACTOR, "factorize", out);
    check(memcmp(out, plan, sizeof out) == 0, "factorize", -1, "other counts than the plan's");
    memcpy(plain_words, words, sizeof plain_words);
    memcpy(plain_floats, floats, sizeof plain_floats);
    memcpy(plain_needs, needs + 1, sizeof plain_needs);

    memset(words, 85, sizeof words);
    memset(floats, 85, sizeof floats);
    memset(untouched, 85, sizeof untouched);
    accepted(cached_needs(dims, n, m, (uint32_t)values_len, (uint32_t)plan[0], (uint32_t)plan[1]), CACHED, "factorize_with_cache");
    check(memcmp(needs + 1, plain_needs, sizeof plain_needs) == 0, "factorize_with_cache", -1, "other needs than without a cache");
    lends(call_cached, NULL, ORDER, CACHED, "factorize_with_cache", out);
    check(memcmp(out, plan, sizeof out) == 0, "factorize_with_cache", -1, "other counts than the plan's");
    for (int b = 0; b < FACTOR; b++)
        if (b >= L_VALUES && b <= COLUMN)
            check(memcmp(floats[b], plain_floats[b], len[b] * sizeof(double)) == 0, "factorize_with_cache", b, "other numbers");
        else
            check(memcmp(words[b], plain_words[b], len[b] * sizeof(uint32_t)) == 0, "factorize_with_cache", b, "other entries");
    check(memcmp(floats[CACHE], zeros, len[CACHE] * sizeof(double)) == 0, "factorize_with_cache", CACHE, "not zeros");
    check(memcmp(floats[CACHE] + len[CACHE], untouched, sizeof untouched - len[CACHE] * sizeof(double)) == 0, "factorize_with_cache",
          CACHE, "a place beyond the need was touched");
}

static void night(void)
{
    uint64_t plan[3], out[3];
    plans(plan);
    factors(plan);
    for (size_t i = 0; i < ROOM; i++)
        floats[X][i] = 1.0;
    accepted(solve_needs(dims, n), SOLVE, "solve");
    lends(call_solve, NULL, X, SOLVE, "solve", out);
    accepted(marks_needs(dims, n), 1, "marks");
    if (needs[1] > 0)
        check(beyqaloosh_marks(dims, n, WORDS(ORDER), FLOATS(D), 1e-12, bytes, needs[1] - 1, out) == 11 && out[0] == 0 &&
                  out[1] == needs[1] && out[2] == 0,
              "marks", 0, "one short is not 11 with its need");
    check(beyqaloosh_marks(dims, n, WORDS(ORDER), FLOATS(D), 1e-12, bytes, needs[1], out) == 0 && out[0] == 0, "marks", -1,
          "not accepted with exactly its need");
}

/* L has more numbers than 16 times one more than the 91 entries and numbers handed in. */
static void hub(void)
{
    uint64_t plan[3];
    draw_hub();
    plans(plan);
    check(plan[0] == 10 && plan[1] == 1600, "hub", -1, "other counts");
    factors(plan);
    check(needs[1 + CACHE] == 1472, "hub", CACHE, "the cache's need is not the bound");
}

/* ---- limits and refusals */

static void limits(void)
{
    static uint32_t many[4097];
    for (size_t k = 0; k < 4097; k++)
        many[k] = 16;
    accepted(tree_needs(4096), 2, "4,096 blocks");
    accepted(reach_needs(4096), 2, "4,096 blocks");
    check(needs[1] == 4096 && needs[2] == 4096, "4,096 blocks", -1, "the walk");
    accepted(plan_needs(4096, 65536, UINT32_MAX), PLAN, "4,096 blocks and 65,536 stored");
    check(needs[1 + 3] == UINT32_MAX && needs[1 + 11] == 65536, "4,096 blocks", -1, "the plan");
    accepted(factor_needs(many, 4096, 65536, UINT32_MAX, UINT32_MAX), FACTOR, "4,096 blocks of 16");
    check(needs[1 + L_OFFSETS] == UINT64_C(4294967296) && needs[1 + L_VALUES] == UINT32_MAX && needs[1 + DIAG] == 1048576 &&
              needs[1 + D] == 65536 && needs[1 + COLUMN] == 1048576 && needs[1 + BODIES] == 65537,
          "4,096 blocks of 16", -1, "the factorization");
    accepted(cached_needs(many, 4096, 65536, 16777216, UINT32_MAX, UINT32_MAX), CACHED, "4,096 blocks of 16");
    check(needs[1 + L_OFFSETS] == UINT64_C(4294967296) && needs[1 + PLACES] == 4096 && needs[1 + CACHE] == 269746208,
          "4,096 blocks of 16", CACHE, "the factorization with a cache");
    accepted(cached_needs(many, 4096, 65536, UINT32_MAX, 1, UINT32_MAX), CACHED, "4,096 blocks of 16");
    check(needs[1 + CACHE] == UINT32_MAX, "4,096 blocks of 16", CACHE, "a cache for all numbers that there can be");
    accepted(cached_needs(many, 0, 0, 0, 0, UINT32_MAX), CACHED, "no blocks");
    check(needs[1 + CACHE] == 32, "no blocks", CACHE, "the cache");
    accepted(solve_needs(many, 4096), SOLVE, "4,096 blocks of 16");
    check(needs[1] == 65536 && needs[5] == 4097, "4,096 blocks of 16", -1, "the solve");
    accepted(marks_needs(many, 4096), 1, "4,096 blocks of 16");
    check(needs[1] == 65536, "4,096 blocks of 16", -1, "the marks");

    refused(tree_needs(4097), 2, "tree of 4,097 blocks", 1, 0);
    refused(reach_needs(SIZE_MAX), 2, "walk of all blocks there can be", 1, 0);
    refused(plan_needs(4097, 65537, 0), PLAN, "plan of 4,097 blocks and 65,537 stored", 1, 0);
    refused(plan_needs(4096, 65537, 0), PLAN, "plan of 65,537 stored", 4, 0);
    refused(plan_needs(0, SIZE_MAX, 0), PLAN, "plan of all that can be stored", 4, 0);
    refused(factor_needs(many, 4096, 65537, 1, 1), FACTOR, "factorization of 65,537 stored", 4, 0);
    refused(cached_needs(many, 4096, 65537, 1, 1, 1), CACHED, "factorization with a cache of 65,537 stored", 4, 0);
    many[4095] = 0;
    refused(factor_needs(many, 4096, 65537, 1, 1), FACTOR, "factorization with a dimension 0", 2, 4095);
    many[7] = 17;
    refused(factor_needs(many, 4096, 0, 1, 1), FACTOR, "factorization with two wrong dimensions", 2, 7);
    refused(cached_needs(many, 4096, 0, 1, 1, 1), CACHED, "factorization with a cache and two wrong dimensions", 2, 7);
    refused(solve_needs(many, 4096), SOLVE, "solve with a dimension 17", 2, 7);
    refused(marks_needs(many, 4096), 1, "marks with a dimension 17", 2, 7);
    refused(factor_needs(many, 4097, 0, 1, 1), FACTOR, "factorization of 4,097 blocks", 1, 0);
    refused(cached_needs(many, 4097, 0, 1, 1, 1), CACHED, "factorization with a cache of 4,097 blocks", 1, 0);
    refused(solve_needs(many, 4097), SOLVE, "solve of 4,097 blocks", 1, 0);
    refused(marks_needs(many, 4097), 1, "marks of 4,097 blocks", 1, 0);
}

int main(void)
{
    for (int turn = 0; turn < 200; turn++) {
        draw_night();
        night();
    }
    hub();
    limits();
    printf("needs: %d checks, %d wrong\n", checks, wrong);
    return wrong != 0;
}

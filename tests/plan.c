/* The plan from C: document 01's P1 to P4 and a late block, then every lent buffer one short, then a wrong table. What is lent
   stands between guards, which no call may touch. */
#include <inttypes.h>
#include <stdint.h>
#include <stdio.h>
#include <string.h>

#include "beyqaloosh.h"

enum { ORDER, PARENTS, L_STARTS, L_ROWS, INVERSE, SIZES, COUNT, HEADS, INTO, STAMPS, TABLE, UPPER, BUFFERS, ROOM = 16 };
static const uint32_t GUARD = 777777777, NONE = UINT32_C(4294967295);
static int checks, wrong;

struct night {
    const char *name;
    size_t n, m;
    uint32_t starts[8], rows[8], perm[8], late[8];
    uint32_t order[8], parents[8], l_starts[8], l_rows[8];
    uint64_t told[3];
};

static const struct night NIGHTS[] = {
    {"P1", 4, 3, {0, 2, 3, 3, 3}, {1, 3, 2}, {0, 1, 2, 3}, {0}, {0, 1, 2, 3}, {1, 2, 3, UINT32_MAX}, {0, 2, 4, 5, 5},
     {1, 3, 2, 3, 3}, {5, 5, 7}},
    {"P2", 3, 2, {0, 1, 2, 2}, {2, 2}, {0, 1, 2}, {0}, {0, 1, 2}, {2, 2, UINT32_MAX}, {0, 1, 2, 2}, {2, 2}, {2, 2, 2}},
    {"P3", 4, 3, {0, 3, 3, 3, 3}, {1, 2, 3}, {0, 1, 2, 3}, {0}, {0, 1, 2, 3}, {1, 2, 3, UINT32_MAX}, {0, 3, 5, 6, 6},
     {1, 2, 3, 2, 3, 3}, {6, 6, 10}},
    {"P4", 4, 3, {0, 3, 3, 3, 3}, {1, 2, 3}, {3, 2, 1, 0}, {0}, {3, 2, 1, 0}, {3, 3, 3, UINT32_MAX}, {0, 1, 2, 3, 3}, {3, 3, 3},
     {3, 3, 3}},
    {"P3 with its hub late", 4, 3, {0, 3, 3, 3, 3}, {1, 2, 3}, {0, 1, 2, 3}, {1}, {1, 2, 3, 0}, {3, 3, 3, UINT32_MAX},
     {0, 1, 2, 3, 3}, {3, 3, 3}, {3, 3, 3}},
    {"no block", 0, 0, {0}, {0}, {0}, {0}, {0}, {0}, {0}, {0}, {0, 0, 0}},
};

static const uint32_t DIMS[8] = {1, 1, 1, 1, 1, 1, 1, 1};
static uint32_t room[BUFFERS][ROOM];

static void check(int holds, const char *night, int which, const char *what)
{
    checks++;
    if (!holds) {
        wrong++;
        printf("plan: %s, buffer %d: %s\n", night, which, what);
    }
}

static size_t need(const struct night *a, int which)
{
    switch (which) {
    case L_STARTS: case HEADS: case INTO: return a->n + 1;
    case L_ROWS: return a->told[0];
    case TABLE: case UPPER: return a->m;
    default: return a->n;
    }
}

/* Each buffer has its need at 1 of its room, less one place where it is the short one. */
static uint32_t call(const struct night *a, const uint32_t *starts, int short_one, uint64_t told[3])
{
    size_t len[BUFFERS];
    for (int b = 0; b < BUFFERS; b++) {
        for (size_t i = 0; i < ROOM; i++)
            room[b][i] = GUARD;
        len[b] = need(a, b) - (b == short_one);
    }
    return beyqaloosh_plan(DIMS, a->n, starts, a->n + 1, a->rows, a->m, a->perm, a->n, a->late, a->n, room[ORDER] + 1, len[ORDER],
                           room[PARENTS] + 1, len[PARENTS], room[L_STARTS] + 1, len[L_STARTS], room[L_ROWS] + 1, len[L_ROWS],
                           room[INVERSE] + 1, len[INVERSE], room[SIZES] + 1, len[SIZES], room[COUNT] + 1, len[COUNT],
                           room[HEADS] + 1, len[HEADS], room[INTO] + 1, len[INTO], room[STAMPS] + 1, len[STAMPS], room[TABLE] + 1,
                           len[TABLE], room[UPPER] + 1, len[UPPER], told);
}

/* The first `len` places of a buffer hold `expected`, or all of them `value` where there is none; the rest is as it was. */
static void holds(const char *night, int which, const uint32_t *expected, uint32_t value, size_t len, const char *what)
{
    int same = 1;
    for (size_t i = 0; i < ROOM; i++) {
        uint32_t want = i < 1 || i > len ? GUARD : expected ? expected[i - 1] : value;
        if (room[which][i] != want)
            same = 0;
    }
    check(same, night, which, what);
}

int main(void)
{
    uint64_t told[3];
    for (size_t k = 0; k < sizeof NIGHTS / sizeof *NIGHTS; k++) {
        const struct night *a = &NIGHTS[k];
        check(call(a, a->starts, -1, told) == 0, a->name, -1, "not accepted");
        check(memcmp(told, a->told, sizeof told) == 0, a->name, -1, "other counts");
        holds(a->name, ORDER, a->order, 0, need(a, ORDER), "order");
        holds(a->name, PARENTS, a->parents, 0, need(a, PARENTS), "parents");
        holds(a->name, L_STARTS, a->l_starts, 0, need(a, L_STARTS), "starts of L");
        holds(a->name, L_ROWS, a->l_rows, 0, need(a, L_ROWS), "rows of L");
        for (int b = INVERSE; b < BUFFERS; b++)
            holds(a->name, b, NULL, 0, need(a, b), "scratch is not zeros");
        for (int s = 0; s < BUFFERS; s++) {
            if (need(a, s) == 0)
                continue;
            check(call(a, a->starts, s, told) == 11 && told[0] == (uint64_t)s && told[1] == need(a, s), a->name, s, "11");
            for (int b = 0; b < BUFFERS; b++) {
                int cleared = s == L_ROWS && b >= INVERSE;
                holds(a->name, b, NULL, cleared ? 0 : GUARD, need(a, b), "after 11");
            }
        }
    }
    uint32_t falls[8] = {0, 2, 1, 3, 3};
    check(call(&NIGHTS[0], falls, -1, told) == 3 && told[0] == 2, "starts that fall", -1, "3");
    for (int b = 0; b < BUFFERS; b++)
        holds("starts that fall", b, NULL, GUARD, 0, "after 3");
    check(NONE == UINT32_MAX, "none", -1, "4,294,967,295");
    printf("plan: %d checks, %d wrong\n", checks, wrong);
    return wrong != 0;
}

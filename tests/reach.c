/* The elimination tree and the walk from C: document 01's P1 and P2 and random patterns against a plain elimination, the mark at its end
   and already held, every lent buffer one short, every table wrong in turn, no block and 4,096. Buffers have the lengths that the needs'
   calls tell. What is handed over and lent stands between guards, and after each call all of it is compared, byte for byte. */
#include <stdint.h>
#include <stdio.h>
#include <string.h>

#include "beyqaloosh.h"

/* What the two calls are handed and lent; a tree's parents are the walk's. */
enum { STARTS, ROWS, PARENTS, ANCESTORS, STAMPS, FOUND, SLICES, BLOCKS = 12, ROOM = 4104 };
static const uint32_t GUARD = 777777777, NONE = UINT32_MAX;
static int checks, wrong;

/* Every slice begins at 1 of its room. */
struct memory {
    uint32_t words[SLICES][ROOM];
    size_t len[SLICES];
};
static struct memory now, was;
static uint64_t told[3];

static int check(int holds, const char *night, const char *what)
{
    checks++;
    if (!holds) {
        wrong++;
        printf("reach: %s: %s\n", night, what);
    }
    return holds;
}

static uint32_t *words(int which)
{
    return now.words[which] + 1;
}

static uint32_t drawn(uint32_t below)
{
    static uint64_t seed = 1;
    seed = seed * UINT64_C(6364136223846793005) + UINT64_C(1442695040888963407);
    return (uint32_t)(seed >> 33) % below;
}

/* ---- patterns */

/* n blocks, each buffer as long as its call needs it, stamps of zeros. */
static void blocks(size_t n)
{
    uint64_t needs[2];
    for (int s = 0; s < SLICES; s++)
        for (size_t i = 0; i < ROOM; i++)
            now.words[s][i] = GUARD;
    now.len[STARTS] = n + 1;
    now.len[ROWS] = 0;
    check(beyqaloosh_elimination_tree_needs(n, needs, told) == 0, "tree", "needs");
    now.len[PARENTS] = needs[0];
    now.len[ANCESTORS] = needs[1];
    check(beyqaloosh_reach_needs(n, needs, told) == 0, "walk", "needs");
    now.len[STAMPS] = needs[0];
    now.len[FOUND] = needs[1];
    memset(words(STAMPS), 0, n * sizeof(uint32_t));
}

/* The upper columns of these links, the greater block as row. Some also list their own block and a later one, which count for nothing. */
static void store(size_t n, int linked[BLOCKS][BLOCKS], int more)
{
    size_t m = 0;
    words(STARTS)[0] = 0;
    for (size_t j = 0; j < n; j++) {
        for (size_t i = 0; i < n; i++)
            if (i < j ? linked[j][i] : more && drawn(3) == 0)
                words(ROWS)[m++] = (uint32_t)i;
        words(STARTS)[j + 1] = (uint32_t)m;
    }
    now.len[ROWS] = m;
}

/* ---- calls */

static uint32_t grow_on(size_t n)
{
    was = now;
    for (size_t i = 0; i < 3; i++)
        told[i] = GUARD;
    return beyqaloosh_elimination_tree(n, words(STARTS), now.len[STARTS], words(ROWS), now.len[ROWS], words(PARENTS),
                                       now.len[PARENTS], words(ANCESTORS), now.len[ANCESTORS], told);
}

static uint32_t walk(size_t j, uint32_t mark)
{
    was = now;
    for (size_t i = 0; i < 3; i++)
        told[i] = GUARD;
    return beyqaloosh_reach(words(STARTS), now.len[STARTS], words(ROWS), now.len[ROWS], words(PARENTS), now.len[PARENTS], j, mark,
                            words(STAMPS), now.len[STAMPS], words(FOUND), now.len[FOUND], told);
}

static int tells(uint64_t first, uint64_t second, uint64_t third)
{
    return told[0] == first && told[1] == second && told[2] == third;
}

static int unchanged(void)
{
    return memcmp(&now, &was, sizeof now) == 0;
}

static void tree_refused(size_t n, const char *what, uint32_t number, uint64_t first, uint64_t second)
{
    check(grow_on(n) == number && tells(first, second, 0), what, "tree: number or report");
    check(unchanged(), what, "tree: a refusal that writes");
}

static void walk_refused(size_t j, const char *what, uint32_t number, uint64_t first, uint64_t second)
{
    check(walk(j, 0) == number && tells(first, second, 0), what, "walk: number or report");
    check(unchanged(), what, "walk: a refusal that writes");
}

/* The tree has these parents, its scratch is zeros, and nothing else has changed. */
static void grown(size_t n, const uint32_t *parents, const char *night)
{
    check(grow_on(n) == 0 && tells(0, 0, 0), night, "tree: not accepted");
    memcpy(was.words[PARENTS] + 1, parents, n * sizeof *parents);
    memset(was.words[ANCESTORS] + 1, 0, n * sizeof(uint32_t));
    check(unchanged(), night, "tree: parents, scratch or a place beyond");
}

/* The walk of block j, with the old mark: the next one, unless it is 0 or a stamp holds it, and then 1 with the stamps cleared. Each row
   below j is followed up to the first block that is marked or to a root; what is found ends the list, last found first. */
static void walked(size_t n, size_t j, uint32_t mark, const char *night)
{
    uint32_t found[BLOCKS], next = mark + 1, answer = walk(j, mark);
    uint32_t *stamps = was.words[STAMPS] + 1;
    size_t count = 0;
    int held = next == 0;
    for (size_t k = 0; k < n; k++)
        held = held || stamps[k] == next;
    if (held) {
        next = 1;
        memset(stamps, 0, n * sizeof *stamps);
    }
    stamps[j] = next;
    for (size_t p = words(STARTS)[j]; p < words(STARTS)[j + 1]; p++)
        for (uint32_t k = words(ROWS)[p]; words(ROWS)[p] < j && k != NONE && stamps[k] != next; k = words(PARENTS)[k]) {
            stamps[k] = next;
            found[count++] = k;
        }
    for (size_t k = 0; k < count; k++)
        was.words[FOUND][1 + n - count + k] = found[count - 1 - k];
    check(answer == 0 && tells(next, n - count, 0), night, "walk: mark or top");
    check(unchanged(), night, "walk: list, stamps or a place beyond");
}

/* ---- good patterns */

/* By a plain elimination: the blocks linked to k are linked to each other once k is gone; a parent is the first of them, and the walk of j
   finds those that were linked to it. */
static void eliminated(size_t n, int linked[BLOCKS][BLOCKS], const char *night)
{
    uint32_t parents[BLOCKS], mark = 0;
    for (size_t k = 0; k < n; k++) {
        parents[k] = NONE;
        for (size_t i = n; i-- > k + 1;)
            if (linked[i][k]) {
                parents[k] = (uint32_t)i;
                for (size_t h = k + 1; h < i; h++)
                    linked[i][h] = linked[i][h] || linked[h][k];
            }
    }
    grown(n, parents, night);
    for (size_t j = 0; j < n; j++) {
        int as_many = 1;
        walked(n, j, mark, night);
        mark = (uint32_t)told[0];
        for (size_t k = 0; k < j; k++) {
            int found = 0;
            for (size_t p = told[1]; p < n; p++)
                found = found || words(FOUND)[p] == k;
            as_many = as_many && found == linked[j][k];
        }
        check(as_many, night, "walk: other blocks than L has in that row");
    }
}

static void by_hand(void)
{
    int p1[BLOCKS][BLOCKS] = {{0}}, p2[BLOCKS][BLOCKS] = {{0}};
    p1[1][0] = p1[2][1] = p1[3][0] = 1;
    blocks(4);
    store(4, p1, 0);
    grown(4, (const uint32_t[]){1, 2, 3, NONE}, "P1");
    walked(4, 3, 0, "P1");
    check(tells(1, 1, 0) && words(FOUND)[1] == 2 && words(FOUND)[2] == 1 && words(FOUND)[3] == 0, "P1", "2, 1, 0");
    walked(4, 3, 1, "P1 again");
    check(tells(2, 1, 0), "P1 again", "the next mark");
    walked(4, 3, UINT32_MAX, "P1 with the last mark");
    check(tells(1, 1, 0), "P1 with the last mark", "mark 1");
    words(STAMPS)[2] = 7;
    walked(4, 1, 6, "P1 with a mark that is held");
    check(tells(1, 3, 0) && words(STAMPS)[2] == 0, "P1 with a mark that is held", "mark 1, stamps cleared");
    p2[2][0] = p2[2][1] = 1;
    blocks(3);
    store(3, p2, 0);
    grown(3, (const uint32_t[]){2, 2, NONE}, "P2");
    walked(3, 2, 0, "P2");
    check(tells(1, 1, 0) && words(FOUND)[1] == 1 && words(FOUND)[2] == 0, "P2", "1, 0");
}

static void at_random(void)
{
    for (int turn = 0; turn < 400; turn++) {
        int linked[BLOCKS][BLOCKS] = {{0}};
        size_t n = 1 + drawn(BLOCKS);
        uint32_t one_in = 1 + drawn(5);
        for (size_t j = 0; j < n; j++)
            for (size_t i = j + 1; i < n; i++)
                linked[i][j] = drawn(one_in) == 0;
        blocks(n);
        store(n, linked, turn % 2);
        /* longer buffers than the need */
        for (int s = ANCESTORS; turn % 3 == 0 && s < SLICES; s++)
            now.len[s] += 2;
        eliminated(n, linked, "random");
    }
}

/* No block, of which no walk can be asked; and 4,096, a chain from block to block whose last is linked to the first, so that its walk
   finds all others. */
static void ends(void)
{
    blocks(0);
    words(STARTS)[0] = 0;
    grown(0, words(PARENTS), "no block");
    walk_refused(0, "no block", 12, 0, 0);
    blocks(4096);
    words(STARTS)[0] = words(STARTS)[1] = 0;
    for (uint32_t j = 1; j < 4096; j++) {
        words(ROWS)[j - 1] = j < 4095 ? j - 1 : 0;
        words(STARTS)[j + 1] = j;
    }
    now.len[ROWS] = 4095;
    check(grow_on(4096) == 0 && words(PARENTS)[0] == 1 && words(PARENTS)[4094] == 4095 && words(PARENTS)[4095] == NONE,
          "4,096 blocks", "a chain");
    check(walk(4095, 0) == 0 && tells(1, 1, 0) && words(FOUND)[1] == 4094 && words(FOUND)[4095] == 0, "4,096 blocks",
          "a walk over all");
    now.len[PARENTS] = 4097;
    now.len[STARTS] = 4098;
    tree_refused(4097, "4,097 blocks", 1, 0, 0);
    walk_refused(0, "4,097 blocks", 1, 0, 0);
}

/* ---- refused */

/* One entry of a table is another for a call of each kind. */
static void wrong_entry(int which, size_t place, uint32_t entry, const char *what, uint32_t number, uint64_t at)
{
    uint32_t old = words(which)[place];
    words(which)[place] = entry;
    tree_refused(4, what, number, at, 0);
    walk_refused(3, what, number, at, 0);
    words(which)[place] = old;
}

static void refusals(void)
{
    int linked[BLOCKS][BLOCKS] = {{0}};
    linked[1][0] = linked[2][0] = linked[3][0] = linked[3][1] = 1;
    blocks(4);
    store(4, linked, 0); /* starts 0 0 1 2 4, rows 0, 0, 0 1 */
    grown(4, (const uint32_t[]){1, 2, 3, NONE}, "four blocks");
    wrong_entry(STARTS, 0, 1, "starts from 1", 3, 0);
    wrong_entry(STARTS, 2, 3, "starts that fall", 3, 3);
    wrong_entry(STARTS, 4, 3, "starts that end early", 3, 4);
    wrong_entry(ROWS, 1, 4, "a row past the last", 5, 1);
    wrong_entry(ROWS, 3, 0, "a row twice", 6, 3);
    now.len[STARTS]--;
    tree_refused(4, "starts without the last", 3, 4, 0);
    walk_refused(3, "starts without the last", 3, 4, 0);
    now.len[STARTS]++;
    for (int s = PARENTS; s <= ANCESTORS; s++) {
        now.len[s]--;
        tree_refused(4, "short", 11, (uint64_t)(s - PARENTS), 4);
        now.len[s]++;
    }
    for (int s = STAMPS; s <= FOUND; s++) {
        now.len[s]--;
        walk_refused(4, "short, and past the last", 11, (uint64_t)(s - STAMPS), 4);
        now.len[s]++;
    }
    walk_refused(4, "past the last", 12, 0, 0);
    walk_refused(SIZE_MAX, "past the last", 12, 0, 0);
    words(PARENTS)[1] = 1;
    walk_refused(3, "a block that is its own parent", 5, 1, 1);
    words(ROWS)[3] = 0;
    walk_refused(3, "a wrong parent, and a row twice", 5, 1, 1);
    words(ROWS)[2] = 9;
    walk_refused(3, "a wrong row, and a wrong parent", 5, 2, 0);
}

int main(void)
{
    by_hand();
    at_random();
    ends();
    refusals();
    printf("reach: %d checks, %d wrong\n", checks, wrong);
    return wrong != 0;
}

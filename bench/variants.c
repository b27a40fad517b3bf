/* Other ways to ask, tried in C beside the plain one before anything is written and proved: prints what a base costs with each.
   Built and run by `bench/variants`; docs/PERFORMANCE.md has the figures of one run. */
#include "elimination.h"
#include <stdio.h>
#include <time.h>

#define MOST_LABELS 48
#define CUT 200000ull
#define ROUNDS 5

static int n;
static uint8_t ends[MOST_LABELS][2]; /* points from 0 */
static uint64_t columns[MOST_LABELS];
static uint64_t asked;

typedef int question(uint64_t);

/* As bench/reference.c asks: a table of pivots, cleared for every question. */
static int cleared(uint64_t set)
{
    return by_elimination(columns, n, set);
}

/* A table that is not cleared, with a word that says which pivots are there. Not one function with elimination.h, by a flag for the
   test of a pivot: gcc made the reference a tenth slower by it (148 and 162 ns a base of the complete rig of 8). */
static int marked(uint64_t set)
{
    uint64_t pivots[64], there = 0;
    if (set >> n)
        return 0;
    for (; set; set &= set - 1) {
        uint64_t left = columns[__builtin_ctzll(set)];
        for (;;) {
            if (!left)
                return 0;
            int place = 63 - __builtin_clzll(left);
            if (!(there >> place & 1)) {
                pivots[place] = left;
                there |= 1ull << place;
                break;
            }
            left ^= pivots[place];
        }
    }
    return 1;
}

/* For seams alone: every point has the name of its component, and joining two renames the points of one, without a branch. */
static int named(uint64_t set)
{
    uint8_t names[32];
    for (int i = 0; i < 32; i++)
        names[i] = (uint8_t)i;
    if (set >> n)
        return 0;
    for (; set; set &= set - 1) {
        int e = __builtin_ctzll(set);
        uint8_t a = names[ends[e][0]], b = names[ends[e][1]];
        if (a == b)
            return 0;
        for (int i = 0; i < 32; i++)
            names[i] = names[i] == b ? a : names[i];
    }
    return 1;
}

/* No table: each word is reduced by each pivot in turn, without a branch. */
static int in_turn(uint64_t set)
{
    uint64_t pivots[64];
    int k = 0;
    if (set >> n)
        return 0;
    for (; set; set &= set - 1) {
        uint64_t left = columns[__builtin_ctzll(set)];
        for (int i = 0; i < k; i++) {
            uint64_t less = left ^ pivots[i];
            left = less < left ? less : left;
        }
        if (!left)
            return 0;
        pivots[k++] = left;
    }
    return 1;
}

static uint64_t bit(int label)
{
    return 1ull << (label - 1);
}

/* The labels 1 to k, k below 64. */
static uint64_t full(int k)
{
    return (1ull << k) - 1;
}

/* All candidates of the label e. With `first`, an absent label with two labels below it in the set is asked for once before: what
   is present above it, with it, is dependent exactly if it has no candidate. */
static uint64_t candidates(question *ask, int first, uint64_t present, int e)
{
    uint64_t found = 0, others = (present & bit(e) ? ~present : present) & full(e - 1);
    if (first && !(present & bit(e)) && others & (others - 1)) {
        asked++;
        if (!ask((present & ~full(e)) | bit(e)))
            return 0;
    }
    for (; others; others &= others - 1) {
        asked++;
        if (ask(present ^ bit(e) ^ (others & -others)))
            found |= others & -others;
    }
    return found;
}

static uint64_t walk(question *ask, int first)
{
    uint64_t present = 0, active = full(n), count = 1;
    for (int e = 1; e <= n; e++)
        if (ask(present | bit(e)))
            present |= bit(e);
    while (count < CUT) {
        uint64_t found = 0;
        int e;
        for (e = 1; e <= n; e++)
            if (active & bit(e) && (found = candidates(ask, first, present, e)))
                break;
        if (e > n)
            break;
        present ^= bit(e) | bit(64 - __builtin_clzll(found));
        active = (active & ~full(e)) | full(e - 1);
        count++;
    }
    return count;
}

static double cost(question *ask, int first, double *questions)
{
    double best = 1e300;
    for (int round = 0; round < ROUNDS; round++) {
        struct timespec began, ended;
        asked = 0;
        clock_gettime(CLOCK_MONOTONIC, &began);
        double bases = (double)walk(ask, first);
        clock_gettime(CLOCK_MONOTONIC, &ended);
        double each = ((double)(ended.tv_sec - began.tv_sec) * 1e9 + (double)(ended.tv_nsec - began.tv_nsec)) / bases;
        if (each < best)
            best = each;
        *questions = (double)asked / bases;
    }
    return best;
}

static void report(const char *name)
{
    double few, many;
    double plain = cost(cleared, 0, &many), once = cost(cleared, 1, &few);
    printf("%-28s %9.1f %9.1f %9.1f %10.1f %9.1f %10.2f %11.2f\n", name, plain, cost(marked, 0, &many), cost(named, 0, &many), cost(in_turn, 0, &many), once, many, few);
}

static void join(int a, int b)
{
    ends[n][0] = (uint8_t)(a - 1);
    ends[n][1] = (uint8_t)(b - 1);
    columns[n] = bit(a) ^ bit(b);
    n++;
}

static uint64_t seed = 88172645463325252ull;

static int random_point(int points)
{
    seed ^= seed << 13;
    seed ^= seed >> 7;
    seed ^= seed << 17;
    return 1 + (int)(seed % (uint64_t)points);
}

/* A random tree and further seams, as they come. */
static void sparse(int points, int seams)
{
    n = 0;
    for (int i = 2; i <= points; i++)
        join(i, random_point(i - 1));
    while (n < seams) {
        int a = random_point(points), b = random_point(points);
        if (a != b)
            join(a, b);
    }
}

int main(void)
{
    printf("%-28s %9s %9s %9s %10s %9s %10s %11s\n", "rig", "plain ns", "marked ns", "named ns", "in turn ns", "first ns", "questions", "with first");
    for (int b = 2; b <= 8; b++)
        for (int a = 1; a < b; a++)
            join(a, b);
    report("complete rig of 8 points");
    n = 0;
    for (int i = 1; i <= 12; i++) {
        join(i, i % 12 + 1);
        join(i, 13);
    }
    report("wheel of 12");
    for (int i = 0; i < 3; i++) {
        sparse(16, 24);
        report("random, 16 points, 24 seams");
    }
    for (int i = 0; i < 3; i++) {
        sparse(32, 48);
        report("random, 32 points, 48 seams");
    }
    return 0;
}

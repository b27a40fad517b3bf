/* Runs the proved walks and the reference on the same rigs, checks that the lists are the same, and prints what each base cost. */
#include "walks.h"
#include <stdio.h>
#include <stdlib.h>
#include <time.h>

#define MOST_LABELS 48
#define LEAST_ROUNDS 5
#define LEAST_TIME 3e8
#define CUT 1000000ull
#define RANDOM_RIGS 10

struct rig {
    const char *name;
    uint8_t points;
    uint8_t ends[2 * MOST_LABELS];
    size_t n;
};

static uint64_t seed = 88172645463325252ull;

static uint64_t random_number(void)
{
    seed ^= seed << 13;
    seed ^= seed >> 7;
    seed ^= seed << 17;
    return seed;
}

static void join(struct rig *r, int a, int b)
{
    r->ends[2 * r->n] = (uint8_t)a;
    r->ends[2 * r->n + 1] = (uint8_t)b;
    r->n++;
}

static struct rig complete(const char *name, int points)
{
    struct rig r = {name, (uint8_t)points, {0}, 0};
    for (int b = 2; b <= points; b++)
        for (int a = 1; a < b; a++)
            join(&r, a, b);
    return r;
}

static struct rig grid(const char *name, int rows, int columns)
{
    struct rig r = {name, (uint8_t)(rows * columns), {0}, 0};
    for (int y = 0; y < rows; y++)
        for (int x = 0; x < columns; x++) {
            int at = y * columns + x + 1;
            if (x + 1 < columns)
                join(&r, at, at + 1);
            if (y + 1 < rows)
                join(&r, at, at + columns);
        }
    return r;
}

static struct rig wheel(const char *name, int spokes)
{
    struct rig r = {name, (uint8_t)(spokes + 1), {0}, 0};
    for (int i = 1; i <= spokes; i++) {
        join(&r, i, i % spokes + 1);
        join(&r, i, spokes + 1);
    }
    return r;
}

/* A random graph that hangs together: a random tree and further seams, in random order. */
static struct rig sparse(const char *name, int points, int seams)
{
    struct rig r = {name, (uint8_t)points, {0}, 0};
    for (int i = 2; i <= points; i++)
        join(&r, i, 1 + (int)(random_number() % (uint64_t)(i - 1)));
    while (r.n < (size_t)seams) {
        int a = 1 + (int)(random_number() % (uint64_t)points), b = 1 + (int)(random_number() % (uint64_t)points);
        if (a != b)
            join(&r, a, b);
    }
    for (size_t i = r.n - 1; i > 0; i--) {
        size_t j = random_number() % (i + 1);
        for (int k = 0; k < 2; k++) {
            uint8_t t = r.ends[2 * i + k];
            r.ends[2 * i + k] = r.ends[2 * j + k];
            r.ends[2 * j + k] = t;
        }
    }
    return r;
}

static double now(void)
{
    struct timespec t;
    clock_gettime(CLOCK_MONOTONIC, &t);
    return (double)t.tv_sec * 1e9 + (double)t.tv_nsec;
}

static bool differ(const struct outcome *a, const struct outcome *b)
{
    return a->count != b->count || a->digest != b->digest || a->across != b->across || a->along != b->along;
}

/* A walk by the proved code and by the reference: over a rig, or over words where there is none. */
struct task {
    const char *name;
    const struct rig *rig;
    walk_on_seams *seams[2];
    const uint64_t *words;
    size_t labels;
    uint64_t most;
};

enum { PROVED, PLAIN };

static bool walked(const struct task *t, int which, struct outcome *outcome)
{
    static walk_on_buttons *const buttons[2] = {timed_buttons, reference_buttons};
    return t->rig ? t->seams[which](t->rig->points, t->rig->ends, 2 * t->rig->n, t->most, outcome) : buttons[which](t->words, t->labels, t->most, outcome);
}

/* What a base cost in the shortest of some rounds, in nanoseconds (as many rounds as a third of a second has, and five at least);
   and how many questions the reference put for it, if it is that. Negative where the walk is refused. */
static double shortest(const struct task *t, int which, struct outcome *outcome, double *questions)
{
    double all = 0, least = 1e300;
    uint64_t rounds = 0;
    reference_asked();
    for (; rounds < LEAST_ROUNDS || all < LEAST_TIME; rounds++) {
        double began = now();
        if (!walked(t, which, outcome))
            return -1;
        double took = now() - began;
        all += took;
        if (took < least)
            least = took;
    }
    *questions = (double)(reference_asked() / rounds) / (double)outcome->count;
    return least / (double)outcome->count;
}

/* What a base cost, and how much was asked for it; and both for a reference that remembers nothing. */
struct cost {
    double bases, questions, proved, plain, more_questions, anew;
};

static bool measured(const struct task *t, struct cost *cost)
{
    struct outcome a, b, c;
    double none;
    reference_forgets(true);
    cost->anew = shortest(t, PLAIN, &c, &cost->more_questions);
    reference_forgets(false);
    cost->plain = shortest(t, PLAIN, &b, &cost->questions);
    cost->proved = shortest(t, PROVED, &a, &none);
    cost->bases = (double)a.count;
    if (cost->anew < 0 || cost->plain < 0 || cost->proved < 0 || differ(&a, &b) || differ(&b, &c)) {
        printf("%s: the lists differ\n", t->name);
        return false;
    }
    return true;
}

static void print_cost(const char *name, const struct cost *c)
{
    printf("%-32s %8.0f %9.2f %9.1f %9.1f %6.2f %11.2f %9.1f\n", name, c->bases, c->questions, c->proved, c->plain, c->proved / c->plain, c->more_questions, c->anew);
}

static bool printed(const struct task *t)
{
    struct cost cost;
    if (!measured(t, &cost))
        return false;
    print_cost(t->name, &cost);
    return true;
}

static bool seams(const struct rig *r, walk_on_seams *proved, walk_on_seams *plain)
{
    struct task t = {.name = r->name, .rig = r, .seams = {proved, plain}, .most = UINT64_MAX};
    return printed(&t);
}

/* The mean over some random rigs of one size, which differ much among themselves; each counts alike. */
static bool random_rigs(const char *name, int points, int seams, struct cost *mean)
{
    *mean = (struct cost){0};
    for (int i = 0; i < RANDOM_RIGS; i++) {
        struct rig r = sparse(name, points, seams);
        struct cost cost;
        struct task t = {.name = name, .rig = &r, .seams = {timed_seams, reference_seams}, .most = CUT};
        if (!measured(&t, &cost))
            return false;
        mean->bases += cost.bases / RANDOM_RIGS;
        mean->questions += cost.questions / RANDOM_RIGS;
        mean->proved += cost.proved / RANDOM_RIGS;
        mean->plain += cost.plain / RANDOM_RIGS;
        mean->more_questions += cost.more_questions / RANDOM_RIGS;
        mean->anew += cost.anew / RANDOM_RIGS;
    }
    print_cost(name, mean);
    return true;
}

/* Random rigs of twice the labels, as dense. */
static bool growth(void)
{
    struct cost small, large;
    if (!random_rigs("ten random, 16 points, 24 seams", 16, 24, &small) || !random_rigs("ten random, 32 points, 48 seams", 32, 48, &large))
        return false;
    printf("a base at 48 labels costs %.2f times what it costs at 24\n", large.proved / small.proved);
    return true;
}

static bool buttons(const char *name, int places, int labels)
{
    uint64_t words[MOST_LABELS];
    for (int i = 0; i < labels; i++)
        words[i] = random_number() & ((1ull << places) - 1);
    struct task t = {.name = name, .words = words, .labels = (size_t)labels, .most = CUT};
    return printed(&t);
}

int main(void)
{
    bool fine = true;
    struct rig k7 = complete("complete rig of 7 points", 7), k8 = complete("complete rig of 8 points", 8);
    struct rig g34 = grid("grid 3x4", 3, 4), g44 = grid("grid 4x4", 4, 4), w12 = wheel("wheel of 12", 12);
    struct rig d7 = complete("dual of the complete rig of 7", 7), p7 = complete("three layers over the rig of 7", 7);
    printf("%-32s %8s %9s %9s %9s %6s %11s %9s\n", "rig", "bases", "questions", "proved ns", "plain ns", "ratio", "asked anew", "anew ns");
    fine &= seams(&k7, timed_seams, reference_seams);
    fine &= seams(&k8, timed_seams, reference_seams);
    fine &= seams(&g34, timed_seams, reference_seams);
    fine &= seams(&g44, timed_seams, reference_seams);
    fine &= seams(&w12, timed_seams, reference_seams);
    fine &= buttons("buttons, rank 20, 40 labels", 20, 40);
    fine &= seams(&d7, timed_dual, reference_dual);
    fine &= seams(&p7, timed_pile, reference_pile);
    fine &= growth();
    return fine ? 0 : 1;
}

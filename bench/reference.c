/* The same walk without a proof, for comparison: active labels, the tie rule closest, shifts as measure, what is known of the present
   set's swaps, independence by elimination over 64-bit words with a pivot by the highest bit. Nothing here is cleverer than the proved
   code. With `reference_forgets` it asks its matroid everything anew, so that what the memory saves can be seen. */
#include "elimination.h"
#include "walks.h"

#define PRIME 1099511628211ull

/* The matroids: words of the labels, and the layers over them. */
struct matroid {
    int n;
    uint64_t columns[48];
    uint64_t held, removed; /* of a minor */
    int most;               /* of a truncation */
};

typedef int question(const struct matroid *, uint64_t);

static uint64_t asked;
static bool forgets;

void reference_forgets(bool all)
{
    forgets = all;
}

uint64_t reference_asked(void)
{
    uint64_t all = asked;
    asked = 0;
    return all;
}

static inline uint64_t bit(int label)
{
    return 1ull << (label - 1);
}

static inline uint64_t full(int n)
{
    return n == 64 ? ~0ull : (1ull << n) - 1;
}

static inline int plain(const struct matroid *m, uint64_t set)
{
    return by_elimination(m->columns, m->n, set);
}

static inline uint64_t greedy(const struct matroid *m, question *independent, uint64_t set, uint64_t kept)
{
    for (int e = 1; e <= m->n; e++)
        if ((set & bit(e)) && !(kept & bit(e)) && independent(m, kept | bit(e)))
            kept |= bit(e);
    return kept;
}

static inline int in_minor(const struct matroid *m, uint64_t set)
{
    return !set || (!(set & m->removed) && plain(m, set | m->held));
}

static inline int dual_of(const struct matroid *m, question *below, uint64_t set)
{
    if (set > full(m->n))
        return 0;
    uint64_t held = greedy(m, below, full(m->n) & ~set, 0);
    for (int e = 1; e <= m->n; e++)
        if ((set & bit(e)) && below(m, held | bit(e)))
            return 0;
    return 1;
}

static int seams(const struct matroid *m, uint64_t set)
{
    asked++;
    return plain(m, set);
}

static int dual(const struct matroid *m, uint64_t set)
{
    asked++;
    return dual_of(m, plain, set);
}

static int pile(const struct matroid *m, uint64_t set)
{
    asked++;
    return __builtin_popcountll(set) <= m->most && dual_of(m, in_minor, set);
}

/* Of a label of the present set: the labels outside it with which a swap is known to lead to an independent set, or not to. */
struct row {
    uint64_t yes, no;
};

struct walk {
    uint64_t present, active, count;
    int64_t value[2], total[2];
    struct row rows[48];
};

static inline void gain(int64_t to[2], int label, int64_t sign)
{
    to[0] = (int64_t)((uint64_t)to[0] + (uint64_t)(sign * label));
    to[1] = (int64_t)((uint64_t)to[1] - (uint64_t)(sign * label * label));
}

static inline void add(int64_t to[2], const int64_t value[2])
{
    to[0] = (int64_t)((uint64_t)to[0] + (uint64_t)value[0]);
    to[1] = (int64_t)((uint64_t)to[1] + (uint64_t)value[1]);
}

/* Whether the labels a, of the present set, and b, outside it, can be swapped. */
static inline int swaps(const struct matroid *m, question *independent, struct walk *w, int a, int b)
{
    struct row *row = &w->rows[a - 1];
    if (!forgets && ((row->yes | row->no) & bit(b)))
        return (row->yes & bit(b)) != 0;
    int answer = independent(m, w->present ^ (bit(a) | bit(b)));
    *(answer ? &row->yes : &row->no) |= bit(b);
    return answer;
}

/* All candidates of the label e. */
static inline uint64_t candidates(const struct matroid *m, question *independent, struct walk *w, int e)
{
    uint64_t found = 0;
    int in = (w->present & bit(e)) != 0;
    for (int f = 1; f < e; f++)
        if (((w->present & bit(f)) == 0) == in && (in ? swaps(m, independent, w, e, f) : swaps(m, independent, w, f, e)))
            found |= bit(f);
    return found;
}

/* What is still known once `leaving` went out and `entering` came in. */
static inline void carry(struct walk *w, int leaving, int entering)
{
    struct row gone = w->rows[leaving - 1];
    for (uint64_t left = w->present & ~bit(leaving); left; left &= left - 1) {
        struct row *row = &w->rows[__builtin_ctzll(left)];
        uint64_t yes = row->yes >> (entering - 1) & 1, no = row->no >> (entering - 1) & 1;
        uint64_t stays = -no | gone.no, turns = -yes & gone.yes & row->no;
        row->yes = (((row->yes & stays) | turns) & ~bit(leaving)) | yes << (leaving - 1);
        row->no = (row->no & stays & ~bit(leaving)) | no << (leaving - 1);
    }
    w->rows[entering - 1] = (struct row){gone.yes | bit(leaving), gone.no & ~bit(leaving)};
}

static inline __attribute__((always_inline)) void walk(const struct matroid *m, question *independent, uint64_t most, struct outcome *outcome)
{
    struct walk w = {0};
    w.present = greedy(m, independent, full(m->n), 0);
    w.active = full(m->n);
    w.count = 1;
    for (int e = 1; e <= m->n; e++)
        if (w.present & bit(e))
            gain(w.value, e, 1);
    add(w.total, w.value);
    uint64_t digest = w.present;
    while (w.count < most) {
        uint64_t found = 0;
        int e;
        for (e = 1; e <= m->n; e++)
            if ((w.active & bit(e)) && (found = candidates(m, independent, &w, e)))
                break;
        if (e > m->n)
            break;
        int f = 64 - __builtin_clzll(found);
        int came = !(w.present & bit(e));
        gain(w.value, came ? e : f, 1);
        gain(w.value, came ? f : e, -1);
        if (!forgets)
            carry(&w, came ? f : e, came ? e : f);
        w.present ^= bit(e) | bit(f);
        w.active = (w.active & ~full(e)) | full(e - 1);
        w.count++;
        add(w.total, w.value);
        digest = (digest ^ ((uint64_t)e << 16 | (uint64_t)f << 8 | (uint64_t)came)) * PRIME;
    }
    outcome->count = w.count;
    outcome->digest = digest;
    outcome->across = w.total[0];
    outcome->along = w.total[1];
}

static struct matroid graph_of(const uint8_t *ends, size_t length)
{
    struct matroid m = {0};
    m.n = (int)(length / 2);
    for (int i = 0; i < m.n; i++)
        m.columns[i] = bit(ends[2 * i]) ^ bit(ends[2 * i + 1]);
    return m;
}

bool reference_seams(uint8_t points, const uint8_t *ends, size_t length, uint64_t most, struct outcome *outcome)
{
    (void)points;
    struct matroid m = graph_of(ends, length);
    walk(&m, seams, most, outcome);
    return true;
}

bool reference_dual(uint8_t points, const uint8_t *ends, size_t length, uint64_t most, struct outcome *outcome)
{
    (void)points;
    struct matroid m = graph_of(ends, length);
    walk(&m, dual, most, outcome);
    return true;
}

bool reference_pile(uint8_t points, const uint8_t *ends, size_t length, uint64_t most, struct outcome *outcome)
{
    (void)points;
    struct matroid m = graph_of(ends, length);
    m.held = greedy(&m, plain, 1, 0);
    m.removed = 3;
    m.most = 3;
    walk(&m, pile, most, outcome);
    return true;
}

bool reference_buttons(const uint64_t *words, size_t length, uint64_t most, struct outcome *outcome)
{
    struct matroid m = {0};
    m.n = (int)length;
    for (int i = 0; i < m.n; i++)
        m.columns[i] = words[i];
    walk(&m, seams, most, outcome);
    return true;
}

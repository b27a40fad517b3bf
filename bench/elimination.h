/* Whether no part of a set of labels has words whose sum is 0: elimination over 64-bit words, with a pivot by the highest bit. */
#include <stdint.h>

static inline int by_elimination(const uint64_t *columns, int n, uint64_t set)
{
    uint64_t pivots[64] = {0};
    if (set >> n)
        return 0;
    for (; set; set &= set - 1) {
        uint64_t left = columns[__builtin_ctzll(set)];
        for (;;) {
            if (!left)
                return 0;
            int place = 63 - __builtin_clzll(left);
            if (!pivots[place]) {
                pivots[place] = left;
                break;
            }
            left ^= pivots[place];
        }
    }
    return 1;
}

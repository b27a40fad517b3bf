/* What is timed: the proved walks (crates/timed) and the same without a proof (reference.c). */
#include <stdbool.h>
#include <stddef.h>
#include <stdint.h>

struct outcome {
    uint64_t count, digest;
    int64_t across, along;
};

typedef bool walk_on_seams(uint8_t points, const uint8_t *ends, size_t length, uint64_t most, struct outcome *outcome);
typedef bool walk_on_buttons(const uint64_t *words, size_t length, uint64_t most, struct outcome *outcome);

walk_on_seams timed_seams, timed_dual, timed_pile, reference_seams, reference_dual, reference_pile;
walk_on_buttons timed_buttons, reference_buttons;

/* How many questions the reference has put to its matroid since it was last asked; the proved walk puts the same, unless the reference forgets. */
uint64_t reference_asked(void);

/* Whether the reference is to ask everything anew, and to remember nothing of what it asked. */
void reference_forgets(bool all);

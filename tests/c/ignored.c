/* Each function once, with an answer that nobody looks at: a compiler that can warn does so each time. */
#include "bokuhira.h"

#define LENT array, 0, map, 0, hold, 0, state, 0

void ignore(uint8_t *array, uint16_t *map, uint8_t *hold, uint8_t *state, size_t *at, int32_t *difference);

void ignore(uint8_t *array, uint16_t *map, uint8_t *hold, uint8_t *state, size_t *at, int32_t *difference)
{
    bokuhira_format(LENT, 8, 8, 16, 1);
    bokuhira_recover(LENT, 8, 8, 16, 1);
    bokuhira_begin(LENT, 1);
    bokuhira_write(LENT, hold, 0, 1, 0);
    bokuhira_drop(LENT, 1, 0);
    bokuhira_lone(LENT, hold, 0, 0);
    bokuhira_commit(LENT, 1);
    bokuhira_abort(LENT, 1);
    bokuhira_read(LENT, at, 0);
    bokuhira_checkpoint(LENT);
    bokuhira_reclaim(LENT);
    bokuhira_class(array, 0, difference);
}

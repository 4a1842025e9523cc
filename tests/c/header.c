/*
 * What include/bokuhira.h says beside its functions, in C and C++: sizes and offsets go together, a geometry is in range where the library
 * takes it, and every answer has its word and its text. Prints those; ends with status 1 where a check fails.
 */
#include <stdio.h>
#include <string.h>

#include "bokuhira.h"
#include "bokuhira.h"

#define SAME(name, a, b) typedef char name##_same[(a) == (b) ? 1 : -1]

SAME(available, BOKUHIRA_AT_AVAILABLE_COUNT, BOKUHIRA_AT_AVAILABLE + 3);
SAME(unavailable, BOKUHIRA_AT_UNAVAILABLE_COUNT, BOKUHIRA_AT_UNAVAILABLE + BOKUHIRA_BLOCKS_MAX - 2);
SAME(free_blocks, BOKUHIRA_AT_FREE_COUNT, BOKUHIRA_AT_FREE + BOKUHIRA_BLOCKS_MAX - 2);
SAME(kind, BOKUHIRA_AT_KIND, BOKUHIRA_AT_FIRST + 1);
SAME(plane, BOKUHIRA_AT_PLACES, BOKUHIRA_AT_PLANE + 1);
SAME(place_drops, BOKUHIRA_PLACE_DROPS, BOKUHIRA_PLACE_PAGES + (BOKUHIRA_PLACE_PAGES - BOKUHIRA_PLACE_LOGICAL));
SAME(place, BOKUHIRA_PLACE, BOKUHIRA_PLACE_DROPS + 64);
SAME(state, BOKUHIRA_STATE, BOKUHIRA_AT_PLACES + BOKUHIRA_PLACES * BOKUHIRA_PLACE);
SAME(hold, BOKUHIRA_HOLD, BOKUHIRA_PLACES * BOKUHIRA_DATA);
SAME(array, BOKUHIRA_ARRAY(8, 8), 33792);
SAME(array_type, sizeof(BOKUHIRA_ARRAY(8, 8)), sizeof(size_t));

#if BOKUHIRA_GEOMETRY(8, 8, 17, 1) || BOKUHIRA_GEOMETRY(8, 8, 16, 3) || !BOKUHIRA_GEOMETRY(128, 64, 1024, 2) || BOKUHIRA_MAP_PAGES(257) != 2
#error "the macros do not stand in #if"
#endif

static uint8_t array[BOKUHIRA_ARRAY(BOKUHIRA_BLOCKS_MAX + 1, BOKUHIRA_PAGES_MAX + 1)], hold[BOKUHIRA_HOLD], state[BOKUHIRA_STATE];
static uint16_t map[BOKUHIRA_LOGICAL_MAX + 1];

/* Whether the library takes a geometry: recover finds no checkpoint in zeros. */
static int taken(int blocks, int pages, int logical, int planes)
{
    return bokuhira_recover(array, BOKUHIRA_ARRAY(blocks, pages), map, (size_t)logical, hold, sizeof hold, state, sizeof state, (uint16_t)blocks,
                            (uint16_t)pages, (uint16_t)logical, (uint16_t)planes)
           == BOKUHIRA_NO_CHECKPOINT;
}

/* Whether the macro says the same of all logical pages and planes that can matter. */
static int agrees(int blocks, int pages)
{
    int most = (blocks - 6) * pages, tried[6], i, planes, same = 1;

    tried[0] = 0;
    tried[1] = 1;
    tried[2] = most;
    tried[3] = most + 1;
    tried[4] = BOKUHIRA_LOGICAL_MAX;
    tried[5] = BOKUHIRA_LOGICAL_MAX + 1;
    for (i = 0; i < 6; i++)
        if (tried[i] >= 0 && tried[i] <= BOKUHIRA_LOGICAL_MAX + 1)
            for (planes = 0; planes <= BOKUHIRA_PLANES_MAX + 1; planes++)
                same = same && taken(blocks, pages, tried[i], planes) == BOKUHIRA_GEOMETRY(blocks, pages, tried[i], planes);
    return same;
}

int main(void)
{
    char version[32];
    int blocks, pages, n, unknown;

    for (blocks = 0; blocks <= BOKUHIRA_BLOCKS_MAX + 1; blocks++)
        for (pages = 0; pages <= BOKUHIRA_PAGES_MAX + 1; pages++)
            if (!agrees(blocks, pages)) {
                printf("%d blocks of %d pages: the library differs\n", blocks, pages);
                return 1;
            }
    sprintf(version, "%d.%d.%d", BOKUHIRA_VERSION_MAJOR, BOKUHIRA_VERSION_MINOR, BOKUHIRA_VERSION_PATCH);
    if (strcmp(version, BOKUHIRA_VERSION) != 0) {
        printf("version %s is not %s\n", version, BOKUHIRA_VERSION);
        return 1;
    }
    for (n = 0, unknown = 0; n < 256; n++)
        if (strcmp(bokuhira_word((uint8_t)n), "unknown answer") == 0 && strcmp(bokuhira_text((uint8_t)n), "unknown answer") == 0)
            unknown++;
        else
            printf("%d %s: %s\n", n, bokuhira_word((uint8_t)n), bokuhira_text((uint8_t)n));
    printf("%d others: unknown answer\n", unknown);
    return 0;
}

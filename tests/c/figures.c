/*
 * The figures of docs/FIRMWARE.md for one geometry, by the routines of examples/switch.c: how long a change may be on a flash that is
 * freshly formatted and on one whose logical pages are all written, and how many pages are programmed for each that is written.
 */
#define main example
#include "../../examples/switch.c"
#undef main

/* The longest change that the rules promise on the second flash. */
#define ROOM ((BLOCKS - 4) * PAGES - LOGICAL + 1)
#define PROMISED (ROOM < BOKUHIRA_CHANGE_PAGES ? ROOM : BOKUHIRA_CHANGE_PAGES)

static struct device {
    uint8_t flash[sizeof flash];
    uint16_t map[LOGICAL];
    uint8_t hold[sizeof hold];
    uint8_t state[sizeof state];
} kept;

static void keep(void)
{
    memcpy(kept.flash, flash, sizeof flash);
    memcpy(kept.map, map, sizeof map);
    memcpy(kept.hold, hold, sizeof hold);
    memcpy(kept.state, state, sizeof state);
}

static void put_back(void)
{
    memcpy(flash, kept.flash, sizeof flash);
    memcpy(map, kept.map, sizeof map);
    memcpy(hold, kept.hold, sizeof hold);
    memcpy(state, kept.state, sizeof state);
}

/* Numbers that follow one another without a pattern to be seen, below n. */
static unsigned below(unsigned n)
{
    static uint32_t seed = 1;
    seed = seed * 1664525 + 1013904223;
    return (seed >> 8) % n;
}

/* n settings on logical pages from anywhere. */
static const struct setting *some(int n)
{
    static struct setting settings[BOKUHIRA_CHANGE_PAGES + 1];
    int i;

    for (i = 0; i < n; i++) {
        settings[i].lpn = (uint16_t)below(LOGICAL);
        settings[i].text = "a setting";
    }
    return settings;
}

/* A change of n pages, with no room made on the way. */
static uint8_t in_one_go(const struct setting *settings, int n)
{
    static const uint8_t data[BOKUHIRA_DATA];
    uint8_t answer = bokuhira_begin(LENT, ++identifier);
    int i;

    for (i = 0; i < n && answer == BOKUHIRA_DONE; i++)
        answer = bokuhira_write(LENT, data, sizeof data, identifier, settings[i].lpn);
    return answer == BOKUHIRA_DONE ? bokuhira_commit(LENT, identifier) : answer;
}

/* The longest change that goes, by one way to write it; one page above the limit is tried too. */
static int longest(uint8_t (*way)(const struct setting *, int))
{
    int n = 0;

    keep();
    while (n <= BOKUHIRA_CHANGE_PAGES && way(some(n + 1), n + 1) == BOKUHIRA_DONE) {
        put_back();
        n++;
    }
    put_back();
    return n;
}

int main(void)
{
    enum { CHANGES = 2000, OFTEN = 10 };
    uint32_t version, checkpoint, copies, front;
    int i, n, pages = 0, clean = 3 * PAGES, free_blocks = BLOCKS;
    struct setting each = { 0, "a setting" };
    uint8_t answer;

    do
        answer = bokuhira_format(LENT, BLOCKS, PAGES, LOGICAL, PLANES);
    while (answer == BOKUHIRA_MORE);
    must("format", answer);
    printf("%d x %d x %d, formatted: a change of %d pages in one go, of %d with room made", BLOCKS, PAGES, LOGICAL, longest(in_one_go), longest(save));
    for (i = 0; i < PAGES - 1; i++)
        must("save", save(&each, 1));
    printf("; behind %d pages of %d in one go\n", PAGES - 1, longest(in_one_go));

    for (; each.lpn < LOGICAL; each.lpn++)
        must("save", save(&each, 1));
    version = field(BOKUHIRA_AT_VERSION);
    checkpoint = field(BOKUHIRA_AT_CHECKPOINT);
    for (i = 0; i < CHANGES; i++) {
        n = 1 + (int)below(8);
        must("save", save(some(n), n));
        pages += n;
        if (i % OFTEN == 0) { /* on a copy, since it is no part of what is counted */
            keep();
            must("a long change", save(some(PROMISED), PROMISED));
            put_back();
        }
        while (idle())
            ;
        if (clean_pages() < clean)
            clean = clean_pages();
        if (state[BOKUHIRA_AT_FREE_COUNT] < free_blocks)
            free_blocks = state[BOKUHIRA_AT_FREE_COUNT];
    }
    copies = field(BOKUHIRA_AT_VERSION) - version - CHANGES;
    front = (field(BOKUHIRA_AT_CHECKPOINT) - checkpoint) * (BOKUHIRA_MAP_PAGES(LOGICAL) + 1);
    printf("%d x %d x %d, all written: %d changes of %d pages went; housekeeping leaves %d clean pages and %d free blocks or more; "
           "%.1f pages programmed for each written\n",
           BLOCKS, PAGES, LOGICAL, CHANGES / OFTEN, PROMISED, clean, free_blocks, (pages + copies + front) / (double)pages);
    return 0;
}

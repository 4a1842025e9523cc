/*
 * What the power-up of examples/switch.c makes of formats that were cut and of flashes of another geometry. A new chip whose first format
 * is cut, as often as one likes and at any bits, is formatted in the end. A flash that holds a setting is never formatted, whatever
 * geometry it was formatted with. And what recover answers where a later format was cut.
 */
#include <stdarg.h>
#include <stdio.h>
#include <string.h>

static int formats; /* that power_up began */

static int said(const char *text, ...)
{
    va_list more;

    va_start(more, text);
    if (strcmp(text, "a new chip is formatted\n") == 0)
        formats++;
    else
        vprintf(text, more);
    va_end(more);
    return 0;
}

#define printf said
#define main example
#include "../../examples/switch.c"
#undef main
#undef printf

static uint8_t old_flash[sizeof flash];

static unsigned below(unsigned n)
{
    static uint32_t seed = 1;
    seed = seed * 1664525 + 1013904223;
    return (seed >> 8) % n;
}

static void wrong(const char *what)
{
    printf("%d x %d x %d: %s\n", BLOCKS, PAGES, LOGICAL, what);
    exit(1);
}

/* A power cut in the last call: any part of the bits that it changed are as before, now and then few or none. */
static void tear(void)
{
    unsigned few = below(4) == 0 ? 1 + below(1000) : 1;
    size_t i;

    for (i = 0; i < sizeof flash; i++)
        if (flash[i] != old_flash[i] && below(few) == 0)
            flash[i] ^= (flash[i] ^ old_flash[i]) & (uint8_t)below(256);
    memset(map, 0xA5, sizeof map);
    memset(state, 0xA5, sizeof state);
}

/* A format from its first stride, cut in this one of its strides. */
static void cut_format(int stride)
{
    memset(state, 0, sizeof state);
    do {
        memcpy(old_flash, flash, sizeof flash);
        if (bokuhira_format(LENT, BLOCKS, PAGES, LOGICAL, PLANES) == BOKUHIRA_DONE && stride > 0)
            wrong("a format with fewer strides");
    } while (stride-- > 0);
    tear();
}

/* A new chip: its format is cut, and the next one, up to four times in all. */
static void new_chip(void)
{
    const struct setting first = { 0, "a setting" };
    int cuts = 1 + (int)below(4), n = formats;
    uint8_t answer = BOKUHIRA_NO_CHECKPOINT;

    memset(flash, 0xFF, sizeof flash);
    while (cuts-- > 0 && answer == BOKUHIRA_NO_CHECKPOINT) {
        /* mostly where a page is programmed, or block 0 erased */
        cut_format(below(4) == 0 ? (int)below(BLOCKS) : below(4) == 0 ? 0 : BLOCKS + (int)below(BOKUHIRA_MAP_PAGES(LOGICAL) + 1));
        answer = bokuhira_recover(LENT, BLOCKS, PAGES, LOGICAL, PLANES);
        if (!never_used() || (answer != BOKUHIRA_NO_CHECKPOINT && answer != BOKUHIRA_DONE))
            wrong("a first format that was cut is not taken for one");
    }
    must("power-up", power_up());
    if (formats - n != (answer == BOKUHIRA_NO_CHECKPOINT))
        wrong("a format where none was due, or none where one was");
    must("save", save(&first, 1));
    if (never_used())
        wrong("a flash with a setting is taken for new");
    must("power-up", power_up());
    if (map[0] == BOKUHIRA_UNMAPPED)
        wrong("the setting is gone");
}

/* A flash of another geometry on the same chip, from its first setting on: what recover answers to the wrong geometry, and how often. */
static void other(uint16_t blocks, uint16_t pages, uint16_t logical, int *answers)
{
    static const uint8_t data[BOKUHIRA_DATA];
    static uint8_t its_hold[BOKUHIRA_HOLD], its_state[BOKUHIRA_STATE];
    static uint16_t its_map[BOKUHIRA_LOGICAL_MAX];
#define ITS flash, sizeof flash, its_map, (size_t)logical, its_hold, sizeof its_hold, its_state, sizeof its_state
    int calls, n = formats;
    uint8_t answer;

    memset(flash, (int)below(256), sizeof flash);
    memset(its_state, 0, sizeof its_state);
    do
        answer = bokuhira_format(ITS, blocks, pages, logical, 1);
    while (answer == BOKUHIRA_MORE);
    must("format", answer);
    must("lone write", bokuhira_lone(ITS, data, sizeof data, (uint16_t)below(logical)));
    for (calls = 0; calls < 2000; calls++) {
        const uint8_t kind = its_state[BOKUHIRA_AT_KIND];
        if (calls < 40 || calls % 100 == 0) {
            memcpy(old_flash, flash, sizeof flash);
            answers[power_up()]++;
            if (formats != n || memcmp(old_flash, flash, sizeof flash) != 0)
                wrong("a flash with a setting is formatted");
        }
        if (kind == BOKUHIRA_KIND_CHECKPOINT || (kind == BOKUHIRA_KIND_NONE && below(8) == 0))
            answer = bokuhira_checkpoint(ITS);
        else if (kind == BOKUHIRA_KIND_RECLAIM || below(8) == 0)
            answer = bokuhira_reclaim(ITS);
        else
            answer = bokuhira_lone(ITS, data, sizeof data, (uint16_t)below(logical));
    }
}

/* Checkpoints up to number n. */
static void checkpoints(uint32_t n)
{
    while (field(BOKUHIRA_AT_CHECKPOINT) < n)
        must("checkpoint", finish(BOKUHIRA_KIND_CHECKPOINT));
}

/* A change under identifier 5, and lone writes that fill its block. */
static void change_5(int fill)
{
    static const uint8_t data[BOKUHIRA_DATA];

    must("begin", bokuhira_begin(LENT, 5));
    must("write", bokuhira_write(LENT, data, sizeof data, 5, 1));
    must("commit", bokuhira_commit(LENT, 5));
    for (; fill > 0; fill--)
        must("lone write", bokuhira_lone(LENT, data, sizeof data, LOGICAL - 1));
}

/* A used flash whose format is cut behind its first stride, in which block 0 was erased: an older checkpoint stands in block 1. */
static uint8_t used_flash(uint16_t logical)
{
    const uint32_t last = PAGES / (BOKUHIRA_MAP_PAGES(LOGICAL) + 1) * 2; /* the checkpoint that fills block 1 */

    memset(flash, 0xFF, sizeof flash);
    must("power-up", power_up());
    change_5(PAGES - 1);
    checkpoints(last);
    change_5(PAGES - 1);
    checkpoints(last + 1);
    change_5(0);
    memset(state, 0, sizeof state);
    if (bokuhira_format(flash, sizeof flash, map, logical, hold, sizeof hold, state, sizeof state, BLOCKS, PAGES, logical, PLANES) != BOKUHIRA_MORE)
        wrong("a format of one stride");
    return bokuhira_recover(flash, sizeof flash, map, logical, hold, sizeof hold, state, sizeof state, BLOCKS, PAGES, logical, PLANES);
}

int main(void)
{
    static const uint16_t sizes[][2] = { { 128, 8 }, { 64, 16 }, { 32, 32 }, { 16, 64 }, { 8, 8 } };
    static const uint16_t logicals[] = { 1, 16, 200, 300, 520, 800 };
    int chips, answers[256] = { 0 }, n = 0;
    size_t i, j;

    for (chips = 0; chips < 300; chips++)
        new_chip();
    printf("%d x %d x %d: %d new chips, each with a first format that was cut, start; %d were formatted at power-up\n", BLOCKS, PAGES, LOGICAL, chips, formats);

    for (i = 0; i < sizeof sizes / sizeof *sizes; i++)
        for (j = 0; j < sizeof logicals / sizeof *logicals; j++)
            if (BOKUHIRA_ARRAY(sizes[i][0], sizes[i][1]) == sizeof flash && BOKUHIRA_GEOMETRY(sizes[i][0], sizes[i][1], logicals[j], 1)) {
                other(sizes[i][0], sizes[i][1], logicals[j], answers);
                n++;
            }
    printf("  flashes of %d geometries with settings, powered up as this one: none is formatted; answers", n);
    for (i = 0; i < 256; i++)
        if (answers[i] > 0)
            printf(" %d: %d times", (int)i, answers[i]);
    printf("\n  a later format is cut: recover answers %d", used_flash(LOGICAL));
    printf(", and %d where it had one logical page less\n", used_flash(LOGICAL - 1));
    return 0;
}

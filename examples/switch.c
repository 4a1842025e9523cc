/*
 * How a switch keeps its settings: power-up, settings saved and deleted together, housekeeping in idle time, power cuts. docs/FIRMWARE.md
 * explains it. The flash is an array in memory here. What is not expected is told, and ends the program with status 1.
 */
#include <stdio.h>
#include <stdlib.h>
#include <string.h>

#include "bokuhira.h"

/* The geometry, unless the compiler is given another. */
#ifndef BLOCKS
#define BLOCKS 8
#define PAGES 8
#define LOGICAL 16
#endif
#ifndef PLANES
#define PLANES 1
#endif
#if !BOKUHIRA_GEOMETRY(BLOCKS, PAGES, LOGICAL, PLANES)
#error "the geometry is out of range"
#endif

/* The flash outlives a power cut; what follows it does not. */
static uint8_t flash[BOKUHIRA_ARRAY(BLOCKS, PAGES)];
static uint16_t map[LOGICAL];
static uint8_t hold[BOKUHIRA_HOLD];
static uint8_t state[BOKUHIRA_STATE];
static uint32_t identifier; /* the last one that was tried */
static int rooms;           /* how often room was made */

#define LENT flash, sizeof flash, map, LOGICAL, hold, sizeof hold, state, sizeof state

/* The settings of a group of ports, on a logical page of their own; without a text the group is to be deleted. */
struct setting {
    uint16_t lpn;
    const char *text;
};

/* Ends the program unless the answer is done. */
static void must(const char *what, uint8_t answer)
{
    if (answer != BOKUHIRA_DONE) {
        printf("%s: %d %s: %s\n", what, answer, bokuhira_word(answer), bokuhira_text(answer));
        exit(1);
    }
}

/* A field of the state that has 4 bytes. */
static uint32_t field(size_t at)
{
    return state[at] | (uint32_t)state[at + 1] << 8 | (uint32_t)state[at + 2] << 16 | (uint32_t)state[at + 3] << 24;
}

/* The clean pages of the available blocks: in each, those after its last page that is not erased. */
static int clean_pages(void)
{
    int i, q, n = 0;

    for (i = 0; i < state[BOKUHIRA_AT_AVAILABLE_COUNT]; i++)
        for (q = PAGES - 1; q >= 0; q--, n++) {
            const uint8_t *page = flash + (state[BOKUHIRA_AT_AVAILABLE + i] * PAGES + q) * BOKUHIRA_PAGE;
            if (page[0] != 0xFF || memcmp(page, page + 1, BOKUHIRA_PAGE - 1) != 0)
                break;
        }
    return n;
}

/* One stride of a checkpoint or a reclaim. */
static uint8_t stride(uint8_t kind)
{
    return kind == BOKUHIRA_KIND_CHECKPOINT ? bokuhira_checkpoint(LENT) : bokuhira_reclaim(LENT);
}

/* All its strides, or those that are left. */
static uint8_t finish(uint8_t kind)
{
    uint8_t answer;

    do
        answer = stride(kind);
    while (answer == BOKUHIRA_MORE);
    return answer;
}

/* Whether nothing was ever saved: all but the first pages, those of a format's checkpoint, reads 0xFF. */
static int never_used(void)
{
    const size_t from = (BOKUHIRA_MAP_PAGES(LOGICAL) + 1) * BOKUHIRA_PAGE;

    return flash[from] == 0xFF && memcmp(flash + from, flash + from + 1, sizeof flash - from - 1) == 0;
}

/* Power-up, whatever the RAM holds. A new chip is formatted. */
static uint8_t power_up(void)
{
    uint8_t answer = bokuhira_recover(LENT, BLOCKS, PAGES, LOGICAL, PLANES);

    if (answer == BOKUHIRA_NO_CHECKPOINT && never_used()) {
        printf("a new chip is formatted\n");
        memset(state, 0, sizeof state); /* so that it begins with its first stride */
        do
            answer = bokuhira_format(LENT, BLOCKS, PAGES, LOGICAL, PLANES);
        while (answer == BOKUHIRA_MORE);
    }
    identifier = field(BOKUHIRA_AT_VERSION); /* the last version */
    return answer;
}

/* After zone short; 1 if a page can be programmed again. */
static int make_room(void)
{
    rooms++;
    must("checkpoint", finish(BOKUHIRA_KIND_CHECKPOINT));
    if (clean_pages() <= PAGES && finish(BOKUHIRA_KIND_RECLAIM) == BOKUHIRA_DONE)
        must("checkpoint", finish(BOKUHIRA_KIND_CHECKPOINT));
    return clean_pages() > PAGES;
}

/* Adds one group to the open change: writes its settings or, if it is to be deleted, drops its page. */
static uint8_t add(const struct setting *setting)
{
    uint8_t data[BOKUHIRA_DATA] = { 0 };

    if (setting->text == NULL)
        return bokuhira_drop(LENT, identifier, setting->lpn);
    snprintf((char *)data, sizeof data, "%s", setting->text);
    return bokuhira_write(LENT, data, sizeof data, identifier, setting->lpn);
}

/* Saves or deletes n groups as one change: all of them or, if it is refused or power is cut, none. */
static uint8_t save(const struct setting *settings, int n)
{
    uint8_t answer;
    int i;

    if (state[BOKUHIRA_AT_KIND] != BOKUHIRA_KIND_NONE) /* else 17 */
        must("housekeeping", finish(state[BOKUHIRA_AT_KIND]));
    do
        answer = bokuhira_begin(LENT, ++identifier);
    while (answer == BOKUHIRA_IDENTIFIER_LIVE || answer == BOKUHIRA_BAD_IDENTIFIER);
    if (answer != BOKUHIRA_DONE)
        return answer;
    for (i = 0; i < n && answer == BOKUHIRA_DONE; i++)
        do
            answer = add(&settings[i]);
        while (answer == BOKUHIRA_ZONE_SHORT && make_room());
    if (answer == BOKUHIRA_DONE)
        do
            answer = bokuhira_commit(LENT, identifier);
        while (answer == BOKUHIRA_ZONE_SHORT && make_room());
    if (answer != BOKUHIRA_DONE)
        must("abort", bokuhira_abort(LENT, identifier));
    return answer;
}

/* One stride of housekeeping; 0 if nothing is due. */
static int idle(void)
{
    uint8_t answer, kind = state[BOKUHIRA_AT_KIND], free_blocks = state[BOKUHIRA_AT_FREE_COUNT];

    if (kind == BOKUHIRA_KIND_NONE && free_blocks > 0 && clean_pages() <= 2 * PAGES)
        kind = BOKUHIRA_KIND_CHECKPOINT;
    if (kind == BOKUHIRA_KIND_NONE && free_blocks == 0)
        kind = BOKUHIRA_KIND_RECLAIM;
    if (kind == BOKUHIRA_KIND_NONE)
        return 0;
    answer = stride(kind);
    if (answer == BOKUHIRA_NO_GAIN || answer == BOKUHIRA_RESERVE_SHORT)
        return 0;
    if (answer != BOKUHIRA_MORE)
        must("housekeeping", answer);
    return 1;
}

/* Tells what the logical pages 0 to 3 read as. */
static void tell(void)
{
    uint16_t lpn;
    size_t at;

    for (lpn = 0; lpn < 4; lpn++) {
        uint8_t answer = bokuhira_read(LENT, &at, lpn);
        if (answer == BOKUHIRA_NEVER_WRITTEN) {
            printf("    %d: %s\n", lpn, bokuhira_word(answer));
        } else {
            must("read", answer);
            printf("    %d: %.*s\n", lpn, BOKUHIRA_DATA, (const char *)flash + at);
        }
    }
}

/* A power cut: the RAM holds anything afterwards. */
static void cut(void)
{
    memset(map, 0xA5, sizeof map);
    memset(hold, 0xA5, sizeof hold);
    memset(state, 0xA5, sizeof state);
    printf("power cut\n");
    must("power-up", power_up());
    tell();
}

int main(void)
{
    static const struct setting factory[] = { { 0, "vlan 1, ports 1-22" }, { 1, "mirror off" }, { 2, "ring 7, ports 23-24" } };
    static const struct setting site[] = { { 0, "vlan 20, ports 1-22" }, { 2, "ring 9, ports 23-24" } };
    static const struct setting no_ring[] = { { 0, "vlan 20, ports 1-24" }, { 2, NULL } };
    static const uint8_t lost[BOKUHIRA_DATA] = "half a change";
    int i;

    memset(flash, 0xFF, sizeof flash); /* a new chip */
    for (i = 0; i <= BLOCKS; i++) {    /* power is cut in its format, when one page is programmed */
        uint8_t answer = bokuhira_format(LENT, BLOCKS, PAGES, LOGICAL, PLANES);
        if (answer != BOKUHIRA_MORE)
            must("format", answer);
    }
    cut();
    must("save", save(factory, 3));
    printf("saved as change %u\n", (unsigned)identifier);

    must("begin", bokuhira_begin(LENT, ++identifier));
    must("write", bokuhira_write(LENT, lost, sizeof lost, identifier, 0));
    must("write", bokuhira_write(LENT, lost, sizeof lost, identifier, 3));
    printf("change %u is open\n", (unsigned)identifier);
    cut();

    must("save", save(site, 2)); /* begin answers 7 for the identifier that was lost: it stands on a page */
    printf("saved as change %u\n", (unsigned)identifier);
    for (i = 0; i < 100; i++)
        must("save", save(site, 2));
    printf("saved 100 times without a rest: room was made %d times; clean pages %d, free blocks %d\n", rooms, clean_pages(),
           state[BOKUHIRA_AT_FREE_COUNT]);
    for (i = 0; idle(); i++)
        if (i == 0)
            must("save", save(site, 2)); /* between two strides: the rest of that work is done first */
    printf("housekeeping, %d strides: clean pages %d, free blocks %d\n", i, clean_pages(), state[BOKUHIRA_AT_FREE_COUNT]);
    cut();

    must("save", save(no_ring, 2)); /* the ring is given up: its group goes, and its ports join group 0 */
    printf("saved and deleted as change %u\n", (unsigned)identifier);
    cut();
    return 0;
}

/*
 * The table in docs/FIRMWARE.md that tells, from map and state before and after a call, which page it programmed or which block it erased:
 * thousands of calls of every command, with power cuts, each held to what a comparison of the array before and after it finds. An erase of
 * a block that reads erased is told and not found; all else is both. The strides of each command are counted too.
 */
#define main example
#include "../../examples/switch.c"
#undef main

#include "book.h"

enum { CALLS = 100000, MAP_PAGES = BOKUHIRA_MAP_PAGES(LOGICAL) };

/* What a call did: the page it programmed and the block it erased, -1 for none. */
struct operation {
    int page, block;
};

/* The device before the call. */
static uint8_t old_flash[sizeof flash], old_state[sizeof state];
static uint16_t old_map[LOGICAL];

static unsigned below(unsigned n)
{
    static uint32_t seed = 1;
    seed = seed * 1664525 + 1013904223;
    return (seed >> 8) % n;
}

static void wrong(const char *what, int command)
{
    printf("%s: %s\n", names[command], what);
    exit(1);
}

static int half(const uint8_t *at) { return at[0] | at[1] << 8; }

/* Where the place of an open change begins in a state. */
static const uint8_t *place(const uint8_t *in, uint32_t id)
{
    const uint8_t *at = in + BOKUHIRA_AT_PLACES;

    while (half(at) != (int)(id & 0xFFFF) || half(at + 2) != (int)(id >> 16))
        at += BOKUHIRA_PLACE;
    return at;
}

/* Whether so many bytes all read erased. */
static int reads_erased(const uint8_t *at, size_t n) { return at[0] == 0xFF && memcmp(at, at + 1, n - 1) == 0; }

/* The first clean page before the call: of the first available block that has one, of any plane (-1) or of this one (0 even, 1 odd). */
static int first_clean_of(int plane)
{
    int i, q;

    for (i = 0; i < old_state[BOKUHIRA_AT_AVAILABLE_COUNT]; i++) {
        const int block = old_state[BOKUHIRA_AT_AVAILABLE + i];
        if (plane >= 0 && block % 2 != plane)
            continue;
        for (q = PAGES; q > 0 && reads_erased(old_flash + (block * PAGES + q - 1) * BOKUHIRA_PAGE, BOKUHIRA_PAGE); q--)
            ;
        if (q < PAGES)
            return block * PAGES + q;
    }
    return -1;
}

/* On two planes of the other plane than the last, if it has one. */
static int first_clean(void)
{
    const int last = old_state[BOKUHIRA_AT_PLANE];
    const int page = PLANES == 2 && last != BOKUHIRA_PLANE_NEITHER ? first_clean_of(last == BOKUHIRA_PLANE_EVEN) : -1;

    return page >= 0 ? page : first_clean_of(-1);
}

/* By the table, one line of it for each line here. */
static struct operation tells(const struct call *c)
{
    struct operation o = { -1, -1 };
    const int done = c->answer == BOKUHIRA_DONE, more = c->answer == BOKUHIRA_MORE;
    const int formats = old_state[BOKUHIRA_AT_KIND] == BOKUHIRA_KIND_FORMAT, s = formats ? half(old_state + BOKUHIRA_AT_STRIDE) : 0;
    const uint8_t *at;
    int i, count;

    if (c->command == LONE && done)
        o.page = map[c->lpn];
    if ((c->command == WRITE || c->command == DROP) && done && (count = (at = place(state, c->id))[BOKUHIRA_PLACE_COUNT]) >= 2)
        o.page = half(at + BOKUHIRA_PLACE_PAGES + 2 * (count - 2));
    if (c->command == COMMIT && done && (count = (at = place(old_state, c->id))[BOKUHIRA_PLACE_COUNT]) >= 1)
        o.page = at[BOKUHIRA_PLACE_DROPS + count - 1] ? first_clean() : map[half(at + BOKUHIRA_PLACE_LOGICAL + 2 * (count - 1))];
    if (c->command == CHECKPOINT && state[BOKUHIRA_AT_FRONT] != old_state[BOKUHIRA_AT_FRONT])
        o.block = state[BOKUHIRA_AT_FRONT];
    else if (c->command == CHECKPOINT && more)
        o.page = state[BOKUHIRA_AT_FRONT] * PAGES + state[BOKUHIRA_AT_FIRST] + half(state + BOKUHIRA_AT_STRIDE) - 1;
    else if (c->command == CHECKPOINT && done)
        o.page = state[BOKUHIRA_AT_FRONT] * PAGES + old_state[BOKUHIRA_AT_FIRST] + MAP_PAGES;
    if (c->command == RECLAIM && more)
        for (i = 0; i < LOGICAL; i++)
            if (map[i] != old_map[i])
                o.page = map[i];
    if (c->command == RECLAIM && done)
        for (i = 0; i < state[BOKUHIRA_AT_FREE_COUNT]; i++)
            if (!memchr(old_state + BOKUHIRA_AT_FREE, state[BOKUHIRA_AT_FREE + i], old_state[BOKUHIRA_AT_FREE_COUNT]))
                o.block = state[BOKUHIRA_AT_FREE + i];
    if (c->command == FORMAT && (done || more) && s < BLOCKS)
        o.block = s;
    if (c->command == FORMAT && (done || more) && s >= BLOCKS)
        o.page = s - BLOCKS;
    return o;
}

/* By comparison: pages of one block that became erased, or one other page. */
static struct operation finds(int command)
{
    struct operation o = { -1, -1 };
    int page;

    for (page = 0; page < BLOCKS * PAGES; page++) {
        const uint8_t *now = flash + page * BOKUHIRA_PAGE;
        const int erased = reads_erased(now, BOKUHIRA_PAGE);
        if (memcmp(now, old_flash + page * BOKUHIRA_PAGE, BOKUHIRA_PAGE) == 0)
            continue;
        if (o.page >= 0 || (o.block >= 0 && (o.block != page / PAGES || !erased)))
            wrong("more than one operation", command);
        if (erased)
            o.block = page / PAGES;
        else
            o.page = page;
    }
    return o;
}

/* A power cut in the last call: any part of the bits that it changed are as before. */
static void tear(void)
{
    size_t i;

    for (i = 0; i < sizeof flash; i++)
        flash[i] ^= (flash[i] ^ old_flash[i]) & (uint8_t)below(256);
    memset(map, 0xA5, sizeof map);
    memset(state, 0xA5, sizeof state);
}

/* The identifiers of the open changes, as the state has them; how many. */
static int open_changes(uint32_t *ids)
{
    int i, n = 0;

    for (i = 0; i < BOKUHIRA_PLACES; i++)
        if ((ids[n] = field(BOKUHIRA_AT_PLACES + (size_t)i * BOKUHIRA_PLACE)) != 0)
            n++;
    return n;
}

/* Mostly the command under way; else any, a format seldom. */
static int drawn(void)
{
    static const uint8_t often[] = { BEGIN, WRITE, WRITE, WRITE, DROP, LONE, LONE, COMMIT, ABORT, READ, CHECKPOINT, RECLAIM, RECLAIM };
    static const uint8_t of_kind[] = { NONE, FORMAT, CHECKPOINT, RECLAIM };
    uint8_t kind = state[BOKUHIRA_AT_KIND];

    if (kind != BOKUHIRA_KIND_NONE && below(8) > 0)
        return of_kind[kind];
    return below(2000) == 0 ? FORMAT : often[below(sizeof often)];
}

static uint8_t carried_out(const struct call *c)
{
    static uint8_t data[BOKUHIRA_DATA];
    size_t at;

    memset(data, (int)below(256), sizeof data);
    switch (c->command) {
    case FORMAT: return bokuhira_format(LENT, BLOCKS, PAGES, LOGICAL, PLANES);
    case RECOVER: return bokuhira_recover(LENT, BLOCKS, PAGES, LOGICAL, PLANES);
    case BEGIN: return bokuhira_begin(LENT, c->id);
    case WRITE: return bokuhira_write(LENT, data, sizeof data, c->id, c->lpn);
    case DROP: return bokuhira_drop(LENT, c->id, c->lpn);
    case LONE: return bokuhira_lone(LENT, data, sizeof data, c->lpn);
    case COMMIT: return bokuhira_commit(LENT, c->id);
    case ABORT: return bokuhira_abort(LENT, c->id);
    case READ: return bokuhira_read(LENT, &at, c->lpn);
    case CHECKPOINT: return bokuhira_checkpoint(LENT);
    default: return bokuhira_reclaim(LENT);
    }
}

/* The strides of a command that has ended, of which all were made: front and map are those before the first. */
static int strides_due(int command, uint8_t front, const uint16_t *first_map, int freed)
{
    int i, n = MAP_PAGES + 1;

    if (command == FORMAT)
        return n + BLOCKS;
    if (command == CHECKPOINT)
        return n + (state[BOKUHIRA_AT_FRONT] != front);
    for (i = 0, n = 1; i < LOGICAL; i++)
        n += first_map[i] / PAGES == freed;
    return n;
}

int main(void)
{
    static uint16_t first_map[LOGICAL];
    uint32_t ids[BOKUHIRA_PLACES + 1];
    uint8_t front = 0;
    int i, n, strides = 0, programs = 0, erases = 0, unseen = 0, cuts = 0, ended[NONE] = { 0 };

    for (i = 0; i < CALLS; i++) {
        struct call c = { 0 };
        struct operation told, found;

        c.command = i < BLOCKS + MAP_PAGES + 1 ? FORMAT : (uint8_t)drawn();
        c.lpn = (uint16_t)below(LOGICAL);
        n = open_changes(ids);
        c.id = c.command == BEGIN || n == 0 ? 1 + below(1000000) : ids[below((unsigned)n)];
        memcpy(old_flash, flash, sizeof flash);
        memcpy(old_state, state, sizeof state);
        memcpy(old_map, map, sizeof map);
        c.answer = carried_out(&c);

        told = tells(&c);
        found = finds(c.command);
        if (found.page != told.page)
            wrong("another page is programmed than is told", c.command);
        if (found.block != told.block && found.block >= 0)
            wrong("another block is erased than is told", c.command);
        if (told.block >= 0 && !reads_erased(flash + told.block * PAGES * BOKUHIRA_PAGE, PAGES * BOKUHIRA_PAGE))
            wrong("a block is told to be erased and is not", c.command);
        programs += found.page >= 0;
        erases += found.block >= 0;
        unseen += found.block != told.block;

        if ((c.answer == BOKUHIRA_DONE || c.answer == BOKUHIRA_MORE) && (c.command == FORMAT || c.command == CHECKPOINT || c.command == RECLAIM)) {
            if (c.command == FORMAT ? told.block == 0 : old_state[BOKUHIRA_AT_KIND] == BOKUHIRA_KIND_NONE) {
                strides = 0;
                front = old_state[BOKUHIRA_AT_FRONT];
                memcpy(first_map, old_map, sizeof map);
            }
            strides++;
            if (c.answer == BOKUHIRA_DONE && strides != strides_due(c.command, front, first_map, told.block))
                wrong("another number of strides", c.command);
            ended[c.command] += c.answer == BOKUHIRA_DONE;
        }
        /* nothing is promised of a format that is cut */
        if (state[BOKUHIRA_AT_KIND] != BOKUHIRA_KIND_FORMAT && c.command != FORMAT && below(50) == 0) {
            tear();
            cuts++;
            must("recover", bokuhira_recover(LENT, BLOCKS, PAGES, LOGICAL, PLANES));
        }
    }
    printf("%d x %d x %d, planes: %d: %d calls, %d cuts: %d programs and %d erases found and told, %d erases of erased blocks told; "
           "%d formats, %d checkpoints, %d reclaims with their strides\n",
           BLOCKS, PAGES, LOGICAL, PLANES, CALLS, cuts, programs, erases, unseen, ended[FORMAT], ended[CHECKPOINT], ended[RECLAIM]);
    return 0;
}

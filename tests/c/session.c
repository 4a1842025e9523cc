/*
 * A short session through the C interface on a device of 8 blocks of 8 pages with 16 logical pages, in a thread that has BOKUHIRA_STACK
 * bytes of stack. Every answer, and every byte that an answer speaks of, is checked; the first that differs ends the program with
 * status 1.
 */
#include <pthread.h>
#include <stdio.h>
#include <stdlib.h>
#include <string.h>

#include "bokuhira.h"

enum { BLOCKS = 8, PAGES = 8, LOGICAL = 16 };

/* A device as its caller lends it. */
struct lent {
    uint8_t array[BOKUHIRA_ARRAY(BLOCKS, PAGES)];
    uint16_t map[LOGICAL];
    uint8_t hold[BOKUHIRA_HOLD];
    uint8_t state[BOKUHIRA_STATE];
    size_t at;
};

static struct lent d, before;
static uint8_t data[BOKUHIRA_DATA];
static int held;

#define LENT d.array, sizeof d.array, d.map, LOGICAL, d.hold, sizeof d.hold, d.state, sizeof d.state

static void check(int holds, int line)
{
    if (!holds) {
        printf("tests/c/session.c:%d does not hold\n", line);
        exit(1);
    }
    held++;
}

#define CHECK(holds) check((holds), __LINE__)

/* A call that is refused: its answer, and no byte of any buffer changed. */
#define REFUSED(number, call)                      \
    do {                                           \
        memcpy(&before, &d, sizeof d);             \
        CHECK((call) == (number));                 \
        CHECK(memcmp(&before, &d, sizeof d) == 0); \
    } while (0)

/* The data of a page: all bytes alike. */
static const uint8_t *filled(uint8_t byte)
{
    memset(data, byte, sizeof data);
    return data;
}

/* Whether a logical page reads as bytes that are all alike. */
static int reads(uint16_t lpn, uint8_t byte)
{
    d.at = 1;
    return bokuhira_read(LENT, &d.at, lpn) == BOKUHIRA_DONE && d.at % BOKUHIRA_PAGE == 0 && d.at + BOKUHIRA_DATA <= sizeof d.array
           && memcmp(d.array + d.at, filled(byte), BOKUHIRA_DATA) == 0;
}

static uint8_t begin(uint32_t id) { return bokuhira_begin(LENT, id); }
static uint8_t put(uint32_t id, uint16_t lpn, uint8_t byte) { return bokuhira_write(LENT, filled(byte), BOKUHIRA_DATA, id, lpn); }
static uint8_t drop(uint32_t id, uint16_t lpn) { return bokuhira_drop(LENT, id, lpn); }
static uint8_t lone(uint16_t lpn, uint8_t byte) { return bokuhira_lone(LENT, filled(byte), BOKUHIRA_DATA, lpn); }
static uint8_t commit(uint32_t id) { return bokuhira_commit(LENT, id); }
static uint8_t recover(void) { return bokuhira_recover(LENT, BLOCKS, PAGES, LOGICAL, 1); }

/* A field of the state. */
static uint32_t field(size_t at, int bytes)
{
    uint32_t n = 0;
    while (bytes-- > 0)
        n = n << 8 | d.state[at + (size_t)bytes];
    return n;
}

/* Whether a list of blocks in the state is these. */
static int blocks(size_t at, size_t count_at, const char *list)
{
    return d.state[count_at] == strlen(list) && memcmp(d.state + at, list, strlen(list)) == 0;
}

/* A power cut: what is not flash holds anything afterwards. Such state bytes encode no state. */
static void cut(void)
{
    memset(d.map, 0xA5, sizeof d.map);
    memset(d.hold, 0xA5, sizeof d.hold);
    memset(d.state, 0xA5, sizeof d.state);
}

/* The class of a page of so many bytes: it changes no buffer, and *difference only where the page is torn, by that much. */
static int classed(const uint8_t *page, size_t page_len, uint8_t answer, int32_t by)
{
    int32_t difference = 77;
    int same;

    memcpy(&before, &d, sizeof d);
    same = bokuhira_class(page, page_len, &difference) == answer && difference == (answer == BOKUHIRA_TORN ? by : 77);
    return same && memcmp(&before, &d, sizeof d) == 0;
}

/* Function n of those that take a device, the two that take any state first, on these state bytes. */
enum { FUNCTIONS = 11 };
static uint8_t any(int n, uint8_t *state, size_t state_len)
{
#define ON d.array, sizeof d.array, d.map, LOGICAL, d.hold, sizeof d.hold, state, state_len
    switch (n) {
    case 0: return bokuhira_format(ON, BLOCKS, PAGES, LOGICAL, 1);
    case 1: return bokuhira_recover(ON, BLOCKS, PAGES, LOGICAL, 1);
    case 2: return bokuhira_begin(ON, 1);
    case 3: return bokuhira_write(ON, data, sizeof data, 1, 0);
    case 4: return bokuhira_drop(ON, 1, 0);
    case 5: return bokuhira_lone(ON, data, sizeof data, 0);
    case 6: return bokuhira_commit(ON, 1);
    case 7: return bokuhira_abort(ON, 1);
    case 8: return bokuhira_read(ON, &d.at, 0);
    case 9: return bokuhira_checkpoint(ON);
    default: return bokuhira_reclaim(ON);
    }
#undef ON
}

/* With this byte in it a state of zeros encodes none: recover and format take it as a state of zeros, on an array that has no
   checkpoint; the others refuse it. */
static void no_state(size_t at, uint8_t byte)
{
    static struct lent old, fresh;
    int n;

    memset(d.state, 0, sizeof d.state);
    memcpy(&old, &d, sizeof d);
    CHECK(any(0, d.state, sizeof d.state) == BOKUHIRA_MORE);
    memcpy(&fresh, &d, sizeof d);
    memcpy(&d, &old, sizeof d);
    d.state[at] = byte;
    for (n = 2; n < FUNCTIONS; n++)
        REFUSED(BOKUHIRA_BAD_FRAME, any(n, d.state, sizeof d.state));
    REFUSED(BOKUHIRA_NO_CHECKPOINT, recover());
    CHECK(any(0, d.state, sizeof d.state) == BOKUHIRA_MORE);
    CHECK(memcmp(&fresh, &d, sizeof d) == 0);
    memcpy(&d, &old, sizeof d);
}

/* Every function refuses a state of another length. */
static void no_length(size_t state_len)
{
    static uint8_t state[BOKUHIRA_STATE + 1], zero[BOKUHIRA_STATE + 1];
    int n;

    for (n = 0; n < FUNCTIONS; n++)
        REFUSED(BOKUHIRA_BAD_FRAME, any(n, state, state_len));
    CHECK(memcmp(state, zero, sizeof state) == 0);
}

static void put_field(size_t at, uint32_t n)
{
    int i;
    for (i = 0; i < 4; i++)
        d.state[at + (size_t)i] = (uint8_t)(n >> 8 * i);
}

static void format(void)
{
    uint8_t answer;
    while ((answer = bokuhira_format(LENT, BLOCKS, PAGES, LOGICAL, 1)) == BOKUHIRA_MORE)
        ;
    CHECK(answer == BOKUHIRA_DONE);
}

/* A formatted device with an open change of n pages, all of them logical page 0, made by hand; its last page is held. */
static void opened(uint32_t id, int n)
{
    int i;

    format();
    CHECK(begin(id) == BOKUHIRA_DONE);
    d.state[BOKUHIRA_AT_PLACES + BOKUHIRA_PLACE_COUNT] = (uint8_t)n;
    for (i = 0; i < n - 1; i++)
        d.state[BOKUHIRA_AT_PLACES + BOKUHIRA_PLACE_PAGES + 2 * i] = 2 * PAGES;
    memset(d.hold, 0x47, BOKUHIRA_DATA);
}

/* Strides until done; how many. */
static int checkpoint(void)
{
    int n = 1;
    uint8_t answer;
    while ((answer = bokuhira_checkpoint(LENT)) == BOKUHIRA_MORE)
        n++;
    CHECK(answer == BOKUHIRA_DONE);
    return n;
}

static void *session(void *nothing)
{
    int i, n;
    uint8_t free_blocks;
    static struct lent old, after;
    size_t page, byte, place = BOKUHIRA_AT_PLACES;
    int32_t missing;

    /* a page by itself: all zero bits; another length; one zero bit, with Zeros of an erased page, 1 and 0 */
    CHECK(classed(d.array, BOKUHIRA_PAGE, BOKUHIRA_TORN, -4208));
    CHECK(classed(d.array, 0, BOKUHIRA_NO_PAGE, 0) && classed(d.array, BOKUHIRA_DATA, BOKUHIRA_NO_PAGE, 0));
    CHECK(classed(d.array, BOKUHIRA_PAGE - 1, BOKUHIRA_NO_PAGE, 0) && classed(d.array, BOKUHIRA_PAGE + 1, BOKUHIRA_NO_PAGE, 0));
    memset(d.array, 0xFF, sizeof d.array);
    CHECK(classed(d.array, BOKUHIRA_PAGE, BOKUHIRA_ERASED, 0));
    d.array[0] = 0x7F;
    CHECK(classed(d.array, BOKUHIRA_PAGE, BOKUHIRA_TORN, 65534));
    d.array[526] = 1;
    d.array[527] = 0;
    CHECK(classed(d.array, BOKUHIRA_PAGE, BOKUHIRA_WHOLE, 0));
    d.array[526] = 0;
    CHECK(classed(d.array, BOKUHIRA_PAGE, BOKUHIRA_TORN, -1));

    /* bytes that encode no state; a device that was never formatted */
    memset(d.array, 0x5A, sizeof d.array);
    no_state(BOKUHIRA_AT_KIND, 4);
    no_state(BOKUHIRA_AT_KIND, 255);
    no_state(BOKUHIRA_AT_STRIDE, 1);
    no_state(BOKUHIRA_AT_STRIDE + 1, 1);
    for (i = 0; i < BOKUHIRA_PLACES * 64; i++)
        no_state(place + (size_t)(i / 64) * BOKUHIRA_PLACE + BOKUHIRA_PLACE_DROPS + (size_t)(i % 64), (uint8_t)(2 + i % 254));
    no_length(0);
    no_length(BOKUHIRA_STATE - 1);
    no_length(BOKUHIRA_STATE + 1);
    cut();
    REFUSED(BOKUHIRA_BAD_FRAME, begin(1));
    REFUSED(BOKUHIRA_NO_CHECKPOINT, recover());
    REFUSED(BOKUHIRA_BAD_FRAME, bokuhira_format(LENT, 7, PAGES, LOGICAL, 1));

    /* format: a stride for each block, each map page and the zone page */
    for (i = 0; i < BLOCKS + BOKUHIRA_MAP_PAGES(LOGICAL); i++) {
        CHECK(bokuhira_format(LENT, BLOCKS, PAGES, LOGICAL, 1) == BOKUHIRA_MORE);
        CHECK(d.state[BOKUHIRA_AT_KIND] == BOKUHIRA_KIND_FORMAT && field(BOKUHIRA_AT_STRIDE, 2) == (uint32_t)i + 1);
        REFUSED(BOKUHIRA_BUSY, begin(1));
    }
    CHECK(bokuhira_format(LENT, BLOCKS, PAGES, LOGICAL, 1) == BOKUHIRA_DONE);
    CHECK(field(BOKUHIRA_AT_BLOCKS, 2) == BLOCKS && field(BOKUHIRA_AT_PAGES, 2) == PAGES && field(BOKUHIRA_AT_LOGICAL, 2) == LOGICAL);
    CHECK(blocks(BOKUHIRA_AT_AVAILABLE, BOKUHIRA_AT_AVAILABLE_COUNT, "\2\3\4") && blocks(BOKUHIRA_AT_FREE, BOKUHIRA_AT_FREE_COUNT, "\5\6\7"));
    CHECK(blocks(BOKUHIRA_AT_UNAVAILABLE, BOKUHIRA_AT_UNAVAILABLE_COUNT, "") && d.state[BOKUHIRA_AT_POINTER] == 5);
    CHECK(field(BOKUHIRA_AT_VERSION, 4) == 0 && field(BOKUHIRA_AT_CHECKPOINT, 4) == 1 && d.state[BOKUHIRA_AT_KIND] == BOKUHIRA_KIND_NONE);
    for (i = 0; i < LOGICAL; i++)
        REFUSED(BOKUHIRA_NEVER_WRITTEN, bokuhira_read(LENT, &d.at, (uint16_t)i));
    REFUSED(BOKUHIRA_BAD_LOGICAL_PAGE, bokuhira_read(LENT, &d.at, LOGICAL));
    REFUSED(BOKUHIRA_NO_GAIN, bokuhira_reclaim(LENT));

    /* a change: unseen until its commit */
    REFUSED(BOKUHIRA_BAD_IDENTIFIER, begin(0));
    CHECK(begin(7) == BOKUHIRA_DONE);
    REFUSED(BOKUHIRA_IDENTIFIER_LIVE, begin(7));
    CHECK(put(7, 3, 0x33) == BOKUHIRA_DONE);
    CHECK(put(7, 4, 0x44) == BOKUHIRA_DONE);
    REFUSED(BOKUHIRA_BAD_LENGTH, bokuhira_write(LENT, data, BOKUHIRA_DATA - 1, 7, 3));
    REFUSED(BOKUHIRA_NOT_BEGUN, put(8, 3, 0x33));
    REFUSED(BOKUHIRA_NEVER_WRITTEN, bokuhira_read(LENT, &d.at, 3));
    CHECK(field(place + BOKUHIRA_PLACE_IDENTIFIER, 4) == 7 && d.state[place + BOKUHIRA_PLACE_COUNT] == 2);
    CHECK(field(place + BOKUHIRA_PLACE_LOGICAL, 2) == 3 && field(place + BOKUHIRA_PLACE_LOGICAL + 2, 2) == 4);
    CHECK(field(place + BOKUHIRA_PLACE_PAGES, 2) == 2 * PAGES);
    CHECK(begin(0x12345678) == BOKUHIRA_DONE);
    CHECK(field(place + BOKUHIRA_PLACE + BOKUHIRA_PLACE_IDENTIFIER, 4) == 0x12345678);
    CHECK(commit(0x12345678) == BOKUHIRA_DONE && field(BOKUHIRA_AT_VERSION, 4) == 0);
    CHECK(commit(7) == BOKUHIRA_DONE && field(BOKUHIRA_AT_VERSION, 4) == 1);
    CHECK(reads(3, 0x33) && reads(4, 0x44));

    /* a lone write, and a change that is aborted */
    CHECK(lone(5, 0x55) == BOKUHIRA_DONE);
    CHECK(reads(5, 0x55));
    CHECK(begin(8) == BOKUHIRA_DONE && put(8, 3, 0x66) == BOKUHIRA_DONE);
    CHECK(bokuhira_abort(LENT, 8) == BOKUHIRA_DONE);
    REFUSED(BOKUHIRA_NOT_BEGUN, commit(8));
    CHECK(reads(3, 0x33));

    /* a port group is deleted: its page is dropped, with a page that is written; another page is dropped before it is ever written */
    REFUSED(BOKUHIRA_NOT_BEGUN, drop(14, 5));
    CHECK(begin(14) == BOKUHIRA_DONE && drop(14, 5) == BOKUHIRA_DONE);
    REFUSED(BOKUHIRA_BAD_LOGICAL_PAGE, drop(14, LOGICAL));
    CHECK(d.state[place + BOKUHIRA_PLACE_COUNT] == 1 && d.state[place + BOKUHIRA_PLACE_DROPS] == 1);
    CHECK(memcmp(d.hold, filled(0xFF), BOKUHIRA_DATA) == 0 && reads(5, 0x55));
    CHECK(put(14, 4, 0x45) == BOKUHIRA_DONE && drop(14, 9) == BOKUHIRA_DONE);
    page = field(place + BOKUHIRA_PLACE_PAGES, 2) * BOKUHIRA_PAGE;
    CHECK(memcmp(d.array + page, filled(0xFF), BOKUHIRA_DATA) == 0 && d.array[page + 512] == 5 && d.array[page + 524] == 3);
    CHECK(memcmp(d.state + place + BOKUHIRA_PLACE_DROPS, "\1\0\1\0", 4) == 0 && reads(4, 0x44));
    old = d;
    CHECK(commit(14) == BOKUHIRA_DONE && reads(4, 0x45) && d.map[5] == BOKUHIRA_UNMAPPED);
    REFUSED(BOKUHIRA_NEVER_WRITTEN, bokuhira_read(LENT, &d.at, 5));
    REFUSED(BOKUHIRA_NEVER_WRITTEN, bokuhira_read(LENT, &d.at, 9));
    after = d;
    cut();
    CHECK(recover() == BOKUHIRA_DONE && reads(4, 0x45) && memcmp(d.map, after.map, sizeof d.map) == 0);
    memcpy(d.array, old.array, sizeof d.array);
    cut();
    CHECK(recover() == BOKUHIRA_DONE && reads(4, 0x44) && reads(5, 0x55) && memcmp(d.map, old.map, sizeof d.map) == 0);

    /* a checkpoint of one map page and the zone page; a read is never busy */
    CHECK(bokuhira_checkpoint(LENT) == BOKUHIRA_MORE);
    CHECK(d.state[BOKUHIRA_AT_KIND] == BOKUHIRA_KIND_CHECKPOINT && field(BOKUHIRA_AT_STRIDE, 2) == 1);
    CHECK(d.state[BOKUHIRA_AT_FRONT] == 0 && d.state[BOKUHIRA_AT_FIRST] == BOKUHIRA_MAP_PAGES(LOGICAL) + 1);
    REFUSED(BOKUHIRA_BUSY, lone(5, 0x77));
    CHECK(reads(5, 0x55));
    CHECK(bokuhira_checkpoint(LENT) == BOKUHIRA_DONE && field(BOKUHIRA_AT_CHECKPOINT, 4) == 2);

    /* a power cut before a commit programs its page, within it, and after it */
    CHECK(begin(9) == BOKUHIRA_DONE && put(9, 3, 0x99) == BOKUHIRA_DONE && put(9, 6, 0x96) == BOKUHIRA_DONE);
    old = d;
    CHECK(commit(9) == BOKUHIRA_DONE);
    after = d;
    memcpy(d.array, old.array, sizeof d.array);
    cut();
    CHECK(recover() == BOKUHIRA_DONE);
    CHECK(reads(3, 0x33) && reads(4, 0x44) && reads(5, 0x55));
    REFUSED(BOKUHIRA_NEVER_WRITTEN, bokuhira_read(LENT, &d.at, 6));

    for (page = 0; memcmp(old.array + page, after.array + page, BOKUHIRA_PAGE) == 0; page += BOKUHIRA_PAGE)
        ;
    CHECK(classed(d.array + page, BOKUHIRA_PAGE, BOKUHIRA_ERASED, 0) && classed(after.array + page, BOKUHIRA_PAGE, BOKUHIRA_WHOLE, 0));
    for (byte = 0, missing = 0; byte < BOKUHIRA_PAGE; byte++) {
        d.array[page + byte] = after.array[page + byte] | (byte % 2 ? 0x0F : 0x00);
        for (i = 0; i < 8; i++)
            if (((d.array[page + byte] ^ after.array[page + byte]) >> i & 1) != 0)
                missing += byte < 526 ? 1 : 1 << (8 * (byte - 526) + (size_t)i);
    }
    CHECK(classed(d.array + page, BOKUHIRA_PAGE, BOKUHIRA_TORN, missing));
    cut();
    CHECK(recover() == BOKUHIRA_DONE);
    CHECK(reads(3, 0x33));

    memcpy(d.array, after.array, sizeof d.array);
    cut();
    CHECK(recover() == BOKUHIRA_DONE);
    CHECK(reads(3, 0x99) && reads(4, 0x44) && reads(5, 0x55) && reads(6, 0x96));
    memcpy(old.state, d.state, sizeof d.state);
    CHECK(recover() == BOKUHIRA_DONE);
    CHECK(memcmp(old.state, d.state, sizeof d.state) == 0);

    /* written until the zone is short, checkpointed, reclaimed */
    for (n = 0; (i = lone(0, (uint8_t)n)) == BOKUHIRA_DONE; n++)
        ;
    CHECK(i == BOKUHIRA_ZONE_SHORT && n > 0);
    REFUSED(BOKUHIRA_ZONE_SHORT, lone(0, 1));
    CHECK(checkpoint() >= 2);
    free_blocks = d.state[BOKUHIRA_AT_FREE_COUNT];
    for (n = 0; (i = bokuhira_reclaim(LENT)) == BOKUHIRA_MORE; n++) {
        CHECK(d.state[BOKUHIRA_AT_KIND] == BOKUHIRA_KIND_RECLAIM);
        REFUSED(BOKUHIRA_BUSY, begin(10));
    }
    CHECK(n > 0 && i == BOKUHIRA_DONE && d.state[BOKUHIRA_AT_FREE_COUNT] == free_blocks + 1);
    CHECK(reads(3, 0x99) && reads(4, 0x44) && reads(5, 0x55) && reads(6, 0x96));
    cut();
    CHECK(recover() == BOKUHIRA_DONE);
    CHECK(reads(3, 0x99) && reads(4, 0x44) && reads(5, 0x55) && reads(6, 0x96));

    /* a change that meets a short zone: a checkpoint keeps its full blocks as unavailable ones, and it goes on */
    CHECK(begin(11) == BOKUHIRA_DONE);
    for (n = 0; (i = put(11, 7, (uint8_t)n)) == BOKUHIRA_DONE; n++)
        ;
    REFUSED(BOKUHIRA_ZONE_SHORT, commit(11));
    CHECK(i == BOKUHIRA_ZONE_SHORT && checkpoint() >= 2);
    CHECK(d.state[BOKUHIRA_AT_UNAVAILABLE_COUNT] > 0);
    CHECK(d.state[BOKUHIRA_AT_UNAVAILABLE] == field(place + BOKUHIRA_PLACE_PAGES, 2) / PAGES);
    CHECK(put(11, 7, 0x77) == BOKUHIRA_DONE && commit(11) == BOKUHIRA_DONE && reads(7, 0x77));

    /* no free block: after zone short a checkpoint is not enough, nor is a reclaim before the next checkpoint */
    do {
        for (n = 0; (i = lone((uint16_t)(n % LOGICAL), 0x11)) == BOKUHIRA_DONE; n++)
            ;
        CHECK(i == BOKUHIRA_ZONE_SHORT && checkpoint() >= 2);
    } while (lone(0, 0x11) == BOKUHIRA_DONE);
    while ((i = bokuhira_reclaim(LENT)) == BOKUHIRA_MORE)
        ;
    CHECK(i == BOKUHIRA_DONE);
    REFUSED(BOKUHIRA_ZONE_SHORT, lone(0, 0x12));
    CHECK(checkpoint() >= 2 && lone(0, 0x12) == BOKUHIRA_DONE);

    /* no gain; a save alone can end it */
    format();
    for (i = 0; i < LOGICAL; i++)
        CHECK(lone((uint16_t)i, 0x22) == BOKUHIRA_DONE);
    CHECK(checkpoint() >= 2);
    REFUSED(BOKUHIRA_NO_GAIN, bokuhira_reclaim(LENT));
    CHECK(lone(3, 0x33) == BOKUHIRA_DONE);
    old = d;
    CHECK(bokuhira_reclaim(LENT) == BOKUHIRA_MORE);

    /* the longest change: from 41 pages on no write or drop goes; a place may have up to 64, which a commit marks and an abort forgets */
    for (n = BOKUHIRA_CHANGE_PAGES - 1; n <= 65; n++) {
        opened(13, n);
        if (n == BOKUHIRA_CHANGE_PAGES - 1)
            CHECK(put(13, 4, 0x46) == BOKUHIRA_DONE && d.state[place + BOKUHIRA_PLACE_COUNT] == BOKUHIRA_CHANGE_PAGES);
        else
            REFUSED(n > 64 ? BOKUHIRA_BAD_FRAME : BOKUHIRA_TOO_LONG, put(13, 4, 0x46));
        opened(13, n);
        if (n == BOKUHIRA_CHANGE_PAGES - 1)
            CHECK(drop(13, 4) == BOKUHIRA_DONE && d.state[place + BOKUHIRA_PLACE_COUNT] == BOKUHIRA_CHANGE_PAGES);
        else
            REFUSED(n > 64 ? BOKUHIRA_BAD_FRAME : BOKUHIRA_TOO_LONG, drop(13, 4));
        opened(13, n);
        CHECK(bokuhira_abort(LENT, 13) == (n > 64 ? BOKUHIRA_BAD_FRAME : BOKUHIRA_DONE));
        opened(13, n);
        CHECK(commit(13) == (n > 64 ? BOKUHIRA_BAD_FRAME : BOKUHIRA_DONE));
        if (n <= 64) {
            CHECK(reads(0, 0x47));
            CHECK(d.array[d.at + BOKUHIRA_DATA + 2] == n && d.array[d.at + BOKUHIRA_DATA + 3] == 0);
        }
    }

    /* versions spent: a checkpoint or a reclaim meets it before a save does */
    d = old;
    put_field(BOKUHIRA_AT_CHECKPOINT, 0xFFFFFFFE);
    REFUSED(BOKUHIRA_VERSIONS_SPENT, bokuhira_checkpoint(LENT));
    CHECK(lone(4, 0x44) == BOKUHIRA_DONE);
    d = old;
    put_field(BOKUHIRA_AT_VERSION, 0xFFFFFFFE - 1);
    REFUSED(BOKUHIRA_VERSIONS_SPENT, bokuhira_reclaim(LENT));
    CHECK(lone(4, 0x44) == BOKUHIRA_DONE);
    REFUSED(BOKUHIRA_VERSIONS_SPENT, lone(4, 0x45));
    CHECK(begin(12) == BOKUHIRA_DONE && put(12, 4, 0x46) == BOKUHIRA_DONE);
    REFUSED(BOKUHIRA_VERSIONS_SPENT, commit(12));
    CHECK(reads(4, 0x44));

    return nothing;
}

int main(void)
{
    pthread_t thread;
    pthread_attr_t attributes;

    CHECK(pthread_attr_init(&attributes) == 0);
    CHECK(pthread_attr_setstacksize(&attributes, BOKUHIRA_STACK) == 0);
    CHECK(pthread_create(&thread, &attributes, session, NULL) == 0);
    CHECK(pthread_join(thread, NULL) == 0);
    printf("C session: %d checks held\n", held);
    return 0;
}

/*
 * Bokuhira: the transactional flash layer of the switch, for callers in C and C++. Link libbokuhira.a, which ./build leaves in dist/lib
 * (x86-64 Linux). It calls nothing but memcpy, memmove and memset, keeps no memory of its own and allocates none.
 * docs/FIRMWARE.md says how firmware uses it; examples/switch.c is a program to copy from.
 *
 * Buffers. Every function but bokuhira_class, which takes one page, takes the same four, lent, each as a pointer and a length:
 *
 *   array   blocks x pages x 528 bytes: the flash array. Page q of block b begins at byte (b x pages + q) x 528; 512 bytes of data are
 *           followed by 16 of spare.
 *   map     `logical` numbers of 16 bits; its length counts numbers, not bytes.
 *   hold    BOKUHIRA_HOLD bytes: the page that each open change holds.
 *   state   BOKUHIRA_STATE bytes, laid out as below.
 *
 * Values are free: whatever the buffers hold and however long they are, a call answers as document 01 (docs/PAPERS.md) says, and lengths
 * that do not fit are refused with 1. Pointers are not checked: each must point to as many elements as its length says, must not be null
 * (not even for length 0), and a map must be aligned for 16 bits. The buffers of one call, `data` of a write among them, must not
 * overlap one another, nor *at of bokuhira_read, nor *difference of bokuhira_class: what a call found is copied before it is written.
 * Besides them a call needs stack: BOKUHIRA_STACK.
 *
 * Answers. Each function answers with one number: 0 done; 255 more (one stride of a format, a checkpoint or a reclaim is done: call
 * again); else a refusal's, which changes no byte of any buffer. One call programs at most one page or erases at most one block.
 * bokuhira_class alone answers with a class, and has no refusals.
 *
 * Words. docs/FORMAT.md has them with the bytes.
 *
 *   page        erased: all 528 bytes are 0xFF; else whole: the number in its spare area, Zeros, agrees with the zero bits counted; else
 *               torn, as a cut leaves it: it belongs to nobody. bokuhira_class tells which, and how torn. The clean pages of a block
 *               are those after its last that is not erased.
 *   front       blocks 0 and 1, which take the checkpoints. The others are data blocks.
 *   zone        each data block is in one: available (up to three, which take the next pages), unavailable (full, and a recovery reads
 *               its pages), free (erased), or checkpointed (in no list: what it still holds stands in the checkpoint's map).
 *   scan order  the unavailable blocks, then the available ones, in the order of their lists, each from page 0: what a recovery reads
 *               besides the front.
 *   change      an open transaction: pages that are saved or dropped together, all or none, under an identifier that the caller
 *               chooses. It has one of eight places, and its newest page is held in memory, until the next write or drop or the commit
 *               programs it.
 *   unmapped    a logical page that was never written, or was dropped: a read refuses it with 14. The two are one.
 *   stride      what one call does of a command that takes several.
 *   plane       on a chip of two planes the even blocks are one and the odd blocks the other, and a page of each may be programmed at the
 *               same time. Data block pages are taken from the planes in turn: the next from the other plane than the last, if one of its
 *               available blocks has clean pages.
 *
 * Two planes. A write or drop may answer while its page is still programmed: the chip's driver, below the array, waits for it as the table
 * says. The array holds such a page in full from the answer on, and the layer reads it so. A power cut leaves any part of it.
 *
 *   call                                          the driver waits
 *   write, drop, that programs a page             before it begins, for the page that runs in the same plane; not for its own
 *   commit that programs its mark, lone write     the same, and before it answers for both: its own page and the other plane's
 *   commit of a change with nothing written       before it answers, for both planes
 *   a stride of checkpoint, reclaim or format,    before it begins, for both planes; of its own program or erase for the end, before it
 *   and recover                                   answers
 *   begin, abort, read, class, a refused call     for nothing
 *
 * On one plane the driver waits for the end of each program and erase before the call answers, as always.
 *
 * Threads. The functions share nothing: calls on different buffers may run at the same time. On the same buffers calls of bokuhira_read
 * and bokuhira_class may run at the same time, each with its own *at or *difference. Every other call on them must be alone: with a
 * lock, or from one thread.
 *
 * Power-up. The first command on a device is a recover or a format. Recover takes any BOKUHIRA_STATE bytes, such as the RAM has after a
 * power cut: it makes map and state from the array and does not look at what they were. Format takes any too and begins with its first
 * stride, but for bytes that say a format of this geometry is under way: it goes on with that, or refuses with 1 where that is out of
 * range. To begin for certain, hand in zeros. Every other function that takes a state refuses bytes that encode none with 1.
 */
#ifndef BOKUHIRA_H
#define BOKUHIRA_H

#include <stddef.h>
#include <stdint.h>

#ifdef __cplusplus
extern "C" {
#endif

#define BOKUHIRA_VERSION_MAJOR 0
#define BOKUHIRA_VERSION_MINOR 6
#define BOKUHIRA_VERSION_PATCH 0
#define BOKUHIRA_VERSION "0.6.0"

/*
 * The state: each field by its offset, little-endian, with nothing left between the fields. BOKUHIRA_STATE bytes encode a state if the
 * kind is 0 to 3, the stride number is 0 where the kind is 0 or 3, the last plane is 0 to 2, and each byte that says whether a page is a
 * drop is 0 or 1, those past a count too. What a state must say besides, to be in range, is part of refusal 1. Entries of a list past its
 * count are not looked at.
 */
#define BOKUHIRA_AT_BLOCKS 0              /* 2 bytes */
#define BOKUHIRA_AT_PAGES 2               /* 2 bytes: pages a block */
#define BOKUHIRA_AT_LOGICAL 4             /* 2 bytes: logical pages */
#define BOKUHIRA_AT_PLANES 6              /* 2 bytes: planes, 1 or 2 */
#define BOKUHIRA_AT_AVAILABLE 8           /* 3 bytes: the available blocks, in the order in which they are filled */
#define BOKUHIRA_AT_AVAILABLE_COUNT 11    /* 1 byte: how many of them count */
#define BOKUHIRA_AT_UNAVAILABLE 12        /* 126 bytes: the unavailable blocks, in the order in which they were filled */
#define BOKUHIRA_AT_UNAVAILABLE_COUNT 138 /* 1 byte */
#define BOKUHIRA_AT_FREE 139              /* 126 bytes: the free blocks, ascending */
#define BOKUHIRA_AT_FREE_COUNT 265        /* 1 byte */
#define BOKUHIRA_AT_POINTER 266           /* 1 byte: from which block on the next free one is taken */
#define BOKUHIRA_AT_VERSION 267           /* 4 bytes: last version */
#define BOKUHIRA_AT_CHECKPOINT 271        /* 4 bytes: checkpoint number */
#define BOKUHIRA_AT_FRONT 275             /* 1 byte: front block, 0 or 1 */
#define BOKUHIRA_AT_FIRST 276             /* 1 byte: first page of the checkpoint under way, else 0 */
#define BOKUHIRA_AT_KIND 277              /* 1 byte: the work under way, BOKUHIRA_KIND_.. */
#define BOKUHIRA_AT_STRIDE 278            /* 2 bytes: of a format its strides done, of a checkpoint its pages programmed, else 0 */
#define BOKUHIRA_AT_PLANE 280             /* 1 byte: the plane of the last data block page, BOKUHIRA_PLANE_.. */
#define BOKUHIRA_AT_PLACES 281            /* BOKUHIRA_PLACES places of BOKUHIRA_PLACE bytes */
#define BOKUHIRA_STATE 2881

#define BOKUHIRA_PLANE_NEITHER 0 /* on one plane always, on two after a format or recover */
#define BOKUHIRA_PLANE_EVEN 1
#define BOKUHIRA_PLANE_ODD 2

#define BOKUHIRA_KIND_NONE 0
#define BOKUHIRA_KIND_FORMAT 1
#define BOKUHIRA_KIND_CHECKPOINT 2
#define BOKUHIRA_KIND_RECLAIM 3

/* Within a place. */
#define BOKUHIRA_PLACE_IDENTIFIER 0 /* 4 bytes: of the change, 0 where the place is free */
#define BOKUHIRA_PLACE_COUNT 4      /* 1 byte: pages written; the last of them is held, those before it are programmed */
#define BOKUHIRA_PLACE_LOGICAL 5    /* 128 bytes: their logical pages, 64 numbers of 2 bytes */
#define BOKUHIRA_PLACE_PAGES 133    /* 128 bytes: the pages they are programmed on, 64 numbers of 2 bytes */
#define BOKUHIRA_PLACE_DROPS 261    /* 64 bytes: 1 for each that is a drop, 0 for a write */
#define BOKUHIRA_PLACE 325

/* Lengths, in bytes. BOKUHIRA_ARRAY and BOKUHIRA_ARRAY_MAX are of type size_t; every other number here may stand in #if too. */
#define BOKUHIRA_PAGE 528 /* a page in the array */
#define BOKUHIRA_DATA 512 /* the data of a page */
#define BOKUHIRA_HOLD 4096
#define BOKUHIRA_ARRAY(blocks, pages) ((size_t)(blocks) * (size_t)(pages) * BOKUHIRA_PAGE)
#define BOKUHIRA_ARRAY_MAX BOKUHIRA_ARRAY(BOKUHIRA_BLOCKS_MAX, BOKUHIRA_PAGES_MAX)

/*
 * Stack for a call. Recover takes less than 59 KiB, commit less than 43, reclaim less than 34, every other function less than 30 KiB;
 * this is 5 KiB more than the deepest. It is true of the archive as rattle-kit-13f compiles it for x86-64: measured
 * (docs/BENCHMARKS.md), and added up from the frames, since nothing in it calls itself or through a pointer. The caller's own frames,
 * and interrupts on the same stack, come on top.
 */
#define BOKUHIRA_STACK 65536

/* Limits. */
#define BOKUHIRA_PLACES 8        /* open changes */
#define BOKUHIRA_CHANGE_PAGES 41 /* pages up to which a change may be written */
#define BOKUHIRA_BLOCKS_MIN 8
#define BOKUHIRA_BLOCKS_MAX 128
#define BOKUHIRA_PAGES_MIN 8 /* pages of a block */
#define BOKUHIRA_PAGES_MAX 64
#define BOKUHIRA_LOGICAL_MIN 1 /* logical pages */
#define BOKUHIRA_LOGICAL_MAX 1024
#define BOKUHIRA_PLANES_MAX 2 /* and at least 1 */

/* Whether a geometry is in range. */
#define BOKUHIRA_GEOMETRY(blocks, pages, logical, planes)                      \
    ((blocks) >= BOKUHIRA_BLOCKS_MIN && (blocks) <= BOKUHIRA_BLOCKS_MAX        \
     && (pages) >= BOKUHIRA_PAGES_MIN && (pages) <= BOKUHIRA_PAGES_MAX         \
     && (logical) >= BOKUHIRA_LOGICAL_MIN && (logical) <= BOKUHIRA_LOGICAL_MAX \
     && (logical) <= ((blocks) - 6) * (pages)                                  \
     && (planes) >= 1 && (planes) <= BOKUHIRA_PLANES_MAX)

/* The map pages of a checkpoint, which has the zone page besides. */
#define BOKUHIRA_MAP_PAGES(logical) (((logical) + 255) / 256)

/* The map entry of an unmapped logical page: never written, or dropped. */
#define BOKUHIRA_UNMAPPED 0xFFFF

/* Answers. bokuhira_text says each in a line; here stands what a line cannot say. */
#define BOKUHIRA_DONE 0
#define BOKUHIRA_BAD_FRAME 1 /* geometry or a buffer length out of range; bytes that encode no state; a map or zone list that 3 would
                                refuse; a place with over 64 pages, on two planes 41, the held one counted, an identifier that 6
                                refuses, one that two places share, or a logical page or data page number out of range; pointer, front
                                place or stride number out of range; the next front page of a stride under way not erased */
#define BOKUHIRA_NO_CHECKPOINT 2
#define BOKUHIRA_BAD_CHECKPOINT 3 /* map: an entry other than 0xFFFF outside the data blocks or repeated, or one past the logical pages
                                     that is not 0xFFFF; zones: more than blocks - 2 in all or three available, a block or the pointer
                                     outside the data blocks, a block repeated, free ones not ascending, the rest of the page not 0 */
#define BOKUHIRA_BAD_PAGE 4 /* Kind neither 0 (a write) nor 3 (a drop); Reserved not 0, or on two planes, on pages of one nonzero TxID, 0,
                               above 41 or repeated; LPN too high; only one of TxCnt and TxVer 0; TxID or TxVer 0xFFFFFFFF; TxID 0 with
                               TxCnt not 1; a second mark (TxCnt not 0) of one nonzero TxID; a TxVer above 0 that is repeated */
#define BOKUHIRA_BAD_LOGICAL_PAGE 5
#define BOKUHIRA_BAD_IDENTIFIER 6
#define BOKUHIRA_IDENTIFIER_LIVE 7 /* a closed change's pages are in scan order until a checkpoint has made their blocks checkpointed */
#define BOKUHIRA_NOT_BEGUN 8
#define BOKUHIRA_PLACES_FULL 9
#define BOKUHIRA_TOO_LONG 10 /* BOKUHIRA_CHANGE_PAGES pages or more, drops among them: no write or drop goes on, a commit or an abort does */
#define BOKUHIRA_BAD_LENGTH 11
#define BOKUHIRA_ZONE_SHORT 12     /* a page must be programmed, and no more clean pages are available than a block has pages */
#define BOKUHIRA_VERSIONS_SPENT 13 /* a number above 0xFFFFFFFE would be needed */
#define BOKUHIRA_NEVER_WRITTEN 14 /* the map has it unmapped: never written, or its last committed write was a drop */
#define BOKUHIRA_NO_GAIN 15
#define BOKUHIRA_RESERVE_SHORT 16
#define BOKUHIRA_BUSY 17
#define BOKUHIRA_MORE 255

/* Classes of a page: what bokuhira_class answers. */
#define BOKUHIRA_ERASED 0
#define BOKUHIRA_WHOLE 1
#define BOKUHIRA_TORN 2
#define BOKUHIRA_NO_PAGE 3 /* not BOKUHIRA_PAGE bytes */

/* The word of an answer. */
static inline const char *bokuhira_word(uint8_t answer)
{
    switch (answer) {
    case BOKUHIRA_DONE: return "done";
    case BOKUHIRA_BAD_FRAME: return "bad frame";
    case BOKUHIRA_NO_CHECKPOINT: return "no checkpoint";
    case BOKUHIRA_BAD_CHECKPOINT: return "bad checkpoint";
    case BOKUHIRA_BAD_PAGE: return "bad page";
    case BOKUHIRA_BAD_LOGICAL_PAGE: return "bad logical page";
    case BOKUHIRA_BAD_IDENTIFIER: return "bad identifier";
    case BOKUHIRA_IDENTIFIER_LIVE: return "identifier live";
    case BOKUHIRA_NOT_BEGUN: return "not begun";
    case BOKUHIRA_PLACES_FULL: return "places full";
    case BOKUHIRA_TOO_LONG: return "too long";
    case BOKUHIRA_BAD_LENGTH: return "bad length";
    case BOKUHIRA_ZONE_SHORT: return "zone short";
    case BOKUHIRA_VERSIONS_SPENT: return "versions spent";
    case BOKUHIRA_NEVER_WRITTEN: return "never written";
    case BOKUHIRA_NO_GAIN: return "no gain";
    case BOKUHIRA_RESERVE_SHORT: return "reserve short";
    case BOKUHIRA_BUSY: return "busy";
    case BOKUHIRA_MORE: return "more";
    default: return "unknown answer";
    }
}

/* What an answer says, in one line. */
static inline const char *bokuhira_text(uint8_t answer)
{
    switch (answer) {
    case BOKUHIRA_DONE: return "done";
    case BOKUHIRA_BAD_FRAME: return "geometry, a buffer's length or the state is out of range";
    case BOKUHIRA_NO_CHECKPOINT: return "no complete checkpoint stands on the array";
    case BOKUHIRA_BAD_CHECKPOINT: return "the newest checkpoint's map or zone lists are out of range";
    case BOKUHIRA_BAD_PAGE: return "a whole page in scan order breaks the rules of the spare area";
    case BOKUHIRA_BAD_LOGICAL_PAGE: return "the logical page is not below the number of logical pages";
    case BOKUHIRA_BAD_IDENTIFIER: return "0 and 4294967295 are no identifiers";
    case BOKUHIRA_IDENTIFIER_LIVE: return "the identifier is of an open change or stands on a page in scan order; take another";
    case BOKUHIRA_NOT_BEGUN: return "no open change has this identifier";
    case BOKUHIRA_PLACES_FULL: return "eight changes are open; commit or abort one";
    case BOKUHIRA_TOO_LONG: return "the change has 41 pages or more; commit or abort it";
    case BOKUHIRA_BAD_LENGTH: return "the data are not 512 bytes";
    case BOKUHIRA_ZONE_SHORT: return "too few clean pages are available; checkpoint, and if that is not enough reclaim and checkpoint again";
    case BOKUHIRA_VERSIONS_SPENT: return "no version or checkpoint number is left";
    case BOKUHIRA_NEVER_WRITTEN: return "the logical page was never written, or was dropped";
    case BOKUHIRA_NO_GAIN: return "no checkpointed block has an unmapped page";
    case BOKUHIRA_RESERVE_SHORT: return "fewer clean pages are available than must be copied";
    case BOKUHIRA_BUSY: return "another command of several strides is under way; finish it first";
    case BOKUHIRA_MORE: return "one stride is done; call again";
    default: return "unknown answer";
    }
}

/* An answer that is ignored is a setting that may be lost: the compiler warns, where it can. */
#if (defined(__cplusplus) && __cplusplus >= 201703L) || (defined(__STDC_VERSION__) && __STDC_VERSION__ >= 202311L)
#define BOKUHIRA_CHECKED [[nodiscard]]
#elif defined(__GNUC__) || defined(__clang__)
#define BOKUHIRA_CHECKED __attribute__((warn_unused_result))
#else
#define BOKUHIRA_CHECKED
#endif

/*
 * One stride of a format: the device becomes one of this geometry, with every logical page unmapped. Call it with the same arguments
 * until it answers done; another geometry starts anew. It goes on from the state alone: the array's old content is erased. Strides:
 * one for each block, each map page and the zone page.
 * Changes array, map, state. Refuses: 1 (for geometry, lengths and a format of this geometry under way that is out of range).
 */
BOKUHIRA_CHECKED
uint8_t bokuhira_format(uint8_t *array, size_t array_len, uint16_t *map, size_t map_len, const uint8_t *hold, size_t hold_len,
                        uint8_t *state, size_t state_len, uint16_t blocks, uint16_t pages, uint16_t logical, uint16_t planes);

/*
 * Makes map and state from what stands on the array. It programs nothing, and no change is open after it.
 * Changes map, state. Refuses: 1 (for geometry and lengths), 2, 3, 4.
 */
BOKUHIRA_CHECKED
uint8_t bokuhira_recover(const uint8_t *array, size_t array_len, uint16_t *map, size_t map_len, const uint8_t *hold, size_t hold_len,
                         uint8_t *state, size_t state_len, uint16_t blocks, uint16_t pages, uint16_t logical, uint16_t planes);

/*
 * Opens a change with this identifier, in the lowest free place.
 * Changes state. Refuses: 1, 17, 6, 7, 9.
 */
BOKUHIRA_CHECKED
uint8_t bokuhira_begin(const uint8_t *array, size_t array_len, const uint16_t *map, size_t map_len, const uint8_t *hold, size_t hold_len,
                       uint8_t *state, size_t state_len, uint32_t id);

/*
 * Adds a page to an open change. The page is held; the one held before it is programmed. Reads do not see it until the commit.
 * Changes array, hold, state. Refuses: 1, 17, 11, 5, 8, 10, 12 (the last only where a page is held).
 */
BOKUHIRA_CHECKED
uint8_t bokuhira_write(uint8_t *array, size_t array_len, const uint16_t *map, size_t map_len, uint8_t *hold, size_t hold_len,
                       uint8_t *state, size_t state_len, const uint8_t *data, size_t data_len, uint32_t id, uint16_t lpn);

/*
 * Adds the drop of a logical page to an open change. It is a page of the change like any other, of Kind 3 and with data all 0xFF: it is
 * counted, it is held, and the one held before it is programmed. From the commit on the logical page is unmapped, as if it had never
 * been written, and what it held no longer takes up room: the next reclaim of its block leaves it behind. A page written and dropped in
 * one change is what the later of the two makes it. A page that is unmapped may be dropped: the change then leaves it unmapped,
 * whatever was written to it meanwhile.
 * Changes array, hold, state. Refuses: 1, 17, 5, 8, 10, 12 (the last only where a page is held).
 */
BOKUHIRA_CHECKED
uint8_t bokuhira_drop(uint8_t *array, size_t array_len, const uint16_t *map, size_t map_len, uint8_t *hold, size_t hold_len,
                      uint8_t *state, size_t state_len, uint32_t id, uint16_t lpn);

/*
 * Writes one page, as a change by itself.
 * Changes array, map, state. Refuses: 1, 17, 11, 5, 13, 12.
 */
BOKUHIRA_CHECKED
uint8_t bokuhira_lone(uint8_t *array, size_t array_len, uint16_t *map, size_t map_len, const uint8_t *hold, size_t hold_len,
                      uint8_t *state, size_t state_len, const uint8_t *data, size_t data_len, uint16_t lpn);

/*
 * Closes a change and enters all its pages, writes and drops, in the order in which they came. From here on they outlive a power cut. A
 * change with nothing written is closed with no page and no version. Refused, it stays open.
 * Services with a change each need not agree who commits first, as long as no logical page is written or dropped in both changes: where
 * the two commits are done one straight after the other, they are done in the other order too, and every logical page reads the same in
 * either, also after a power cut next and a recover. Array, map and the versions of the marks may differ. A page in both changes is
 * what the later commit makes it.
 * Changes array, map, state. Refuses: 1, 17, 8, 13, 12 (the last two only where a page is held).
 */
BOKUHIRA_CHECKED
uint8_t bokuhira_commit(uint8_t *array, size_t array_len, uint16_t *map, size_t map_len, const uint8_t *hold, size_t hold_len,
                        uint8_t *state, size_t state_len, uint32_t id);

/*
 * Forgets an open change. Its identifier stays live while a page with it is in scan order.
 * Changes state. Refuses: 1, 17, 8.
 */
BOKUHIRA_CHECKED
uint8_t bokuhira_abort(const uint8_t *array, size_t array_len, const uint16_t *map, size_t map_len, const uint8_t *hold, size_t hold_len,
                       uint8_t *state, size_t state_len, uint32_t id);

/*
 * Whether a logical page can be read. Where the answer is done, *at becomes the offset in the array at which its 512 bytes begin; they
 * are not copied, and stay there until the next call that changes the array. Refused: *at is unchanged.
 * Changes *at. Refuses: 1, 5, 14; it is never busy.
 */
BOKUHIRA_CHECKED
uint8_t bokuhira_read(const uint8_t *array, size_t array_len, const uint16_t *map, size_t map_len, const uint8_t *hold, size_t hold_len,
                      const uint8_t *state, size_t state_len, size_t *at, uint16_t lpn);

/*
 * One stride of a checkpoint: map and zone lists are written to the front, and full blocks leave the available list, which is filled
 * again from the free ones. Call it until it answers done. Strides: one for each map page and the zone page, and one before them where
 * the other front block is erased first.
 * Changes array, state. Refuses: 1, 17, 13.
 */
BOKUHIRA_CHECKED
uint8_t bokuhira_checkpoint(uint8_t *array, size_t array_len, const uint16_t *map, size_t map_len, const uint8_t *hold, size_t hold_len,
                            uint8_t *state, size_t state_len);

/*
 * One stride of a reclaim: the checkpointed block with fewest mapped pages is freed, its mapped pages being copied first. Call it until
 * it answers done. Strides: one for each copy and one for the erase.
 * Changes array, map, state. Refuses: 1, 17, 15, 13, 16.
 */
BOKUHIRA_CHECKED
uint8_t bokuhira_reclaim(uint8_t *array, size_t array_len, uint16_t *map, size_t map_len, const uint8_t *hold, size_t hold_len,
                         uint8_t *state, size_t state_len);

/*
 * The class of one page. It takes the BOKUHIRA_PAGE bytes of that page and no other buffer, and may be called at any time, before a
 * recover too. Where it answers BOKUHIRA_TORN, *difference becomes Zeros, the number in the page's last two bytes, minus the zero
 * bits counted in the 526 bytes before it: -4208 to 65534, never 0. Else *difference is unchanged.
 *
 * After a program that was cut the difference is what was still to be turned: 1 for each such bit of the 526 bytes, 2 to the power of
 * i for bit i of Zeros. It falls with each bit: a plug pulled early leaves a large one, a plug pulled late a small one. It does not
 * tell how many bits are missing, since which ones turn first is the chip's affair: 32768 may be one bit of Zeros, and 4000 four
 * thousand bits of data. So it compares two cuts of one program where the second had turned all that the first had, and is a hint for
 * any other two. After an erase that was cut it is the other way round: it rises with each bit. The pages of such a block are not in
 * scan order.
 *
 * On an array that nothing but this layer wrote since its format was done, a torn page's difference is at least 1 (proved). Below 0,
 * the layer did not leave the page so: a bit changed by itself, or something else wrote there. Above 0 says nothing of that.
 * Changes *difference. Answers BOKUHIRA_ERASED, BOKUHIRA_WHOLE or BOKUHIRA_TORN; BOKUHIRA_NO_PAGE where page_len is not BOKUHIRA_PAGE.
 */
BOKUHIRA_CHECKED
uint8_t bokuhira_class(const uint8_t *page, size_t page_len, int32_t *difference);

#ifdef __cplusplus
}
#endif

#endif

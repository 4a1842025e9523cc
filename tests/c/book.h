/*
 * The book of document 01 (docs/PAPERS.md), for programs in C that keep it from calls and their answers alone, and what a call in a sequence
 * may be answered as far as the book can tell. A page's 512 bytes are a number that stands for them.
 */
#ifndef BOOK_H
#define BOOK_H

#include <string.h>

#include "bokuhira.h"

enum { FORMAT, RECOVER, BEGIN, WRITE, DROP, LONE, COMMIT, ABORT, READ, CHECKPOINT, RECLAIM, NONE };
static const char *const names[] = { "format", "recover", "begin",      "write",   "drop", "lone write",
                                     "commit", "abort",   "read",       "checkpoint", "reclaim" };

/* A call and its answer. `data` is a number that stands for the 512 bytes, 0 of a drop; `held`, of a read, whether it gave what the book
   has. */
struct call {
    uint8_t command, answer, held;
    uint16_t lpn;
    uint32_t id;
    uint64_t data;
};

/* Commands about a logical page, about an open change, and those that enter pages. */
static inline int has_page(int command) { return command == WRITE || command == DROP || command == LONE || command == READ; }
static inline int of_open(int command) { return command == WRITE || command == DROP || command == COMMIT || command == ABORT; }
static inline int enters(int command) { return command == LONE || command == COMMIT; }

/* An open change: its writes in order. A drop is one that leaves its page as never written. */
struct change {
    uint32_t id;
    unsigned count;
    struct { uint16_t lpn; uint64_t data; } writes[BOKUHIRA_CHANGE_PAGES];
};

/* The number of each page's data, 0 where it was never written, and the open changes. */
struct book {
    uint16_t logical;
    int formatted;    /* else only a format may follow */
    int dark;         /* only a recover may follow */
    int under_way;    /* the command of several strides under way */
    unsigned strides; /* of the format */
    uint64_t pages[BOKUHIRA_LOGICAL_MAX];
    unsigned changes;
    struct change open[BOKUHIRA_PLACES];
};

static inline void close_all(struct book *b)
{
    b->changes = 0;
    b->under_way = NONE;
}

/* A device of so many logical pages, before the first stride of its format. */
static inline void forget(struct book *b, uint16_t logical)
{
    memset(b, 0, sizeof *b);
    b->logical = logical;
    close_all(b);
}

static inline struct change *find(struct book *b, uint32_t id)
{
    for (unsigned i = 0; i < b->changes; i++)
        if (b->open[i].id == id)
            return &b->open[i];
    return NULL;
}

static inline void close_one(struct book *b, struct change *c) { *c = b->open[--b->changes]; }

/* What a commit or a lone write enters. */
static inline void enter(struct book *b, const struct call *c)
{
    struct change *change = find(b, c->id);
    if (c->command == LONE && c->lpn < b->logical)
        b->pages[c->lpn] = c->data;
    if (c->command == COMMIT && change) {
        for (unsigned i = 0; i < change->count; i++)
            b->pages[change->writes[i].lpn] = change->writes[i].data;
        close_one(b, change);
    }
}

/* Whether a call in a sequence may be answered so, as far as the book can tell. */
static inline int may_answer(struct book *b, const struct call *c)
{
    const struct change *change = find(b, c->id);
    int a = c->answer, done = a == BOKUHIRA_DONE, stride = done || a == BOKUHIRA_MORE, programs = done || a == BOKUHIRA_ZONE_SHORT;
    if (c->command == FORMAT)
        return stride;
    if (c->command == RECOVER)
        return done;
    if (c->command == READ)
        return c->held;
    if (b->under_way != NONE)
        return c->command == b->under_way ? stride : a == BOKUHIRA_BUSY;
    if (has_page(c->command) && c->lpn >= b->logical)
        return a == BOKUHIRA_BAD_LOGICAL_PAGE;
    if (of_open(c->command) && !change)
        return a == BOKUHIRA_NOT_BEGUN;
    switch (c->command) {
    case BEGIN: return a == BOKUHIRA_IDENTIFIER_LIVE || (!change && (b->changes == BOKUHIRA_PLACES ? a == BOKUHIRA_PLACES_FULL : done));
    case WRITE:
    case DROP: return change->count == BOKUHIRA_CHANGE_PAGES ? a == BOKUHIRA_TOO_LONG : change->count == 0 ? done : programs;
    case LONE: return programs;
    case COMMIT: return change->count == 0 ? done : programs;
    case ABORT: return done;
    case CHECKPOINT: return stride;
    default: return stride || a == BOKUHIRA_NO_GAIN || a == BOKUHIRA_RESERVE_SHORT;
    }
}

/* Enters an answered call in the book. */
static inline void answered(struct book *b, const struct call *c)
{
    struct change *change;
    if (c->command == FORMAT && b->under_way != FORMAT)
        forget(b, b->logical);
    if (c->command == FORMAT)
        b->strides++;
    if (c->answer == BOKUHIRA_MORE)
        b->under_way = c->command;
    if (c->answer != BOKUHIRA_DONE)
        return;
    change = find(b, c->id);
    switch (c->command) {
    case FORMAT:
        b->formatted = 1;
        b->under_way = NONE;
        break;
    case RECOVER:
        b->dark = 0;
        close_all(b);
        break;
    case BEGIN:
        b->open[b->changes++] = (struct change){ .id = c->id };
        break;
    case WRITE:
    case DROP:
        change->writes[change->count].lpn = c->lpn;
        change->writes[change->count++].data = c->data;
        break;
    case ABORT:
        close_one(b, change);
        break;
    case CHECKPOINT:
    case RECLAIM:
        b->under_way = NONE;
        break;
    default:
        enter(b, c);
    }
}

#endif

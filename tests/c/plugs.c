/*
 * Plugs pulled for real: plugs KILLS [SEED]. A child works on an array in shared memory and is killed (SIGKILL), again and again. Beside
 * the array stands a log: each call before it is made, its answer after it. The parent keeps the book (docs/PAPERS.md) from the log alone.
 * After each kill it fills map, hold and state with any bytes, recovers, and holds every logical page to the book: the call under way is
 * in whole or not at all. The next child goes on with the store as it was left.
 *
 * Half of the kills fall at any moment. A program takes less than a tenth of a call, so others fall some instructions after the first
 * store into the array, and a few when a commit or a lone write is done and has not yet answered. The first difference ends the program
 * with status 1. The seed gives the calls that are drawn; the moments, and with them what a later child finds, cannot be had again.
 */
#define _GNU_SOURCE
#include <errno.h>
#include <signal.h>
#include <stdarg.h>
#include <stdatomic.h>
#include <stdio.h>
#include <stdlib.h>
#include <string.h>
#include <sys/mman.h>
#include <sys/prctl.h>
#include <sys/wait.h>
#include <time.h>
#include <ucontext.h>
#include <unistd.h>

#include "bokuhira.h"
#include "book.h"

/* The devices, one a sequence: small ones, which checkpoint and reclaim all the time, and two larger, one of them with two map pages. */
static const struct size { uint16_t blocks, pages, logical, planes; } sizes[] = {
    { 8, 8, 16, 1 }, { 9, 8, 24, 2 }, { 32, 16, 256, 1 }, { 8, 8, 1, 1 }, { 20, 8, 90, 2 }, { 11, 64, 320, 1 }, { 10, 9, 30, 1 }, { 8, 8, 16, 2 },
};

enum {
    SIZES = sizeof sizes / sizeof *sizes,
    MOST_ARRAY = 11 * 64 * BOKUHIRA_PAGE,
    LOG = 1 << 16,         /* calls of a child */
    KILLS_A_SEQUENCE = 40,
    LIMIT = 30,            /* seconds for a kill and all that belongs to it */
    ENOUGH = 1000          /* kills, of which some must have fallen where it matters */
};

/* What a power cut loses. */
struct ram {
    uint16_t map[BOKUHIRA_LOGICAL_MAX];
    uint8_t hold[BOKUHIRA_HOLD], state[BOKUHIRA_STATE];
};

/* What parent and child share: the first `begun` calls of the log were begun, the first `answered` have their answers; whether the child
   stands still to be killed. */
static struct shared {
    _Atomic uint32_t begun, answered, still;
    struct call log[LOG];
    struct ram ram;
    _Alignas(4096) uint8_t array[MOST_ARRAY];
} *s;

static struct size size;
static struct book book;
static uint64_t seed, rng;
static long number; /* of the kill */
static uint8_t left[MOST_ARRAY]; /* the array as the last kill left it */

static size_t array_len(void) { return (size_t)size.blocks * size.pages * BOKUHIRA_PAGE; }

/* ---- random numbers, by splitmix64 */

static uint64_t next(uint64_t *from)
{
    uint64_t x = *from += 0x9e3779b97f4a7c15;
    x = (x ^ x >> 30) * 0xbf58476d1ce4e5b9;
    x = (x ^ x >> 27) * 0x94d049bb133111eb;
    return x ^ x >> 31;
}

static unsigned below(unsigned n) { return (unsigned)(next(&rng) % n); }
static int once_in(unsigned n) { return below(n) == 0; }

static void fill(void *bytes, size_t n)
{
    uint8_t *at = bytes;
    while (n-- > 0)
        *at++ = (uint8_t)next(&rng);
}

/* The data that a number stands for: itself, then zeros, ones, or any bytes. No two numbers have the same. */
static const uint8_t *data_of(uint64_t n)
{
    static uint64_t data[BOKUHIRA_DATA / 8];
    uint64_t from = n;
    data[0] = n;
    for (int i = 1; i < BOKUHIRA_DATA / 8; i++)
        data[i] = n % 16 == 0 ? 0 : n % 16 == 1 ? UINT64_MAX : next(&from);
    return (const uint8_t *)data;
}

/* ---- calls */

#define LENT s->array, array_len(), s->ram.map, size.logical, s->ram.hold, sizeof s->ram.hold, s->ram.state, sizeof s->ram.state

static uint8_t recover(void) { return bokuhira_recover(LENT, size.blocks, size.pages, size.logical, size.planes); }

/* A read: its answer, and whether it gives what the book has. */
static int reads(const struct book *b, uint16_t lpn, uint8_t *answer)
{
    size_t at = 0;
    *answer = bokuhira_read(LENT, &at, lpn);
    if (lpn >= size.logical)
        return *answer == BOKUHIRA_BAD_LOGICAL_PAGE;
    if (b->pages[lpn] == 0)
        return *answer == BOKUHIRA_NEVER_WRITTEN;
    return *answer == BOKUHIRA_DONE && at <= array_len() - BOKUHIRA_DATA && memcmp(s->array + at, data_of(b->pages[lpn]), BOKUHIRA_DATA) == 0;
}

/* The first logical page that reads otherwise than the book has it; -1 where none does. */
static int differing(const struct book *b)
{
    uint8_t answer;
    for (uint16_t lpn = 0; lpn < size.logical; lpn++)
        if (!reads(b, lpn, &answer))
            return lpn;
    return -1;
}

static uint8_t make(struct call *c)
{
    uint8_t answer;
    switch (c->command) {
    case FORMAT: return bokuhira_format(LENT, size.blocks, size.pages, size.logical, size.planes);
    case RECOVER: return recover();
    case BEGIN: return bokuhira_begin(LENT, c->id);
    case WRITE: return bokuhira_write(LENT, data_of(c->data), BOKUHIRA_DATA, c->id, c->lpn);
    case DROP: return bokuhira_drop(LENT, c->id, c->lpn);
    case LONE: return bokuhira_lone(LENT, data_of(c->data), BOKUHIRA_DATA, c->lpn);
    case COMMIT: return bokuhira_commit(LENT, c->id);
    case ABORT: return bokuhira_abort(LENT, c->id);
    case READ: c->held = (uint8_t)reads(&book, c->lpn, &answer); return answer;
    case CHECKPOINT: return bokuhira_checkpoint(LENT);
    default: return bokuhira_reclaim(LENT);
    }
}

/* ---- the child */

static const uint8_t commands[] = { BEGIN, WRITE, DROP, LONE, COMMIT, ABORT, READ, CHECKPOINT, RECLAIM, RECOVER };
enum { DRAWN = sizeof commands };
static const unsigned moods[][DRAWN] = { { 10, 22, 8, 15, 10, 3, 6, 3, 3, 1 },   /* mixed */
                                         { 18, 30, 10, 4, 30, 2, 3, 3, 3, 0 },   /* short changes */
                                         { 18, 10, 30, 10, 30, 2, 3, 3, 3, 0 },  /* mostly drops */
                                         { 2, 3, 1, 60, 2, 1, 4, 2, 2, 0 },      /* lone writes */
                                         { 3, 100, 20, 2, 1, 0, 2, 6, 3, 0 },    /* long changes */
                                         { 60, 24, 6, 2, 4, 4, 2, 4, 4, 0 },     /* many changes */
                                         { 1, 2, 1, 8, 1, 1, 2, 10, 50, 0 } };   /* much to reclaim */
enum { MOODS = sizeof moods / sizeof *moods };

/* When a child is killed: at any moment, some steps after a first store, or before an answer. */
enum when { ANY_MOMENT, IN_A_STORE, UNANSWERED };

/* What must come next, most often the next stride or what is to be tidied, else anything. */
static uint8_t draw_command(const unsigned *mood, int formats, int tidy)
{
    unsigned sum = 0, at, i;
    if (formats || !book.formatted)
        return FORMAT;
    if (book.dark)
        return RECOVER;
    if (book.under_way != NONE && !once_in(8))
        return (uint8_t)book.under_way;
    if (tidy != NONE && !once_in(8))
        return (uint8_t)tidy;
    for (i = 0; i < DRAWN; i++)
        sum += mood[i];
    at = below(sum);
    for (i = 0; at >= mood[i]; i++)
        at -= mood[i];
    return of_open(commands[i]) && book.changes == 0 && !once_in(8) ? BEGIN : commands[i];
}

/* A call with its arguments. An identifier is of an open change, or one of few, which come again and again, or any. */
static struct call draw(uint8_t command)
{
    struct call c = { .command = command };
    if (has_page(command))
        c.lpn = (uint16_t)(once_in(30) ? size.logical : below(once_in(2) ? size.logical : (size.logical + 3u) / 4));
    if (of_open(command) && book.changes > 0 && !once_in(40))
        c.id = book.open[below(book.changes)].id;
    else if (of_open(command) || command == BEGIN)
        c.id = 1 + below(once_in(2) ? 40 : 0xFFFFFFFE);
    c.data = command == DROP ? 0 : next(&rng) | (uint64_t)1 << 63;
    return c;
}

/* What is to be tidied, as firmware would: where pages are short, a checkpoint, then a reclaim. */
static int tidy_after(int tidy, const struct call *c)
{
    if (c->answer == BOKUHIRA_ZONE_SHORT || c->answer == BOKUHIRA_RESERVE_SHORT)
        return once_in(4) ? NONE : CHECKPOINT;
    if (c->command == tidy && c->answer != BOKUHIRA_MORE && c->answer != BOKUHIRA_BUSY)
        return tidy == CHECKPOINT ? RECLAIM : NONE;
    return tidy;
}

static void stand_still(void)
{
    atomic_store(&s->still, 1);
    for (;;)
        pause();
}

/* The first store into an array that may not be written comes here, and every instruction after it, until so many steps are done. */
static int steps;

static void step(int why, siginfo_t *info, void *context)
{
    const uint8_t *at = info->si_addr;
    if (why == SIGSEGV && (at < s->array || at >= s->array + MOST_ARRAY || mprotect(s->array, MOST_ARRAY, PROT_READ | PROT_WRITE) != 0))
        _exit(why);
    if (steps-- == 0)
        stand_still();
    ((ucontext_t *)context)->uc_mcontext.gregs[REG_EFL] |= 0x100; /* the trap flag of x86-64 */
}

/* Calls without end. Log and calls keep this order for whoever kills the process: the marks are sequentially consistent atomics, and the
   calls are ones that the compiler cannot see into. */
static void work(enum when when)
{
    const unsigned *mood = moods[below(MOODS)];
    int formats = once_in(16), tidy = NONE;
    uint32_t from = below(formats ? 12 : 300);
    for (uint32_t n = 0; n < LOG; n++) {
        struct call *c = &s->log[n];
        if (once_in(200))
            mood = moods[below(MOODS)];
        if (when == IN_A_STORE && n == from && mprotect(s->array, MOST_ARRAY, PROT_READ) != 0)
            _exit(1);
        *c = draw(draw_command(mood, formats, tidy));
        atomic_store(&s->begun, n + 1);
        c->answer = make(c);
        if (when == UNANSWERED && n >= from && enters(c->command) && c->answer == BOKUHIRA_DONE)
            stand_still();
        atomic_store(&s->answered, n + 1);
        if (!may_answer(&book, c))
            stand_still();
        answered(&book, c);
        tidy = tidy_after(tidy, c);
    }
    stand_still();
}

/* ---- the parent */

static struct {
    long calls, in_call, in_format, in_whole, not_at_all, torn, torn_in[NONE], flips;
} counts;

static const struct call *under_way; /* the call that the kill fell in, if any */

/* Says what differs, and ends the program. */
static void differs(const char *what, ...)
{
    va_list list;
    printf("plugs: seed %llu, kill %ld, %d x %d x %d, planes: %d, under way: ", (unsigned long long)seed, number, size.blocks, size.pages, size.logical,
           size.planes);
    printf("%s", under_way ? names[under_way->command] : "no call");
    if (under_way && under_way->id != 0)
        printf(", identifier %lu", (unsigned long)under_way->id);
    if (under_way && has_page(under_way->command))
        printf(", logical page %d", under_way->lpn);
    printf("; ");
    va_start(list, what);
    vprintf(what, list);
    va_end(list);
    printf("\n");
    exit(1);
}

static void not_permitted(const char *what)
{
    printf("plugs: %s: %s\n", what, strerror(errno));
    exit(1);
}

static void late(int why)
{
    static const char line[] = "plugs: a kill, or the recovery after it, does not come to its end\n";
    (void)why;
    _exit(write(STDOUT_FILENO, line, sizeof line - 1) < 0 ? 2 : 1);
}

static void nap(long microseconds)
{
    struct timespec t = { 0, microseconds * 1000 };
    nanosleep(&t, NULL);
}

/* Naps until the child has set a mark, though not for ever. */
static void await(_Atomic uint32_t *mark)
{
    for (int i = 0; i < 20000 && atomic_load(mark) == 0; i++)
        nap(10);
}

static void child(pid_t parent, enum when when)
{
    struct sigaction action = { .sa_sigaction = step, .sa_flags = SA_SIGINFO };
    alarm(LIMIT);
    if (prctl(PR_SET_PDEATHSIG, SIGKILL) != 0 || getppid() != parent)
        _exit(1);
    if (when == IN_A_STORE && (sigaction(SIGSEGV, &action, NULL) != 0 || sigaction(SIGTRAP, &action, NULL) != 0))
        _exit(1);
    rng = seed ^ (uint64_t)number << 32;
    steps = (int)below(2u << below(12));
    work(when);
}

/* Starts a child and kills it: at a random moment after its first call began, or where it stands still. */
static void pull_the_plug(void)
{
    enum when when = once_in(2) ? ANY_MOMENT : once_in(8) ? UNANSWERED : IN_A_STORE;
    int status;
    pid_t parent = getpid(), pid;
    under_way = NULL;
    atomic_store(&s->begun, 0);
    atomic_store(&s->answered, 0);
    atomic_store(&s->still, 0);
    pid = fork();
    if (pid < 0)
        not_permitted("cannot fork");
    if (pid == 0)
        child(parent, when);
    await(when == ANY_MOMENT ? &s->begun : &s->still);
    if (when == ANY_MOMENT)
        nap(below(once_in(8) ? 4000 : once_in(2) ? 600 : 60));
    if (kill(pid, SIGKILL) != 0)
        not_permitted("cannot kill");
    if (waitpid(pid, &status, 0) != pid)
        not_permitted("cannot wait");
    if (!WIFSIGNALED(status) || WTERMSIG(status) != SIGKILL)
        differs("the child ended by itself: status %d", status);
}

static int torn(const uint8_t *page)
{
    int zeros = 0, stored = page[526] | page[527] << 8;
    for (int i = 0; i < 526; i++)
        zeros += 8 - __builtin_popcount(page[i]);
    return zeros != stored && !(zeros == 0 && stored == 0xFFFF);
}

/* Whether the kill left a torn page. */
static int tore(void)
{
    for (size_t at = 0; at < array_len(); at += BOKUHIRA_PAGE)
        if (memcmp(s->array + at, left + at, BOKUHIRA_PAGE) != 0 && torn(s->array + at))
            return 1;
    return 0;
}

/* Map, hold and state are anything. */
static void lose(void)
{
    fill(s->ram.map, size.logical * sizeof *s->ram.map);
    fill(s->ram.hold, sizeof s->ram.hold);
    fill(s->ram.state, sizeof s->ram.state);
}

/* A recovery with nothing but the array. */
static uint8_t recover_dark(void)
{
    lose();
    return recover();
}

/* Recovering again, from the same map and state and from any other, changes nothing; and no recovery changes the array. */
static void again(void)
{
    static struct ram first;
    first = s->ram;
    for (int other = 0; other < 2; other++) {
        if (other) {
            lose();
            memcpy(s->ram.hold, first.hold, sizeof first.hold);
        }
        if (recover() != BOKUHIRA_DONE || memcmp(&first, &s->ram, sizeof first) != 0)
            differs("recovering again changes something");
    }
    if (memcmp(s->array, left, array_len()) != 0)
        differs("a recovery changed the array");
}

/* Whether a format that was not answered done is in whole. Once both front blocks are erased, no checkpoint stands before its last stride. */
static int formatted(void)
{
    int last = under_way && book.strides == (unsigned)(size.blocks + BOKUHIRA_MAP_PAGES(size.logical));
    uint8_t answer = recover_dark();
    counts.in_format++;
    if (book.strides >= 2 && answer != BOKUHIRA_NO_CHECKPOINT && !(last && answer == BOKUHIRA_DONE))
        differs("after %u strides of a format recover answers %d", book.strides, answer);
    return last && answer == BOKUHIRA_DONE;
}

/* One of two books holds, as a whole: the one before the call under way, or the one after it. It goes on. */
static void judge(void)
{
    static struct book after;
    uint8_t answer = recover_dark();
    int before_lpn, after_lpn;
    if (answer != BOKUHIRA_DONE)
        differs("recover answers %d", answer);
    after = book;
    if (under_way)
        enter(&after, under_way);
    before_lpn = differing(&book);
    if (before_lpn >= 0) {
        after_lpn = differing(&after);
        if (after_lpn >= 0)
            differs("logical page %d is not as before the call, and %d not as after it", before_lpn, after_lpn);
        book = after;
    }
    if (under_way && enters(under_way->command))
        ++*(before_lpn >= 0 ? &counts.in_whole : &counts.not_at_all);
    book.dark = 0;
    close_all(&book);
    again();
}

/* One bit of a written page's data is flipped, in the page and in its copies: that must be noticed. Then all is as it was. */
static void flip(void)
{
    uint16_t lpn = (uint16_t)below(size.logical);
    unsigned bit = below(BOKUHIRA_DATA * 8);
    const uint8_t *data = data_of(book.pages[lpn]);
    if (book.pages[lpn] == 0)
        return;
    for (size_t at = 0; at < array_len(); at += BOKUHIRA_PAGE)
        if (memcmp(s->array + at, data, BOKUHIRA_DATA) == 0)
            s->array[at + bit / 8] ^= (uint8_t)(1 << bit % 8);
    if (recover_dark() == BOKUHIRA_DONE && differing(&book) < 0)
        differs("bit %u of logical page %d was flipped, and nothing differs", bit, lpn);
    memcpy(s->array, left, array_len());
    if (recover_dark() != BOKUHIRA_DONE || differing(&book) >= 0)
        differs("bit %u of logical page %d was flipped back, and the store is not as it was", bit, lpn);
    counts.flips++;
}

/* After a kill: the answered calls are entered in the book, and the store is held to it. */
static void look(void)
{
    uint32_t begun = atomic_load(&s->begun), done = atomic_load(&s->answered);
    int command = begun > done ? s->log[done].command : NONE;
    under_way = begun > done ? &s->log[done] : NULL;
    for (uint32_t n = 0; n < done; n++) {
        if (!may_answer(&book, &s->log[n]))
            differs("call %lu, a %s, is answered %d, against the book", (unsigned long)n + 1, names[s->log[n].command], s->log[n].answer);
        answered(&book, &s->log[n]);
    }
    counts.calls += done;
    counts.in_call += under_way != NULL;
    if (tore()) {
        if (command == NONE || command == RECOVER || command == BEGIN || command == ABORT || command == READ)
            differs("a page is torn");
        counts.torn++;
        counts.torn_in[command]++;
    }
    memcpy(left, s->array, array_len());
    if (command == FORMAT && book.formatted)
        forget(&book, size.logical);
    if (!book.formatted) {
        if (!formatted()) {
            forget(&book, size.logical);
            return;
        }
        book.formatted = 1;
    }
    judge();
    if (once_in(8))
        flip();
}

/* A sequence: a device of another size, on any bytes or on what the last one left. */
static void new_sequence(long n)
{
    size = sizes[n % SIZES];
    if (once_in(2))
        fill(s->array, array_len());
    memcpy(left, s->array, array_len());
    forget(&book, size.logical);
}

/* A number from 1 on, else 0. */
static long positive(const char *word)
{
    char *end;
    long n;
    errno = 0;
    n = strtol(word, &end, 10);
    return errno == 0 && *end == 0 && n > 0 ? n : 0;
}

int main(int count, char **words)
{
    long kills = count > 1 ? positive(words[1]) : 0;
    seed = count > 2 ? (uint64_t)positive(words[2]) : (uint64_t)time(NULL) * 1000 + (uint64_t)getpid() % 1000;
    if (count > 3 || kills == 0 || seed == 0) {
        printf("usage: tests/plugs [KILLS [SEED]], two numbers from 1 on\n");
        return 2;
    }
    rng = seed;
    s = mmap(NULL, sizeof *s, PROT_READ | PROT_WRITE, MAP_SHARED | MAP_ANONYMOUS, -1, 0);
    if (s == MAP_FAILED)
        not_permitted("cannot share memory");
    signal(SIGALRM, late);
    prctl(PR_SET_TIMERSLACK, 1UL);
    for (number = 1; number <= kills; number++) {
        alarm(LIMIT);
        if (number % KILLS_A_SEQUENCE == 1)
            new_sequence(number / KILLS_A_SEQUENCE);
        book.dark = once_in(4);
        if (book.dark || !book.formatted)
            lose();
        pull_the_plug();
        look();
    }
    printf("plugs: seed %llu, %ld kills, %ld calls, 0 differences; %ld flipped bits, each noticed; ", (unsigned long long)seed, kills, counts.calls,
           counts.flips);
    printf("commits and lone writes under way: %ld in whole, %ld not at all\n", counts.in_whole, counts.not_at_all);
    printf("plugs: %ld kills in a call, %ld in a format, %ld with a torn page left", counts.in_call, counts.in_format, counts.torn);
    for (int i = FORMAT, said = 0; i < NONE; i++)
        if (counts.torn_in[i] > 0)
            printf("%s %ld in a %s", said++ ? "," : ":", counts.torn_in[i], names[i]);
    printf("\n");
    if (kills >= ENOUGH && (counts.torn < kills / 100 || !counts.in_whole || !counts.not_at_all || !counts.flips)) {
        printf("plugs: too few of these kills fell where it matters\n");
        return 1;
    }
    return 0;
}

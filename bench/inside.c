/* Hands frames to a server without a network: a library that is loaded before the server's own (LD_PRELOAD), and stands for its `recvfrom`,
   `sendto` and clock. So the program as it was built is measured, and what is left of a turn is the server's own work. Times are the thread's time
   on its processor, so that other work on the machine does not count. The server's clock goes on by five seconds with each batch, so that no record of the reply cache is inside the deduplication window and no request is refused as busy.

       BENCH_PLAN=steps  BENCH_COUNT=BATCHES BENCH_PAGES=PAGES   batches of 64 frames, see steps.h
       BENCH_PLAN=allocs BENCH_COUNT=ROUNDS                      Allocs that are timed one by one, see allocs.h
       BENCH_PLAN=table  BENCH_COUNT=ROUNDS                      the same, for a node of two buckets
       BENCH_OUT=FILE                                            where the figures go

   At the end of the plan the figures are written and the process ends with status 0. A line is `LABEL COUNT P10 P25 P50 P75 P90 MOST`: how
   many batches, and their nanoseconds a frame. A wrong reply ends it with status 1. */
#define _GNU_SOURCE
#include <dlfcn.h>
#include <netinet/in.h>
#include <sys/socket.h>
#include <unistd.h>
#include "basics.h"
#include "frames.h"

enum { MOST_FRAMES = 64, MOST_LABELS = 16, MOST_FIGURES = 1 << 16, BATCH_SECONDS = 5 };

/* Frames that are handed over one after the other. A batch without a label is not timed. */
struct batch {
    const char *label;
    size_t count, lengths[MOST_FRAMES];
    bool has_replies;
    enum status status; /* that each reply must have */
    uint8_t frames[MOST_FRAMES][FRAME_ROOM];
};

#include "allocs.h"
#include "steps.h"

static struct batch batch;
static size_t handed, replied;
static uint64_t started, reading; /* when the batch was begun; how long it takes to read that */
static uint64_t later;            /* the seconds by which the server's clock is ahead */
static bool (*next_batch)(struct batch *);
static struct { const char *label; size_t count; uint64_t figures[MOST_FIGURES]; } labels[MOST_LABELS];

/* ---- the system's own calls ---- */

static int (*system_clock)(clockid_t, struct timespec *);

int clock_gettime(clockid_t which, struct timespec *time)
{
    if (!system_clock) *(void **)&system_clock = dlsym(RTLD_NEXT, "clock_gettime");
    int status = system_clock(which, time);
    time->tv_sec += (time_t)later;
    return status;
}
/* The nanoseconds that this thread ran. */
static uint64_t nanos_run(void)
{
    struct timespec time;
    system_clock(CLOCK_THREAD_CPUTIME_ID, &time);
    return (uint64_t)time.tv_sec * NANOS_PER_SECOND + (uint64_t)time.tv_nsec;
}
static void time_reading(void)
{
    reading = UINT64_MAX;
    for (int nth = 0; nth < 1000; nth++) {
        uint64_t before = nanos_run(), took = nanos_run() - before;
        if (took < reading) reading = took;
    }
}

/* ---- the figures ---- */

static void note(const char *label, uint64_t nanos)
{
    for (size_t at = 0; at < MOST_LABELS; at++) {
        if (labels[at].label && strcmp(labels[at].label, label) != 0) continue;
        labels[at].label = label;
        if (labels[at].count < MOST_FIGURES) labels[at].figures[labels[at].count++] = nanos;
        return;
    }
}
static void write_figures(void)
{
    static const size_t parts[] = { 100, 250, 500, 750, 900, 1000 };
    FILE *out = fopen(getenv("BENCH_OUT") ? getenv("BENCH_OUT") : "/dev/stderr", "w");
    if (!out) give_up("BENCH_OUT");
    for (size_t at = 0; at < MOST_LABELS && labels[at].label; at++) {
        sort_figures(labels[at].figures, labels[at].count);
        fprintf(out, "%s %zu", labels[at].label, labels[at].count);
        for (size_t part = 0; part < sizeof parts / sizeof *parts; part++)
            fprintf(out, " %lu", figure_at(labels[at].figures, labels[at].count, parts[part]));
        fprintf(out, "\n");
    }
    fclose(out);
}

/* ---- the turns of the server ---- */

static size_t number(const char *name, size_t otherwise)
{
    const char *text = getenv(name);
    return text ? strtoul(text, NULL, 10) : otherwise;
}
static void choose_plan(void)
{
    const char *plan = getenv("BENCH_PLAN");
    if (!plan) give_up("no BENCH_PLAN");
    next_batch = strcmp(plan, "steps") == 0 ? next_steps : strcmp(plan, "table") == 0 ? next_of_table : next_alloc;
    steps.batches = allocs.rounds = number("BENCH_COUNT", 100);
    steps.pages = (uint32_t)number("BENCH_PAGES", 4096);
}
static void end_batch(uint64_t now)
{
    uint64_t took = now - started;
    errno = 0;
    if (batch.has_replies && replied != batch.count) give_up("a frame had no reply");
    if (batch.label) note(batch.label, (took > reading ? took - reading : 0) / batch.count);
}
static void begin_batch(void)
{
    if (!next_batch) {
        nanos_now(); /* finds the system's clock */
        choose_plan();
        time_reading();
    }
    if (!next_batch(&batch)) {
        write_figures();
        _exit(0);
    }
    handed = replied = 0;
    later += BATCH_SECONDS;
    started = nanos_run();
}
ssize_t recvfrom(int handle, void *restrict to, size_t room, int flags, __SOCKADDR_ARG from, socklen_t *restrict from_len)
{
    struct sockaddr_in peer = { .sin_family = AF_INET, .sin_port = htons(9), .sin_addr.s_addr = htonl(INADDR_LOOPBACK) };
    (void)handle, (void)flags;
    if (handed == batch.count) {
        if (batch.count) end_batch(nanos_run());
        begin_batch();
    }
    size_t len = batch.lengths[handed] < room ? batch.lengths[handed] : room;
    memcpy(to, batch.frames[handed++], len);
    memcpy(from.__sockaddr__, &peer, sizeof peer);
    *from_len = sizeof peer;
    return (ssize_t)len;
}
ssize_t sendto(int handle, const void *bytes, size_t len, int flags, __CONST_SOCKADDR_ARG to, socklen_t to_len)
{
    (void)handle, (void)flags, (void)to, (void)to_len;
    errno = 0;
    if (len <= BODY_AT || ((const uint8_t *)bytes)[BODY_AT] != batch.status) give_up("a wrong reply");
    replied++;
    return (ssize_t)len;
}

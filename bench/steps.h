/* The frames of `steps`: reads, writes and adds at random places of PAGES written pages, and a datagram of one byte, which a server rejects,
   so that what the step adds to it can be seen. The batches of these kinds take turns. */
#ifndef STEPS_H
#define STEPS_H
#include "basics.h"
#include "frames.h"

static const struct { const char *label; enum kind kind; uint32_t bytes; } step_kinds[] = {
    { "nothing", 0, 1 }, { "read64", READ, 64 }, { "read1024", READ, 1024 }, { "write64", WRITE, 64 }, { "write1024", WRITE, 1024 },
    { "add", ATOMIC, 8 },
};
enum { STEP_KINDS = sizeof step_kinds / sizeof *step_kinds, SET_UP_RECORDS = 65536 };

static struct { uint32_t pages; size_t batches, made; uint64_t next_id, random; } steps = { .next_id = 1, .random = 1 };

static struct name next_name(void)
{
    return (struct name){ .client = 1, .process = 1, .id = steps.next_id++ };
}
/* Pages come in order from page 1 on, at each server of a fresh space. */
static uint32_t random_address(uint32_t bytes)
{
    uint32_t page = 1 + random_below(&steps.random, steps.pages);
    return page * PAGE_BYTES + random_below(&steps.random, PAGE_BYTES / bytes) * bytes;
}
static size_t step_frame(uint8_t *frame, size_t kind)
{
    uint32_t bytes = step_kinds[kind].bytes;
    switch (step_kinds[kind].kind) {
    case READ: return read_request(frame, next_name(), random_address(bytes), bytes);
    case WRITE: return write_request(frame, next_name(), random_address(bytes), bytes);
    case ATOMIC: return add_request(frame, next_name(), random_address(bytes), 1);
    default: frame[0] = 0; return 1;
    }
}
/* The pages are allocated one range after the other, each is written once, and then writes fill the reply cache. */
static size_t set_up_frame(uint8_t *frame, size_t nth)
{
    size_t ranges = (steps.pages + RANGE_PAGES - 1) / RANGE_PAGES;
    if (nth < ranges) {
        uint32_t left = steps.pages - (uint32_t)nth * RANGE_PAGES;
        return alloc_request(frame, next_name(), left < RANGE_PAGES ? left : RANGE_PAGES);
    }
    uint32_t page = 1 + (uint32_t)((nth - ranges) % steps.pages);
    return write_request(frame, next_name(), page * PAGE_BYTES, 64);
}
static void set_up_batch(struct batch *batch, size_t nth)
{
    batch->label = NULL;
    batch->has_replies = true;
    for (size_t at = 0; at < MOST_FRAMES; at++)
        batch->lengths[at] = set_up_frame(batch->frames[at], nth * MOST_FRAMES + at);
    batch->count = MOST_FRAMES;
}
/* The next batch; false if there is none. */
static bool next_steps(struct batch *batch)
{
    size_t set_up = (steps.pages + SET_UP_RECORDS + RANGE_PAGES) / MOST_FRAMES, nth = steps.made++;
    batch->status = OK;
    if (nth < set_up) {
        set_up_batch(batch, nth);
        return true;
    }
    if (nth == set_up + steps.batches * STEP_KINDS) return false;
    size_t kind = nth % STEP_KINDS;
    batch->label = step_kinds[kind].label;
    batch->has_replies = step_kinds[kind].kind != 0;
    batch->count = MOST_FRAMES;
    for (size_t at = 0; at < MOST_FRAMES; at++) batch->lengths[at] = step_frame(batch->frames[at], kind);
    return true;
}
#endif

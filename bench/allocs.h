/* The frames of `allocs`: Allocs that must go far, or fail. The space of process 1 is full but for its last pages, that of process 2 has
   holes of HOLE pages; both are filled by demand-zero pages, so the node needs room in its page table and no memory. Each Alloc is timed
   by itself:

   end1, end64      1 and 64 pages, which fit only at the end of the nearly full space
   free64           the Free of the latter, which makes the next failing Alloc a first one
   fail             1,024 pages of the nearly full space, where no start fits, after a Free
   fail-again       the same once more
   holes, holes-again   HOLE + 1 pages of the space of holes, after a Free of it, and once more

   The frames of `table` are for a node of two buckets, whose page table process 1 fills:

   table, table-again   one page for process 2, after a Free, and once more */
#ifndef ALLOCS_H
#define ALLOCS_H
#include "basics.h"
#include "frames.h"

enum { TABLE_PAGES = 8, HOLE = 256, FULL_RANGES = 63, HOLE_RANGES = 255, END_PAGE = 1 + FULL_RANGES * RANGE_PAGES };

static struct { size_t rounds, made; uint64_t next_id; } allocs = { .next_id = 1 };

static void one_frame(struct batch *batch, const char *label, size_t len, enum status status)
{
    batch->label = label;
    batch->lengths[0] = len;
    batch->count = 1;
    batch->has_replies = true;
    batch->status = status;
}
static struct name name_in(uint16_t process)
{
    return (struct name){ .client = 1, .process = process, .id = allocs.next_id++ };
}
static void ask(struct batch *batch, const char *label, uint16_t process, uint32_t pages, enum status status)
{
    one_frame(batch, label, alloc_request(batch->frames[0], name_in(process), pages), status);
}
static void give_back(struct batch *batch, const char *label, uint16_t process, uint32_t page, uint32_t pages)
{
    one_frame(batch, label, free_request(batch->frames[0], name_in(process), page * PAGE_BYTES, pages), OK);
}
/* Fills both spaces, and then frees every other range of process 2. */
static bool fill_spaces(struct batch *batch, size_t nth)
{
    if (nth < FULL_RANGES) ask(batch, NULL, 1, RANGE_PAGES, OK);
    else if ((nth -= FULL_RANGES) < HOLE_RANGES) ask(batch, NULL, 2, HOLE, OK);
    else if ((nth -= HOLE_RANGES) < HOLE_RANGES / 2) give_back(batch, NULL, 2, 1 + (uint32_t)(2 * nth + 1) * HOLE, HOLE);
    else return false;
    return true;
}
static void alloc_of_round(struct batch *batch, size_t nth)
{
    switch (nth) {
    case 0: ask(batch, "end1", 1, 1, OK); break;
    case 1: give_back(batch, "free1", 1, END_PAGE, 1); break;
    case 2: ask(batch, "end64", 1, 64, OK); break;
    case 3: give_back(batch, "free64", 1, END_PAGE, 64); break;
    case 4: ask(batch, "fail", 1, RANGE_PAGES, NO_RANGE); break;
    case 5: ask(batch, "fail-again", 1, RANGE_PAGES, NO_RANGE); break;
    case 6: ask(batch, "hole", 2, HOLE, OK); break;
    case 7: give_back(batch, "free-hole", 2, 1 + HOLE, HOLE); break;
    case 8: ask(batch, "holes", 2, HOLE + 1, NO_RANGE); break;
    default: ask(batch, "holes-again", 2, HOLE + 1, NO_RANGE); break;
    }
}
enum { ALLOCS_OF_ROUND = 10, FILLING = FULL_RANGES + HOLE_RANGES + HOLE_RANGES / 2 };

/* The next batch of `table`; false if there is none. */
static bool next_of_table(struct batch *batch)
{
    size_t nth = allocs.made++;
    if (nth == allocs.rounds * 4) return false;
    switch (nth % 4) {
    case 0: ask(batch, NULL, 1, TABLE_PAGES, OK); break;
    case 1: ask(batch, "table", 2, 1, NO_RANGE); break;
    case 2: ask(batch, "table-again", 2, 1, NO_RANGE); break;
    default: give_back(batch, NULL, 1, 1, TABLE_PAGES); break;
    }
    return true;
}
/* The next batch of `allocs`; false if there is none. */
static bool next_alloc(struct batch *batch)
{
    size_t nth = allocs.made++;
    if (fill_spaces(batch, nth)) return true;
    nth -= FILLING;
    if (nth == allocs.rounds * ALLOCS_OF_ROUND) return false;
    alloc_of_round(batch, nth % ALLOCS_OF_ROUND);
    return true;
}
#endif

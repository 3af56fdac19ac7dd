/* A node that checks nothing, as the lower bound of one that does: one flat memory of all processes, without pages and permissions, and a
   reply cache of R records, which a node needs to apply each request once. What it looks at of a frame is what keeps it within its memory.

       plain_node R    R is 1 to 65,536. Prints `port P`, and ends after 10 s without a datagram. */
#include "serve.h"

enum { DEDUPLICATION_TICKS = 400, NANOS_PER_TICK = 10000000, CACHED_BODY = 9 };
static const uint32_t MEMORY_BYTES = (uint32_t)SPACE_PAGES * PAGE_BYTES;

static uint8_t *memory;
static uint32_t next_page = 1;

/* ---- the reply cache ---- */

/* The reply to a mutating request. Records are in the order of their making in a ring, and those of one bucket in a list. */
struct record {
    uint64_t first_id;
    uint32_t tick, next; /* the place after the next one's in its list, or 0 */
    uint16_t client;
    uint8_t kind, len, body[CACHED_BODY];
};
static struct {
    struct record *ring;
    uint32_t *heads;
    uint32_t room, count, oldest, head_mask;
} cache;

static void open_cache(uint32_t room)
{
    uint32_t heads = 2;
    while (heads < 2 * room) heads *= 2;
    cache.room = room;
    cache.head_mask = heads - 1;
    cache.ring = zeroed(room, sizeof *cache.ring);
    cache.heads = zeroed(heads, sizeof *cache.heads);
}
/* The list of a name. Neighbouring ids have neighbouring lists, so that a client that counts walks along the memory. */
static uint32_t *list_of(uint32_t client, uint32_t kind, uint64_t first_id)
{
    uint32_t start = (client << 3 | kind) * 2654435769u;
    return &cache.heads[(start + (uint32_t)first_id) & cache.head_mask];
}
static const struct record *find(uint32_t client, uint32_t kind, uint64_t first_id)
{
    for (uint32_t at = *list_of(client, kind, first_id); at; at = cache.ring[at - 1].next) {
        const struct record *found = &cache.ring[at - 1];
        if (found->first_id == first_id && found->client == client && found->kind == kind) return found;
    }
    return NULL;
}
static bool is_busy(uint32_t tick)
{
    return cache.count == cache.room && tick - cache.ring[cache.oldest].tick < DEDUPLICATION_TICKS;
}
static void drop_oldest(void)
{
    const struct record *gone = &cache.ring[cache.oldest];
    uint32_t *link = list_of(gone->client, gone->kind, gone->first_id);
    while (*link != cache.oldest + 1) link = &cache.ring[*link - 1].next;
    *link = gone->next;
    cache.oldest = cache.oldest + 1 == cache.room ? 0 : cache.oldest + 1;
    cache.count--;
}
static void record(uint32_t tick, const uint8_t *reply, uint32_t kind, size_t len)
{
    if (cache.count == cache.room) drop_oldest();
    uint32_t at = cache.oldest + cache.count++;
    if (at >= cache.room) at -= cache.room;
    struct record *made = &cache.ring[at];
    uint32_t *head = list_of(fetch16(reply + CLIENT_AT), kind, fetch64(reply + FIRST_ID_AT));
    made->first_id = fetch64(reply + FIRST_ID_AT);
    made->client = fetch16(reply + CLIENT_AT);
    made->kind = (uint8_t)kind;
    made->tick = tick;
    made->len = (uint8_t)len;
    memcpy(made->body, reply + BODY_AT, len);
    made->next = *head;
    *head = at + 1;
}

/* ---- one request ---- */

static uint64_t word_after(uint64_t word, const uint8_t *body)
{
    switch (body[4]) {
    case LOCK: return word ? word : 1;
    case UNLOCK: return 0;
    case ADD: return word + fetch64(body + 5);
    case CAS: return word == fetch64(body + 5) ? fetch64(body + 13) : word;
    default: return word;
    }
}
/* Each of these writes the body of a reply, and returns its length. */
static size_t alloc(const uint8_t *body, uint8_t *out)
{
    uint32_t pages = fetch16(body);
    if (next_page + pages > SPACE_PAGES) next_page = 1;
    store32(out + 1, next_page * PAGE_BYTES);
    next_page += pages;
    return 5;
}
static size_t read_bytes(const uint8_t *body, uint8_t *out)
{
    uint32_t bytes = fetch16(body + 4) & (2 * PART_BYTES - 1);
    if (bytes > PART_BYTES) bytes = PART_BYTES;
    memcpy(out + 1, memory + (fetch32(body) & (MEMORY_BYTES - 1)), bytes);
    return 1 + bytes;
}
static size_t write_bytes(const uint8_t *body, size_t len)
{
    if (len > 4) memcpy(memory + (fetch32(body) & (MEMORY_BYTES - 1)), body + 4, len - 4);
    return 1;
}
static size_t change_word(const uint8_t *body, uint8_t *out)
{
    uint8_t *at = memory + (fetch32(body) & (MEMORY_BYTES - 1));
    uint64_t word, after;
    memcpy(&word, at, sizeof word);
    after = word_after(word, body);
    memcpy(at, &after, sizeof after);
    store64(out + 1, word);
    return 9;
}
static size_t execute(const uint8_t *request, size_t len, uint8_t *out)
{
    const uint8_t *body = request + BODY_AT;
    out[0] = OK;
    switch (request[KIND_AT]) {
    case ALLOC: return alloc(body, out);
    case READ: return read_bytes(body, out);
    case WRITE: return write_bytes(body, len - BODY_AT);
    case ATOMIC: return change_word(body, out);
    case OFFLOAD: out[0] = NO_OFFLOAD; return 1;
    default: return 1;
    }
}
static size_t execute_once(const uint8_t *request, size_t len, uint8_t *reply)
{
    uint32_t tick = (uint32_t)(nanos_now() / NANOS_PER_TICK), kind = request[KIND_AT];
    const struct record *found = find(fetch16(request + CLIENT_AT), kind, fetch64(request + FIRST_ID_AT));
    if (found) {
        memcpy(reply + BODY_AT, found->body, found->len);
        return found->len;
    }
    if (is_busy(tick)) return 0;
    size_t body = execute(request, len, reply + BODY_AT);
    record(tick, reply, kind, body);
    return body;
}
static size_t answer(const uint8_t *request, size_t len, uint8_t *reply)
{
    if (len < BODY_AT) return 0;
    memcpy(reply, request, LENGTH_AT);
    reply[KIND_AT] = (uint8_t)(request[KIND_AT] + REPLY_KIND);
    size_t body = request[KIND_AT] == READ ? execute(request, len, reply + BODY_AT) : execute_once(request, len, reply);
    store16(reply + LENGTH_AT, (uint32_t)body);
    return body ? BODY_AT + body : 0;
}

int main(int count, char **words)
{
    long room = count == 2 ? atol(words[1]) : 0;
    if (room < 1 || room > 65536) give_up("plain_node R");
    open_cache((uint32_t)room);
    /* from the allocator, as a node's memory, so that what asks it for huge pages asks for both */
    memory = zeroed(MEMORY_BYTES + FRAME_ROOM, 1);
    serve(answer);
}

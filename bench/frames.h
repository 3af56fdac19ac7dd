/* Requests and replies as docs/FORMATS.md has them. Numbers of a frame are big-endian. */
#ifndef FRAMES_H
#define FRAMES_H
#include <endian.h>
#include <stdbool.h>
#include <stddef.h>
#include <stdint.h>
#include <string.h>

enum kind { ALLOC = 1, FREE, READ, WRITE, ATOMIC, OFFLOAD };
enum status { OK = 0, NO_RANGE = 4, NO_OFFLOAD = 5 };
enum operation { LOCK = 1, UNLOCK, ADD, CAS };

enum {
    KIND_AT = 3, CLIENT_AT = 4, ID_AT = 8, FIRST_ID_AT = 16, LENGTH_AT = 24, BODY_AT = 26,
    REPLY_KIND = 128,          /* is added to the kind of the request */
    READ_AND_WRITE = 3,        /* a permission */
    PAGE_BYTES = 4096, PART_BYTES = 1024, RANGE_PAGES = 1024, SPACE_PAGES = 65536,
    FRAME_ROOM = 1200
};

/* Who asks, and under which id. */
struct name { uint16_t client, process; uint64_t id; };

static inline void store16(uint8_t *to, uint32_t value) { uint16_t big = htobe16((uint16_t)value); memcpy(to, &big, 2); }
static inline void store32(uint8_t *to, uint32_t value) { uint32_t big = htobe32(value); memcpy(to, &big, 4); }
static inline void store64(uint8_t *to, uint64_t value) { uint64_t big = htobe64(value); memcpy(to, &big, 8); }
static inline uint16_t fetch16(const uint8_t *from) { uint16_t big; memcpy(&big, from, 2); return be16toh(big); }
static inline uint32_t fetch32(const uint8_t *from) { uint32_t big; memcpy(&big, from, 4); return be32toh(big); }
static inline uint64_t fetch64(const uint8_t *from) { uint64_t big; memcpy(&big, from, 8); return be64toh(big); }

/* Each of these writes a request that is sent for the first time, and returns its length. */
static inline size_t request_head(uint8_t *frame, enum kind kind, struct name name, size_t body)
{
    memcpy(frame, "CL\1", 3);
    frame[KIND_AT] = (uint8_t)kind;
    store16(frame + CLIENT_AT, name.client);
    store16(frame + CLIENT_AT + 2, name.process);
    store64(frame + ID_AT, name.id);
    store64(frame + FIRST_ID_AT, name.id);
    store16(frame + LENGTH_AT, (uint32_t)body);
    return BODY_AT + body;
}
static inline size_t alloc_request(uint8_t *frame, struct name name, uint32_t pages)
{
    store16(frame + BODY_AT, pages);
    frame[BODY_AT + 2] = READ_AND_WRITE;
    return request_head(frame, ALLOC, name, 3);
}
static inline size_t free_request(uint8_t *frame, struct name name, uint32_t address, uint32_t pages)
{
    store32(frame + BODY_AT, address);
    store16(frame + BODY_AT + 4, pages);
    return request_head(frame, FREE, name, 6);
}
static inline size_t read_request(uint8_t *frame, struct name name, uint32_t address, uint32_t bytes)
{
    store32(frame + BODY_AT, address);
    store16(frame + BODY_AT + 4, bytes);
    return request_head(frame, READ, name, 6);
}
/* Writes `bytes` times the lowest byte of the id. */
static inline size_t write_request(uint8_t *frame, struct name name, uint32_t address, uint32_t bytes)
{
    store32(frame + BODY_AT, address);
    memset(frame + BODY_AT + 4, (int)(name.id & 0xff), bytes);
    return request_head(frame, WRITE, name, 4 + bytes);
}
static inline size_t add_request(uint8_t *frame, struct name name, uint32_t address, uint64_t amount)
{
    store32(frame + BODY_AT, address);
    frame[BODY_AT + 4] = ADD;
    store64(frame + BODY_AT + 5, amount);
    return request_head(frame, ATOMIC, name, 13);
}

/* How many bytes the body of a reply with status 0 to this request has; an Offload is none that is asked here. */
static inline size_t ok_body(const uint8_t *request)
{
    switch (request[KIND_AT]) {
    case ALLOC: return 5;
    case READ: return 1u + fetch16(request + BODY_AT + 4);
    case ATOMIC: return 9;
    default: return 1;
    }
}
/* Do these bytes say of this request that it was done? Id and first id must be those of the request. */
static inline bool is_done(const uint8_t *reply, size_t len, const uint8_t *request)
{
    return len == BODY_AT + ok_body(request)
        && reply[KIND_AT] == request[KIND_AT] + REPLY_KIND
        && memcmp(reply + CLIENT_AT, request + CLIENT_AT, LENGTH_AT - CLIENT_AT) == 0
        && reply[BODY_AT] == OK;
}
#endif

/* A client of a memory node, without I/O: the caller owns the socket and the clock.
 *
 * A client takes calls, tells which datagram to send and when, hears the datagrams that come, and hands each call back with
 * its answer. It sends what is lost again, and keeps the order of calls that touch the same bytes.
 *
 * A client is used by one thread at a time, and by no call after clio_free. Pointers are never null, also for no bytes.
 * Moments are in ticks, which are 10 ms for `clio node`; they count from any start, and one that falls counts as the last.
 * The program's malloc, realloc and free are one allocator. */
#ifndef CLIO_H
#define CLIO_H
#include <stdbool.h>
#include <stddef.h>
#include <stdint.h>
#ifdef __cplusplus
extern "C" {
#endif

/* The room that a datagram takes at most, in bytes. */
#define CLIO_FRAME_ROOM 1200

typedef struct { void *at; } clio_client;

/* What clio_create and the functions that issue a call answer: 0, or why nothing was done. */
enum clio_status {
    CLIO_OK = 0,
    CLIO_QUEUE_FULL = 1,    /* the client holds 256 calls */
    CLIO_EMPTY = 2,         /* no bytes, or no pages */
    CLIO_TOO_LONG = 3,      /* more bytes or pages than a call may have */
    CLIO_BAD_ADDRESS = 4,   /* the address, or the end of what is asked for, lies outside the address space */
    CLIO_MISALIGNED = 5,    /* a word's address is no multiple of 8, or a range's none of 4,096 */
    CLIO_NO_MEMORY = 100,
    CLIO_BAD_ARGUMENT = 101,
    CLIO_USED_UP = 102      /* the client has issued 2^32 - 1 calls */
};

enum clio_perm { CLIO_READ_ONLY = 1, CLIO_WRITE_ONLY = 2, CLIO_READ_WRITE = 3 };

/* Operations on a word of 8 bytes: CLIO_ADD adds a, CLIO_CAS puts b where the word is a. CLIO_LOCK puts 1, CLIO_UNLOCK 0. */
enum clio_op { CLIO_LOCK = 1, CLIO_UNLOCK = 2, CLIO_ADD = 3, CLIO_CAS = 4 };

/* What a poll did: nothing is due; the first len bytes of the buffer are to be sent to the node; a part of a call is not
 * waited for any longer; a fence ended; the buffer has less than CLIO_FRAME_ROOM bytes, and nothing was done. */
enum { CLIO_IDLE = 0, CLIO_SEND = 1, CLIO_GAVE_UP = 2, CLIO_FENCE_ENDED = 3, CLIO_NO_ROOM = 4 };
typedef struct { uint32_t what; size_t len; } clio_polled;

/* What was heard: a reply that was taken; one that ended its call; a reply to what is not in flight; one that doesn't fit
 * what was asked; another client's; bytes that are no reply. */
enum { CLIO_TOOK = 0, CLIO_ENDED = 1, CLIO_LATE = 2, CLIO_UNFIT = 3, CLIO_OTHER = 4, CLIO_BAD = 5 };

/* How a call ended. Of a call that was done, value is the address of an alloc, the old word of an atomic, or the length of a
 * read or an offload, which is len too. Of a refused one it is the refusal; of one that timed out, which may have been done
 * all the same, the moment at which it was first sent. */
enum { CLIO_DONE = 0, CLIO_REFUSED = 1, CLIO_TIMED_OUT = 2 };
typedef struct { uint32_t call; uint32_t what; uint64_t value; uint32_t len; } clio_ended;

enum clio_refusal {
    CLIO_NO_MAPPING = 1,
    CLIO_NO_PERMISSION = 2,
    CLIO_NO_PAGE = 3,
    CLIO_NO_RANGE = 4,
    CLIO_NO_OFFLOAD = 5,
    CLIO_OBJECT_FULL = 6,
    CLIO_NO_KEY = 7,
    CLIO_BAD_OP = 8
};

/* The version of these functions: 1. */
uint32_t clio_abi_version(void);

/* Makes a client of this number, which works for the process pid (1 to 65,279). Its sendings are numbered from first_id on
 * (1 to 2^63): where a client number was used at the node before, begin above all earlier numbers, as by the real clock. */
uint32_t clio_create(uint16_t client, uint16_t pid, uint64_t first_id, clio_client *out);
void clio_free(clio_client client);

/* Each issues a call, and puts its number, from 1 on, into *call. Where it answers another status than CLIO_OK, *call and the
 * client are as they were. Bytes are copied. */
uint32_t clio_alloc(clio_client client, uint32_t pages, uint8_t perm, uint32_t *call);
uint32_t clio_free_pages(clio_client client, uint32_t addr, uint32_t pages, uint32_t *call);
uint32_t clio_read(clio_client client, uint32_t addr, uint32_t len, uint32_t *call);
uint32_t clio_write(clio_client client, uint32_t addr, const uint8_t *bytes, size_t len, uint32_t *call);
uint32_t clio_atomic(clio_client client, uint32_t addr, uint8_t op, uint64_t a, uint64_t b, uint32_t *call);
uint32_t clio_offload(clio_client client, uint8_t object, uint8_t op, const uint8_t *bytes, size_t len, uint32_t room,
                      uint32_t *call);
uint32_t clio_fence(clio_client client, uint32_t *call);

/* Does the one thing that is due at the moment `now`. Poll again until it is CLIO_IDLE. */
void clio_poll(clio_client client, uint64_t now, uint8_t *out, size_t room, clio_polled *told);
/* Hears a datagram. */
uint32_t clio_hear(clio_client client, const uint8_t *frame, size_t len);
/* True where a call ended; the bytes that came with it go to out, as many as fit. */
bool clio_done(clio_client client, uint8_t *out, size_t room, clio_ended *ended);

bool clio_is_full(clio_client client);
bool clio_is_empty(clio_client client);

#ifdef __cplusplus
}
#endif
#endif

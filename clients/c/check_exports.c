/* Calls each function of clio.h, and compares what it tells with what it has to tell: so the header is as the library is. The
   node's part is played here, by replies that are made of the requests. Prints one line where all agree; else the lines that
   don't, and ends with 1.

     cc -Iclients/c clients/c/check_exports.c crates/clio_c/out/libclio_c.a KIT/c/liblibc_c.a && ./a.out */
#include "clio.h"
#include <stdio.h>
#include <string.h>

enum { CLIENT = 7, PROCESS = 3, FIRST_ID = 1000 };

/* Places in a frame. */
enum { KIND_AT = 3, CLIENT_AT = 4, ID_AT = 8, LENGTH_AT = 24, BODY_AT = 26 };

enum { ALLOC = 1, FREE = 2, READ = 3, WRITE = 4, ATOMIC = 5, OFFLOAD = 6, REPLY = 128 };

static int faults;

#define EXPECT(is) ((is) ? (void)0 : expected(__LINE__, #is))

static void expected(int line, const char *text)
{
    printf("check_exports.c:%d: expected %s\n", line, text);
    faults++;
}

static clio_client client;
static uint64_t now;
static uint32_t call;
static uint8_t frame[CLIO_FRAME_ROOM], bytes[CLIO_FRAME_ROOM];
static clio_polled told;
static clio_ended ended;

/* The one poll that is due, which has to send a request of this kind with a body of this length. */
static void sends(uint8_t kind, size_t body)
{
    clio_poll(client, now, frame, sizeof frame, &told);
    EXPECT(told.what == CLIO_SEND && told.len == BODY_AT + body && frame[KIND_AT] == kind);
}

/* Hears the reply to the request in the frame: its status, and the bytes behind it. */
static uint32_t hears(uint8_t status, const void *value, size_t len)
{
    frame[KIND_AT] += REPLY;
    frame[LENGTH_AT] = 0;
    frame[LENGTH_AT + 1] = (uint8_t)(1 + len);
    frame[BODY_AT] = status;
    memcpy(frame + BODY_AT + 1, value, len);
    return clio_hear(client, frame, BODY_AT + 1 + len);
}

/* The call that was issued last has ended so. */
static void ends(uint32_t what, uint64_t value, uint32_t len)
{
    memset(bytes, 0, sizeof bytes);
    EXPECT(clio_done(client, bytes, sizeof bytes, &ended));
    EXPECT(ended.call == call && ended.what == what && ended.value == value && ended.len == len);
    EXPECT(!clio_done(client, bytes, 0, &ended) && ended.call == call);
}

static void create(void)
{
    EXPECT(clio_abi_version() == 1);
    EXPECT(clio_create(CLIENT, 0, 1, &client) == CLIO_BAD_ARGUMENT);
    EXPECT(clio_create(CLIENT, 65280, 1, &client) == CLIO_BAD_ARGUMENT);
    EXPECT(clio_create(CLIENT, PROCESS, 0, &client) == CLIO_BAD_ARGUMENT);
    EXPECT(clio_create(CLIENT, PROCESS, (1ull << 63) + 1, &client) == CLIO_BAD_ARGUMENT);
    EXPECT(clio_create(CLIENT, PROCESS, FIRST_ID, &client) == CLIO_OK);
    EXPECT(clio_is_empty(client) && !clio_is_full(client));
}

static void alloc(void)
{
    static const uint8_t id[] = { 0, 0, 0, 0, 0, 0, 3, 232 }, addr[] = { 0, 0, 16, 0 };
    EXPECT(clio_alloc(client, 2, 9, &call) == CLIO_BAD_ARGUMENT);
    EXPECT(clio_alloc(client, 0, CLIO_READ_WRITE, &call) == CLIO_EMPTY);
    EXPECT(clio_alloc(client, 2, CLIO_WRITE_ONLY, &call) == CLIO_OK && call == 1);
    EXPECT(!clio_is_empty(client) && !clio_done(client, bytes, 0, &ended));
    clio_poll(client, now, frame, CLIO_FRAME_ROOM - 1, &told);
    EXPECT(told.what == CLIO_NO_ROOM);
    sends(ALLOC, 3);
    EXPECT(frame[CLIENT_AT + 1] == CLIENT && memcmp(frame + ID_AT, id, sizeof id) == 0);
    EXPECT(frame[BODY_AT + 1] == 2 && frame[BODY_AT + 2] == CLIO_WRITE_ONLY);
    EXPECT(clio_hear(client, frame, 3) == CLIO_BAD);
    EXPECT(hears(0, addr, sizeof addr) == CLIO_ENDED);
    ends(CLIO_DONE, 0x1000, 0);
    EXPECT(clio_hear(client, frame, BODY_AT + 1 + sizeof addr) == CLIO_LATE);
    frame[CLIENT_AT + 1]++;
    EXPECT(clio_hear(client, frame, BODY_AT + 1 + sizeof addr) == CLIO_OTHER);
}

static void read_and_write(void)
{
    EXPECT(clio_read(client, 0x1001, 65537, &call) == CLIO_TOO_LONG);
    EXPECT(clio_read(client, 1u << 28, 1, &call) == CLIO_BAD_ADDRESS);
    EXPECT(clio_read(client, 0x1001, 5, &call) == CLIO_OK && call == 2);
    sends(READ, 6);
    EXPECT(hears(0, "four", 4) == CLIO_UNFIT);
    frame[KIND_AT] -= REPLY;
    EXPECT(hears(0, "bytes", 5) == CLIO_ENDED);
    ends(CLIO_DONE, 5, 5);
    EXPECT(clio_write(client, 0x1001, bytes, 0, &call) == CLIO_EMPTY);
    EXPECT(clio_write(client, 0x1001, (const uint8_t *)"text", 4, &call) == CLIO_OK && call == 3);
    sends(WRITE, 8);
    EXPECT(memcmp(frame + BODY_AT + 4, "text", 4) == 0);
    EXPECT(hears(CLIO_NO_PERMISSION, "", 0) == CLIO_ENDED);
    ends(CLIO_REFUSED, CLIO_NO_PERMISSION, 0);
    EXPECT(clio_read(client, 0x1000, 2000, &call) == CLIO_OK && call == 4);
    sends(READ, 6);
    EXPECT(hears(CLIO_NO_MAPPING, "", 0) == CLIO_TOOK);
    sends(READ, 6);
    EXPECT(hears(CLIO_NO_PAGE, "", 0) == CLIO_ENDED);
    ends(CLIO_REFUSED, CLIO_NO_MAPPING, 0);
}

static void atomic_and_offload(void)
{
    static const uint8_t word[] = { 0, 0, 0, 0, 0, 0, 1, 2 };
    EXPECT(clio_atomic(client, 0x1004, CLIO_ADD, 1, 0, &call) == CLIO_MISALIGNED);
    EXPECT(clio_atomic(client, 0x1000, 5, 0, 0, &call) == CLIO_BAD_ARGUMENT);
    EXPECT(clio_atomic(client, 0x1000, CLIO_CAS, 8, 9, &call) == CLIO_OK && call == 5);
    sends(ATOMIC, 21);
    EXPECT(frame[BODY_AT + 4] == CLIO_CAS && frame[BODY_AT + 12] == 8 && frame[BODY_AT + 20] == 9);
    EXPECT(hears(0, word, sizeof word) == CLIO_ENDED);
    ends(CLIO_DONE, 0x102, 0);
    EXPECT(clio_offload(client, 1, 2, (const uint8_t *)"key", 3, 1025, &call) == CLIO_TOO_LONG);
    EXPECT(clio_offload(client, 1, 2, (const uint8_t *)"key", 3, 16, &call) == CLIO_OK && call == 6);
    sends(OFFLOAD, 7);
    EXPECT(frame[BODY_AT] == 1 && frame[BODY_AT + 1] == 2 && frame[BODY_AT + 3] == 16);
    EXPECT(hears(0, "value", 5) == CLIO_ENDED);
    EXPECT(clio_done(client, bytes, 3, &ended) && ended.len == 5 && memcmp(bytes, "val", 3) == 0);
}

static void free_and_fence(void)
{
    uint32_t fence;
    EXPECT(clio_free_pages(client, 0x1000, 2, &call) == CLIO_OK && call == 7);
    EXPECT(clio_fence(client, &fence) == CLIO_OK && fence == 8);
    sends(FREE, 6);
    clio_poll(client, now, frame, sizeof frame, &told);
    EXPECT(told.what == CLIO_IDLE && told.len == 0);
    EXPECT(hears(0, "", 0) == CLIO_ENDED);
    ends(CLIO_DONE, 0, 0);
    clio_poll(client, now, frame, sizeof frame, &told);
    EXPECT(told.what == CLIO_FENCE_ENDED);
    call = fence;
    ends(CLIO_DONE, 0, 0);
}

static void time_out(void)
{
    now = 50;
    EXPECT(clio_alloc(client, 1, CLIO_READ_ONLY, &call) == CLIO_OK);
    sends(ALLOC, 3);
    now = 450;
    clio_poll(client, now, frame, sizeof frame, &told);
    EXPECT(told.what == CLIO_GAVE_UP);
    ends(CLIO_TIMED_OUT, 50, 0);
}

static void fill(void)
{
    for (int held = 0; held < 256; held++) {
        EXPECT(!clio_is_full(client) && clio_fence(client, &call) == CLIO_OK);
    }
    EXPECT(clio_is_full(client) && clio_fence(client, &call) == CLIO_QUEUE_FULL);
}

int main(void)
{
    create();
    alloc();
    read_and_write();
    atomic_and_offload();
    free_and_fence();
    time_out();
    fill();
    clio_free(client);
    if (!faults) {
        printf("all exports agree\n");
    }
    return faults != 0;
}

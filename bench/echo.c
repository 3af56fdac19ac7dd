/* The least that a node of one thread can cost: each request is answered by a reply of the right form and length, and nothing is
   read, written or kept. Prints `port P`, and ends after 10 s without a datagram. */
#include "serve.h"

static size_t answer(const uint8_t *request, size_t len, uint8_t *reply)
{
    if (len < BODY_AT) return 0;
    size_t body = ok_body(request);
    if (body > 1 + PART_BYTES) return 0;
    memcpy(reply, request, LENGTH_AT);
    reply[KIND_AT] = (uint8_t)(request[KIND_AT] + REPLY_KIND);
    store16(reply + LENGTH_AT, (uint32_t)body);
    reply[BODY_AT] = OK;
    return BODY_AT + body;
}

int main(void)
{
    serve(answer);
}

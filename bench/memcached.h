/* The same work in the words of memcached over UDP: a page is a key. A datagram begins with eight bytes: the number of the request, the
   number of this datagram, how many there are, and zeros. */
#ifndef MEMCACHED_H
#define MEMCACHED_H
#include "frames.h"

enum { DATAGRAM_HEAD = 8, KEY_DIGITS = 7, COUNTER_DIGITS = 19 };
static const char first_count[] = "1000000000000000000"; /* so that an added counter keeps its length */

static inline size_t datagram_head(uint8_t *frame, uint64_t id)
{
    store16(frame, (uint32_t)id & 0xffff);
    memcpy(frame + 2, "\0\0\0\1\0\0", 6);
    return DATAGRAM_HEAD;
}
static inline size_t get_request(uint8_t *frame, uint64_t id, uint32_t key)
{
    size_t head = datagram_head(frame, id);
    return head + (size_t)sprintf((char *)frame + head, "get k%07u\r\n", key % 10000000);
}
static inline size_t set_request(uint8_t *frame, uint64_t id, uint32_t key, uint32_t bytes)
{
    size_t len = datagram_head(frame, id);
    len += (size_t)sprintf((char *)frame + len, "set k%07u 0 0 %u\r\n", key % 10000000, bytes);
    memset(frame + len, 'a' + (int)(id % 26), bytes);
    memcpy(frame + len + bytes, "\r\n", 2);
    return len + bytes + 2;
}
static inline size_t set_counter_request(uint8_t *frame, uint64_t id, uint32_t key)
{
    size_t head = datagram_head(frame, id);
    return head + (size_t)sprintf((char *)frame + head, "set k%07u 0 0 %d\r\n%s\r\n", key % 10000000, COUNTER_DIGITS, first_count);
}
static inline size_t incr_request(uint8_t *frame, uint64_t id, uint32_t key)
{
    size_t head = datagram_head(frame, id);
    return head + (size_t)sprintf((char *)frame + head, "incr k%07u 1\r\n", key % 10000000);
}
static inline bool begins(const uint8_t *reply, size_t len, const char *text)
{
    size_t text_len = strlen(text);
    return len >= DATAGRAM_HEAD + text_len && memcmp(reply + DATAGRAM_HEAD, text, text_len) == 0;
}
static inline bool is_value(const uint8_t *reply, size_t len, uint32_t bytes)
{
    char first_line[40];
    size_t line = (size_t)sprintf(first_line, " 0 %u\r\n", bytes) + strlen("VALUE k") + KEY_DIGITS;
    return begins(reply, len, "VALUE k") && len == DATAGRAM_HEAD + line + bytes + strlen("\r\nEND\r\n");
}
static inline bool is_stored(const uint8_t *reply, size_t len)
{
    return begins(reply, len, "STORED\r\n");
}
static inline bool is_count(const uint8_t *reply, size_t len)
{
    return begins(reply, len, "1") && len == DATAGRAM_HEAD + COUNTER_DIGITS + 2;
}
#endif

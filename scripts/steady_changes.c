/* Sends a node adds at a steady rate, over UDP on 127.0.0.1.

       steady_changes PORT RATE MILLISECONDS

   Each add has an id of its own, so the node has to execute and record it. An add that has no answer within 50 ms counts as lost: it
   isn't sent again. At most 256 wait for an answer at a time; what can't be sent in its millisecond is made up for later. It ends with
   a line: sent N answered N wrong N nanos N. */
#define _GNU_SOURCE
#include <arpa/inet.h>
#include <stdio.h>
#include <stdlib.h>
#include <sys/socket.h>
#include <time.h>
#include "../bench/frames.h"

enum { MOST_WAITING = 256, CLIENT = 65000, PROCESS = 65000, MILLION = 1000000, BILLION = 1000 * MILLION, PATIENCE = 50 * MILLION };

static uint64_t nanos_now(void)
{
    struct timespec now;
    clock_gettime(CLOCK_MONOTONIC, &now);
    return (uint64_t)now.tv_sec * BILLION + (uint64_t)now.tv_nsec;
}
static uint32_t allocate(int udp)
{
    uint8_t frame[FRAME_ROOM], reply[FRAME_ROOM];
    size_t len = alloc_request(frame, (struct name){ CLIENT, PROCESS, 1 }, 1);
    if (send(udp, frame, len, 0) < 0) exit(1);
    ssize_t came = recv(udp, reply, sizeof reply, 0);
    if (came < 0 || !is_done(reply, (size_t)came, frame)) exit(1);
    return fetch32(reply + BODY_AT + 1);
}

int main(int count, char **words)
{
    if (count != 4) return 2;
    uint64_t rate = strtoull(words[2], NULL, 10), length = strtoull(words[3], NULL, 10) * MILLION;
    struct sockaddr_in node = { .sin_family = AF_INET, .sin_port = htons((uint16_t)atoi(words[1])) };
    node.sin_addr.s_addr = htonl(INADDR_LOOPBACK);
    int udp = socket(AF_INET, SOCK_DGRAM, 0);
    struct timeval patience = { .tv_sec = 2 };
    if (connect(udp, (void *)&node, sizeof node) || setsockopt(udp, SOL_SOCKET, SO_RCVTIMEO, &patience, sizeof patience)) return 1;
    uint32_t address = allocate(udp);

    static uint64_t sent_at[MOST_WAITING]; /* by id; 0 where none waits */
    uint8_t frame[FRAME_ROOM], reply[FRAME_ROOM];
    uint64_t start = nanos_now(), now = start, sent = 0, answered = 0, wrong = 0;
    while ((now = nanos_now()) - start < length) {
        uint64_t due = (now - start) * (rate / 1000) / MILLION;
        while (sent < due && now - sent_at[(sent + 2) % MOST_WAITING] > PATIENCE) {
            size_t len = add_request(frame, (struct name){ CLIENT, PROCESS, sent + 2 }, address, 1);
            if (send(udp, frame, len, 0) < 0) return 1;
            sent_at[(sent + 2) % MOST_WAITING] = now;
            sent++;
        }
        for (ssize_t came; (came = recv(udp, reply, sizeof reply, MSG_DONTWAIT)) >= 0;) {
            bool is_right = came == BODY_AT + 9 && reply[KIND_AT] == ATOMIC + REPLY_KIND && reply[BODY_AT] == OK;
            *(is_right ? &answered : &wrong) += 1;
            if (is_right) sent_at[fetch64(reply + FIRST_ID_AT) % MOST_WAITING] = 0;
        }
    }
    printf("sent %lu answered %lu wrong %lu nanos %lu\n", sent, answered, wrong, now - start);
    return 0;
}

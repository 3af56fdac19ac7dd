/* A server of one thread on 127.0.0.1: one receive, one answer, one send, as the node does it. */
#ifndef SERVE_H
#define SERVE_H
#include <arpa/inet.h>
#include <netinet/in.h>
#include <sys/socket.h>
#include <sys/time.h>
#include "basics.h"
#include "frames.h"

/* Writes the reply to a request, and returns its length; 0 if there is none. */
typedef size_t answer_function(const uint8_t *request, size_t len, uint8_t *reply);

enum { IDLE_TURNS = 1000 }; /* of 10 ms each: then it ends */

/* A socket at any free port, whose receive waits 10 ms. Prints `port P`. */
static inline int open_port(void)
{
    struct sockaddr_in at = { .sin_family = AF_INET, .sin_addr.s_addr = htonl(INADDR_LOOPBACK) };
    struct timeval tick = { .tv_usec = 10000 };
    socklen_t len = sizeof at;
    int handle = socket(AF_INET, SOCK_DGRAM, 0);
    if (handle < 0 || bind(handle, (struct sockaddr *)&at, len)) give_up("bind");
    setsockopt(handle, SOL_SOCKET, SO_RCVTIMEO, &tick, sizeof tick);
    getsockname(handle, (struct sockaddr *)&at, &len);
    printf("port %d\n", ntohs(at.sin_port));
    fflush(stdout);
    return handle;
}
/* Serves until no datagram came for `IDLE_TURNS`. */
static inline void serve(answer_function *answer)
{
    static uint8_t request[FRAME_ROOM], reply[FRAME_ROOM];
    int handle = open_port();
    for (int idle = 0; idle < IDLE_TURNS; idle++) {
        struct sockaddr_in from;
        socklen_t from_len = sizeof from;
        ssize_t len = recvfrom(handle, request, sizeof request, 0, (struct sockaddr *)&from, &from_len);
        if (len < 0) continue;
        idle = 0;
        size_t reply_len = answer(request, (size_t)len, reply);
        if (reply_len) sendto(handle, reply, reply_len, 0, (struct sockaddr *)&from, from_len);
    }
}
#endif

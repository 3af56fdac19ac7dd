/* A bare UDP round trip on this machine, as a client's read of 64 bytes makes it: 32 bytes to a server that does nothing else,
   91 bytes back. The server is a process of its own, and both wait in one receive of at most 10 ms.

     round_trip [COUNT [CPU]]     prints the microseconds of a round trip, the best of ten turns

   CPU is the processor of the server; taskset gives the client its own. */
#define _GNU_SOURCE
#include <arpa/inet.h>
#include <sched.h>
#include <signal.h>
#include <stdio.h>
#include <stdlib.h>
#include <string.h>
#include <sys/socket.h>
#include <sys/time.h>
#include <time.h>
#include <unistd.h>

enum { REQUEST_BYTES = 32, REPLY_BYTES = 91, ROOM = 1200, TURNS = 10 };

static int local_socket(struct sockaddr_in *address)
{
    socklen_t len = sizeof *address;
    struct timeval tick = { 0, 10000 };
    int opened = socket(AF_INET, SOCK_DGRAM, 0);
    *address = (struct sockaddr_in){ .sin_family = AF_INET, .sin_addr.s_addr = htonl(INADDR_LOOPBACK) };
    if (opened < 0 || bind(opened, (void *)address, len) || getsockname(opened, (void *)address, &len)
        || setsockopt(opened, SOL_SOCKET, SO_RCVTIMEO, &tick, sizeof tick)) {
        perror("round_trip");
        exit(1);
    }
    return opened;
}

static void serve(int opened)
{
    char bytes[ROOM] = { 0 };
    for (;;) {
        struct sockaddr_in from;
        socklen_t len = sizeof from;
        if (recvfrom(opened, bytes, sizeof bytes, 0, (void *)&from, &len) > 0)
            sendto(opened, bytes, REPLY_BYTES, 0, (void *)&from, len);
    }
}

static void stay_on(int processor)
{
    cpu_set_t set;
    CPU_ZERO(&set);
    CPU_SET((size_t)processor, &set);
    if (sched_setaffinity(0, sizeof set, &set)) perror("round_trip");
}

static double seconds(void)
{
    struct timespec now;
    clock_gettime(CLOCK_MONOTONIC, &now);
    return (double)now.tv_sec + (double)now.tv_nsec / 1e9;
}

/* The seconds of so many round trips. */
static double trips(int opened, long count)
{
    char bytes[ROOM] = { 0 };
    double start = seconds();
    for (long done = 0; done < count; done++) {
        if (send(opened, bytes, REQUEST_BYTES, 0) != REQUEST_BYTES) exit(1);
        while (recv(opened, bytes, sizeof bytes, 0) < 0) ;
    }
    return seconds() - start;
}

int main(int argc, char **argv)
{
    long count = (argc > 1 ? atol(argv[1]) : 64000) / TURNS;
    struct sockaddr_in server_at, client_at;
    int server = local_socket(&server_at), client = local_socket(&client_at);
    pid_t child = fork();
    if (child == 0) {
        if (argc > 2) stay_on(atoi(argv[2]));
        serve(server);
    }
    if (child < 0 || connect(client, (void *)&server_at, sizeof server_at)) return 1;
    double best = 1e9;
    for (int turn = 0; turn < TURNS; turn++) {
        double took = trips(client, count);
        if (took < best) best = took;
    }
    kill(child, SIGKILL);
    printf("a bare round trip: %.2f us\n", best * 1e6 / (double)count);
}

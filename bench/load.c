/* A closed loop of requests to one server or several, over UDP on 127.0.0.1.

       load WORK WINDOW PAGES TURNS COUNT WAIT SERVER ..

   WORK is read, write or add, and BYTES behind it, as read64; an add changes a word of 8 bytes. WINDOW requests, 1 to 64, are
   outstanding. First each server is given PAGES pages, each written once. Then come TURNS turns: in each every server gets COUNT requests,
   one server after the other, in an order that changes with the turn. WAIT is spin or sleep: what the load does while it waits for replies.
   A SERVER is NAME:PORT:PROCESS, and memcached if its NAME begins so. For each turn and server a line is printed:

       NAME TURN requests NANOS server NANOS waited NANOS p50 NANOS p99 NANOS

   how many were answered, in which time, the server's time on a processor, its time ready without one, and the times to a reply.
   A wrong or missing reply ends the load with status 1. */
#define _GNU_SOURCE
#include <arpa/inet.h>
#include <dirent.h>
#include <netinet/in.h>
#include <sys/socket.h>
#include <sys/time.h>
#include "basics.h"
#include "frames.h"
#include "memcached.h"

enum {
    MOST_IN_FLIGHT = 64, MOST_SERVERS = 8, DATAGRAM_ROOM = 2048, SET_UP_WINDOW = 16, RANGE = 64, FILL_BYTES = 64,
    SETTLE_NANOS = 200000, PATIENCE_SECONDS = 10
};
enum act { CLAIM, FILL, DO_READ, DO_WRITE, DO_ADD };

/* One request: its act, the page, and the place within it. */
struct job { enum act act; uint32_t page, offset, bytes; };

struct flight {
    uint64_t sent_at; /* 0 if none */
    struct job job;
    size_t len;
    uint8_t frame[DATAGRAM_ROOM];
};
struct server {
    char name[32];
    int port, process, handle;
    bool is_memcached;
    uint64_t next_id, random;
    uint32_t *addresses; /* of the pages */
    struct flight flights[MOST_IN_FLIGHT];
    uint64_t ids[MOST_IN_FLIGHT]; /* of the flights; 0 if none */
};
static struct { enum act act; uint32_t bytes, pages; size_t window, turns, count; bool sleeps; } plan;
static uint64_t *latencies;
static size_t answered;

/* ---- what a request is, by protocol ---- */

static size_t write_frame(uint8_t *frame, const struct server *server, uint64_t id, const struct job *job)
{
    struct name name = { .client = 1, .process = 1, .id = id };
    uint32_t address = server->addresses[job->page] + job->offset;
    switch (job->act) {
    case CLAIM: return alloc_request(frame, name, job->bytes);
    case DO_READ: return read_request(frame, name, address, job->bytes);
    case DO_ADD: return add_request(frame, name, address, id);
    default: return write_request(frame, name, address, job->bytes);
    }
}
static size_t write_memcached(uint8_t *frame, uint64_t id, const struct job *job)
{
    switch (job->act) {
    case DO_READ: return get_request(frame, id, job->page);
    case DO_ADD: return incr_request(frame, id, job->page);
    case FILL: return plan.act == DO_ADD ? set_counter_request(frame, id, job->page) : set_request(frame, id, job->page, plan.bytes);
    default: return set_request(frame, id, job->page, job->bytes);
    }
}
static bool is_good(const struct server *server, const struct flight *flight, const uint8_t *reply, size_t len)
{
    if (!server->is_memcached) return is_done(reply, len, flight->frame);
    switch (flight->job.act) {
    case DO_READ: return is_value(reply, len, flight->job.bytes);
    case DO_ADD: return is_count(reply, len);
    default: return is_stored(reply, len);
    }
}
static uint64_t id_of(const struct server *server, const uint8_t *reply, size_t len)
{
    if (server->is_memcached) return len < DATAGRAM_HEAD ? 0 : fetch16(reply);
    return len < BODY_AT ? 0 : fetch64(reply + FIRST_ID_AT);
}

/* ---- the jobs ---- */

static struct job claim(struct server *server, size_t nth)
{
    (void)server;
    uint32_t page = (uint32_t)nth * RANGE, left = plan.pages - page;
    return (struct job){ CLAIM, page, 0, left < RANGE ? left : RANGE };
}
static struct job fill(struct server *server, size_t nth)
{
    (void)server;
    return (struct job){ FILL, (uint32_t)nth, 0, FILL_BYTES };
}
static struct job work(struct server *server, size_t nth)
{
    (void)nth;
    uint32_t page = random_below(&server->random, plan.pages);
    uint32_t offset = random_below(&server->random, PAGE_BYTES / plan.bytes) * plan.bytes;
    return (struct job){ plan.act, page, offset, plan.bytes };
}

/* ---- the closed loop ---- */

static uint64_t fresh_id(struct server *server)
{
    uint64_t id = server->next_id++;
    return server->is_memcached ? id % 65535 + 1 : id;
}
static void launch(struct server *server, size_t at, struct job job, uint64_t now)
{
    struct flight *flight = &server->flights[at];
    uint64_t id = server->ids[at] = fresh_id(server);
    flight->job = job;
    flight->sent_at = now;
    flight->len = server->is_memcached ? write_memcached(flight->frame, id, &job) : write_frame(flight->frame, server, id, &job);
}
static void send_all(const struct server *server, struct mmsghdr *messages, size_t count)
{
    for (size_t sent = 0; sent < count;) {
        int more = sendmmsg(server->handle, messages + sent, (unsigned)(count - sent), 0);
        if (more <= 0) give_up("send");
        sent += (size_t)more;
    }
}
/* Sends jobs until the window is full or there are none, and returns how many. */
static size_t send_jobs(struct server *server, struct job (*next)(struct server *, size_t), size_t from, size_t to, size_t window)
{
    struct mmsghdr messages[MOST_IN_FLIGHT] = { 0 };
    struct iovec parts[MOST_IN_FLIGHT];
    uint64_t now = nanos_now();
    size_t count = 0;
    for (size_t at = 0; at < window && from + count < to; at++) {
        if (server->ids[at]) continue;
        launch(server, at, next(server, from + count), now);
        parts[count] = (struct iovec){ server->flights[at].frame, server->flights[at].len };
        messages[count].msg_hdr.msg_iov = &parts[count];
        messages[count++].msg_hdr.msg_iovlen = 1;
    }
    send_all(server, messages, count);
    return count;
}
static struct flight *flight_of(struct server *server, uint64_t id)
{
    for (size_t at = 0; at < MOST_IN_FLIGHT; at++) {
        if (server->ids[at] != id || !id) continue;
        server->ids[at] = 0;
        return &server->flights[at];
    }
    return NULL;
}
static void note_range(struct server *server, const struct job *job, const uint8_t *reply)
{
    for (uint32_t nth = 0; nth < job->bytes; nth++)
        server->addresses[job->page + nth] = fetch32(reply + BODY_AT + 1) + nth * PAGE_BYTES;
}
static void hear(struct server *server, const uint8_t *reply, size_t len, uint64_t now)
{
    const struct flight *flight = flight_of(server, id_of(server, reply, len));
    if (!flight) return;
    errno = 0;
    if (!is_good(server, flight, reply, len)) {
        fprintf(stderr, "%s: act %d\n", server->name, flight->job.act);
        give_up("a wrong reply");
    }
    if (flight->job.act == CLAIM) note_range(server, &flight->job, reply);
    latencies[answered++] = now - flight->sent_at;
}
/* Hears the replies that have come. */
static void hear_all(struct server *server)
{
    static uint8_t replies[MOST_IN_FLIGHT][DATAGRAM_ROOM];
    struct mmsghdr messages[MOST_IN_FLIGHT] = { 0 };
    struct iovec parts[MOST_IN_FLIGHT];
    for (size_t at = 0; at < MOST_IN_FLIGHT; at++) {
        parts[at] = (struct iovec){ replies[at], DATAGRAM_ROOM };
        messages[at].msg_hdr.msg_iov = &parts[at];
        messages[at].msg_hdr.msg_iovlen = 1;
    }
    int came = recvmmsg(server->handle, messages, MOST_IN_FLIGHT, plan.sleeps ? MSG_WAITFORONE : MSG_DONTWAIT, NULL);
    uint64_t now = nanos_now();
    for (int at = 0; at < came; at++) hear(server, replies[at], messages[at].msg_len, now);
}
/* Makes the jobs `from` to `to`, up to the last reply. */
static void run(struct server *server, struct job (*next)(struct server *, size_t), size_t from, size_t to, size_t window)
{
    size_t sent = from, last = 0;
    uint64_t last_at = nanos_now();
    answered = 0;
    while (answered < to - from) {
        sent += send_jobs(server, next, sent, to, window);
        hear_all(server);
        if (answered != last) {
            last = answered;
            last_at = nanos_now();
        } else if (nanos_now() - last_at > (uint64_t)PATIENCE_SECONDS * NANOS_PER_SECOND) {
            fprintf(stderr, "%s: %zu of %zu answered\n", server->name, answered, to - from);
            errno = 0;
            give_up("no reply");
        }
    }
}

/* ---- what the scheduler says of a server ---- */

struct usage { uint64_t ran, waited; };

static void add_thread(struct usage *sum, int process, const char *thread)
{
    char path[80];
    uint64_t ran, waited;
    snprintf(path, sizeof path, "/proc/%d/task/%.20s/schedstat", process, thread);
    FILE *file = fopen(path, "r");
    if (!file) return;
    if (fscanf(file, "%lu %lu", &ran, &waited) == 2) {
        sum->ran += ran;
        sum->waited += waited;
    }
    fclose(file);
}
/* The nanoseconds that all threads of the server ran and waited for a processor. The system counts them when a thread leaves its
   processor, so this first lets the server fall asleep. */
static struct usage usage_of(const struct server *server)
{
    char path[40];
    struct usage sum = { 0 };
    nanosleep(&(struct timespec){ .tv_nsec = SETTLE_NANOS }, NULL);
    snprintf(path, sizeof path, "/proc/%d/task", server->process);
    DIR *threads = opendir(path);
    if (!threads) give_up(server->name);
    for (const struct dirent *entry; (entry = readdir(threads));)
        if (entry->d_name[0] != '.') add_thread(&sum, server->process, entry->d_name);
    closedir(threads);
    if (!sum.ran) give_up("the system does not say how long a process ran (/proc/PROCESS/schedstat)");
    return sum;
}

/* ---- the whole ---- */

static void take_turn(struct server *server, size_t turn)
{
    struct usage before = usage_of(server);
    uint64_t start = nanos_now();
    run(server, work, 0, plan.count, plan.window);
    uint64_t took = nanos_now() - start;
    struct usage after = usage_of(server);
    sort_figures(latencies, answered);
    printf("%s %zu %zu %lu server %lu waited %lu p50 %lu p99 %lu\n", server->name, turn, answered, took, after.ran - before.ran,
           after.waited - before.waited, figure_at(latencies, answered, 500), figure_at(latencies, answered, 990));
}
static void take_turns(struct server *servers, size_t count)
{
    for (size_t turn = 0; turn < plan.turns; turn++)
        for (size_t nth = 0; nth < count; nth++) {
            size_t at = (nth + turn) % count;
            take_turn(&servers[turn / count % 2 ? count - 1 - at : at], turn);
        }
}
static void set_up(struct server *server)
{
    struct sockaddr_in at = { .sin_family = AF_INET, .sin_port = htons((uint16_t)server->port), .sin_addr.s_addr = htonl(INADDR_LOOPBACK) };
    struct timeval tick = { .tv_usec = 10000 };
    server->handle = socket(AF_INET, SOCK_DGRAM, 0);
    if (server->handle < 0 || connect(server->handle, (struct sockaddr *)&at, sizeof at)) give_up("connect");
    setsockopt(server->handle, SOL_SOCKET, SO_RCVTIMEO, &tick, sizeof tick);
    server->addresses = zeroed(plan.pages + RANGE, sizeof *server->addresses);
    server->next_id = 1;
    server->random = nanos_now();
    if (!server->is_memcached) run(server, claim, 0, (plan.pages + RANGE - 1) / RANGE, 1);
    run(server, fill, 0, plan.pages, SET_UP_WINDOW);
}
static void read_work(const char *word)
{
    unsigned bytes = 0;
    if (sscanf(word, "read%u", &bytes) == 1) plan.act = DO_READ;
    else if (sscanf(word, "write%u", &bytes) == 1) plan.act = DO_WRITE;
    else if (strcmp(word, "add") == 0) plan.act = DO_ADD, bytes = 8;
    if (bytes < 1 || bytes > PART_BYTES || PAGE_BYTES % bytes) give_up("WORK is read or write with a divisor of 4096 up to 1024, or add");
    plan.bytes = bytes;
}
static void read_server(struct server *server, const char *word)
{
    if (sscanf(word, "%31[^:]:%d:%d", server->name, &server->port, &server->process) != 3) give_up("a SERVER is NAME:PORT:PROCESS");
    server->is_memcached = strncmp(server->name, "memcached", 9) == 0;
}
int main(int count, char **words)
{
    static struct server servers[MOST_SERVERS];
    int servers_at = 7, given = count - servers_at;
    if (given < 1 || given > MOST_SERVERS) give_up("load WORK WINDOW PAGES TURNS COUNT WAIT SERVER ..");
    read_work(words[1]);
    plan.window = strtoul(words[2], NULL, 10);
    plan.pages = (uint32_t)strtoul(words[3], NULL, 10);
    plan.turns = strtoul(words[4], NULL, 10);
    plan.count = strtoul(words[5], NULL, 10);
    plan.sleeps = strcmp(words[6], "sleep") == 0;
    if (plan.window < 1 || plan.window > MOST_IN_FLIGHT || plan.pages < 1) give_up("WINDOW is 1 to 64, PAGES at least 1");
    latencies = zeroed(plan.pages + plan.count + RANGE, sizeof *latencies);
    for (int nth = 0; nth < given; nth++) {
        read_server(&servers[nth], words[servers_at + nth]);
        set_up(&servers[nth]);
    }
    take_turns(servers, (size_t)given);
}

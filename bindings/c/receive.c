/* receive.c - receives streams from sockets, mixes them, and sends the mix: an example of libdarbexum.
 *
 *     cc -O2 receive.c $(pkg-config --cflags --libs darbexum) -o receive
 *     ./receive studio.toml 0.0=239.69.1.1:5004@192.168.1.2 0.1=239.69.2.1:5004@192.168.2.2 to=239.69.9.1:5004
 *
 * STREAM.PATH=ADDRESS:PORT[@INTERFACE] receives there; a group (224.0.0.0/4) is joined at the interface with this
 * address. to=ADDRESS:PORT sends the mix there, and may be given several times. The clock is CLOCK_MONOTONIC, from the
 * configuration's opening time on, so the streams need clock = "arrival" or "follow". SIGINT and SIGTERM end the run,
 * which then prints its counts. */
#define _GNU_SOURCE
#include <arpa/inet.h>
#include <darbexum.h>
#include <inttypes.h>
#include <signal.h>
#include <stdio.h>
#include <stdlib.h>
#include <string.h>
#include <sys/socket.h>
#include <time.h>

enum { RATE = 48000, MAX_INPUTS = 64, MAX_OUTPUTS = 4, BATCH = 64, MAX_CONFIG = 1 << 20 };
static const int64_t SECOND = 1000000000;

struct input { int fd; size_t stream; uint8_t path; };
static struct input inputs[MAX_INPUTS];
static struct sockaddr_in outputs[MAX_OUTPUTS];
static int input_count, output_count, sender;
static volatile sig_atomic_t ended;

static void end(int number) { (void)number, ended = 1; }

static int fail(const char *what, const char *why) {
    fprintf(stderr, "receive: %s: %s\n", what, why);
    return 1;
}

static int fail_code(const char *what, int32_t code) {
    uint8_t text[128];
    darbexum_fault_text(code, text, sizeof text);
    return fail(what, (const char *)text);
}

/* Nanoseconds of the monotonic clock. */
static int64_t clock_ns(void) {
    struct timespec t;
    clock_gettime(CLOCK_MONOTONIC, &t);
    return t.tv_sec * SECOND + t.tv_nsec;
}

static int64_t to_ns(int64_t instants) { return instants / RATE * SECOND + instants % RATE * SECOND / RATE; }
static int64_t to_instants(int64_t ns) { return ns / SECOND * RATE + ns % SECOND * RATE / SECOND; }

/* Reads ADDRESS:PORT. */
static int read_address(char *text, struct sockaddr_in *address) {
    char *port = strchr(text, ':');
    if (!port) return 0;
    *port++ = 0;
    *address = (struct sockaddr_in){.sin_family = AF_INET, .sin_port = htons((uint16_t)atoi(port))};
    return inet_pton(AF_INET, text, &address->sin_addr) == 1;
}

/* Opens the socket of STREAM.PATH=ADDRESS:PORT[@INTERFACE]. */
static int open_input(char *word) {
    char *address = strchr(word, '='), *interface = strchr(word, '@');
    unsigned stream, path;
    struct sockaddr_in at;
    if (!address || sscanf(word, "%u.%u=", &stream, &path) != 2 || path > 3 || input_count == MAX_INPUTS) return 0;
    if (interface) *interface++ = 0;
    if (!read_address(address + 1, &at)) return 0;
    int fd = socket(AF_INET, SOCK_DGRAM | SOCK_NONBLOCK, 0), room = 8 << 20, on = 1;
    setsockopt(fd, SOL_SOCKET, SO_RCVBUF, &room, sizeof room);
    struct ip_mreqn group = {.imr_multiaddr = at.sin_addr};
    if (interface && inet_pton(AF_INET, interface, &group.imr_address) != 1) return 0;
    if (IN_MULTICAST(ntohl(at.sin_addr.s_addr))) {
        setsockopt(fd, SOL_SOCKET, SO_REUSEADDR, &on, sizeof on);
        if (setsockopt(fd, IPPROTO_IP, IP_ADD_MEMBERSHIP, &group, sizeof group)) return 0;
    }
    inputs[input_count++] = (struct input){fd, stream, (uint8_t)path};
    return bind(fd, (struct sockaddr *)&at, sizeof at) == 0;
}

/* Passes all datagrams that wait at a socket to the engine. */
static void take(darbexum *engine, const struct input *in) {
    static uint8_t octets[BATCH][2048];
    struct mmsghdr heads[BATCH];
    struct iovec rooms[BATCH];
    int count = BATCH;
    while (count == BATCH) {
        for (int i = 0; i < BATCH; i++) {
            rooms[i] = (struct iovec){octets[i], sizeof octets[i]};
            heads[i] = (struct mmsghdr){.msg_hdr = {.msg_iov = &rooms[i], .msg_iovlen = 1}};
        }
        count = recvmmsg(in->fd, heads, BATCH, MSG_DONTWAIT, NULL);
        for (int i = 0; i < count; i++)
            darbexum_arrive(engine, in->stream, in->path, octets[i], heads[i].msg_len);
    }
}

static void send_mix(const uint8_t *octets, ptrdiff_t len) {
    for (int i = 0; i < output_count; i++)
        sendto(sender, octets, (size_t)len, 0, (struct sockaddr *)&outputs[i], sizeof outputs[i]);
}

static void print_counts(darbexum *engine) {
    for (size_t stream = 0; stream < darbexum_streams(engine); stream++) {
        darbexum_counts_t c = {.size = sizeof c};
        darbexum_counts(engine, stream, &c);
        printf("stream %zu: %" PRIu64 " arrived, %" PRIu64 " taken, %" PRIu64 " duplicates, %" PRIu64 " late, %" PRIu64 " got, %" PRIu64 " lost\n",
               stream, c.arrived, c.taken, c.double_ + c.unlike, c.late, c.got, c.lost);
    }
}

int main(int count, char **words) {
    static uint8_t config[MAX_CONFIG + 1], text[256], out[DARBEXUM_MAX_OCTETS];
    FILE *file = count > 1 ? fopen(words[1], "rb") : NULL;
    if (!file) return fail("usage", "receive CONFIG STREAM.PATH=ADDRESS:PORT[@INTERFACE] .. [to=ADDRESS:PORT] ..");
    size_t len = fread(config, 1, sizeof config, file);
    fclose(file);
    darbexum engine = DARBEXUM_EMPTY;
    if (darbexum_open(&engine, config, len, text, sizeof text)) return fail(words[1], (char *)text);
    sender = socket(AF_INET, SOCK_DGRAM, 0);
    for (int i = 2; i < count; i++) {
        int is_output = !strncmp(words[i], "to=", 3) && output_count < MAX_OUTPUTS;
        if (!(is_output ? read_address(words[i] + 3, &outputs[output_count++]) : open_input(words[i])))
            return fail(words[i], "no socket there");
    }
    /* Datagrams may wait for a tenth of the shortest latency: more come by one call. */
    int64_t rest = RATE;
    for (size_t stream = 0; stream < darbexum_streams(&engine); stream++) {
        darbexum_stream_t s = {.size = sizeof s};
        darbexum_stream(&engine, stream, &s);
        if (s.latency / 10 < rest) rest = s.latency / 10;
    }
    struct sigaction action = {.sa_handler = end};
    sigaction(SIGINT, &action, NULL), sigaction(SIGTERM, &action, NULL);
    int64_t open_at, began = clock_ns(), deadline;
    ptrdiff_t n = 0;
    darbexum_time(&engine, &open_at);
    while (!ended) {
        int64_t now = open_at + to_instants(clock_ns() - began), until = now + rest;
        for (int i = 0; i < input_count; i++) take(&engine, &inputs[i]);
        while ((n = darbexum_turn(&engine, now, out, sizeof out)) > 0) send_mix(out, n);
        if (n < 0) return fail_code("turn", (int32_t)n);
        if (darbexum_next_deadline(&engine, &deadline) == 0 && deadline < until) until = deadline;
        int64_t at = began + to_ns(until - open_at) + 1;
        clock_nanosleep(CLOCK_MONOTONIC, TIMER_ABSTIME, &(struct timespec){at / SECOND, at % SECOND}, NULL);
    }
    darbexum_close(&engine);
    while ((n = darbexum_drain(&engine, out, sizeof out)) > 0) send_mix(out, n);
    print_counts(&engine);
    darbexum_free(&engine);
    return 0;
}

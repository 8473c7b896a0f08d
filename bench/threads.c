// What the threads, waits, receives and sends of a live run by workers cost by themselves: a thread for each path, which
// receives into a ring; one for each stream, which takes the datagrams out of its paths' rings; and one that sends a
// datagram to each port of the mix each millisecond. Nothing is merged or mixed.
//
// While datagrams come, a path's thread receives until its socket is empty, and rests for PATH_REST microseconds. After
// 20 ms without one it waits for the next, 100 ms at most. A stream's thread rests for STREAM_REST, and after 20 ms
// without a datagram for 5 ms. The one that sends rests for MIX_REST. With the word `block` as PATH_REST each receive
// waits.
//
// Words: SIZE PATH_REST STREAM_REST MIX_REST PATHS MIX_A MIX_B PORT.., on 127.0.0.1, PATHS ports a stream. It ends by
// SIGTERM, and then prints how many datagrams it received, how many of them the streams' threads took, and how many found
// their ring full.
#include <arpa/inet.h>
#include <poll.h>
#include <pthread.h>
#include <signal.h>
#include <stdatomic.h>
#include <stdint.h>
#include <stdio.h>
#include <stdlib.h>
#include <string.h>
#include <sys/socket.h>
#include <time.h>

enum { MOST_SOCKETS = 64, MOST_OCTETS = 1452, RECEIVED = 2048, ROOM = 8 << 20, PLACES = 256, FIXED = 8, LONGEST_WAIT = 100 };
static const uint64_t MICROSECOND = 1000, MILLISECOND = 1000000, QUIET = 20000000, LONGEST_PAUSE = 5000000;

// The packets between a path's thread and its stream's.
struct ring {
  _Alignas(64) atomic_uint pushed;
  _Alignas(64) atomic_uint popped;
  uint16_t sizes[PLACES];
  uint8_t packets[PLACES][MOST_OCTETS];
};

static struct ring *rings;
static struct sockaddr_in mix_to[2];
static int paths, ports[MOST_SOCKETS], mix_size, blocks;
static uint64_t path_rest, stream_rest, mix_rest;
static _Atomic uint64_t received, taken, full;
static atomic_int is_over;

static uint64_t now(void) {
  struct timespec t;
  clock_gettime(CLOCK_MONOTONIC, &t);
  return t.tv_sec * 1000 * MILLISECOND + t.tv_nsec;
}

static void rest(uint64_t nanoseconds) { nanosleep(&(struct timespec){nanoseconds / 1000000000, nanoseconds % 1000000000}, NULL); }

// Rests until the clock reaches a multiple of the rest, so that threads wake together.
static void rest_until_next(uint64_t length) { rest(length - now() % length); }

static struct sockaddr_in at(int port) {
  return (struct sockaddr_in){.sin_family = AF_INET, .sin_port = htons(port), .sin_addr = {htonl(INADDR_LOOPBACK)}};
}

static int receiver(int port) {
  struct sockaddr_in own = at(port);
  struct timeval most = {0, LONGEST_WAIT * 1000};
  int room = ROOM, s = socket(AF_INET, SOCK_DGRAM | (blocks ? 0 : SOCK_NONBLOCK), 0);
  setsockopt(s, SOL_SOCKET, SO_RCVBUF, &room, sizeof room);
  setsockopt(s, SOL_SOCKET, SO_RCVTIMEO, &most, sizeof most);
  if (bind(s, (void *)&own, sizeof own) != 0) exit(1);
  return s;
}

// Receives a datagram, and pushes its payload if there is a place.
static int take_one(int s, struct ring *ring) {
  uint8_t octets[RECEIVED];
  ssize_t size = recv(s, octets, sizeof octets, 0);
  if (size < 0) return 0;
  received++;
  unsigned pushed = atomic_load_explicit(&ring->pushed, memory_order_relaxed);
  if (size > MOST_OCTETS || pushed - atomic_load_explicit(&ring->popped, memory_order_acquire) == PLACES) {
    full++;
    return 1;
  }
  memcpy(ring->packets[pushed % PLACES], octets, size);
  ring->sizes[pushed % PLACES] = size;
  atomic_store_explicit(&ring->pushed, pushed + 1, memory_order_release);
  return 1;
}

static void *path(void *word) {
  int number = (int)(intptr_t)word, s = receiver(ports[number]);
  struct pollfd polled = {s, POLLIN, 0};
  for (uint64_t last = 0; !is_over;) {
    int has_come = 0;
    while (take_one(s, &rings[number])) has_come = 1;
    if (blocks) continue;
    uint64_t at = now();
    if (has_come) last = at;
    if (at - last < QUIET) rest_until_next(path_rest);
    else if (poll(&polled, 1, LONGEST_WAIT) != 0) last = now();
  }
  return NULL;
}

// Takes what lies in a ring, and adds an octet of each packet to a sum.
static unsigned drain(struct ring *ring, uint64_t *sum) {
  unsigned first = atomic_load_explicit(&ring->popped, memory_order_relaxed), next = first;
  unsigned end = atomic_load_explicit(&ring->pushed, memory_order_acquire);
  for (; next != end; next++) *sum += ring->packets[next % PLACES][ring->sizes[next % PLACES] - 1];
  atomic_store_explicit(&ring->popped, next, memory_order_release);
  return next - first;
}

static void *stream(void *word) {
  struct ring *own = &rings[(intptr_t)word * paths];
  uint64_t sum = 0, last = 0;
  while (!is_over) {
    unsigned count = 0;
    for (int i = 0; i < paths; i++) count += drain(&own[i], &sum);
    uint64_t at = now();
    if (count > 0) last = at;
    taken += count;
    rest_until_next(at - last < QUIET ? stream_rest : LONGEST_PAUSE);
  }
  return (void *)(intptr_t)(sum & 1);
}

static void *mixer(void *none) {
  static char datagram[MOST_OCTETS];
  int s = socket(AF_INET, SOCK_DGRAM, 0);
  for (uint64_t sent = now() / MILLISECOND; !is_over; rest(mix_rest))
    for (uint64_t due = now() / MILLISECOND; sent < due; sent++)
      for (int i = 0; i < 2; i++) sendto(s, datagram, mix_size, 0, (void *)&mix_to[i], sizeof mix_to[i]);
  return none;
}

static void start(void *(*run)(void *), int count) {
  for (int i = 0; i < count; i++) {
    pthread_t thread;
    if (pthread_create(&thread, NULL, run, (void *)(intptr_t)i) != 0) exit(1);
  }
}

int main(int count, char **words) {
  int sockets = count - FIXED, number;
  sigset_t ends;
  if (sockets < 1 || sockets > MOST_SOCKETS || (mix_size = atoi(words[1])) > MOST_OCTETS) return 2;
  blocks = strcmp(words[2], "block") == 0, path_rest = atol(words[2]) * MICROSECOND;
  stream_rest = atol(words[3]) * MICROSECOND, mix_rest = atol(words[4]) * MICROSECOND, paths = atoi(words[5]);
  if (paths < 1 || sockets % paths || !stream_rest || !(blocks || path_rest)) return 2;
  for (int i = 0; i < 2; i++) mix_to[i] = at(atoi(words[6 + i]));
  for (int i = 0; i < sockets; i++) ports[i] = atoi(words[FIXED + i]);
  rings = aligned_alloc(64, sockets * sizeof *rings);
  if (!rings) return 1;
  memset(rings, 0, sockets * sizeof *rings);
  sigemptyset(&ends), sigaddset(&ends, SIGTERM), pthread_sigmask(SIG_BLOCK, &ends, NULL);
  start(path, sockets), start(stream, sockets / paths), start(mixer, 1);
  sigwait(&ends, &number);
  is_over = 1;
  rest(2 * LONGEST_WAIT * MILLISECOND);
  printf("%llu %llu %llu\n", (unsigned long long)received, (unsigned long long)taken, (unsigned long long)full);
  return 0;
}

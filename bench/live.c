// Sends the packets of several streams at their rate, each to the ports of its stream's paths on 127.0.0.1, and takes
// what comes in at the two ports of the mix.
//
// Words: FRAMES CHANNELS SECONDS PATHS MIX_A MIX_B, and then PATHS ports for each stream, if anything is to be sent.
// Samples are L24. A packet time goes out by sendmmsg, and where streams have more than two paths, a thread sends each
// two. Half a second after the last packet it prints the datagrams sent, the microseconds that a packet was sent late at
// most, and the datagrams that came in at each port of the mix.
#define _GNU_SOURCE
#include <arpa/inet.h>
#include <pthread.h>
#include <stdatomic.h>
#include <stdint.h>
#include <stdio.h>
#include <stdlib.h>
#include <string.h>
#include <sys/socket.h>
#include <time.h>

enum { HEAD = 12, MOST = 1440, PT = 96, RATE = 48000, FIXED = 7, STREAMS = 16, PATHS = 4, A_THREAD = 2 };
static const uint64_t SECOND = 1000000000, LINGER = 500000000;
static int frames, streams, paths, ports[STREAMS][PATHS];
static size_t size;
static uint64_t total, began;

struct sending {
  int first, count;
  uint64_t sent, delay;
};

static uint64_t now(void) {
  struct timespec t;
  clock_gettime(CLOCK_MONOTONIC, &t);
  return t.tv_sec * SECOND + t.tv_nsec;
}

static void wait_a_little(void) { nanosleep(&(struct timespec){0, 100000}, NULL); }

static struct sockaddr_in at(int port) {
  return (struct sockaddr_in){.sin_family = AF_INET, .sin_port = htons(port), .sin_addr = {htonl(INADDR_LOOPBACK)}};
}

static int bound(int port) {
  int s = socket(AF_INET, SOCK_DGRAM, 0), room = 1 << 20;
  struct sockaddr_in a = at(port);
  setsockopt(s, SOL_SOCKET, SO_RCVBUF, &room, sizeof room);
  if (bind(s, (void *)&a, sizeof a) != 0) exit(1);
  return s;
}

static void put(uint8_t *to, uint32_t value, int octets) {
  for (int i = 0; i < octets; i++) to[i] = value >> 8 * (octets - 1 - i);
}

// The packets of a packet time: one for each stream, sent to some of its paths.
struct batch {
  uint8_t packets[STREAMS][HEAD + MOST];
  struct iovec parts[STREAMS];
  struct sockaddr_in to[STREAMS * A_THREAD];
  struct mmsghdr messages[STREAMS * A_THREAD];
  int count;
};

static struct batch *batch_of(const struct sending *own) {
  struct batch *b = calloc(1, sizeof *b);
  if (!b) exit(1);
  for (int i = 0; i < streams; i++) {
    b->packets[i][0] = 0x80, b->packets[i][1] = PT, put(b->packets[i] + 8, i + 1, 4);
    b->parts[i] = (struct iovec){b->packets[i], size};
    for (int path = own->first; path < own->first + own->count; path++, b->count++) {
      b->to[b->count] = at(ports[i][path]);
      b->messages[b->count].msg_hdr =
          (struct msghdr){.msg_name = &b->to[b->count], .msg_namelen = sizeof *b->to, .msg_iov = &b->parts[i], .msg_iovlen = 1};
    }
  }
  return b;
}

static void send_number(int s, uint64_t number, struct batch *b, struct sending *own) {
  for (int i = 0; i < streams; i++)
    put(b->packets[i] + 2, number, 2), put(b->packets[i] + 4, number * frames, 4), put(b->packets[i] + HEAD, number, 3);
  for (int done = 0; done < b->count;) {
    int count = sendmmsg(s, b->messages + done, b->count - done, 0);
    // One that is refused is left out.
    done += count > 0 ? count : 1, own->sent += count > 0 ? count : 0;
  }
}

static void *send_all(void *word) {
  struct sending *own = word;
  struct batch *b = batch_of(own);
  int s = socket(AF_INET, SOCK_DGRAM, 0);
  for (uint64_t number = 0; number < total; wait_a_little())
    for (; number < total; number++) {
      uint64_t due = began + number * frames * SECOND / RATE, at = now();
      if (at < due) break;
      if (at - due > own->delay) own->delay = at - due;
      send_number(s, number, b, own);
    }
  return NULL;
}

static void take_mix(const int mix[2], uint64_t came[2]) {
  uint8_t octets[2048];
  for (int i = 0; i < 2; i++)
    while (recv(mix[i], octets, sizeof octets, MSG_DONTWAIT) > 0) came[i]++;
}

int main(int count, char **words) {
  if (count < FIXED) return 2;
  frames = atoi(words[1]), paths = atoi(words[4]), size = HEAD + 3 * (size_t)frames * atoi(words[2]);
  if (paths < 1 || paths > PATHS || size > HEAD + MOST) return 2;
  streams = (count - FIXED) / paths, total = streams ? (uint64_t)atoi(words[3]) * RATE / frames : 0;
  if (streams > STREAMS) return 2;
  const int mix[2] = {bound(atoi(words[5])), bound(atoi(words[6]))};
  for (int i = 0; i < streams * paths; i++) ports[i / paths][i % paths] = atoi(words[FIXED + i]);
  began = now();
  struct sending parts[PATHS] = {0};
  pthread_t threads[PATHS];
  int started = 0;
  for (int path = 0; path < paths; path += A_THREAD, started++) {
    parts[started] = (struct sending){path, paths - path < A_THREAD ? paths - path : A_THREAD, 0, 0};
    if (pthread_create(&threads[started], NULL, send_all, &parts[started]) != 0) return 1;
  }
  uint64_t ends = began + atoi(words[3]) * SECOND + LINGER, came[2] = {0, 0}, sent = 0, delay = 0;
  for (; now() < ends; wait_a_little()) take_mix(mix, came);
  for (int i = 0; i < started; i++) {
    pthread_join(threads[i], NULL);
    sent += parts[i].sent, delay = parts[i].delay > delay ? parts[i].delay : delay;
  }
  printf("%lu %lu %lu %lu\n", sent, delay / 1000, came[0], came[1]);
  return 0;
}

// What a call of libdarbexum costs, and what it costs only to receive what bindings/c/receive.c receives.
//
// Words: calls CONFIG ROUNDS, for a studio as bench/library writes it: nanoseconds of a round, which is a packet of each stream on
// both of its paths, the turns of a packet time and the blocks that they give, then of a call that only reads the time.
// Or: receive REST_NS SIZE MIX_A MIX_B PORT..: takes datagrams by recvmmsg with a pause between, and sends a datagram of SIZE octets
// to both ports of the mix each millisecond, until SIGTERM. It prints how many it received.
#define _GNU_SOURCE
#include <arpa/inet.h>
#include <darbexum.h>
#include <signal.h>
#include <stdio.h>
#include <stdlib.h>
#include <string.h>
#include <sys/socket.h>
#include <time.h>

enum { BATCH = 64, MOST_SOCKETS = 64, MOST_OCTETS = 2048 };
static const int64_t SECOND = 1000000000, MILLISECOND = 1000000;
static volatile sig_atomic_t is_over;

static void end(int number) { (void)number, is_over = 1; }

static int64_t now_ns(void) {
  struct timespec t;
  clock_gettime(CLOCK_MONOTONIC, &t);
  return t.tv_sec * SECOND + t.tv_nsec;
}

static struct sockaddr_in at(int port) {
  return (struct sockaddr_in){.sin_family = AF_INET, .sin_port = htons(port), .sin_addr = {htonl(INADDR_LOOPBACK)}};
}

static int calls(const char *path, long rounds) {
  static uint8_t config[1 << 20], text[256], out[DARBEXUM_MAX_OCTETS], packet[DARBEXUM_MAX_OCTETS];
  FILE *file = fopen(path, "rb");
  if (!file) return 2;
  size_t len = fread(config, 1, sizeof config, file), streams;
  fclose(file);
  darbexum engine = DARBEXUM_EMPTY;
  if (darbexum_open(&engine, config, len, text, sizeof text)) return fprintf(stderr, "%s\n", (char *)text), 1;
  streams = darbexum_streams(&engine);
  darbexum_stream_t spec = {.size = sizeof spec};
  darbexum_stream(&engine, 0, &spec);
  size_t size = 12 + (size_t)spec.frames * spec.channels * spec.sample_octets;
  packet[0] = 0x80, packet[1] = (uint8_t)spec.payload_type;
  for (size_t i = 12; i < size; i++) packet[i] = (uint8_t)(31 * i);
  int64_t given = 0, time = 0, began = now_ns();
  for (long number = 0; number < rounds; number++) {
    uint32_t ts = (uint32_t)number * spec.frames;
    packet[2] = (uint8_t)(number >> 8), packet[3] = (uint8_t)number;
    for (int i = 0; i < 4; i++) packet[4 + i] = (uint8_t)(ts >> 8 * (3 - i));
    for (size_t stream = 0; stream < streams; stream++)
      for (uint8_t copy = 0; copy < 2; copy++) darbexum_arrive(&engine, stream, copy, packet, size);
    while (darbexum_turn(&engine, number * spec.frames, out, sizeof out) > 0) given++;
  }
  int64_t round = now_ns() - began;
  began = now_ns();
  for (long number = 0; number < rounds; number++) darbexum_time(&engine, &time);
  int64_t read = now_ns() - began;
  printf("%.1f %.2f %ld\n", (double)round / rounds, (double)read / rounds, (long)given);
  darbexum_free(&engine);
  return 0;
}

static int receive(int count, char **words) {
  static uint8_t octets[BATCH][MOST_OCTETS], mix[MOST_OCTETS];
  static struct mmsghdr heads[BATCH];
  static struct iovec rooms[BATCH];
  int64_t rest = atoll(words[2]), received = 0;
  size_t size = (size_t)atoi(words[3]);
  struct sockaddr_in to[2] = {at(atoi(words[4])), at(atoi(words[5]))};
  int sockets[MOST_SOCKETS], many = 0, sender = socket(AF_INET, SOCK_DGRAM, 0), room = 8 << 20;
  for (int i = 6; i < count && many < MOST_SOCKETS; i++) {
    struct sockaddr_in own = at(atoi(words[i]));
    int s = sockets[many++] = socket(AF_INET, SOCK_DGRAM | SOCK_NONBLOCK, 0);
    setsockopt(s, SOL_SOCKET, SO_RCVBUF, &room, sizeof room);
    if (bind(s, (void *)&own, sizeof own) != 0) return 1;
  }
  struct sigaction action = {.sa_handler = end};
  sigaction(SIGTERM, &action, NULL);
  for (int64_t began = now_ns(), sent = 0, until = began; !is_over;) {
    for (int i = 0; i < many; i++)
      for (int n = BATCH; n == BATCH;) {
        for (int k = 0; k < BATCH; k++) {
          rooms[k] = (struct iovec){octets[k], MOST_OCTETS};
          heads[k] = (struct mmsghdr){.msg_hdr = {.msg_iov = &rooms[k], .msg_iovlen = 1}};
        }
        n = recvmmsg(sockets[i], heads, BATCH, MSG_DONTWAIT, NULL);
        received += n > 0 ? n : 0;
      }
    for (; sent < (now_ns() - began) / MILLISECOND; sent++)
      for (int i = 0; i < 2; i++) sendto(sender, mix, size, 0, (void *)&to[i], sizeof to[i]);
    until += rest;
    clock_nanosleep(CLOCK_MONOTONIC, TIMER_ABSTIME, &(struct timespec){until / SECOND, until % SECOND}, NULL);
  }
  printf("%ld\n", (long)received);
  return 0;
}

int main(int count, char **words) {
  if (count == 4 && !strcmp(words[1], "calls")) return calls(words[2], atol(words[3]));
  if (count > 6 && !strcmp(words[1], "receive")) return receive(count, words);
  return 2;
}

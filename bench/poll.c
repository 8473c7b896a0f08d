// What the receives and sends of a live run in one thread cost by themselves: after each rest every socket that has a
// datagram is read until it is empty, and a datagram is sent to each port of the mix for each millisecond. Nothing is
// merged or mixed. It notes which packets came later after their stream's first one than the latency allows, by the clock
// as it was read before the rest.
//
// With the word `mix` it does beside that what no receiver can leave out: it keeps each packet's first copy, compares the
// others with it, reads it once the latency is over, and mixes all streams into the datagram that it sends. By no rule is
// a packet refused, and nothing more is counted.
//
// Words: receive|mix SIZE LATENCY FRAMES REST PATHS CHANNELS MIX_A MIX_B PORT.., on 127.0.0.1, PATHS ports a stream; latency
// and a packet's frames are in sampling instants, the rest in microseconds. Streams are of L24, the mix has 8 channels. It
// ends by SIGTERM, and then prints how many datagrams it received, how many were late, and the microseconds by which it
// woke late at most: so long the machine held it up.
#include <arpa/inet.h>
#include <poll.h>
#include <signal.h>
#include <stdint.h>
#include <stdio.h>
#include <stdlib.h>
#include <string.h>
#include <sys/socket.h>
#include <time.h>

enum { MOST_SOCKETS = 64, MOST_OCTETS = 1452, ROOM = 8 << 20, HEAD = 12, BLOCK = 48, FIXED = 10 };
enum { SLOTS = 1024, OUTS = 8, SAMPLE = 3, MOST_INS = 1024 };
static const uint64_t MILLISECOND = 1000000;
static volatile sig_atomic_t is_over;

static void end(int number) {
  (void)number;
  is_over = 1;
}

static uint64_t now(void) {
  struct timespec t;
  clock_gettime(CLOCK_MONOTONIC, &t);
  return t.tv_sec * 1000 * MILLISECOND + t.tv_nsec;
}

static struct sockaddr_in at(int port) {
  return (struct sockaddr_in){.sin_family = AF_INET, .sin_port = htons(port), .sin_addr = {htonl(INADDR_LOOPBACK)}};
}

static int receiver(int port) {
  struct sockaddr_in own = at(port);
  int room = ROOM, s = socket(AF_INET, SOCK_DGRAM | SOCK_NONBLOCK, 0);
  setsockopt(s, SOL_SOCKET, SO_RCVBUF, &room, sizeof room);
  if (bind(s, (void *)&own, sizeof own) != 0) exit(1);
  return s;
}

// The first copy of a packet, by its number and one.
struct slot {
  int64_t place;
  uint8_t samples[MOST_OCTETS];
};

// A stream's first packet, the full number of its last one, and its packets by their numbers, if they are kept.
struct stream {
  int is_known;
  uint64_t at;
  int64_t first, last;
  struct slot *slots;
};

struct counts {
  uint64_t received, late, unlike;
};

static int is_late(struct stream *stream, const uint8_t *octets, uint64_t at, int frames, int latency) {
  uint16_t seq = octets[2] << 8 | octets[3];
  if (!stream->is_known) stream->is_known = 1, stream->at = at, stream->first = stream->last = seq;
  stream->last += (int16_t)(seq - (uint16_t)stream->last);
  int64_t due = (stream->last - stream->first) * frames + latency;
  return (int64_t)(at - stream->at) > due * 62500 / 3;
}

static void keep(struct stream *stream, const uint8_t *octets, size_t size, struct counts *counts) {
  struct slot *slot = &stream->slots[stream->last % SLOTS];
  if (slot->place == stream->last + 1) {
    counts->unlike += memcmp(slot->samples, octets, size) != 0;
    return;
  }
  slot->place = stream->last + 1;
  memcpy(slot->samples, octets, size);
}

// Takes a datagram, and returns false if there was none.
static int take_one(int s, struct stream *stream, uint64_t at, int frames, int latency, struct counts *counts) {
  static uint8_t octets[2048];
  ssize_t size = recv(s, octets, sizeof octets, 0);
  if (size < 0) return 0;
  if (size < HEAD || size > MOST_OCTETS) return 1;
  counts->received++;
  counts->late += is_late(stream, octets, at, frames, latency);
  if (stream->slots) keep(stream, octets + HEAD, size - HEAD, counts);
  return 1;
}

// Lays the samples of a stream's packets whose latency is over beside those of the others.
static void read_due(const struct stream *stream, int32_t *ins, int width, int channels, int frames, int latency) {
  int64_t number = stream->last + 1 - (latency + BLOCK) / frames;
  for (int frame = 0; frame < BLOCK; frame++) {
    const struct slot *slot = &stream->slots[(uint64_t)(number + frame / frames) % SLOTS];
    const uint8_t *from = slot->samples + SAMPLE * channels * (frame % frames);
    for (int i = 0; i < channels; i++, from += SAMPLE)
      ins[frame * width + i] = (int32_t)((uint32_t)from[0] << 24 | from[1] << 16 | from[2] << 8) >> 8;
  }
}

// Mixes a block by gains in 1/65,536, rounds and saturates, and writes it behind a datagram's head.
static void mix(const int32_t *ins, int width, int32_t gains[OUTS][MOST_INS], uint8_t *out) {
  for (int frame = 0; frame < BLOCK; frame++, ins += width)
    for (int output = 0; output < OUTS; output++, out += SAMPLE) {
      int64_t sum = 32768;
      for (int i = 0; i < width; i++) sum += (int64_t)gains[output][i] * ins[i];
      sum >>= 16;
      sum = sum > 8388607 ? 8388607 : sum < -8388608 ? -8388608 : sum;
      out[0] = sum >> 16, out[1] = sum >> 8, out[2] = sum;
    }
}

static void mix_all(const struct stream *streams, int count, int channels, int frames, int latency, uint8_t *datagram) {
  static int32_t ins[BLOCK * MOST_INS], gains[OUTS][MOST_INS];
  int width = count * channels;
  if (!gains[0][0])
    for (int i = 0; i < OUTS * MOST_INS; i++) gains[i / MOST_INS][i % MOST_INS] = 4096;
  for (int i = 0; i < count; i++) read_due(&streams[i], ins + channels * i, width, channels, frames, latency);
  mix(ins, width, gains, datagram + HEAD);
}

int main(int count, char **words) {
  static uint8_t datagram[MOST_OCTETS];
  struct pollfd polled[MOST_SOCKETS];
  static struct stream streams[MOST_SOCKETS];
  int sockets = count - FIXED, mixer = socket(AF_INET, SOCK_DGRAM, 0);
  if (sockets < 1 || sockets > MOST_SOCKETS || atoi(words[2]) > MOST_OCTETS) return 2;
  int is_mixed = strcmp(words[1], "mix") == 0, size = atoi(words[2]), latency = atoi(words[3]), frames = atoi(words[4]);
  uint64_t rest = atol(words[5]) * 1000, paths = atoi(words[6]), channels = atoi(words[7]), held = 0;
  if (is_mixed && (size < HEAD + SAMPLE * BLOCK * OUTS || BLOCK % frames != 0)) return 2;
  if (rest == 0 || paths == 0 || sockets % paths != 0) return 2;
  if (is_mixed && (channels == 0 || sockets / paths * channels > MOST_INS)) return 2;
  struct sockaddr_in to[2] = {at(atoi(words[8])), at(atoi(words[9]))};
  for (int i = 0; i < sockets; i++) polled[i] = (struct pollfd){receiver(atoi(words[FIXED + i])), POLLIN, 0};
  for (uint64_t i = 0; is_mixed && i < sockets / paths; i++) streams[i].slots = calloc(SLOTS, sizeof(struct slot));
  signal(SIGTERM, end);
  struct counts counts = {0, 0, 0};
  for (uint64_t sent = now() / MILLISECOND; !is_over;) {
    uint64_t before = now(), wake = before - before % rest + rest;
    nanosleep(&(struct timespec){0, wake - before}, NULL);
    uint64_t woken = now();
    if (woken > wake + held) held = woken - wake;
    if (poll(polled, sockets, 0) > 0)
      for (int i = 0; i < sockets; i++)
        if (polled[i].revents)
          while (take_one(polled[i].fd, &streams[i / paths], before, frames, latency, &counts)) {}
    for (uint64_t due = now() / MILLISECOND; sent < due; sent++) {
      if (is_mixed) mix_all(streams, sockets / paths, channels, frames, latency, datagram);
      for (int i = 0; i < 2; i++) sendto(mixer, datagram, size, 0, (void *)&to[i], sizeof to[i]);
    }
  }
  printf("%llu %llu %llu\n", (unsigned long long)counts.received, (unsigned long long)counts.late, (unsigned long long)held / 1000);
  return 0;
}

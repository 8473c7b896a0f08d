// Merging of two paths in C, for comparison: the same datagrams and rules as crates/studio_bench/src/merge.rt.
//
// A payload is copied once, into its number's slot, and a mark points to it there. Words: OCTETS WIDTH HALVES.
// The first half fills the window. Where there are two, the second is timed: prints the shape, the picoseconds
// that an arrival took, and a sum over fates and marks.
#include <stdbool.h>
#include <stdint.h>
#include <stdio.h>
#include <stdlib.h>
#include <string.h>
#include <time.h>

enum { HEAD = 12, MOST = 1440, HALF = 6000, NUMBERS = 2 * HALF, SEQUENTIAL = 8, PT = 96, SSRC = 7 };
enum { CLOSED, COUNTERS_FULL, WRONG_SOURCE, OFF_GRID, LATE, AHEAD, TAKEN, DOUBLE, UNLIKE, RESTARTED, FATES };

struct event { uint8_t kind; uint32_t place; };
struct packet { uint16_t seq; uint32_t ts, ssrc; const uint8_t *payload; size_t len; };
struct probation { uint8_t count; uint32_t source; uint16_t seq; uint32_t ts; };
struct slot { bool held; uint8_t octets[MOST]; };
struct mark { enum { NONE, SLOT, LOST, QUIET } kind; uint64_t epoch, number; int64_t media; const uint8_t *octets; };
struct merge {
  int64_t frames, latency, time, media, quiet, anchor_media;
  uint64_t width, mask, epoch, base, end;
  uint32_t len, timestamp, source, wanted, offset;
  bool anchored, closed, wants_one;
  struct probation probations[4];
  uint64_t arrived, fates[FATES], taken_by[4], got, lost;
  struct slot *slots;
};

static bool read_packet(const uint8_t *d, size_t n, uint8_t *pt, struct packet *p) {
  if (n < HEAD || d[0] >> 6 != 2) return false;
  size_t begin = HEAD + 4 * (d[0] & 15), end = n;
  if (n < begin) return false;
  if (d[0] & 16) {
    if (n < begin + 4) return false;
    begin += 4 + 4 * (size_t)(d[begin + 2] << 8 | d[begin + 3]);
    if (n < begin) return false;
  }
  if (d[0] & 32) {
    size_t count = d[n - 1];
    if (n <= begin || count == 0 || n < begin + count) return false;
    end = n - count;
  }
  uint16_t seq;
  memcpy(&seq, d + 2, 2), memcpy(&p->ts, d + 4, 4), memcpy(&p->ssrc, d + 8, 4);
  p->seq = __builtin_bswap16(seq), p->ts = __builtin_bswap32(p->ts), p->ssrc = __builtin_bswap32(p->ssrc);
  *pt = d[1] & 127, p->payload = d + begin, p->len = end - begin;
  return true;
}

static bool is_wanted(const struct merge *m, const struct packet *p) { return !m->wants_one || p->ssrc == m->wanted; }

static int64_t nearest(uint32_t low, int64_t half, int64_t to) {
  int64_t least = to - half;
  return least + ((low - least) & (2 * half - 1));
}

static struct slot *slot_of(struct merge *m, uint64_t number) { return &m->slots[number & m->mask]; }

static int put(struct merge *m, uint64_t number, const struct packet *p) {
  struct slot *slot = slot_of(m, number);
  if (slot->held) return memcmp(slot->octets, p->payload, m->len) ? UNLIKE : DOUBLE;
  slot->held = true;
  memcpy(slot->octets, p->payload, m->len);
  if (m->end <= number) m->end = number + 1;
  return TAKEN;
}

static bool is_in_reach(const struct merge *m, int64_t media) {
  int64_t earliest = m->time - m->latency;
  return earliest < media && media < earliest + (int64_t)m->width * m->frames;
}

static void begin(struct merge *m, uint64_t epoch, int64_t media, const struct packet *p) {
  m->anchored = true, m->epoch = epoch, m->timestamp = p->ts, m->source = p->ssrc;
  m->anchor_media = m->media = media;
  m->base = m->end = 65536 + (uint64_t)p->seq;
  memset(m->probations, 0, sizeof m->probations);
  put(m, m->base, p);
}

static int place(struct merge *m, uint64_t *number, const struct packet *p) {
  if (p->ssrc != m->source) return WRONG_SOURCE;
  *number = nearest(p->seq, 1 << 15, m->base);
  int64_t there = m->media + (int64_t)(*number - m->base) * m->frames;
  if ((uint32_t)(m->timestamp + (uint64_t)(there - m->anchor_media)) != p->ts) return OFF_GRID;
  if (*number < m->base) return LATE;
  return *number < m->base + m->width ? TAKEN : AHEAD;
}

static bool completes(struct merge *m, int path, bool off, const struct packet *p) {
  if (!is_wanted(m, p)) return false;
  struct probation *q = &m->probations[path];
  if (!off) {
    memset(q, 0, sizeof *q);
    return false;
  }
  bool follows = q->count > 0 && p->ssrc == q->source && p->seq == q->seq && p->ts == q->ts;
  q->count = !follows ? 1 : q->count < SEQUENTIAL ? q->count + 1 : SEQUENTIAL;
  q->source = p->ssrc, q->seq = p->seq + 1, q->ts = p->ts + m->frames;
  return q->count == SEQUENTIAL;
}

static int fate_of(struct merge *m, int path, const struct packet *p) {
  if (!m->anchored) {
    if (!is_wanted(m, p)) return WRONG_SOURCE;
    int64_t media = nearest(p->ts - m->offset, 1LL << 31, m->time);
    if (media <= m->time - m->latency) return LATE;
    if (!is_in_reach(m, media)) return AHEAD;
    begin(m, 0, media, p);
    return TAKEN;
  }
  uint64_t number;
  int fate = place(m, &number, p);
  if (completes(m, path, fate == WRONG_SOURCE || fate == OFF_GRID, p) && m->base == m->end) {
    int64_t media = nearest(p->ts - m->offset, 1LL << 31, m->time);
    if (is_in_reach(m, media) && m->media <= media) {
      begin(m, m->epoch + 1, media, p);
      return RESTARTED;
    }
  }
  return fate == TAKEN ? put(m, number, p) : fate;
}

static int offer(struct merge *m, int path, const struct packet *p) {
  if (m->closed) return CLOSED;
  if (m->arrived == 1ULL << 62) return COUNTERS_FULL;
  int fate = fate_of(m, path, p);
  m->arrived++, m->fates[fate]++;
  if (fate == TAKEN || fate == RESTARTED) m->taken_by[path]++;
  return fate;
}

// The next mark of a reading; its payload stays where it is until the next offer.
static bool advance(struct merge *m, int64_t now, struct mark *mark) {
  mark->kind = NONE;
  if (now < m->time || now > 1LL << 60 || m->closed) return false;
  if (m->anchored && m->media + m->latency <= now) {
    struct slot *slot = slot_of(m, m->base);
    *mark = (struct mark){slot->held ? SLOT : LOST, m->epoch, m->base, m->media, slot->octets};
    if (slot->held) m->got++; else m->lost++;
    slot->held = false;
    m->time = m->media + m->latency, m->media += m->frames, m->base++;
    if (m->end < m->base) m->end = m->base;
    return true;
  }
  m->time = now;
  if (m->got + m->lost == 0 && m->quiet < now - m->latency) {
    m->quiet = now - m->latency;
    *mark = (struct mark){.kind = QUIET, .media = m->quiet};
  }
  return false;
}

static uint64_t sum_of(const struct merge *m, const struct mark *mark) {
  switch (mark->kind) {
  case SLOT: return mark->number + mark->media + mark->octets[0] + mark->octets[m->len - 1];
  case LOST: return mark->number * 3;
  case QUIET: return mark->media;
  default: return 0;
  }
}

// Compiled apart, so that what its caller sets once, as that any source is wanted, isn't known here.
__attribute__((noipa)) static uint64_t merge_all(struct merge *m, const struct event *events, size_t count, const uint8_t *octets) {
  uint64_t sum = 0;
  for (size_t i = 0; i < count; i++) {
    if (events[i].kind < 2) {
      uint8_t pt;
      struct packet p;
      size_t n = HEAD + m->len;
      if (read_packet(octets + events[i].place * n, n, &pt, &p) && pt == PT && p.len == m->len)
        sum += offer(m, events[i].kind, &p);
    } else {
      struct mark mark;
      bool more;
      int64_t now = m->time + m->frames;
      do {
        more = advance(m, now, &mark);
        sum += sum_of(m, &mark);
      } while (more);
    }
  }
  return sum;
}

static size_t make_events(struct event *events, uint32_t from) {
  size_t count = 0;
  for (uint32_t i = from; i < from + HALF; i++) {
    uint32_t j = i % 50 == 10 ? i + 1 : i % 50 == 11 ? i - 1 : i;
    if (j % 100 != 37) events[count++] = (struct event){0, j};
    if (i >= 4 && (i - 4) % 100 != 71) events[count++] = (struct event){1, i - 4};
    events[count++] = (struct event){2, 0};
  }
  return count;
}

static uint8_t *make_octets(uint32_t len, uint32_t frames) {
  uint8_t *octets = malloc((size_t)NUMBERS * (HEAD + len)), *at = octets;
  for (uint32_t i = 0; i < NUMBERS; i++) {
    uint32_t ts = i * frames;
    *at++ = 0x80, *at++ = PT, *at++ = i >> 8, *at++ = i;
    *at++ = ts >> 24, *at++ = ts >> 16, *at++ = ts >> 8, *at++ = ts;
    *at++ = 0, *at++ = 0, *at++ = 0, *at++ = SSRC;
    for (uint32_t k = 0; k < len; k++) *at++ = i + k;
  }
  return octets;
}

int main(int argc, char **argv) {
  if (argc != 4) return 2;
  uint32_t len = atoi(argv[1]), width = atoi(argv[2]), halves = atoi(argv[3]);
  uint32_t frames = len == 18 ? 6 : len == 1152 ? 192 : 48;
  struct event *first = malloc(3 * HALF * sizeof *first), *second = malloc(3 * HALF * sizeof *second);
  size_t count = make_events(first, 0), more = make_events(second, HALF);
  uint8_t *octets = make_octets(len, frames);
  struct slot *slots = calloc(width, sizeof *slots);
  int64_t latency = (int64_t)(width - 2) * frames;
  struct merge m = {.frames = frames, .latency = latency, .quiet = -latency, .width = width, .mask = width - 1, .len = len, .slots = slots};
  uint64_t sum = merge_all(&m, first, count, octets);
  unsigned long long picos = 0;
  if (halves == 2) {
    struct timespec from, to;
    clock_gettime(CLOCK_MONOTONIC, &from);
    sum += merge_all(&m, second, more, octets);
    clock_gettime(CLOCK_MONOTONIC, &to);
    picos = ((to.tv_sec - from.tv_sec) * 1000000000LL + to.tv_nsec - from.tv_nsec) * 1000 / (2 * HALF);
  }
  printf("merge %u %u %llu %llu\n", len, width, picos, (unsigned long long)sum);
}

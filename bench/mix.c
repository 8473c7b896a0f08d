// Mixing of blocks in C, for comparison: the same numbers as crates/studio_bench/src/mix.rt.
//
// Each form is written as one would write it for the compiler to put into vectors:
//   rows   one output after another, the inputs side by side
//   four   four outputs at a time, the inputs side by side
//   eight  eight outputs at a time, the inputs side by side
//   lanes  the outputs side by side, by gains that stand column by column
// Prints for each form and shape: form, outputs, inputs, frames a second, a sum of the outputs.
#include <stdint.h>
#include <stdio.h>
#include <stdlib.h>
#include <string.h>
#include <time.h>

enum { FRAMES = 48, BLOCKS = 500, LANES = 8, MOST = 1024, SHIFT = 24 };

static int32_t rounded(int64_t sum) {
  int64_t r = (sum + (1ll << (SHIFT - 1))) >> SHIFT;
  return r < -32768 ? -32768 : r > 32767 ? 32767 : r;
}

static int64_t weighted(const int32_t *restrict gains, const int32_t *restrict in, size_t ins) {
  int64_t sum = 0;
  for (size_t i = 0; i < ins; i++) sum += (int64_t)gains[i] * in[i];
  return sum;
}

__attribute__((noinline)) static void rows(const int32_t *restrict gains, const int32_t (*restrict columns)[LANES],
                                           const int32_t *restrict in, int32_t *restrict out, size_t outs, size_t ins) {
  (void)columns;
  for (size_t f = 0; f < FRAMES; f++)
    for (size_t o = 0; o < outs; o++) out[f * outs + o] = rounded(weighted(gains + o * ins, in + f * ins, ins));
}

__attribute__((noinline)) static void four(const int32_t *restrict gains, const int32_t (*restrict columns)[LANES],
                                           const int32_t *restrict in, int32_t *restrict out, size_t outs, size_t ins) {
  (void)columns;
  for (size_t f = 0; f < FRAMES; f++) {
    const int32_t *restrict x = in + f * ins;
    size_t o = 0;
    for (; o + 4 <= outs; o += 4) {
      const int32_t *restrict g = gains + o * ins;
      int64_t a = 0, b = 0, c = 0, d = 0;
      for (size_t i = 0; i < ins; i++) {
        int64_t v = x[i];
        a += g[i] * v;
        b += g[ins + i] * v;
        c += g[2 * ins + i] * v;
        d += g[3 * ins + i] * v;
      }
      out[f * outs + o] = rounded(a);
      out[f * outs + o + 1] = rounded(b);
      out[f * outs + o + 2] = rounded(c);
      out[f * outs + o + 3] = rounded(d);
    }
    for (; o < outs; o++) out[f * outs + o] = rounded(weighted(gains + o * ins, x, ins));
  }
}

__attribute__((noinline)) static void eight(const int32_t *restrict gains, const int32_t (*restrict columns)[LANES],
                                            const int32_t *restrict in, int32_t *restrict out, size_t outs, size_t ins) {
  (void)columns;
  for (size_t f = 0; f < FRAMES; f++) {
    const int32_t *restrict x = in + f * ins;
    size_t o = 0;
    for (; o + 8 <= outs; o += 8) {
      const int32_t *restrict g = gains + o * ins;
      int64_t s0 = 0, s1 = 0, s2 = 0, s3 = 0, s4 = 0, s5 = 0, s6 = 0, s7 = 0;
      for (size_t i = 0; i < ins; i++) {
        int64_t v = x[i];
        s0 += g[i] * v;
        s1 += g[ins + i] * v;
        s2 += g[2 * ins + i] * v;
        s3 += g[3 * ins + i] * v;
        s4 += g[4 * ins + i] * v;
        s5 += g[5 * ins + i] * v;
        s6 += g[6 * ins + i] * v;
        s7 += g[7 * ins + i] * v;
      }
      int64_t sums[8] = {s0, s1, s2, s3, s4, s5, s6, s7};
      for (size_t k = 0; k < 8; k++) out[f * outs + o + k] = rounded(sums[k]);
    }
    for (; o < outs; o++) out[f * outs + o] = rounded(weighted(gains + o * ins, x, ins));
  }
}

__attribute__((noinline)) static void lanes(const int32_t *restrict gains, const int32_t (*restrict columns)[LANES],
                                            const int32_t *restrict in, int32_t *restrict out, size_t outs, size_t ins) {
  (void)gains;
  for (size_t f = 0; f < FRAMES; f++) {
    int64_t sums[LANES] = {0};
    for (size_t i = 0; i < ins; i++) {
      int64_t v = in[f * ins + i];
      for (int o = 0; o < LANES; o++) sums[o] += columns[i][o] * v;
    }
    for (size_t o = 0; o < outs; o++) out[f * outs + o] = rounded(sums[o]);
  }
}

static void noise(int32_t *numbers, size_t count, int shift, int32_t least) {
  uint32_t seed = 1;
  for (size_t i = 0; i < count; i++) {
    seed = seed * 1664525u + 1013904223u;
    numbers[i] = least + (int32_t)(seed >> shift);
  }
}

static double now(void) {
  struct timespec t;
  clock_gettime(CLOCK_MONOTONIC, &t);
  return t.tv_sec + t.tv_nsec * 1e-9;
}

int main(void) {
  static int32_t gains[LANES * MOST], columns[MOST][LANES], in[FRAMES * MOST], out[FRAMES * LANES];
  static const size_t shapes[][2] = {{8, 128}, {8, 64}, {4, 128}, {1, 128}, {8, 1024}};
  static const struct {
    const char *name;
    void (*mix)(const int32_t *, const int32_t (*)[LANES], const int32_t *, int32_t *, size_t, size_t);
  } forms[] = {{"rows", rows}, {"four", four}, {"eight", eight}, {"lanes", lanes}};
  for (size_t k = 0; k < sizeof forms / sizeof *forms; k++)
    for (size_t s = 0; s < sizeof shapes / sizeof *shapes; s++) {
      size_t outs = shapes[s][0], ins = shapes[s][1];
      noise(gains, outs * ins, 11, -1048576);
      noise(in, FRAMES * ins, 8, -8388608);
      memset(columns, 0, sizeof columns);
      for (size_t i = 0; i < ins; i++)
        for (size_t o = 0; o < outs; o++) columns[i][o] = gains[o * ins + i];
      double start = now();
      for (int b = 0; b < BLOCKS; b++) {
        forms[k].mix(gains, (const int32_t(*)[LANES])columns, in, out, outs, ins);
        __asm__ volatile("" ::: "memory");
      }
      double took = now() - start;
      uint64_t check = 0;
      for (size_t i = 0; i < FRAMES * outs; i++) check = check * 31 + (uint64_t)(int64_t)out[i];
      printf("%s %zu %zu %.0f %lld\n", forms[k].name, outs, ins, (double)BLOCKS * FRAMES / took, (long long)check);
    }
  return 0;
}

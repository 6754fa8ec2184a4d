/* Checks per second of a formula with 64 products (8 by 8 terms, the schoolbook formula): the product's call beside a plain C checker, which does the same
   by forms and without refusals. Prints both rates and their ratio. */
#include <stdint.h>
#include <stdio.h>
#include <time.h>

#include "gijpsando.h"

enum { N = 8, K = N * N, OUTPUTS = 2 * N - 1, TIMES = 200000 };

static uint64_t a[K], b[K], rows[OUTPUTS];

static uint64_t form(uint64_t x, uint64_t y) {
  uint64_t f = 0;
  for (int i = 0; i < N; i++)
    f |= (x >> i & 1) * (y << (i * N));
  return f;
}

/* The adders of a side: equal masks once. */
static uint64_t side(const uint64_t *masks) {
  uint64_t sum = 0;
  for (int t = 0; t < K; t++) {
    int again = 0;
    if ((masks[t] & (masks[t] - 1)) == 0)
      continue;
    for (int s = t + 1; s < K; s++)
      again |= masks[s] == masks[t];
    if (!again)
      sum += (uint64_t)__builtin_popcountll(masks[t]) - 1;
  }
  return sum;
}

/* The first output that differs, or OUTPUTS; and the adders. */
static int plain(uint64_t *adders) {
  uint64_t product[K], target[OUTPUTS] = {0};
  int wrong = OUTPUTS;
  *adders = side(a) + side(b);
  for (int i = 0; i < N; i++)
    for (int j = 0; j < N; j++)
      target[i + j] |= (uint64_t)1 << (i * N + j);
  for (int t = 0; t < K; t++)
    product[t] = form(a[t], b[t]);
  for (int t = OUTPUTS - 1; t >= 0; t--) {
    uint64_t sum = 0;
    for (int i = 0; i < K; i++)
      sum ^= (rows[t] >> i & 1) * product[i];
    if (rows[t] != 0)
      *adders += (uint64_t)__builtin_popcountll(rows[t]) - 1;
    if (sum != target[t])
      wrong = t;
  }
  return wrong;
}

static double seconds(struct timespec from) {
  struct timespec to;
  clock_gettime(CLOCK_MONOTONIC, &to);
  return (double)(to.tv_sec - from.tv_sec) + (double)(to.tv_nsec - from.tv_nsec) * 1e-9;
}

int main(void) {
  for (int i = 0; i < N; i++)
    for (int j = 0; j < N; j++) {
      a[i * N + j] = (uint64_t)1 << i;
      b[i * N + j] = (uint64_t)1 << j;
      rows[i + j] |= (uint64_t)1 << (i * N + j);
    }
  struct timespec from;
  uint64_t reply[3], adders = 0, bad = 0;
  clock_gettime(CLOCK_MONOTONIC, &from);
  for (int i = 0; i < TIMES; i++) {
    rows[0] ^= (uint64_t)(i & 1); /* right and wrong by turns, so that nothing is computed once for all */
    bad += gijpsando_check_numbers(GIJPSANDO_POLY, N, N, 0, K, a, K, b, K, rows, OUTPUTS, reply, 3) != 0;
    bad += reply[0] != (rows[0] != 1);
  }
  double product = TIMES / seconds(from);
  clock_gettime(CLOCK_MONOTONIC, &from);
  for (int i = 0; i < TIMES; i++) {
    rows[0] ^= (uint64_t)(i & 1);
    bad += (plain(&adders) != OUTPUTS) != (rows[0] != 1);
  }
  double c = TIMES / seconds(from);
  printf("%.0f %.0f %.2f\n", product, c, product / c);
  return bad != 0;
}

// The same composition by hand, without sigma, on the same words, in plain C and with no checks: what a compiler makes
// of the bare work. A pair of states is packed into one word of a state record of five, so each machine has at most
// 65536 states, and all lists are consecutive. It is compiled for one kind of weight, so that no move asks which it is:
// KIND 0 (costs) or 1 (counts; their products must fit a word).
//
// limit REPEATS HEADS [MODE] < case
//
// Mode 1: one pass, each move stored as it is met. Mode 2: every move weighed and its target looked up, then stored.
// Mode 3: every move weighed and counted, then stored.
#include <stdint.h>
#include <stdio.h>
#include <stdlib.h>
#include <string.h>
#include <time.h>
#ifndef KIND
#define KIND 0
#endif
#define ONE KIND  // the kind's one
#define STATES 3000000u
#define TRS 10000000u
typedef uint32_t u32;
static u32 *m[2];
static u32 filter;
static u32 nh, *heads, *st, *tr;
static u32 us, ut;
static inline u32 *rec(u32 *w, u32 t) { return w + 6 + 3 * w[0] + 5 * (t - 1); }
static inline u32 *sta(u32 *w, u32 s) { return w + 6 + 3 * s; }
static u32 find(u32 s1, u32 s2, u32 f, int add) {
  u32 h = (s1 + 31 * s2 + f) % nh, key = s1 * 65536 + s2;
  for (u32 n = heads[h]; n; n = st[5 * (n - 1) + 4])
    if (st[5 * (n - 1)] == key && st[5 * (n - 1) + 1] == f) return n - 1;
  if (!add) return 0xffffffff;
  u32 *r = st + 5 * us;
  r[0] = key;
  r[1] = f;
  r[2] = 0;
  r[3] = 0;
  r[4] = heads[h];
  heads[h] = ++us;
  return us - 1;
}
// first record and length of a consecutive list; lengths are remembered by state
static u32 fst[2], ln[2];
static u32 memo_s[2][1024], memo_n[2][1024];
static void load(int i, u32 s) {
  u32 f = sta(m[i], s)[0];
  fst[i] = f;
  u32 c = s % 1024;
  if (memo_s[i][c] != s + 1) {
    u32 n = 0;
    for (u32 t = f; t; t = rec(m[i], t)[4]) n++;
    memo_s[i][c] = s + 1;
    memo_n[i][c] = n;
  }
  ln[i] = memo_n[i][c];
}
static int none[2], all[2];
static void info(int i, u32 s) {
  u32 e = 0;
  while (e < ln[i] && rec(m[i], fst[i] + e)[i == 0 ? 1 : 0] == 0) e++;
  none[i] = e == 0;
  all[i] = e == ln[i] && !sta(m[i], s)[1];
}
static int keep(int kind, u32 f) {  // 0: 1 alone, 1: 2 alone, 2: both, 3: label; -1 drop
  if (kind == 3) return 0;
  if (filter == 0) return kind == 0 ? (f == 0 ? 0 : -1) : kind == 1 ? (all[0] ? -1 : none[0] ? 0 : 1) : -1;
  if (filter == 1) return kind == 0 ? (all[1] ? -1 : none[1] ? 0 : 1) : kind == 1 ? (f == 1 ? -1 : 0) : -1;
  if (kind == 0) return f == 0 ? (none[1] ? 0 : all[1] ? -1 : 1) : f == 1 ? 1 : -1;
  if (kind == 1) return f == 0 ? (none[0] ? 0 : all[0] ? -1 : 2) : f == 2 ? 2 : -1;
  return f == 0 ? 0 : -1;
}
static u32 bad;
static int storing, probing;
static u32 first;
static inline uint64_t product(u32 w1, u32 w2) {
  if (KIND == 1) return (uint64_t)w1 * w2;
  return (w1 == 0xffffffffu || w2 == 0xffffffffu) ? 0xffffffffu : (uint64_t)w1 + w2;
}
static inline int too_large(uint64_t w, u32 w1, u32 w2) {
  if (KIND == 1) return w > 0xffffffffu;
  return w >= 0xffffffffu && w1 != 0xffffffffu && w2 != 0xffffffffu;
}
static inline void move(u32 in, u32 out, u32 w1, u32 w2, u32 t1, u32 t2, int f) {
  if (f < 0) return;
  uint64_t w = product(w1, w2);
  if (!storing) {
    if (too_large(w, w1, w2)) bad++;
    if (probing) bad += find(t1, t2, (u32)f, 0) == 0xfffffff0;
    return;
  }
  u32 n = find(t1, t2, (u32)f, 1);
  u32 *r = tr + 5 * ut;
  ut++;
  r[0] = in;
  r[1] = out;
  r[2] = (u32)w;
  r[3] = n;
  r[4] = ut + 1;
}
static u32 lower(int i, u32 x) {
  u32 lo = 0, hi = ln[i];
  int side = i == 0 ? 1 : 0;
  while (lo < hi) {
    u32 mid = (lo + hi) / 2;
    if (rec(m[i], fst[i] + mid)[side] < x)
      lo = mid + 1;
    else
      hi = mid;
  }
  return lo;
}
static void walk(u32 s1, u32 s2, u32 f, int input) {
  int mi = input ? 1 : 0, wi = 1 - mi;
  int ms = mi == 0 ? 1 : 0, ws = wi == 0 ? 1 : 0;
  u32 sm = mi ? s2 : s1, sw = mi ? s1 : s2;
  (void)sm;
  for (u32 k = 0; k < ln[mi] && rec(m[mi], fst[mi] + k)[ms] == 0; k++) {
    u32 *r = rec(m[mi], fst[mi] + k);
    if (mi == 1)
      move(0, r[1], ONE, r[2], sw, r[3], keep(1, f));
    else
      move(r[0], 0, r[2], ONE, r[3], sw, keep(0, f));
  }
  for (u32 j = 0; j < ln[wi]; j++) {
    u32 *a = rec(m[wi], fst[wi] + j);
    u32 x = a[ws];
    if (x == 0) {
      if (mi == 1)
        move(a[0], 0, a[2], ONE, a[3], s2, keep(0, f));
      else
        move(0, a[1], ONE, a[2], s1, a[3], keep(1, f));
    }
    u32 k = x == 0 ? 0 : lower(mi, x);
    for (; k < ln[mi]; k++) {
      u32 *b = rec(m[mi], fst[mi] + k);
      if (b[ms] != x) break;
      if (mi == 1)
        move(a[0], b[1], a[2], b[2], a[3], b[3], keep(x ? 3 : 2, f));
      else
        move(b[0], a[1], b[2], a[2], b[3], a[3], keep(x ? 3 : 2, f));
    }
  }
}
static void run(int mode, int side) {
  memset(heads, 0, 4 * nh);
  memset(memo_s, 0, sizeof memo_s);
  us = ut = 0;
  find(m[0][2] - 1, m[1][2] - 1, 0, 1);
  for (u32 n = 0; n < us; n++) {
    u32 s1 = st[5 * n] >> 16, s2 = st[5 * n] & 65535, f = st[5 * n + 1];
    load(0, s1);
    load(1, s2);
    info(0, s1);
    info(1, s2);
    int input = side == 1 || (side == 2 && ln[0] <= ln[1]);
    if (mode >= 2) {
      storing = 0;
      probing = mode == 2;
      walk(s1, s2, f, input);
    }
    storing = 1;
    first = ut;
    walk(s1, s2, f, input);
    st[5 * n + 2] = 1;
    st[5 * n + 3] = ut > first ? first + 1 : 0;
    if (ut > first) tr[5 * (ut - 1) + 4] = 0;
  }
}
static char *line;
static size_t cap;
static u32 *words(void) {
  ssize_t l = getline(&line, &cap, stdin);
  u32 *w = malloc(4 * (l + 8));
  size_t n = 0;
  char *p = line, *e;
  for (;;) {
    unsigned long x = strtoul(p, &e, 10);
    if (e == p) break;
    w[n++] = (u32)x;
    p = e;
  }
  return w;
}
int main(int c, char **v) {
  int n = c > 1 ? atoi(v[1]) : 1;
  nh = c > 2 ? (u32)atoi(v[2]) : 65535;
  u32 *s = words();
  filter = s[1];
  m[0] = words();
  m[1] = words();
  if (s[0] != KIND || filter > 2 || m[0][0] > 65536 || m[1][0] > 65536) {
    fprintf(stderr, "another kind of weight, another filter, or too many states\n");
    return 1;
  }
  heads = malloc(4 * nh);
  st = malloc(20 * STATES);
  tr = malloc(20 * TRS);
  memset(st, 0, 20 * STATES);
  memset(tr, 0, 20 * TRS);
  int side = m[0][4] == 1 && m[1][3] == 1 ? 2 : m[0][4] == 1 ? 0 : 1;
  int lo = c > 3 ? atoi(v[3]) : 1, hi = c > 3 ? lo : 3;
  for (int mode = lo; mode <= hi; mode++) {
    double best = 1e9;
    for (int i = 0; i < n; i++) {
      struct timespec a, b;
      clock_gettime(CLOCK_MONOTONIC, &a);
      run(mode, side);
      clock_gettime(CLOCK_MONOTONIC, &b);
      double t = (b.tv_sec - a.tv_sec) + 1e-9 * (b.tv_nsec - a.tv_nsec);
      if (t < best) best = t;
    }
    printf("limit mode %d best %.9f states %u transitions %u (%u)\n", mode, best, us, ut, bad & 1);
  }
}

// The library on a case of three lines, as `composed` reads them; best of REPEATS. With 0 repeats nothing is composed:
// that is what reading the case costs.
//
// library REPEATS HEADS MODE [IGNORED] < case
//
// IGNORED labels are ignored, falling from MAX - 1: none that a case has.
//
// Every mode opens. Then `open` does no more; `run` runs; `trusted` runs without the checks; `lazy` expands every state
// by a call of its own, without the checks; `checks` runs and then asks for the final weight of state 0. `room` expands
// state 0 with room to spare, exactly enough and too little, and begins no further repeat of one after two seconds. A
// call that is refused, where it should not be, ends the program.
#include <stdio.h>
#include <stdlib.h>
#include <string.h>
#include <time.h>

#include "rinkolza.h"

typedef struct {
  uint32_t *at;
  size_t n;
} slice;
static slice settings, m1, m2, ignored, session, heads, states, trs, answer;
static uint32_t memo1[RINKOLZA_MEMO_WORDS], memo2[RINKOLZA_MEMO_WORDS];
#define MACHINES m1.at, m1.n, m2.at, m2.n, NULL, 0, 0, NULL, 0, 0, ignored.at, ignored.n
#define MEMORY heads.at, heads.n, states.at, states.n, trs.at, trs.n
#define LENT session.at, session.n, MACHINES, MEMORY
#define ANSWER answer.at, answer.n

static slice lent(size_t n) {
  slice s = {malloc(n ? 4 * n : 1), n};
  if (!s.at) exit(2);
  return s;
}

static slice line(void) {
  slice s = lent(1024);
  size_t len = 0;
  int c, in = 0;
  uint64_t x = 0;
  while ((c = getchar()) != EOF) {
    if (c >= '0' && c <= '9') {
      x = 10 * x + (c - '0');
      in = 1;
    } else {
      if (in) {
        if (len == s.n) s.at = realloc(s.at, 4 * (s.n *= 2));
        s.at[len++] = (uint32_t)x;
        x = 0;
        in = 0;
      }
      if (c == '\n') break;
    }
  }
  s.n = len;
  return s;
}

// The steps of the modes. The lent memos are cleared in the time of the step.
static uint32_t nothing(void) { return 0; }
static uint32_t opening(void) { return rinkolza_open(settings.at, settings.n, LENT); }
static uint32_t run(void) { return rinkolza_run(LENT); }
static uint32_t final_weight(void) { return rinkolza_final_weight(LENT, 0, ANSWER); }
static uint32_t expansion(void) { return rinkolza_expand(LENT, 0, ANSWER); }
static void clear(void) {
  memset(memo1, 0, sizeof memo1);
  memset(memo2, 0, sizeof memo2);
}
static uint32_t trusted(void) {
  clear();
  return rinkolza_trusted_run(LENT, memo1, memo2, 0, RINKOLZA_MAX, ANSWER);
}
static uint32_t lazy(void) {
  uint32_t refusal = 0;
  clear();
  for (uint32_t n = 0; n < session.at[RINKOLZA_SESSION_USED_STATES] && !refusal; n++)
    refusal = rinkolza_trusted_expand(LENT, memo1, memo2, n, ANSWER);
  return refusal;
}

static double now(void) {
  struct timespec t;
  clock_gettime(CLOCK_MONOTONIC, &t);
  return t.tv_sec + 1e-9 * t.tv_nsec;
}

// The seconds of a step that must answer so.
static double timed(uint32_t (*step)(void), uint32_t expected) {
  double a = now();
  uint32_t told = step();
  double b = now();
  if (told != expected) {
    fprintf(stderr, "answered %u, not %u\n", told, expected);
    exit(1);
  }
  return b - a;
}
static double least(double a, double b) { return a < b ? a : b; }

static void measure(int repeats, uint32_t (*step)(void), uint32_t (*later)(void)) {
  double best = 1e9, bopen = 1e9, bstep = 1e9, blater = 1e9;
  for (int i = 0; i < repeats; i++) {
    double a = timed(opening, 0), b = timed(step, 0), c = timed(later, 0);
    best = least(best, a + b);
    bopen = least(bopen, a);
    bstep = least(bstep, b);
    blater = least(blater, c);
  }
  printf("library best %.9f open %.9f step %.9f later %.9f states %u transitions %u\n", best, bopen, bstep, blater,
         session.at[RINKOLZA_SESSION_USED_STATES], session.at[RINKOLZA_SESSION_USED_TRS]);
}

// What an expansion changes, kept as it was before.
static slice *const changed[] = {&session, &heads, &states, &trs};
static uint32_t *kept[4];
static void save(void) {
  for (int i = 0; i < 4; i++) {
    kept[i] = lent(changed[i]->n).at;
    memcpy(kept[i], changed[i]->at, 4 * changed[i]->n);
  }
}
static void restore(void) {
  for (int i = 0; i < 4; i++) memcpy(changed[i]->at, kept[i], 4 * changed[i]->n);
}

static void room(int repeats) {
  timed(opening, 0);
  timed(expansion, 0);
  size_t s = session.at[RINKOLZA_SESSION_USED_STATES], t = session.at[RINKOLZA_SESSION_USED_TRS];
  struct {
    const char *name;
    size_t states, trs;
    uint32_t expected;
  } rooms[] = {{"to spare", 4 * s, 4 * t, 0},
               {"exactly enough", s, t, 0},
               {"one state record short", s - 1, t, RINKOLZA_REFUSED_NO_ROOM},
               {"one transition record short", s, t - 1, RINKOLZA_REFUSED_NO_ROOM},
               {"half of the state records", s / 2, t, RINKOLZA_REFUSED_NO_ROOM}};
  for (int k = 0; k < 5; k++) {
    double best = 1e9;
    states.n = rooms[k].states * RINKOLZA_STATE_WORDS;
    trs.n = rooms[k].trs * RINKOLZA_TR_WORDS;
    timed(opening, 0);
    save();
    double begun = now();
    for (int i = 0; i < repeats && now() - begun < 2; i++, restore())
      best = least(best, timed(expansion, rooms[k].expected));
    for (int i = 0; i < 4; i++) free(kept[i]);
    printf("room %s, answer %u, best %.9f, states %zu transitions %zu\n", rooms[k].name, rooms[k].expected, best, s, t);
  }
}

int main(int argc, char **argv) {
  if (argc != 4 && argc != 5) return 2;
  int repeats = atoi(argv[1]);
  const char *mode = argv[3];
  settings = line(), m1 = line(), m2 = line();
  ignored = lent(argc == 5 ? atoi(argv[4]) : 0);
  for (size_t i = 0; i < ignored.n; i++) ignored.at[i] = RINKOLZA_MAX - 1 - i;
  session = lent(RINKOLZA_SESSION_WORDS), answer = lent(RINKOLZA_ANSWER_WORDS), heads = lent(atoi(argv[2]));
  states = lent(4000000 * RINKOLZA_STATE_WORDS), trs = lent(4000000 * RINKOLZA_TR_WORDS);
  memset(session.at, 0, 4 * session.n);
  if (!strcmp(mode, "room")) return room(repeats), 0;
  static const struct {
    const char *name;
    uint32_t (*step)(void), (*later)(void);
  } modes[] = {{"open", nothing, nothing},
               {"run", run, nothing},
               {"trusted", trusted, nothing},
               {"lazy", lazy, nothing},
               {"checks", run, final_weight}};
  for (int k = 0; k < 5; k++)
    if (!strcmp(mode, modes[k].name)) return measure(repeats, modes[k].step, modes[k].later), 0;
  return 2;
}

/* Calls the library from C: document 01's case 1 by each filter, by the first listed and compared with 01's listing by tests/c_example.sh; sigma; ignored labels; look-ups; then slices of every short length and
 * damaged words, where it checks that a refused call changes nothing. Where the checks 1 to 8 pass, it makes the call that does not check too, on a copy of the same words, and
 * compares all that the two leave. Memos are lent from call to call of an opening, and now and then put back to zeros; so too in compositions of drawn machines, state by state.
 * It prints the listing, then what it counted; it ends with 1 at the first thing that is wrong. */
#define _DEFAULT_SOURCE
#include <stdio.h>
#include <stdlib.h>
#include <string.h>
#include <sys/mman.h>
#include <unistd.h>

#include "../include/rinkolza.h"

#define HEADS 64
#define RECORDS 1024

#define LEN(a) (sizeof(a) / sizeof((a)[0]))

static const uint32_t settings[6] = {RINKOLZA_COST, RINKOLZA_SEQUENCE, RINKOLZA_NO_LABEL, 0, RINKOLZA_NO_LABEL, 0};
static const uint32_t m1[25] = {3, 2, 1, 0, 0, 0, 1, 0, 0, 2, 0, 0, 0, 1, 0, 1, 0, 1, 1, 0, 2, 5, 2, 2, 0};
static const uint32_t m2[25] = {3, 2, 1, 0, 0, 0, 1, 0, 0, 2, 0, 0, 0, 1, 3, 0, 7, 4, 1, 0, 5, 8, 1, 2, 0};

static uint32_t session[9], answer[2], heads[HEADS], states[RINKOLZA_STATE_WORDS * RECORDS], trs[RINKOLZA_TR_WORDS * RECORDS];

static void need(int ok, const char *what) {
    if (!ok) {
        printf("wrong: %s\n", what);
        exit(1);
    }
}

/* The five calls on the words above, without allowed lists and ignored labels: NULL and 0. */
static uint32_t open_by(const uint32_t *six) {
    return rinkolza_open(six, 6, session, 9, m1, LEN(m1), m2, LEN(m2), NULL, 0, 0, NULL, 0, 0, NULL, 0, heads, HEADS, states, LEN(states), trs, LEN(trs));
}

static uint32_t open_it(void) { return open_by(settings); }

static uint32_t run_it(void) {
    return rinkolza_run(session, 9, m1, LEN(m1), m2, LEN(m2), NULL, 0, 0, NULL, 0, 0, NULL, 0, heads, HEADS, states, LEN(states), trs, LEN(trs));
}

static uint32_t expand_it(uint32_t n) {
    return rinkolza_expand(session, 9, m1, LEN(m1), m2, LEN(m2), NULL, 0, 0, NULL, 0, 0, NULL, 0, heads, HEADS, states, LEN(states), trs, LEN(trs), n, answer, 2);
}

static uint32_t final_it(uint32_t n) {
    return rinkolza_final_weight(session, 9, m1, LEN(m1), m2, LEN(m2), NULL, 0, 0, NULL, 0, 0, NULL, 0, heads, HEADS, states, LEN(states), trs, LEN(trs), n, answer, 2);
}

static void records_it(uint32_t n) {
    rinkolza_records(session, 9, m1, LEN(m1), m2, LEN(m2), NULL, 0, 0, NULL, 0, 0, NULL, 0, heads, HEADS, states, LEN(states), trs, LEN(trs), n, answer, 2);
}

/* The machines above by each filter: how many states and transitions there are. Both have one reading and an epsilon in it: trivial takes the two in three orders, no-match in two. The
 * number behind the last is no filter's. */
static void each_filter(void) {
    static const uint32_t sizes[][2] = {{4, 3}, {4, 3}, {3, 2}, {3, 2}, {5, 6}, {5, 5}};
    uint32_t six[6], filter;
    memcpy(six, settings, sizeof six);
    for (filter = RINKOLZA_SEQUENCE; filter <= RINKOLZA_NO_MATCH; filter++) {
        six[1] = filter;
        need(open_by(six) == 0 && run_it() == 0, "an opening or a run by a filter");
        need(session[RINKOLZA_SESSION_USED_STATES] == sizes[filter][0] && session[RINKOLZA_SESSION_USED_TRS] == sizes[filter][1], "what a filter finds");
    }
    six[1] = filter;
    need(LEN(sizes) == filter && open_by(six) == RINKOLZA_REFUSED_SETTINGS, "a number of no filter");
}

/* Machine 1 writes 3; machine 2 makes 6 of it and 7 of sigma, 9: both, its own first. Where 4 alone is allowed, its own alone. */
static void any_letter(void) {
    static const uint32_t one[] = {1, 1, 1, 0, 0, 0, 1, 1, 0, 1, 3, 0, 0, 0}, two[] = {1, 2, 1, 1, 0, 0, 1, 1, 0, 3, 6, 0, 0, 2, 9, 7, 0, 0, 0};
    static const uint32_t six[6] = {RINKOLZA_COST, RINKOLZA_SEQUENCE, RINKOLZA_NO_LABEL, 0, 9, RINKOLZA_REWRITE_MATCHED}, allowed[] = {4};
    uint32_t has;
    for (has = 0; has < 2; has++) {
        need(rinkolza_open(six, 6, session, 9, one, LEN(one), two, LEN(two), NULL, 0, 0, allowed, 1, has, NULL, 0, heads, HEADS, states, LEN(states), trs, LEN(trs)) == 0, "an opening with sigma");
        need(rinkolza_expand(session, 9, one, LEN(one), two, LEN(two), NULL, 0, 0, allowed, 1, has, NULL, 0, heads, HEADS, states, LEN(states), trs, LEN(trs), 0, answer, 2) == 0, "an expansion with sigma");
        need(answer[0] == 1 && answer[1] == 2 - has && trs[1] == 6 && (has || trs[RINKOLZA_TR_WORDS + 1] == 7), "own and sigma matches");
    }
}

/* Machine 1 writes 3 and a joiner, 5; machine 2 makes 6 of 3. Ignored, 5 is an epsilon, and machine 1 is sorted no longer: it is walked. A list of other labels changes no move here,
 * and one with 0 or RINKOLZA_NO_LABEL is refused, after a malformed machine 2 and before a sigma label 0. A look-up of epsilon counts the joiner, and the joiner has no match. */
static void joiners(void) {
    static const uint32_t one[] = {1, 2, 1, 0, 0, 0, 1, 1, 0, 1, 3, 0, 0, 2, 1, 5, 0, 0, 0}, two[] = {1, 1, 1, 0, 0, 0, 1, 1, 0, 3, 6, 0, 0, 0};
    static const uint32_t six[6] = {RINKOLZA_COST, RINKOLZA_SEQUENCE, RINKOLZA_NO_LABEL, 0, RINKOLZA_NO_LABEL, 0}, four[6] = {0, 0, 0, 0, RINKOLZA_NO_LABEL, 0};
    /* the list and its length; side and count of transitions; the matches of 0 and of 5 in machine 1 */
    static const uint32_t lists[][7] = {{0, 0, 0, RINKOLZA_SIDE_OUTPUT, 1, 1, 1}, {5, 9, 2, RINKOLZA_SIDE_INPUT, 2, 2, 0}, {9, 9, 2, RINKOLZA_SIDE_OUTPUT, 1, 1, 1}};
    static const uint32_t bad[][2] = {{5, 0}, {RINKOLZA_NO_LABEL, 5}};
    size_t i;
    for (i = 0; i < LEN(lists); i++) {
        const uint32_t *g = lists[i];
        need(rinkolza_open(six, 6, session, 9, one, LEN(one), two, LEN(two), NULL, 0, 0, NULL, 0, 0, g, g[2], heads, HEADS, states, LEN(states), trs, LEN(trs)) == 0, "an opening with ignored labels");
        need(session[RINKOLZA_SESSION_SIDE] == g[3], "the side with ignored labels");
        need(rinkolza_expand(session, 9, one, LEN(one), two, LEN(two), NULL, 0, 0, NULL, 0, 0, g, g[2], heads, HEADS, states, LEN(states), trs, LEN(trs), 0, answer, 2) == 0, "an expansion with ignored labels");
        need(answer[1] == g[4] && trs[0] == 1 && trs[1] == 6 && (g[4] == 1 || (trs[RINKOLZA_TR_WORDS] == 1 && trs[RINKOLZA_TR_WORDS + 1] == 0)), "moves with ignored labels");
        need(rinkolza_fan_out(six, 6, one, LEN(one), two, LEN(two), NULL, 0, 0, NULL, 0, 0, g, g[2], 1, 0, 0, answer, 1) == 0 && answer[0] == g[5], "a look-up of epsilon with ignored labels");
        need(rinkolza_fan_out(six, 6, one, LEN(one), two, LEN(two), NULL, 0, 0, NULL, 0, 0, g, g[2], 1, 0, 5, answer, 1) == 0 && answer[0] == g[6], "a look-up of an ignored label");
    }
    for (i = 0; i < LEN(bad); i++) {
        need(rinkolza_open(four, 6, session, 9, one, LEN(one), two, LEN(two), NULL, 0, 0, NULL, 0, 0, bad[i], 2, heads, HEADS, states, LEN(states), trs, LEN(trs)) == RINKOLZA_REFUSED_IGNORED, "a list with 0 or no label");
        need(rinkolza_open(four, 6, session, 9, one, LEN(one), two, 3, NULL, 0, 0, NULL, 0, 0, bad[i], 2, heads, HEADS, states, LEN(states), trs, LEN(trs)) == RINKOLZA_REFUSED_MACHINE_2, "3 before 18");
        need(rinkolza_run(session, 9, one, LEN(one), two, LEN(two), NULL, 0, 0, NULL, 0, 0, bad[i], 2, heads, HEADS, states, LEN(states), trs, LEN(trs)) == RINKOLZA_REFUSED_IGNORED, "a run by a list with 0 or no label");
    }
}

/* How many matches a label has. Machine 2 has an epsilon, the label 3 twice and sigma, 9; machine 1 writes 3 and then 9, where that is a label like others. */
static void look_ups(void) {
    static const uint32_t one[] = {1, 2, 1, 0, 0, 0, 1, 1, 0, 1, 3, 0, 0, 2, 1, 9, 0, 0, 0};
    static const uint32_t two[] = {1, 4, 1, 0, 0, 0, 1, 1, 0, 0, 5, 0, 0, 2, 3, 6, 0, 0, 3, 3, 7, 0, 0, 4, 9, 8, 0, 0, 0};
    static const uint32_t six[7] = {RINKOLZA_COST, RINKOLZA_SEQUENCE, RINKOLZA_NO_LABEL, 0, 9, RINKOLZA_REWRITE_BY_MARK, 0}, allowed[] = {4};
    /* machine, state, label, whether 4 alone is allowed; what is returned, and the number */
    static const uint32_t asked[][6] = {
        {2, 0, 3, 0, 0, 3}, {2, 0, 3, 1, 0, 2}, {2, 0, 4, 1, 0, 1}, {2, 0, RINKOLZA_EPSILON, 0, 0, 2}, {2, 0, RINKOLZA_NO_LABEL, 0, 0, 1}, {1, 0, 9, 0, 0, 1},
        {1, 0, RINKOLZA_EPSILON, 0, 0, 1}, {2, 0, 9, 0, RINKOLZA_REFUSED_SIGMA_WALKED, 77}, {2, 1, 9, 0, RINKOLZA_REFUSED_NOT_FOUND, 77}, {3, 0, 3, 0, RINKOLZA_REFUSED_NOT_FOUND, 77},
    };
    uint32_t number[2];
    size_t i, n;
    for (i = 0; i < LEN(asked); i++) {
        const uint32_t *a = asked[i];
        number[0] = number[1] = 77;
        need(rinkolza_fan_out(six, 6, one, LEN(one), two, LEN(two), NULL, 0, 0, allowed, 1, a[3], NULL, 0, a[0], a[1], a[2], number, RINKOLZA_FAN_OUT_WORDS) == a[4], "what a look-up returns");
        need(number[0] == a[5] && number[1] == 77, "the number of a look-up");
    }
    /* settings of one word too few or too many, and an answer of none or of two */
    for (n = 0; n <= 2; n++) {
        number[0] = 77;
        need(rinkolza_fan_out(six, 5 + n, one, LEN(one), two, LEN(two), NULL, 0, 0, NULL, 0, 0, NULL, 0, 2, 0, 3, number, 1) == (n == 1 ? 0 : 1), "a look-up: settings");
        need(number[0] == (n == 1 ? 3 : 77), "a look-up: written");
        number[0] = 77;
        need(rinkolza_fan_out(six, 6, one, LEN(one), two, LEN(two), NULL, 0, 0, NULL, 0, 0, NULL, 0, 2, 0, 3, number, n) == (n == 1 ? 0 : 1), "a look-up: answer");
        need(number[0] == (n == 1 ? 3 : 77), "a look-up: written");
    }
}

/* The listing of document 01. */
static void list(void) {
    static const char *const sides[3] = {"input", "output", "both"};
    uint32_t n, k;
    need(open_it() == 0, "the opening");
    need(run_it() == 0, "the run");
    printf("side %s\n", sides[session[RINKOLZA_SESSION_SIDE]]);
    for (n = 0; n < session[RINKOLZA_SESSION_USED_STATES]; n++) {
        const uint32_t *s = states + RINKOLZA_STATE_WORDS * n;
        need(final_it(n) == 0, "a final weight");
        printf("s %u %u %u %u ", n, s[0], s[1], s[2]);
        if (answer[0]) {
            printf("%u\n", answer[1]);
        } else {
            printf("-\n");
        }
        records_it(n);
        for (k = 0; k < answer[1]; k++) {
            const uint32_t *t = trs + RINKOLZA_TR_WORDS * (answer[0] - 1 + k);
            printf("t %u %u %u %u\n", t[0], t[1], t[2], t[3]);
        }
    }
    printf("end %u %u\n", session[RINKOLZA_SESSION_USED_STATES], session[RINKOLZA_SESSION_USED_TRS]);
}

/* A slice that ends where a page begins that nobody may touch: a word read or written past its end stops the program. (The archive is not compiled with a sanitizer, which would not see it.) */
typedef struct {
    uint32_t *w, *old;
    size_t n;
} slice;

#define SLICES 10
#define LENDINGS (2 * SLICES + 3)
#define PAGES 8

/* Slice `which`, a second one of the sort at SLICES + `which`, a memo at 2 * SLICES and behind, or a number of matches after them: `held` words of `from`, then others. */
static slice lend(int which, const uint32_t *from, size_t n, size_t held) {
    static unsigned char *ends[LENDINGS];
    static uint32_t olds[LENDINGS][RINKOLZA_STATE_WORDS * RECORDS];
    slice s;
    size_t i;
    if (ends[which] == NULL) {
        size_t page = (size_t)sysconf(_SC_PAGESIZE);
        unsigned char *p = mmap(NULL, (PAGES + 1) * page, PROT_READ | PROT_WRITE, MAP_PRIVATE | MAP_ANONYMOUS, -1, 0);
        need(p != MAP_FAILED && sizeof(olds[0]) <= PAGES * page, "memory of the test");
        need(mprotect(p + PAGES * page, page, PROT_NONE) == 0, "memory of the test");
        ends[which] = p + PAGES * page;
    }
    s.n = n;
    s.w = (uint32_t *)(void *)ends[which] - n;
    s.old = olds[which];
    for (i = 0; i < n; i++) {
        s.w[i] = s.old[i] = i < held ? from[i] : 77;
    }
    return s;
}

static int same(slice s) { return memcmp(s.w, s.old, s.n * sizeof(uint32_t)) == 0; }

static uint32_t seed = 1;

static uint32_t draw(void) {
    seed = seed * UINT32_C(1664525) + UINT32_C(1013904223);
    return seed >> 8;
}

static unsigned long calls, refused, trusted, recalled, expanded, looked_up, quiet, quietly;

/* What a call after the opening is lent, the slices in the order of `all` below; without the session, and with it. */
#define REST(x) (x)[2].w, (x)[2].n, (x)[3].w, (x)[3].n, (x)[8].w, (x)[8].n, has, (x)[8].w, (x)[8].n, has, (x)[9].w, (x)[9].n, (x)[4].w, (x)[4].n, (x)[5].w, (x)[5].n, (x)[6].w, (x)[6].n
#define LENT(x) (x)[1].w, (x)[1].n, REST(x)

/* Whether the checks 1 to 8 and 18 pass, for a session of another length with the words that it has and 0 for those that it lacks. */
static int passes(const slice *x, uint32_t has) {
    uint32_t nine[9] = {0}, two[2], r;
    memcpy(nine, x[1].w, (x[1].n < 9 ? x[1].n : 9) * sizeof(uint32_t));
    r = rinkolza_final_weight(nine, 9, REST(x), 0, two, 2);
    return r == 0 || (r >= 9 && r != RINKOLZA_REFUSED_IGNORED);
}

/* All final weights in one go: as one by one. */
static void weigh(const slice *x, uint32_t has, uint32_t used) {
    static uint32_t all[2 * RECORDS + 1];
    uint32_t n, r = 0, two[2], got;
    memset(all, 77, sizeof all);
    got = rinkolza_trusted_final_weights(LENT(x), all, 2 * used);
    for (n = 0; n < used && r == 0; n++) {
        r = rinkolza_final_weight(LENT(x), n, two, 2);
        if (got == 0) need(all[2 * n] == two[0] && all[2 * n + 1] == two[1], "all final weights: a weight");
    }
    need(r == got && all[2 * used] == 77 * UINT32_C(16843009), "all final weights");
    need(got == 0 || used == 0 || all[0] == 77 * UINT32_C(16843009), "all final weights: refused and written");
    need(rinkolza_trusted_final_weights(LENT(x), all, 2 * used + 1) == 1, "all final weights: length");
}

/* What the calls that do not check have remembered of m1 and m2 since `open_it`, and zeros. */
static uint32_t memos[2][RINKOLZA_MEMO_WORDS];
static const uint32_t zeros[RINKOLZA_MEMO_WORDS];

static uint32_t open_anew(void) {
    memset(memos, 0, sizeof memos);
    return open_it();
}

/* Whether machines, settings, side and ignored labels, of which there were none, are those of the opening. */
static int as_opened(const slice *x) {
    return x[9].n == 0 && x[1].n == 9 && memcmp(x[1].w, session, 7 * sizeof(uint32_t)) == 0 && memcmp(x[2].w, m1, sizeof m1) == 0 && memcmp(x[3].w, m2, sizeof m2) == 0;
}

/* Expands or runs (calls 1 and 3) without checks and with memos: those of the opening, where the words are its own; else zeros, which know nothing of any machine. */
static uint32_t remember(int call, const slice *y, uint32_t n, uint32_t has, uint32_t *next) {
    int i, own = as_opened(y), knows;
    uint32_t r;
    slice memo[2];
    if (draw() % 64 == 0) memset(memos[draw() % 2], 0, sizeof memos[0]);
    knows = own && memcmp(memos[0], zeros, sizeof zeros) != 0 && memcmp(memos[1], zeros, sizeof zeros) != 0;
    for (i = 0; i < 2; i++) memo[i] = lend(2 * SLICES + i, own ? memos[i] : zeros, RINKOLZA_MEMO_WORDS, RINKOLZA_MEMO_WORDS);
    if (call == 1) r = rinkolza_trusted_expand(LENT(y), memo[0].w, memo[1].w, n, y[7].w, y[7].n);
    else r = rinkolza_trusted_run(LENT(y), memo[0].w, memo[1].w, 0, RINKOLZA_MAX, next, 2);
    for (i = 0; own && i < 2; i++) memcpy(memos[i], memo[i].w, sizeof memos[i]);
    recalled += knows && !same(y[5]);
    return r;
}

/* The call that does not check, on copies of the words that `x` had at the call's entry: it leaves what the call that checks left in `x`, and returns the same. */
static void trust(int call, const slice *x, uint32_t n, uint32_t has, uint32_t r) {
    slice y[SLICES];
    uint32_t got = 0, next[2] = {0, 0};
    int i;
    for (i = 0; i < SLICES; i++) y[i] = lend(SLICES + i, x[i].old, x[i].n, x[i].n);
    if (!passes(y, has)) return;
    switch (call) {
    case 2: got = rinkolza_trusted_final_weight(LENT(y), n, y[7].w, y[7].n); break;
    case 1:
    case 3: got = remember(call, y, n, has, next); break;
    default: rinkolza_trusted_records(LENT(y), n, y[7].w, y[7].n); break;
    }
    trusted++;
    need(got == r, "the call that does not check returns another number");
    for (i = 0; i < SLICES; i++) need(memcmp(x[i].w, y[i].w, x[i].n * sizeof(uint32_t)) == 0, "the call that does not check leaves other words");
    if (y[1].n != 9) return;
    weigh(y, has, y[1].w[RINKOLZA_SESSION_USED_STATES]);
    if (call == 3) need(next[1] == y[1].w[RINKOLZA_SESSION_USED_STATES] - next[0] && (r != 0) == (next[1] > 0) && (r == 0 || y[5].w[RINKOLZA_STATE_WORDS * next[0] + 3] == 0), "where a run stopped");
}

/* A look-up on the words of an opening that returned r: refused by 1 to 7 and 18 as that is, and written to where it is accepted alone. A session of another length is the opening's own 1. */
static void look_up(const slice *x, uint32_t has, uint32_t r) {
    uint32_t label = draw() % 4 ? draw() % 8 : RINKOLZA_MAX - draw() % 2, got;
    slice a = lend(2 * SLICES + 2, answer, draw() % 8 ? 1 : draw() % 3, 1);
    got = rinkolza_fan_out(x[0].w, x[0].n, x[2].w, x[2].n, x[3].w, x[3].n, x[8].w, x[8].n, has, x[8].w, x[8].n, has, x[9].w, x[9].n, 1 + draw() % 2, draw() % 4, label, a.w, a.n);
    looked_up += got == 0;
    need(got == 0 || same(a), "a look-up that was refused wrote");
    need(got == 0 || got == 9 || got == 11 || got == 18 || got < 8, "a look-up: a number of no refusal of it");
    if (a.n != 1 || x[0].n != 6) need(got == 1, "a look-up: lengths");
    else if (r == 0 || r == 13) need(got == 0 || got == 9 || got == 11, "a look-up: refused where an opening is not");
    else if (x[1].n == 9) need(got == r, "a look-up: another refusal than the opening's");
}

/* Three in four times no ignored labels; else up to three, seldom one that is refused. */
static slice some_ignored(void) {
    uint32_t list[3];
    size_t i, n = draw() % 4 ? 0 : 1 + draw() % 3;
    for (i = 0; i < n; i++) list[i] = draw() % 8 ? 1 + draw() % 8 : draw() % 2 - 1;
    return lend(9, list, n, n);
}

/* All five calls, and with the opening a look-up, on fresh copies of the words, with slices of the given lengths and, where `damage` is not 0, some words replaced. */
static void all_calls(size_t settings_len, size_t session_len, size_t answer_len, size_t heads_len, size_t states_len, size_t trs_len, int damage) {
    int call, i;
    for (call = 0; call < 5; call++) {
        slice six = lend(0, settings, settings_len, 6), s = lend(1, session, session_len, 9), a = lend(7, answer, answer_len, 2);
        slice x = lend(2, m1, LEN(m1), LEN(m1)), y = lend(3, m2, LEN(m2), LEN(m2)), l = lend(8, m1, 3, 3);
        slice g = some_ignored(), h = lend(4, heads, heads_len, HEADS), st = lend(5, states, states_len, LEN(states)), t = lend(6, trs, trs_len, LEN(trs));
        slice all[SLICES];
        uint32_t n = draw() % 6, r = 0, has = draw() % 3;
        all[0] = six, all[1] = s, all[2] = x, all[3] = y, all[4] = h, all[5] = st, all[6] = t, all[7] = a, all[8] = l, all[9] = g;
        for (i = 0; i < damage; i++) {
            slice hurt = all[draw() % 7];
            if (hurt.n) {
                size_t at = draw() % hurt.n % 32;
                hurt.w[at] = draw() % 4 ? draw() % 8 : RINKOLZA_MAX - draw() % 2;
                hurt.old[at] = hurt.w[at];
            }
        }
        switch (call) {
        case 0: r = rinkolza_open(six.w, six.n, s.w, s.n, x.w, x.n, y.w, y.n, l.w, l.n, has, l.w, l.n, has, g.w, g.n, h.w, h.n, st.w, st.n, t.w, t.n); break;
        case 1: r = rinkolza_expand(LENT(all), n, a.w, a.n); break;
        case 2: r = rinkolza_final_weight(LENT(all), n, a.w, a.n); break;
        case 3: r = rinkolza_run(LENT(all)); break;
        default: rinkolza_records(LENT(all), n, a.w, a.n); break;
        }
        if (call != 0) trust(call, all, n, has, r);
        else look_up(all, has, r);
        calls++;
        refused += r != 0;
        quiet += g.n > 0 && r != 18;
        need(r <= 13 || (r == 18 && g.n > 0), "a number of no refusal");
        need(same(six) && same(x) && same(y) && same(l) && same(g), "a const slice was written to");
        if (call == 0 && (settings_len != 6 || session_len != 9)) need(r == 1, "open: lengths");
        if ((call == 1 || call == 2) && (session_len != 9 || answer_len != 2)) need(r == 1, "expand or final weight: lengths");
        if (call == 3 && session_len != 9) need(r == 1, "run: length");
        if (call == 4 && answer_len == 2 && session_len != 9) need(a.w[0] == 0 && a.w[1] == 0, "records: length");
        if (call == 4 && answer_len != 2) need(same(a), "records: answer");
        if (call == 2 || call == 4) need(same(s) && same(h) && same(st) && same(t), "final weight or records wrote");
        /* "A refused call changes no lent word"; a run keeps what it expanded before it was refused at a state. */
        if (r != 0 && (call != 3 || r < 10 || r == 18)) need(same(s) && same(h) && same(st) && same(t) && same(a), "a refused call wrote");
    }
}

#define STATES 40
#define MOST 4

/* A drawn machine whose lists, of up to MOST records, rise in word `inner`; the records of a list stand one after the other or STATES apart. */
static void draw_machine(uint32_t *m, uint32_t inner) {
    uint32_t s, k, apart = draw() % 2, *state = m + 6, *tr = state + 3 * STATES;
    const uint32_t header[6] = {STATES, STATES * MOST, 1, 0, 0, 0};
    memcpy(m, header, sizeof header);
    m[3 + inner] = draw() % 2;
    for (s = 0; s < STATES; s++) {
        uint32_t count = draw() % (MOST + 1), label = draw() % 3, first = apart ? s + 1 : MOST * s + 1, step = apart ? STATES : 1;
        uint32_t record[3] = {count ? first : 0, draw() % 2, 0};
        memcpy(state + 3 * s, record, sizeof record);
        for (k = 0; k < MOST; k++) {
            uint32_t own = first + k * step, *to = tr + 5 * (own - 1);
            label += draw() % 2;
            to[inner] = label, to[1 - inner] = draw() % 3, to[2] = draw() % 9, to[3] = draw() % STATES, to[4] = k + 1 < count ? own + step : 0;
        }
    }
}

/* What is lent for a composition of drawn machines: `side` 0 for the calls that check, 1 for those that do not. */
#define DRAWN(side) nine[side], 9, drawn[0], LEN(drawn[0]), drawn[1], LEN(drawn[1]), NULL, 0, 0, NULL, 0, 0, list, listed, h[side], HEADS, st[side], LEN(st[side]), t[side], LEN(t[side])

/* All states one by one, with checks and without, with ignored labels, which may leave no side, and without; the memos are lent all along, and now and then one is put back to zeros. Then the rest by a run. */
static void one_by_one(void) {
    static uint32_t drawn[2][6 + 3 * STATES + 5 * STATES * MOST], nine[2][9], h[2][HEADS], st[2][RINKOLZA_STATE_WORDS * RECORDS], t[2][RINKOLZA_TR_WORDS * RECORDS];
    uint32_t kind = draw() % 2, filter = draw() % (RINKOLZA_NO_MATCH + 1), n, r, got, two[2], other[2];
    const uint32_t six[6] = {kind, filter, RINKOLZA_NO_LABEL, 0, RINKOLZA_NO_LABEL, 0}, list[2] = {1 + draw() % 5, 1 + draw() % 5};
    const size_t listed = draw() % 3;
    draw_machine(drawn[0], 1);
    draw_machine(drawn[1], 0);
    r = rinkolza_open(six, 6, DRAWN(0));
    need(r == 0 || (r == RINKOLZA_REFUSED_NO_SIDE && listed > 0), "an opening of drawn machines");
    if (r) return;
    need(rinkolza_open(six, 6, DRAWN(1)) == 0, "an opening of drawn machines");
    memset(memos, 0, sizeof memos);
    for (n = 0; n < nine[0][RINKOLZA_SESSION_USED_STATES] && n < RECORDS / 2; n++) {
        two[0] = two[1] = other[0] = other[1] = 77;
        if (draw() % 64 == 0) memset(memos[draw() % 2], 0, sizeof memos[0]);
        r = rinkolza_expand(DRAWN(0), n, two, 2);
        got = rinkolza_trusted_expand(DRAWN(1), memos[0], memos[1], n, other, 2);
        need(got == r && memcmp(two, other, sizeof two) == 0 && memcmp(nine[0], nine[1], sizeof nine[0]) == 0, "one by one: another answer");
        expanded += r == 0, quietly += r == 0 && listed > 0;
    }
    r = rinkolza_run(DRAWN(0));
    got = rinkolza_trusted_run(DRAWN(1), memos[0], memos[1], 0, RINKOLZA_MAX, other, 2);
    need(got == r && memcmp(nine[0], nine[1], sizeof nine[0]) == 0 && memcmp(h[0], h[1], sizeof h[0]) == 0, "one by one: the run");
    need(memcmp(st[0], st[1], sizeof st[0]) == 0 && memcmp(t[0], t[1], sizeof t[0]) == 0, "one by one: other records");
}

int main(void) {
    size_t n;
    int round;
    each_filter();
    any_letter();
    joiners();
    look_ups();
    list();

    /* expand again: as stored */
    need(expand_it(2) == 0 && answer[0] == 3 && answer[1] == 1, "expand as stored");
    need(expand_it(4) == RINKOLZA_REFUSED_NOT_FOUND, "a state not found");
    need(answer[0] == 3 && answer[1] == 1, "a refused call wrote into the answer");

    for (n = 0; n <= 12; n++) {
        all_calls(n, 9, 2, HEADS, LEN(states), LEN(trs), 0);
        all_calls(6, n, 2, HEADS, LEN(states), LEN(trs), 0);
        all_calls(6, 9, n, HEADS, LEN(states), LEN(trs), 0);
        all_calls(6, 9, 2, n, LEN(states), LEN(trs), 0);
        all_calls(6, 9, 2, HEADS, n, LEN(trs), 0);
        all_calls(6, 9, 2, HEADS, LEN(states), n, 0);
    }
    need(open_anew() == 0 && expand_it(0) == 0, "half a run");
    for (n = 0; n <= 24; n++) {
        all_calls(6, 9, 2, HEADS, n, LEN(trs), 0);
        all_calls(6, 9, 2, HEADS, LEN(states), n, 0);
    }
    for (round = 0; round < 20000; round++) {
        all_calls(6, 9, 2, 1 + draw() % 4, draw() % 48, draw() % 40, (int)(draw() % 4));
    }
    need(trusted > 10000, "few calls that do not check");
    need(looked_up > 1000, "few look-ups");
    for (round = 0; round < 400; round++) one_by_one();
    need(recalled > 1000 && expanded > 10000, "few expansions with memos that know something");
    need(quiet > 10000 && quietly > 1000, "few calls with ignored labels");
    fprintf(stderr, "%lu calls, %lu refused, %lu made without checks too, %lu of them expanded by memos of calls before; %lu expansions of drawn machines; %lu look-ups; with ignored labels %lu calls and %lu expansions\n", calls, refused, trusted, recalled, expanded, looked_up, quiet, quietly);
    return 0;
}

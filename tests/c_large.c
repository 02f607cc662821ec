/* A million states and two million transitions: a chain and a drawn machine, each composed with one of two states, in memory that is doubled on 13. Every word of the records, the heads and
 * all final weights are held to a plain composition made here. It prints what it took; it ends with 1 at the first thing that is wrong. */
#include <stdio.h>
#include <stdlib.h>
#include <string.h>
#include <time.h>

#include "../include/rinkolza.h"

#define STATES UINT32_C(1000000)
#define M1_WORDS (6 + 3 * (size_t)STATES + 5 * 2 * (size_t)STATES)
#define NONE RINKOLZA_MAX
/* What every call is lent: the machines, no allowed lists, no ignored labels, memory. */
#define LENT m1, M1_WORDS, m2, LEN(m2), NULL, 0, 0, NULL, 0, 0, NULL, 0, heads, HEADS, states, RINKOLZA_STATE_WORDS * state_room, trs, RINKOLZA_TR_WORDS * tr_room
#define LEN(a) (sizeof(a) / sizeof((a)[0]))
/* As many as can be used, S1 + 31 S2. */
#define HEADS (STATES + 31 * 2)

static const uint32_t settings[6] = {RINKOLZA_COST, RINKOLZA_SEQUENCE, RINKOLZA_NO_LABEL, 0, RINKOLZA_NO_LABEL, 0};
/* Two states, inputs marked sorted, so that machine 1 is walked: the first takes the labels 1 to 3, the second 1 and 3. */
static const uint32_t m2[6 + 3 * 2 + 5 * 5] = {2, 5, 1, 1, 0, 0, 1, 1, 4, 4, 1, 0, 1, 11, 1, 1, 2, 2, 12, 2, 0, 3, 3, 13, 3, 1, 0, 1, 21, 1, 0, 5, 3, 23, 2, 1, 0};
static uint32_t *m1, session[9], *heads, *states, *trs, *weights, *plain_states, *plain_trs, *plain_heads;
static uint32_t memo1[RINKOLZA_MEMO_WORDS], memo2[RINKOLZA_MEMO_WORDS];
static size_t state_room, tr_room, plain_found, plain_stored;
static double begun;

static void need(int ok, const char *what) {
    if (!ok) {
        printf("wrong: %s\n", what);
        exit(1);
    }
}

static uint32_t *words(uint32_t *old, size_t count) {
    uint32_t *grown = realloc(old, count * sizeof *grown);
    need(grown != NULL, "no memory for the test");
    return grown;
}

static double seconds(void) {
    double now = (double)clock() / CLOCKS_PER_SEC, took = now - begun;
    begun = now;
    return took;
}

static uint32_t draw(uint32_t below) {
    static uint32_t seed = 1;
    seed = seed * UINT32_C(1664525) + UINT32_C(1013904223);
    return (uint32_t)(((uint64_t)(seed >> 4) * below) >> 28);
}

/* Two transitions from each state: in the chain to the next one (from the last to itself), else to drawn ones. */
static void make_machine(int chain) {
    uint32_t s, k, t = 0, *state = m1 + 6, *tr = m1 + 6 + 3 * STATES;
    static const uint32_t header[6] = {STATES, 2 * STATES, 1, RINKOLZA_MARK_UNKNOWN, RINKOLZA_MARK_UNKNOWN, 0};
    memcpy(m1, header, sizeof header);
    for (s = 0; s < STATES; s++, state += 3) {
        state[0] = t + 1;
        state[1] = s % 3 == 0;
        state[2] = s % 3 == 0 ? s % 7 : 0;
        for (k = 0; k < 2; k++, tr += 5) {
            tr[0] = 1 + draw(9);
            tr[1] = chain ? 3 - 2 * k : 1 + draw(3);
            tr[2] = draw(100);
            tr[3] = !chain ? draw(STATES) : s + 1 < STATES ? s + 1 : s;
            tr[4] = k == 0 ? t + 2 : 0;
            t++;
        }
    }
}

/* The number of a pair of states, new where it has none; with its record, and its head. */
static uint32_t plain_number(uint32_t *numbers, uint32_t s1, uint32_t s2) {
    uint32_t *number = numbers + 2 * s1 + s2, *head = plain_heads + (s1 + 31 * s2) % HEADS;
    if (*number == NONE) {
        const uint32_t record[RINKOLZA_STATE_WORDS] = {s1, s2, 0, 1, 0, *head};
        *number = (uint32_t)plain_found++;
        memcpy(plain_states + RINKOLZA_STATE_WORDS * (size_t)*number, record, sizeof record);
        *head = *number + 1;
    }
    return *number;
}

static const uint32_t *tr_of(const uint32_t *m, uint32_t t) { return m + 6 + 3 * m[0] + 5 * (t - 1); }

/* The composition by its plain rule, for machines without epsilons of which the first is walked. */
static void plain(void) {
    uint32_t *numbers = words(NULL, 2 * STATES), n, t, u, last;
    memset(numbers, 255, 2 * STATES * sizeof *numbers);
    memset(plain_heads, 0, HEADS * sizeof *plain_heads);
    plain_found = plain_stored = 0;
    plain_number(numbers, 0, 0);
    for (n = 0; n < plain_found; n++) {
        uint32_t *state = plain_states + RINKOLZA_STATE_WORDS * (size_t)n;
        last = (uint32_t)plain_stored;
        for (t = m1[6 + 3 * state[0]]; t != 0; t = tr_of(m1, t)[4]) {
            for (u = m2[6 + 3 * state[1]]; u != 0; u = tr_of(m2, u)[4]) {
                const uint32_t *a = tr_of(m1, t), *b = tr_of(m2, u);
                uint32_t *to = plain_trs + RINKOLZA_TR_WORDS * plain_stored;
                if (a[1] != b[0]) continue;
                plain_stored++;
                to[0] = a[0], to[1] = b[1], to[2] = a[2] + b[2], to[3] = plain_number(numbers, a[3], b[3]);
                to[4] = (uint32_t)plain_stored + 1;
            }
        }
        if (plain_stored > last) state[4] = last + 1, plain_trs[RINKOLZA_TR_WORDS * plain_stored - 1] = 0;
    }
    free(numbers);
}

/* The room of a sort is doubled where more than half of it is used, of both sorts where of neither. */
static void lengthen(void) {
    int more_states = session[RINKOLZA_SESSION_USED_STATES] > state_room / 2, more_trs = session[RINKOLZA_SESSION_USED_TRS] > tr_room / 2;
    if (more_states || !more_trs) state_room *= 2;
    if (more_trs || !more_states) tr_room *= 2;
    states = words(states, RINKOLZA_STATE_WORDS * state_room);
    trs = words(trs, RINKOLZA_TR_WORDS * tr_room);
}

/* Opens, and runs to the end. */
static double run(void) {
    uint32_t next[2] = {0, 1}, refused;
    double opened;
    state_room = tr_room = 1024;
    states = words(states, RINKOLZA_STATE_WORDS * state_room);
    trs = words(trs, RINKOLZA_TR_WORDS * tr_room);
    seconds();
    need(rinkolza_open(settings, 6, session, 9, LENT) == 0, "the opening");
    need(session[RINKOLZA_SESSION_SIDE] == RINKOLZA_SIDE_INPUT, "the side");
    /* What they know of the machines of another opening is not true of these. */
    memset(memo1, 0, sizeof memo1);
    memset(memo2, 0, sizeof memo2);
    opened = seconds();
    while (next[1] > 0) {
        refused = rinkolza_trusted_run(session, 9, LENT, memo1, memo2, next[0], RINKOLZA_MAX, next, 2);
        need(refused == 0 || (refused == RINKOLZA_REFUSED_NO_ROOM && next[1] > 0), "the run");
        if (refused) lengthen();
    }
    return opened;
}

/* All that the run left, against the plain composition; and a call that checks all of it. */
static void compare(void) {
    size_t found = session[RINKOLZA_SESSION_USED_STATES], stored = session[RINKOLZA_SESSION_USED_TRS], n;
    need(found == plain_found && stored == plain_stored, "how many there are");
    need(memcmp(states, plain_states, found * RINKOLZA_STATE_WORDS * sizeof *states) == 0, "a state record");
    need(memcmp(trs, plain_trs, stored * RINKOLZA_TR_WORDS * sizeof *trs) == 0, "a transition record");
    need(memcmp(heads, plain_heads, HEADS * sizeof *heads) == 0, "a head");
    weights = words(weights, 2 * found);
    need(rinkolza_trusted_final_weights(session, 9, LENT, weights, 2 * found) == 0, "the final weights");
    for (n = 0; n < found; n++) {
        const uint32_t *s = states + RINKOLZA_STATE_WORDS * n, *a = m1 + 6 + 3 * s[0], *b = m2 + 6 + 3 * s[1];
        need(weights[2 * n] == (a[1] && b[1]) && weights[2 * n + 1] == (a[1] && b[1] ? a[2] + b[2] : 0), "a final weight");
    }
    need(rinkolza_run(session, 9, LENT) == 0 && session[RINKOLZA_SESSION_USED_STATES] == found, "the run again, with all checks");
}

static void compose(const char *name, int chain) {
    double opened, ran, records;
    double lent, own = 4e-6 * (double)M1_WORDS;
    make_machine(chain);
    plain();
    opened = run();
    ran = seconds();
    compare();
    records = (double)plain_found + (double)plain_stored;
    lent = 4e-6 * (HEADS + (double)(RINKOLZA_STATE_WORDS * state_room) + (double)(RINKOLZA_TR_WORDS * tr_room));
    printf("%s: %lu states and %lu transitions, %.1f MB of words, opened in %.2f s; composed: %lu states and %lu transitions in %.2f s, %.0f ns for each; lent %.1f MB, %.1f bytes for each\n", name,
           (unsigned long)STATES, (unsigned long)(2 * STATES), own, opened, (unsigned long)plain_found, (unsigned long)plain_stored, ran, 1e9 * ran / records, lent, 1e6 * lent / records);
    need(plain_found > STATES / 2 && plain_stored > STATES, "the composed machine is small");
}

int main(void) {
    m1 = words(NULL, M1_WORDS);
    heads = words(NULL, HEADS);
    plain_heads = words(NULL, HEADS);
    plain_states = words(NULL, RINKOLZA_STATE_WORDS * 2 * (size_t)STATES);
    plain_trs = words(NULL, RINKOLZA_TR_WORDS * 6 * (size_t)STATES);
    compose("chain", 1);
    compose("drawn", 0);
    free(m1), free(heads), free(plain_heads), free(plain_states), free(plain_trs), free(states), free(trs), free(weights);
    return 0;
}

/* Memory that grows: where a call is refused with 13, lengthen the state and transition slices and call again; what was found stays, and the composition goes on. Heads are lent once.
 * Nobody else writes this memory, so the calls after the opening are those that do not check. It composes the machines of README's example and prints the listing that `composed`
 * prints; each 13 is told on standard error. */
#include <stdio.h>
#include <stdlib.h>

#include "../include/rinkolza.h"

#define LEN(a) (sizeof(a) / sizeof((a)[0]))
/* What every call is lent: the machines, no allowed lists, no ignored labels, memory. */
#define LENT m1, LEN(m1), m2, LEN(m2), NULL, 0, 0, NULL, 0, 0, NULL, 0, heads, LEN(heads), states, RINKOLZA_STATE_WORDS * room, trs, RINKOLZA_TR_WORDS * room

static const uint32_t settings[6] = {RINKOLZA_COST, RINKOLZA_SEQUENCE, RINKOLZA_NO_LABEL, 0, RINKOLZA_NO_LABEL, 0};
static const uint32_t m1[] = {3, 2, 1, 0, 0, 0, 1, 0, 0, 2, 0, 0, 0, 1, 0, 1, 0, 1, 1, 0, 2, 5, 2, 2, 0};
static const uint32_t m2[] = {3, 2, 1, 0, 0, 0, 1, 0, 0, 2, 0, 0, 0, 1, 3, 0, 7, 4, 1, 0, 5, 8, 1, 2, 0};
static const char *const sides[3] = {"input", "output", "both"};
static uint32_t heads[16384], session[9], *states, *trs, *weights;
/* Zeros, as they must be after the one opening; from then on the library's own. */
static uint32_t memo1[RINKOLZA_MEMO_WORDS], memo2[RINKOLZA_MEMO_WORDS];
static size_t room; /* records of each sort */

static void lengthen(size_t more) {
    states = realloc(states, RINKOLZA_STATE_WORDS * more * sizeof *states);
    trs = realloc(trs, RINKOLZA_TR_WORDS * more * sizeof *trs);
    weights = realloc(weights, 2 * more * sizeof *weights);
    if (!states || !trs || !weights) exit(2);
    room = more;
}

int main(void) {
    uint32_t next[2] = {0, 1}, part[2], refused, n, k;
    lengthen(1);
    refused = rinkolza_open(settings, 6, session, 9, LENT);
    /* A run in pieces of two states: next[0] is the state to go on with, next[1] how many are left. */
    while (!refused && next[1] > 0) {
        refused = rinkolza_trusted_run(session, 9, LENT, memo1, memo2, next[0], 2, next, 2);
        if (refused != RINKOLZA_REFUSED_NO_ROOM || room >= RINKOLZA_LIMIT) continue;
        fprintf(stderr, "refused 13 with room for %lu\n", (unsigned long)room);
        lengthen(2 * room), refused = 0;
    }
    if (!refused) refused = rinkolza_trusted_final_weights(session, 9, LENT, weights, 2 * session[RINKOLZA_SESSION_USED_STATES]);
    if (!refused) printf("side %s\n", sides[session[RINKOLZA_SESSION_SIDE]]);
    for (n = 0; !refused && n < session[RINKOLZA_SESSION_USED_STATES]; n++) {
        const uint32_t *s = states + RINKOLZA_STATE_WORDS * n, *w = weights + 2 * n;
        printf(w[0] ? "s %u %u %u %u %u\n" : "s %u %u %u %u -\n", n, s[0], s[1], s[2], w[1]);
        rinkolza_trusted_records(session, 9, LENT, n, part, 2);
        for (k = 0; k < part[1]; k++) {
            const uint32_t *t = trs + RINKOLZA_TR_WORDS * (part[0] - 1 + k);
            printf("t %u %u %u %u\n", t[0], t[1], t[2], t[3]);
        }
    }
    if (refused) printf("refused %u\n", refused);
    else printf("end %u %u\n", session[RINKOLZA_SESSION_USED_STATES], session[RINKOLZA_SESSION_USED_TRS]);
    free(states), free(trs), free(weights);
    return refused != 0;
}

/*
 * rinkolza.h: composition of two weighted transducers, state by state.
 *
 * The library is an archive made by `tests/archive.sh` from the crate
 * crates/rinkolza_c, for x86-64 Linux. Every function below is proved to meet
 * its contract (crates/rinkolza_c/src), an equation with the definitions in
 * crates/rinkolza/specs, crates/calls/specs and crates/fan_outs/specs. Six of
 * them check all that they are given; the five rinkolza_trusted_... do not, and
 * may be called by those alone who own their memory, see below.
 *
 * ---------------------------------------------------------------------------
 * Rules for every call
 *
 * - All words are uint32_t. A slice is a pointer and then its length, counted
 *   in words (not in bytes). The pointer must point to that many words, placed
 *   as uint32_t are; where the length is 0 nothing is read or written through
 *   it, and it may be NULL. A memo is a pointer without a length, to
 *   RINKOLZA_MEMO_WORDS words; it counts as a slice that is not const.
 * - A slice that is not const must not overlap any other slice of the same
 *   call. Slices that are const may overlap each other.
 * - The six functions that check ask nothing else of a caller: any words in
 *   any slice, of any length, and any number are answered. Bad machines,
 *   settings, sessions, memory and lengths get a refusal.
 * - There is no global state, no allocation and no input or output. A call
 *   writes to nothing but the slices that are not const. Two threads may call
 *   at the same time, as long as no slice that one call may write is lent to
 *   the other.
 * - A call returns 0 where it is accepted, else the number of the refusal
 *   (RINKOLZA_REFUSED_..., 1 to 13 or 18). A refused call changes no word of any
 *   slice. The exceptions are rinkolza_run and rinkolza_trusted_run: refused
 *   at a state, they keep the expansions before it, with the session that
 *   belongs to them; and the memos, which may change in any call that is lent
 *   them. The two for records return no number.
 * - Lengths: settings has 6 words, session 9, answer 2 (the answer of
 *   rinkolza_trusted_final_weights: 2 for each found state; of rinkolza_fan_out:
 *   1). With any other length the call is refused with 1 and changes nothing
 *   (rinkolza_records: see there).
 * - rinkolza_run uses at most 128 KiB of stack, rinkolza_expand,
 *   rinkolza_trusted_expand and rinkolza_trusted_run 80 KiB, every other call
 *   16 KiB.
 *
 * ---------------------------------------------------------------------------
 * A machine in words (const, both machines, lent at every call)
 *
 *   header, 6 words:
 *     0  S, the number of states, at most RINKOLZA_LIMIT
 *     1  T, the number of transitions, at most RINKOLZA_LIMIT
 *     2  start state plus one; 0: no start
 *     3  input mark    (RINKOLZA_MARK_...)
 *     4  output mark   (RINKOLZA_MARK_...)
 *     5  acceptor mark: 1 says that input equals output in every
 *        transition, 0 says nothing
 *   then S state records of 3 words:
 *     0  first transition of the state's list, counted from 1; 0: none
 *     1  final: 0 or 1
 *     2  final weight; 0 where it is not final
 *   then T transition records of 5 words:
 *     0  input label
 *     1  output label
 *     2  weight
 *     3  target state, counted from 0
 *     4  next transition of the list, above the own number; 0 ends the list
 *
 * The length is exactly 6 + 3 S + 5 T, some 134 million words at the most.
 * Transitions count from 1, states from 0. Lists may share tails. Label
 * RINKOLZA_EPSILON (0) is epsilon; label RINKOLZA_NO_LABEL (RINKOLZA_MAX) is
 * never a label of a machine. A side's mark is unknown, sorted (no label falls
 * within any state's list) or not sorted; a mark that is false makes the machine
 * malformed, as does a start above S, a first above T, a target not below S, a
 * next not above its own number.
 *
 * Machine 1 is matched on its output labels, machine 2 on its input labels:
 * these are the inner labels, and the composition is the input of machine 1 and
 * the output of machine 2.
 *
 * The side is chosen at the opening. Output mark of machine 1 and input mark of
 * machine 2 both "sorted": both; the first alone: output; the second alone:
 * input; else machine 1 sorted in fact: output; else machine 2 sorted in fact:
 * input; else refusal 7. Under "both" the pair of states decides: one with a
 * sigma transition is looked up on its own side, two such are refusal 10; else
 * the shorter list is walked and looked up in the longer, and equal lengths give
 * input.
 *
 * Moves of a composed state (s1, s2, f), side input: first each epsilon-input
 * transition of s2 alone; then along the list of s1, for output 0 that
 * transition alone and then with each epsilon of s2, for another label with
 * each match in s2. Side output mirrors this, walking s2. The machine that rests
 * supplies label 0, weight one and its own state. The filter keeps a move and
 * gives the next f, or drops it. "none" means that the machine's state has no
 * epsilon on its inner side, "all" that it has only such and is not final; the
 * order within a cell counts. With ignored labels (see below) all this is said of
 * the inner labels after replacement:
 *
 *   move          sequence            alternate           match
 *   1 alone       f=0: 0; else drop   all2: drop;         f=0: none2: 0; all2: drop;
 *                                     none2: 0; else 1         else 1; f=1: 1; f=2: drop
 *   2 alone       all1: drop;         f=1: drop; else 0   f=0: none1: 0; all1: drop;
 *                 none1: 0; else 1                             else 2; f=2: 2; f=1: drop
 *   both epsilon  drop                drop                f=0: 0; else drop
 *   a label       0                   0                   0
 *
 *   move          null                trivial             no-match
 *   1 alone       drop                0                   0
 *   2 alone       drop                0                   0
 *   both epsilon  0                   0                   drop
 *   a label       0                   0                   0
 *
 * The start has f = 0. State numbers count from 0 in the order of first finding.
 *
 * ---------------------------------------------------------------------------
 * Which filter
 *
 * A reading of a machine is a path from its start to a final weight, with no
 * weight that is zero. Two readings, one of each machine, agree where the second
 * reads what the first writes, epsilons left out (and ignored labels, where there
 * are any: they count as epsilons there). Where all found states are
 * expanded, no final weight is refused with 12 and no sigma label is set:
 *
 *   sequence, alternate, match
 *       Each two that agree are one reading of the composition, and it has no
 *       others. Totals of counts and least costs are right.
 *   trivial, no-match
 *       Each two that agree are one reading or more, one for each order in which
 *       their epsilons can be taken: a total of counts may be too large, and who
 *       takes one must not take these filters. A least cost is right. Where one
 *       machine has no epsilon on its inner side, there is one order.
 *   null
 *       Epsilon is a label like others: two readings of as many transitions, with
 *       the same inner labels place by place, epsilons included, are one reading
 *       of the composition. Others that agree are lost: a total of counts may be
 *       too small, a least cost too large. It is for machines whose inner
 *       epsilons must meet.
 *
 * Where neither machine has an epsilon on its inner side all six list the same.
 *
 * With a sigma label on machine 2 alone, side input or both, no output of machine
 * 1 being that label, and all found states expanded and no final weight refused
 * as above: by sequence, alternate and match each two that agree are one reading
 * of the composition, and it has no others. Two agree then where, epsilons left
 * out, the second reads as many labels as the first writes and, place by place,
 * these are equal, or the second's is sigma and the first's is allowed. Weights
 * are multiplied. What is written is the second's output after rewriting; it is
 * its own by RINKOLZA_REWRITE_MATCHED, and by RINKOLZA_REWRITE_BY_MARK where
 * machine 2's acceptor mark is 0. With sigma on machine 1, with sigma on machine
 * 2 and side output, or where an output of machine 1 is the sigma label, nothing
 * is claimed of readings. With ignored labels, outputs, the side and the mark are
 * those after replacement.
 *
 * ---------------------------------------------------------------------------
 * Settings, 6 words (const, for rinkolza_open and rinkolza_fan_out)
 *
 *     0  kind of the weights: RINKOLZA_COST or RINKOLZA_COUNT
 *     1  filter: RINKOLZA_SEQUENCE, _ALTERNATE, _MATCH, _NULL, _TRIVIAL or
 *        _NO_MATCH
 *     2  sigma label of machine 1; RINKOLZA_NO_LABEL: none; 0 is refused
 *     3  rewrite mode of machine 1: RINKOLZA_REWRITE_...
 *     4  sigma label of machine 2; RINKOLZA_NO_LABEL: none; 0 is refused
 *     5  rewrite mode of machine 2: RINKOLZA_REWRITE_...
 *
 * Cost: the product of two weights is their sum, one is 0, zero is
 * RINKOLZA_MAX, and zero with anything is zero. Count: the product is the
 * product, one is 1, zero is 0. A sum of two finite costs that reaches
 * RINKOLZA_MAX, or a product of counts above it, is too large: refusal 12. A
 * final weight equal to zero counts as final for the filters, but the composed
 * state is then not final.
 *
 * Sigma stands for any letter, as OpenFst's does: a label that is neither 0 nor
 * RINKOLZA_NO_LABEL is given all its own matches and then, where the machine's
 * allowed list has it, each sigma transition, rewritten; each in the order of
 * the list. Epsilon is given no sigma transition. Asked for the sigma label
 * itself: refusal 11. A machine with a sigma label must be sorted on its
 * matched side.
 *
 * Allowed lists (const, one for each machine, lent at every call): any words in
 * any order. `has1`, `has2` say whether there is a list: 0, no list, and every
 * label is allowed; anything else, the list counts, and an empty one allows no
 * label. Lend the same lists at every call of a session.
 *
 * ---------------------------------------------------------------------------
 * Ignored labels (const, one list for both machines, lent at every call)
 *
 * Any words in any order, each as often as one likes; but 0 and RINKOLZA_NO_LABEL
 * are refused: 18. A label that stands in the list and is no sigma label counts as
 * 0, epsilon, on machine 1's outputs and on machine 2's inputs, the inner labels:
 * so joiners and soft hyphens, which no rule is to notice. Machine 1's inputs and
 * machine 2's outputs stay as they are. The list is counted among the settings:
 * give every call after an opening the list that the opening was given.
 *
 * An empty list changes nothing at all. With any other every answer is that of
 * the two machines with those labels replaced by 0, and:
 *
 * - machine 1's output mark and machine 2's input mark are read as 0, whatever
 *   they are, also where nothing is replaced;
 * - an acceptor mark is read as 0 where some transition record, in a list or in
 *   none, then has its input and its output apart; else it is read as it is;
 * - sortedness is judged after replacement: for the side and for 5 to 7. Labels
 *   2, 5 are no longer sorted where 5 is ignored;
 * - whether a machine is malformed, 2 and 3, and so whether a mark is false, is
 *   judged on the words as they are lent;
 * - the sigma labels of both machines are exempt, on both: a sigma label in the
 *   list is not replaced. Its transitions match letters as ever, are no epsilons
 *   for the filter, and the other machine walking it is refused, 11. The list is
 *   no empty one for that: the marks are read as 0, and 18 judges it whole.
 *   Allowed lists stay as they are lent;
 * - the label that rinkolza_fan_out is asked for is not replaced: where it is
 *   ignored it has no matches of its own, and sigma's where it is allowed; where
 *   it is the sigma label it is refused, 11, as ever.
 *
 * Beware: since the two marks are read as 0, no list but the empty one leaves the
 * side "both", and side input there is only where machine 1's outputs are not
 * sorted after replacement. With a sigma label on machine 2 any list, though it
 * has no label of either machine, may so change the side to output. Machine 2 is
 * walked then, and its sigma is a label like others: a total may change.
 *
 * Cost: the list is gone through for each inner label that is read, from its first
 * word to that label or else to its end, so that a list of k words costs up to k
 * comparisons more for each transition that is read. The labels that are read most
 * often stand best among its first; that it is sorted is of no use, and words that
 * stand in it twice cost as others do.
 * And an expansion weighs each of its moves before it stores any, as with a sigma
 * label: each look-up goes through the whole of a state's list. With thousands of
 * transitions in both lists that is seconds in place of milliseconds; the label 0
 * in the machines, in place of those to be ignored, costs nothing.
 *
 * ---------------------------------------------------------------------------
 * The session, 9 words
 *
 *     0 to 5  the six settings
 *     6       side: RINKOLZA_SIDE_INPUT, _OUTPUT or _BOTH
 *     7       used states: state records in use
 *     8       used transitions: transition records in use
 *
 * rinkolza_open writes it, expansions and runs carry it on. Give every call the
 * session as the call before it left it. Before the first opening its words may
 * be anything.
 *
 * ---------------------------------------------------------------------------
 * Memory: three slices, lent at every call of a session
 *
 *   heads   any number of words, at least one where both machines have a start.
 *           Head (s1 + 31 s2 + f) mod heads_len has the number of the newest
 *           state record of its chain; 0: none. More heads, shorter chains.
 *   states  records of RINKOLZA_STATE_WORDS words; record n + 1 is state n:
 *             0  s1, the state of machine 1
 *             1  s2, the state of machine 2
 *             2  f, the filter state: 0, 1 or 2; by null, trivial and no-match 0
 *             3  expanded: 0 or 1
 *             4  first transition record of its list, counted from 1; 0: none
 *             5  the next record of its chain; 0 ends it
 *   trs     records of RINKOLZA_TR_WORDS words, counted from 1:
 *             0  input label     1  output label     2  weight
 *             3  target: the number of a composed state
 *             4  next record of the list: the own number plus one; 0 ends it
 *
 * A state's records stand one after the other, in the order of its list: with
 * first and count from rinkolza_expand or rinkolza_records they are the words
 * trs[5 * (first - 1)] up to, not including, trs[5 * (first - 1 + count)].
 * At the limit a slice of records has fewer than 2^27 words, 2^29 bytes.
 *
 * Room is whole records: states_len / 6 and trs_len / 5, of each at most
 * RINKOLZA_LIMIT; what is past that is never read or written. A composition has
 * at most 3 S1 S2 states, by null, trivial and no-match S1 S2. There is no
 * bound for its transitions that is worth lending at once: where a call is
 * refused with 13, lengthen states and trs at their ends and call again
 * (tests/c_grow.c does so). A copy will do, or realloc; the words behind may be
 * anything. To double them keeps the whole cost of copying below that of the
 * last copy taken twice; a wide state is best given room for as many records as
 * its two lists have transitions at once, as each expansion that is refused for
 * lack of room has gone through its moves. Only an opening that is refused with
 * 13 is made again with more heads and a state record. Slices may be lengthened
 * at any time: every call then answers as it would have, or goes on where it
 * would have been refused with 13, and what was given is given again.
 *
 * The heads stay as they are, the same number and words, so lend enough of them
 * at the opening: as many as states are expected, or some 16384 where few are.
 * With so few for a million states a chain has some 60 records, and every
 * look-up walks one. More than S1 + 31 S2 are never used, and more than some
 * 4 (S1 + S2) are seldom worth their memory. Take no multiple of 31: of such
 * heads the states of machine 2 would share every 31st.
 *
 * Before the opening the words of memory may be anything. After it, nobody
 * but these calls may write to memory, or the answers are those of whatever
 * stands there; where the form is broken the call is refused with 8.
 *
 * ---------------------------------------------------------------------------
 * Calls for a caller that owns its memory
 *
 * A call that checks goes through both machines and all used memory that it is
 * lent, whatever it is asked for. The functions rinkolza_trusted_... answer the
 * same without the checks 1 to 8 and 18. They ask that these checks pass. That is
 * proved
 * (OwnedClaim in crates/readings/specs/Owned.antt) for a caller that after an
 * accepted rinkolza_open keeps to this:
 *
 * - every call, of whatever sort, accepted or refused, gets the machines, the
 *   allowed lists, with has1 and has2, and the ignored labels that this opening
 *   got; but a further opening may get others, and where it is accepted all begins
 *   anew;
 * - it gets the session, the heads, the states and the trs as the call before
 *   left them, or the states and trs lengthened at their ends;
 * - nobody but these calls writes to any of them.
 *
 * rinkolza_fan_out, which is lent neither session nor memory, is none of these
 * calls: it may be made at any time, on whatever words.
 *
 * The two that expand, rinkolza_trusted_expand and rinkolza_trusted_run, are
 * lent two memos beside memory: memo1 for machine 1, memo2 for machine 2, each of
 * exactly RINKOLZA_MEMO_WORDS words. A memo holds what a pass over a state's
 * list told (its length, its epsilons, whether its records are consecutive, its
 * largest weight, its longest run of one label), for up to 1024 states of the
 * machine, so that not every expansion walks it again. To expand all states one
 * by one then costs about a third more than a run where they are many; where they
 * are few, a call's own cost tells. Of the memos such a caller owes this:
 *
 * - a memo belongs to one accepted opening and to one machine: before the first
 *   call after that opening which is lent it, it is all zeros;
 * - from then on only these two calls, of that opening, write to it, and it is
 *   lent as memo1 each time, or as memo2 each time; but it may be put back to
 *   zeros at any time, and then knows nothing.
 *
 * What the words of a memo mean is the library's own. No answer depends on them.
 * A call that is refused may have written to them too. The calls that check take
 * no memo, nor do the other three that do not.
 *
 * The words count, not where they stand: copies will do. Anything else is
 * undefined behaviour, and words outside of the slices may be read and written.
 * Where others may write machines, session or memory, or they come from a file,
 * make the calls that check.
 *
 * ---------------------------------------------------------------------------
 * The order of the checks
 *
 * 18 stands after 3 and before 4 in every call that makes these.
 *
 *   rinkolza_open          1, 2, 3, 18, 4 to 7, then 13 (not where a machine
 *                          has no start: then no state is found)
 *   rinkolza_expand        1, 2, 3, 18, 4 to 9; a state that is expanded is
 *                          then answered as stored; else 10, then in the order
 *                          of the moves 11 before a walked label's matches, and
 *                          12, 13 for each move that is kept
 *   rinkolza_final_weight  1, 2, 3, 18, 4 to 9, then 12
 *   rinkolza_run           1, 2, 3, 18, 4 to 8, then as for the expansions that
 *                          it makes
 *   rinkolza_records       1, 2, 3, 18, 4 to 9, each of which gives an empty part
 *   rinkolza_fan_out       1, 2, 3, 18, 4 to 7, then 9, then 11
 *   rinkolza_trusted_...   1 for lengths, then as above from 9 on
 */
#ifndef RINKOLZA_H
#define RINKOLZA_H

#include <stddef.h>
#include <stdint.h>

#ifdef __cplusplus
extern "C" {
#endif

#define RINKOLZA_MAX UINT32_C(4294967295)
#define RINKOLZA_EPSILON UINT32_C(0)
#define RINKOLZA_NO_LABEL RINKOLZA_MAX

/* The most states and transitions of a machine, and records of each sort. */
#define RINKOLZA_LIMIT UINT32_C(16777215)

/* Lengths in words. */
#define RINKOLZA_SETTINGS_WORDS 6
#define RINKOLZA_SESSION_WORDS 9
#define RINKOLZA_ANSWER_WORDS 2
#define RINKOLZA_FAN_OUT_WORDS 1
#define RINKOLZA_STATE_WORDS 6
#define RINKOLZA_TR_WORDS 5
#define RINKOLZA_MEMO_WORDS 5120

/* Marks of a machine's side. */
#define RINKOLZA_MARK_UNKNOWN UINT32_C(0)
#define RINKOLZA_MARK_SORTED UINT32_C(1)
#define RINKOLZA_MARK_NOT_SORTED UINT32_C(2)

/* Settings, word 0. */
#define RINKOLZA_COST UINT32_C(0)
#define RINKOLZA_COUNT UINT32_C(1)

/* Settings, word 1. By the first three each reading is listed once.
 * RINKOLZA_NULL keeps no move alone: readings with an epsilon that does not meet
 * an epsilon are lost. RINKOLZA_TRIVIAL keeps every move, RINKOLZA_NO_MATCH all
 * but both epsilons at once: a reading may be listed more than once, and a total
 * of counts is then too large; a least cost is right. See "Which filter" above. */
#define RINKOLZA_SEQUENCE UINT32_C(0)
#define RINKOLZA_ALTERNATE UINT32_C(1)
#define RINKOLZA_MATCH UINT32_C(2)
#define RINKOLZA_NULL UINT32_C(3)
#define RINKOLZA_TRIVIAL UINT32_C(4)
#define RINKOLZA_NO_MATCH UINT32_C(5)

/* Settings, words 3 and 5: where sigma is replaced by the label asked for. By
 * the acceptor mark: on each side that holds sigma where it is 1, else on the
 * matched side alone. */
#define RINKOLZA_REWRITE_BY_MARK UINT32_C(0)
#define RINKOLZA_REWRITE_BOTH UINT32_C(1)
#define RINKOLZA_REWRITE_MATCHED UINT32_C(2)

/* Session, word 6: machine 2 is looked up by input; machine 1 by output; at
 * each pair of states the one or the other. */
#define RINKOLZA_SIDE_INPUT UINT32_C(0)
#define RINKOLZA_SIDE_OUTPUT UINT32_C(1)
#define RINKOLZA_SIDE_BOTH UINT32_C(2)

/* Places in the session. */
#define RINKOLZA_SESSION_SIDE 6
#define RINKOLZA_SESSION_USED_STATES 7
#define RINKOLZA_SESSION_USED_TRS 8

/* What a call returns. */
#define RINKOLZA_ACCEPTED UINT32_C(0)
/* kind, filter or rewrite mode outside its range; or a slice of settings,
 * session or answer that is not of its length */
#define RINKOLZA_REFUSED_SETTINGS UINT32_C(1)
/* machine 1 malformed */
#define RINKOLZA_REFUSED_MACHINE_1 UINT32_C(2)
/* machine 2 malformed */
#define RINKOLZA_REFUSED_MACHINE_2 UINT32_C(3)
/* a sigma label 0 */
#define RINKOLZA_REFUSED_SIGMA_EPSILON UINT32_C(4)
/* sigma on machine 1, and its outputs are not sorted */
#define RINKOLZA_REFUSED_SIGMA_1_UNSORTED UINT32_C(5)
/* sigma on machine 2, and its inputs are not sorted */
#define RINKOLZA_REFUSED_SIGMA_2_UNSORTED UINT32_C(6)
/* no side to match: neither machine 1's outputs nor machine 2's inputs are
 * sorted */
#define RINKOLZA_REFUSED_NO_SIDE UINT32_C(7)
/* the session's side differs from the rule, more is used than there is room
 * for, or the form of memory is broken */
#define RINKOLZA_REFUSED_SESSION UINT32_C(8)
/* the state is not found yet: its number is not below the used states; of
 * rinkolza_fan_out: there is no such machine, or it has no such state */
#define RINKOLZA_REFUSED_NOT_FOUND UINT32_C(9)
/* side both: the states of both machines have sigma transitions */
#define RINKOLZA_REFUSED_BOTH_SIGMA UINT32_C(10)
/* the walked label, or the one that rinkolza_fan_out is asked for, is the sigma
 * label of the machine that is looked up */
#define RINKOLZA_REFUSED_SIGMA_WALKED UINT32_C(11)
/* a weight is too large */
#define RINKOLZA_REFUSED_WEIGHT UINT32_C(12)
/* a record or, at opening, a head is lacking */
#define RINKOLZA_REFUSED_NO_ROOM UINT32_C(13)
/* the list of ignored labels holds 0 or RINKOLZA_NO_LABEL; judged after 3 and
 * before 4 */
#define RINKOLZA_REFUSED_IGNORED UINT32_C(18)

/*
 * Opens a session with the six settings: chooses the side, clears the heads,
 * and stores the composed start as state 0, where both machines have a start.
 * The words of `session` are not read. Accepted: they are the new session.
 * The allowed lists play no part yet; the ignored labels do.
 * Refusals: 1 to 7 and 18, 13.
 */
uint32_t rinkolza_open(const uint32_t *settings, size_t settings_len,
                       uint32_t *session, size_t session_len,
                       const uint32_t *m1, size_t m1_len,
                       const uint32_t *m2, size_t m2_len,
                       const uint32_t *allowed1, size_t allowed1_len, uint32_t has1,
                       const uint32_t *allowed2, size_t allowed2_len, uint32_t has2,
                       const uint32_t *ignored, size_t ignored_len,
                       uint32_t *heads, size_t heads_len,
                       uint32_t *states, size_t states_len,
                       uint32_t *trs, size_t trs_len);

/*
 * Expands state n: finds its transitions, stores them from the first unused
 * record on, and stores each target that is new. Accepted: answer[0] is the
 * number of the first of its transition records, counted from 1 (0: it has
 * none), answer[1] their count. A state that is expanded already is answered
 * as stored, and nothing changes.
 * Refusals: 1 to 13, 18.
 */
uint32_t rinkolza_expand(uint32_t *session, size_t session_len,
                         const uint32_t *m1, size_t m1_len,
                         const uint32_t *m2, size_t m2_len,
                         const uint32_t *allowed1, size_t allowed1_len, uint32_t has1,
                         const uint32_t *allowed2, size_t allowed2_len, uint32_t has2,
                         const uint32_t *ignored, size_t ignored_len,
                         uint32_t *heads, size_t heads_len,
                         uint32_t *states, size_t states_len,
                         uint32_t *trs, size_t trs_len,
                         uint32_t n,
                         uint32_t *answer, size_t answer_len);

/*
 * The final weight of state n, expanded or not. Accepted: answer[0] is 1 and
 * answer[1] the weight, or both are 0 where the composed state is not final.
 * Session and memory stay as they are.
 * Refusals: 1 to 9 and 18, 12.
 */
uint32_t rinkolza_final_weight(const uint32_t *session, size_t session_len,
                               const uint32_t *m1, size_t m1_len,
                               const uint32_t *m2, size_t m2_len,
                               const uint32_t *allowed1, size_t allowed1_len, uint32_t has1,
                               const uint32_t *allowed2, size_t allowed2_len, uint32_t has2,
                               const uint32_t *ignored, size_t ignored_len,
                               const uint32_t *heads, size_t heads_len,
                               const uint32_t *states, size_t states_len,
                               const uint32_t *trs, size_t trs_len,
                               uint32_t n,
                               uint32_t *answer, size_t answer_len);

/*
 * Expands states in number order until none is left or one is refused. Refused
 * at a state (10 to 13), it keeps the expansions before it: session and memory
 * are then as those left them. Refused by 1 to 8 or 18, it changes nothing.
 * Refusals: 1 to 8 and 18, 10 to 13.
 */
uint32_t rinkolza_run(uint32_t *session, size_t session_len,
                      const uint32_t *m1, size_t m1_len,
                      const uint32_t *m2, size_t m2_len,
                      const uint32_t *allowed1, size_t allowed1_len, uint32_t has1,
                      const uint32_t *allowed2, size_t allowed2_len, uint32_t has2,
                      const uint32_t *ignored, size_t ignored_len,
                      uint32_t *heads, size_t heads_len,
                      uint32_t *states, size_t states_len,
                      uint32_t *trs, size_t trs_len);

/*
 * Hands back the transition records of state n: answer[0] is the number of the
 * first, counted from 1, answer[1] their count. Both are 0 where n is not
 * expanded, where it has no transitions, where 1 to 9 or 18 would stand, or where
 * the session has another length than 9; which of these it is, rinkolza_expand
 * tells. An answer of another length than 2 is not written to. Session and
 * memory stay as they are.
 */
void rinkolza_records(const uint32_t *session, size_t session_len,
                      const uint32_t *m1, size_t m1_len,
                      const uint32_t *m2, size_t m2_len,
                      const uint32_t *allowed1, size_t allowed1_len, uint32_t has1,
                      const uint32_t *allowed2, size_t allowed2_len, uint32_t has2,
                      const uint32_t *ignored, size_t ignored_len,
                      const uint32_t *heads, size_t heads_len,
                      const uint32_t *states, size_t states_len,
                      const uint32_t *trs, size_t trs_len,
                      uint32_t n,
                      uint32_t *answer, size_t answer_len);

/*
 * How many matches the look-up of a label has at a state of one machine, 1 or 2,
 * the loop and sigma matches included. Machine 1 is looked up on its outputs,
 * machine 2 on its inputs, each with its own sigma label and allowed list,
 * whatever the side; on an unsorted side every transition with the label counts.
 * Label 0: the loop, by which the machine rests, and the epsilon transitions,
 * those with an ignored label among them; label RINKOLZA_NO_LABEL: these
 * transitions alone. Accepted: answer[0] is the number. It is lent no memory and no session; as an opening does, it goes
 * through both machines.
 * Refusals: 1 to 7 and 18 as an opening's (1 also where settings is not of 6 words
 * or answer not of 1), then 9 where machine is neither 1 nor 2 or the state is not
 * below the machine's S, then 11 where the label is that machine's sigma label.
 */
uint32_t rinkolza_fan_out(const uint32_t *settings, size_t settings_len,
                          const uint32_t *m1, size_t m1_len,
                          const uint32_t *m2, size_t m2_len,
                          const uint32_t *allowed1, size_t allowed1_len, uint32_t has1,
                          const uint32_t *allowed2, size_t allowed2_len, uint32_t has2,
                          const uint32_t *ignored, size_t ignored_len,
                          uint32_t machine, uint32_t state, uint32_t label,
                          uint32_t *answer, size_t answer_len);

/*
 * As rinkolza_expand, without the checks 1 to 8 and 18, which must pass. The memos
 * are read and written: zeros after the opening, then as these calls leave them.
 * Refusals: 1 for a length, 9 to 13.
 */
uint32_t rinkolza_trusted_expand(uint32_t *session, size_t session_len,
                                 const uint32_t *m1, size_t m1_len,
                                 const uint32_t *m2, size_t m2_len,
                                 const uint32_t *allowed1, size_t allowed1_len, uint32_t has1,
                                 const uint32_t *allowed2, size_t allowed2_len, uint32_t has2,
                                 const uint32_t *ignored, size_t ignored_len,
                                 uint32_t *heads, size_t heads_len,
                                 uint32_t *states, size_t states_len,
                                 uint32_t *trs, size_t trs_len,
                                 uint32_t *memo1, uint32_t *memo2,
                                 uint32_t n,
                                 uint32_t *answer, size_t answer_len);

/*
 * As rinkolza_final_weight, without the checks 1 to 8 and 18, which must pass.
 * Refusals: 1 for a length, 9, 12.
 */
uint32_t rinkolza_trusted_final_weight(const uint32_t *session, size_t session_len,
                                       const uint32_t *m1, size_t m1_len,
                                       const uint32_t *m2, size_t m2_len,
                                       const uint32_t *allowed1, size_t allowed1_len, uint32_t has1,
                                       const uint32_t *allowed2, size_t allowed2_len, uint32_t has2,
                                       const uint32_t *ignored, size_t ignored_len,
                                       const uint32_t *heads, size_t heads_len,
                                       const uint32_t *states, size_t states_len,
                                       const uint32_t *trs, size_t trs_len,
                                       uint32_t n,
                                       uint32_t *answer, size_t answer_len);

/*
 * As rinkolza_records, without the checks 1 to 8 and 18, which must pass.
 */
void rinkolza_trusted_records(const uint32_t *session, size_t session_len,
                              const uint32_t *m1, size_t m1_len,
                              const uint32_t *m2, size_t m2_len,
                              const uint32_t *allowed1, size_t allowed1_len, uint32_t has1,
                              const uint32_t *allowed2, size_t allowed2_len, uint32_t has2,
                              const uint32_t *ignored, size_t ignored_len,
                              const uint32_t *heads, size_t heads_len,
                              const uint32_t *states, size_t states_len,
                              const uint32_t *trs, size_t trs_len,
                              uint32_t n,
                              uint32_t *answer, size_t answer_len);

/*
 * The final weights of all found states in one go, without the checks 1 to 8 and
 * 18, which must pass. The answer has exactly 2 words for each found state:
 * answer[2 * n] and answer[2 * n + 1] are what rinkolza_final_weight answers
 * for state n. Session and memory stay as they are.
 * Refusals: 1 for a length, 12 where any of the weights is too large; the
 * answer is then not written to.
 */
uint32_t rinkolza_trusted_final_weights(const uint32_t *session, size_t session_len,
                                        const uint32_t *m1, size_t m1_len,
                                        const uint32_t *m2, size_t m2_len,
                                        const uint32_t *allowed1, size_t allowed1_len, uint32_t has1,
                                        const uint32_t *allowed2, size_t allowed2_len, uint32_t has2,
                                        const uint32_t *ignored, size_t ignored_len,
                                        const uint32_t *heads, size_t heads_len,
                                        const uint32_t *states, size_t states_len,
                                        const uint32_t *trs, size_t trs_len,
                                        uint32_t *answer, size_t answer_len);

/*
 * A piece of a run, without the checks 1 to 8 and 18, which must pass: from state
 * n on, in number order, at most k states are expanded, until none is left or one
 * is refused. A state that is expanded already counts as one of the k; to pass
 * it costs no more than to read its flag. Refused at a state (10 to 13), it
 * keeps the expansions before it: session and memory are then as those left
 * them. Accepted or refused so, answer[0] is the state with which the next piece
 * goes on, the refused one or the one after the last that was passed, and
 * answer[1] how many found states there are from it on; 0: none is left. From
 * n = 0 with k = RINKOLZA_MAX it is a whole run. Where n is not below the used
 * states nothing is done, and the answer is n and 0. The memos are read and
 * written as by rinkolza_trusted_expand, which may be lent the same ones.
 * Refusals: 1 for a length, and then nothing changes; 10 to 13.
 */
uint32_t rinkolza_trusted_run(uint32_t *session, size_t session_len,
                              const uint32_t *m1, size_t m1_len,
                              const uint32_t *m2, size_t m2_len,
                              const uint32_t *allowed1, size_t allowed1_len, uint32_t has1,
                              const uint32_t *allowed2, size_t allowed2_len, uint32_t has2,
                              const uint32_t *ignored, size_t ignored_len,
                              uint32_t *heads, size_t heads_len,
                              uint32_t *states, size_t states_len,
                              uint32_t *trs, size_t trs_len,
                              uint32_t *memo1, uint32_t *memo2,
                              uint32_t n,
                              uint32_t k,
                              uint32_t *answer, size_t answer_len);

#ifdef __cplusplus
}
#endif

#endif

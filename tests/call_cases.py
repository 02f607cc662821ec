#!/usr/bin/env python3
"""Writes drawn cases of the calls, with what the Rust answers, or the definition where that stands (tests/reference.py), as a module that the checker judges.

    python3 tests/call_cases.py RUST SEED COUNT > crates/calls/proofs/Drawn.antt

Name the module in crates/calls/proofs/Lib.antt of a scratch copy and check `calls`. RUST is the folder of rustfst's sources, or the program that oracle/build
made around it; oracle/gen.py draws machines, settings and orders. Two sorts of cases: what `composed` prints; and an opening, expansions in a drawn order, then
the records and the final weight of every found state, on slices of drawn lengths and content, half of them with ignored labels. Of the second, refusals, lists and final weights are those
answers; where they stand in memory is worked out here.
"""
import random
import sys

import rust
from gen import ALL, QUIET, damaged_case, quiet_case, some_case
from model import EXPANDED, FIRST, SIDES, STATE_WORDS, TR_WORDS, state_record
from reference import reference
from state_cases import parsed


def antt(ws):
    return "(" + "".join(f"{w} ∷ " for w in ws) + "[])"


def seq(xs):
    return "(" + "".join(f"{x} ∷ " for x in xs) + "[])"


def option(ws):
    return "None" if ws is None else f"(Some {antt(ws)})"


def triple(s):
    return f"(triple {s[0]} {s[1]} {s[2]})"


def line(text):
    kind, *rest = text.split()
    if kind == "side":
        return f"side_line {SIDES.index(rest[0])}"
    if kind == "s":
        final = "None" if rest[4] == "-" else f"(Some {rest[4]})"
        return f"state_line {rest[0]} {triple(rest[1:4])} {final}"
    return {"t": "tr_line", "end": "end_line", "refused": "refused_line"}[kind] + " " + " ".join(rest)


def printing(oracle, seed, count):
    rng = random.Random(int(seed))
    cases = [some_case(rng, ALL) for _ in range(int(count))]
    for (settings, _, _, m1, m2), one in zip(cases, reference(oracle, [rust.whole(None, c[0], None, None, *c[3:]) for c in cases])):
        yield f"printing {antt(settings)} {antt(m1)} {antt(m2)} {seq(map(line, one.answer.splitlines()))}", one.ours


class Slices:
    """Memory as document 01 lays it out, filled with the answers."""

    def __init__(self, draw, states, trs):
        self.heads = [draw.choice((0, 7)) for _ in range(draw.randint(1, 4))]
        self.states = [7] * (STATE_WORDS * states + draw.randrange(STATE_WORDS))
        self.trs = [7] * (TR_WORDS * trs + draw.randrange(TR_WORDS))
        self.before = (list(self.heads), list(self.states), list(self.trs))
        self.found, self.used, self.parts = 0, 0, {}

    def open(self, start):
        self.heads = [0] * len(self.heads)
        if start is not None:
            self.find(start)

    def find(self, s):
        slot = (s[0] + 31 * s[1] + s[2]) % len(self.heads)
        self.states[STATE_WORDS * self.found:STATE_WORDS * (self.found + 1)] = state_record(s, self.heads[slot])
        self.found += 1
        self.heads[slot] = self.found

    def expand(self, n, trs, triples):
        first = self.used + 1 if trs else 0
        for k, (i, o, w, to) in enumerate(trs):
            while self.found <= to:
                self.find(triples[self.found])
            self.trs[TR_WORDS * self.used:TR_WORDS * (self.used + 1)] = [i, o, w, to, self.used + 2 if k + 1 < len(trs) else 0]
            self.used += 1
        self.states[STATE_WORDS * n + EXPANDED:STATE_WORDS * n + FIRST + 1] = [1, first]
        self.parts[n] = (first, len(trs))

    def records(self, n):
        first, count = self.parts.get(n, (0, 0))
        return self.trs[TR_WORDS * (first - 1):TR_WORDS * (first - 1 + count)] if count else []


def calling(oracle, seed, count):
    draw = random.Random(int(seed))
    for _ in range(int(count)):
        orders, room = [draw.randint(0, 5) for _ in range(8)], (draw.randint(1, 9), draw.randint(0, 14))
        given = rust.whole(None, *some_case(draw, ALL))[1:] if draw.random() < 0.5 else quiet_case(draw, ALL, [aim for aim in QUIET if aim[0] is not damaged_case])
        for one in reference(oracle, [[orders, *given]], room):
            yield calls(draw, room, orders, given, *parsed(one.answer)), one.ours


def calls(draw, room, orders, given, side, said, states):
    settings, lists, ignored, machines = antt(given[0]), [option(ws) for ws in given[1:3]], antt(given[3]), [antt(m) for m in given[4:]]
    lent = f"(record {{ m1 = {machines[0]}; m2 = {machines[1]}; allowed1 = {lists[0]}; allowed2 = {lists[1]}; ignored = {ignored} }})"
    mem = Slices(draw, *room)
    asked, replies = [f"opening (settings_of {settings}) {lent}"], []

    def session():
        return f"(session {settings} {SIDES.index(side)} {mem.found} {mem.used})"

    if isinstance(side, int):
        return case(lent, mem, asked, [f"answered (refusal {side}) (session (1 ∷ []) 3 4 5)"], mem.before, "(session (1 ∷ []) 3 4 5)")
    triples = [s for s, _ in states]
    mem.open(triples[0] if triples else None)
    replies.append(f"answered accepted {session()}")
    for n, answer in zip(orders, said):
        asked.append(f"expand {n}")
        if isinstance(answer, int):
            replies.append(f"answered (refusal {answer}) {session()}")
            continue
        if n not in mem.parts:
            mem.expand(n, answer, triples)
        replies.append("answered (list_part %d %d) %s" % (*mem.parts[n], session()))
    for n, (_, final) in enumerate(states):
        asked += [f"final_weight {n}", f"records {n}"]
        said_of = f"(refusal {final[1]})" if final[0] == "refused" else "(weight None)" if final[0] == "-" else f"(weight (Some {final[0]}))"
        replies += [f"answered {said_of} {session()}", f"handed {antt(mem.records(n))}"]
    return case(lent, mem, asked, replies, (mem.heads, mem.states, mem.trs), session())


def case(lent, mem, asked, replies, slices, session):
    before = " ".join(antt(s) for s in mem.before)
    after = " ".join(antt(s) for s in slices)
    return f"calling {lent} (world (session (1 ∷ []) 3 4 5) {before}) {seq(asked)} {seq(replies)} (world {session} {after})"


def main():
    oracle, seed, count = rust.oracle_at(sys.argv[1]), *sys.argv[2:4]
    found = list(printing(oracle, seed, count)) + list(calling(oracle, seed, count))
    print("-- Written by tests/call_cases.py. The answers are the Rust's, but for those that are marked.")
    print("use mathlib.Core.Path.{refl}")
    print("use mathlib.Core.List.{List, [], ◌∷◌}")
    print("use Rattle.std.specs.Prelude.{None, Some}")
    print("use Rattle.calls.specs.Sequences.{opening, expand, final_weight, records, refusal, accepted, weight, answered, handed}")
    print("use Rattle.calls.specs.Listing.{side_line, state_line, tr_line, end_line, refused_line, settings_of}")
    print("use Rattle.calls.proofs.Cases.{Case, printing, calling, Holds}")
    print("use Rattle.calls.proofs.StarCases.{triple, session, world, list_part}")
    for k, (text, ours) in enumerate(found):
        proof = "refl" if text.startswith("printing") else "(refl, refl)"
        print("\n-- the definition's" if ours else "")
        print(f"case{k} : Holds ({text})\nunfolding Holds\ncase{k} = {proof}")


main()

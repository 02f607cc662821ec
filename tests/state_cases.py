#!/usr/bin/env python3
"""Writes crates/words/proofs/RustCases.antt: what the Rust answers at one composed state, for chosen inputs; and, apart, what the definition answers where a
label that is looked up has own and sigma matches (tests/reference.py).

    python3 tests/state_cases.py RUST > crates/words/proofs/RustCases.antt
    python3 tests/state_cases.py RUST --random SEED COUNT > a scratch file of the same form

RUST is the folder of rustfst's sources, or the program that oracle/build made around it. The inputs below are ours; oracle/gen.py draws random ones.
"""
import random
import sys

import rust
from gen import ADDED, ALL, FILTERS, some_case
from gen import listed as machine
from machine import MAX
from reference import reference


NO = MAX
# inputs that several cases share
ONE1 = [3, 2, 1, 0, 0, 0, 1, 0, 0, 2, 0, 0, 0, 1, 0, 1, 0, 1, 1, 0, 2, 5, 2, 2, 0]
ONE2 = [3, 2, 1, 0, 0, 0, 1, 0, 0, 2, 0, 0, 0, 1, 3, 0, 7, 4, 1, 0, 5, 8, 1, 2, 0]
EMPTY = machine([(None, [])])
EPS1 = machine([(None, [(2, 0, 1, 0)])])          # a lone epsilon output
EPS2 = machine([(None, [(0, 5, 1, 0)])])          # a lone epsilon input
MIXED1 = machine([(None, [(1, 0, 1, 0), (2, 4, 1, 0), (3, 4, 2, 0)])])
MIXED2 = machine([(7, [(0, 6, 1, 0), (4, 7, 1, 0), (4, 8, 5, 0)])])
SIGMA2 = [(0, [(3, 6, 1, 0), (9, 7, 2, 0), (9, 9, 3, 0)])]


NAMED = {"example1": ONE1, "example2": ONE2, "empty": EMPTY, "epsilon1": EPS1, "epsilon2": EPS2, "mixed1": MIXED1, "mixed2": MIXED2}


def cases():
    """(what it shows, settings, allowed 1, allowed 2, machine 1, machine 2, state)"""
    for n in range(4):
        yield f"01's worked example, state {n}", (0, 0, NO, 0, NO, 0), None, None, ONE1, ONE2, n
    yield "its machines under alternate", (0, 1, NO, 0, NO, 0), None, None, ONE1, ONE2, 1
    yield "its machines under match: two epsilons together", (0, 2, NO, 0, NO, 0), None, None, ONE1, ONE2, 0
    # the slips of 01 that request 2.4 leaves
    yield "slip: sorted lists without marks are no \"both\"", (0, 0, NO, 0, NO, 0), None, None, MIXED1, MIXED2, 0
    yield "slip: \"all\" before \"none\" in sequence", (0, 0, NO, 0, NO, 0), None, None, EMPTY, EPS2, 0
    yield "slip: \"all\" before \"none\" in alternate", (0, 1, NO, 0, NO, 0), None, None, EPS1, EMPTY, 0
    yield "slip: \"none\" before \"all\" in match, machine 1 alone", (0, 2, NO, 0, NO, 0), None, None, EPS1, EMPTY, 0
    yield "slip: \"none\" before \"all\" in match, machine 2 alone", (0, 2, NO, 0, NO, 0), None, None, EMPTY, EPS2, 0
    yield ("slip: a transition of weight zero is kept", (1, 0, NO, 0, NO, 0), None, None,
           machine([(3, [(1, 4, 0, 0), (2, 4, 2, 0)])]), MIXED2, 0)
    # filters over states with epsilons and labels on both sides
    for f, name in enumerate(FILTERS[1:], 1):
        yield f"epsilons and labels on both sides, {name}", (0, f, NO, 0, NO, 0), None, None, MIXED1, MIXED2, 0
    # request 2.1's filters, which ask for neither "all" nor "none"
    for f in ADDED:
        yield f"a lone epsilon of machine 1 beside an empty state, {FILTERS[f]}", (0, f, NO, 0, NO, 0), None, None, EPS1, EMPTY, 0
        yield f"a lone epsilon of machine 2 beside an empty state, {FILTERS[f]}", (0, f, NO, 0, NO, 0), None, None, EMPTY, EPS2, 0
        yield (f"side input, epsilons and labels on both sides, {FILTERS[f]}", (0, f, NO, 0, NO, 0), None, None,
               machine([(None, [(1, 4, 1, 0), (2, 0, 1, 0)])]), MIXED2, 0)
        yield (f"two epsilons whose weights together are too large, {FILTERS[f]}", (0, f, NO, 0, NO, 0), None, None,
               machine([(0, [(2, 0, 2147483648, 0)])]), machine([(0, [(0, 5, 2147483647, 0)])]), 0)
    yield "match, from f = 1", (0, 2, NO, 0, NO, 0), None, None, machine([(None, [(1, 0, 1, 1)]), (0, [(2, 0, 1, 0), (2, 3, 1, 0)])]), \
        machine([(None, [(0, 6, 1, 1), (3, 7, 1, 0)]), (0, [(0, 7, 1, 1), (3, 8, 1, 0)])]), 1
    # sides and directions
    yield "side input: machine 1 is not sorted", (0, 0, NO, 0, NO, 0), None, None, machine([(None, [(1, 4, 1, 0), (2, 0, 1, 0)])]), MIXED2, 0
    yield ("side both: lists of one length, direction input", (0, 0, NO, 0, NO, 0), None, None,
           machine([(None, [(1, 0, 1, 0), (2, 4, 1, 0), (3, 4, 2, 0)])], marks=(0, 1, 0)),
           machine([(7, [(0, 6, 1, 0), (4, 7, 1, 0), (4, 8, 5, 0)])], marks=(1, 0, 0)), 0)
    yield ("side both: the shorter list is machine 2's, direction output", (0, 0, NO, 0, NO, 0), None, None,
           machine([(None, [(1, 0, 1, 0), (2, 4, 1, 0), (3, 4, 2, 0)])], marks=(0, 1, 0)), machine([(7, [(0, 6, 1, 0), (4, 7, 1, 0)])], marks=(1, 0, 0)), 0)
    yield ("side both: the state with a sigma transition decides", (0, 0, NO, 0, 9, 2), None, None,
           machine([(0, [(1, 2, 0, 0), (1, 4, 0, 0), (2, 5, 0, 0), (2, 6, 0, 0)])], marks=(0, 1, 0)), machine(SIGMA2, marks=(1, 0, 0)), 0)
    yield ("side output: the mark of machine 1 alone", (0, 0, NO, 0, NO, 0), None, None, machine([(None, [(1, 0, 1, 0), (2, 4, 1, 0)])], marks=(0, 1, 0)), MIXED2, 0)
    yield ("side both: machine 1's state has a sigma transition", (0, 0, 9, 2, NO, 0), None, None,
           machine([(0, [(1, 9, 0, 0)])], marks=(0, 1, 0)), machine([(0, [(3, 6, 0, 0), (4, 7, 0, 0)])], marks=(1, 0, 0)), 0)
    yield ("refusal 10: both states have one", (0, 0, 9, 0, 9, 0), None, None,
           machine([(0, [(1, 9, 0, 0)])], marks=(0, 1, 0)), machine(SIGMA2, marks=(1, 0, 0)), 0)
    # sigma
    yield ("sigma, mode 0 without the acceptor mark, an allowed list", (0, 0, NO, 0, 9, 0), None, [7, 5],
           machine([(0, [(2, 7, 0, 0), (1, 5, 0, 0), (1, 6, 0, 0)])]), machine(SIGMA2), 0)
    yield ("sigma on machine 1, mode 0 with the acceptor mark", (0, 2, 9, 0, NO, 0), None, None,
           machine([(0, [(0, 0, 1, 0), (9, 9, 2, 0)])], marks=(0, 0, 1)), MIXED2, 0)
    yield ("sigma on machine 1, mode 1: the side that does not hold sigma stays", (0, 0, 9, 1, NO, 0), None, None,
           machine([(0, [(1, 9, 0, 0)])]), machine([(0, [(3, 6, 0, 0)])]), 0)
    yield ("sigma on machine 1, an empty allowed list", (0, 2, 9, 0, NO, 0), [], None,
           machine([(0, [(0, 0, 1, 0), (9, 9, 2, 0)])], marks=(0, 0, 1)), MIXED2, 0)
    yield ("refusal 11: a walked label is sigma, after kept moves", (0, 0, NO, 0, 9, 1), None, None,
           machine([(0, [(2, 5, 0, 0), (1, 9, 0, 0), (1, 5, 0, 0)])]), machine(SIGMA2), 0)
    # request 2.4: sigma after a label's own matches
    for what, mode, allowed in (("", 1, None), (", mode 2, an allowed list with the label", 2, [4, 3]), (", an allowed list without the label", 1, [4, 5]),
                                (", an empty allowed list", 1, [])):
        yield (f"sigma beside an explicit label{what}", (0, 0, NO, 0, 9, mode), None, allowed,
               machine([(0, [(1, 3, 0, 0), (2, 5, 0, 0)])]), machine(SIGMA2, marks=(1, 0, 0)), 0)
    yield ("sigma of machine 1 beside an explicit label, mode 0 with the acceptor mark", (1, 0, 9, 0, NO, 0), None, None,
           machine([(1, [(3, 3, 2, 0), (9, 9, 3, 0)])], marks=(0, 0, 1)), machine([(1, [(4, 6, 5, 0), (3, 7, 7, 0)])]), 0)
    yield ("side both: a sigma below the label, with two transitions each", (0, 0, NO, 0, 2, 0), None, None, machine([(0, [(1, 3, 0, 0)])], marks=(0, 1, 0)),
           machine([(0, [(2, 6, 1, 0), (2, 2, 2, 0), (3, 7, 3, 0), (3, 8, 4, 0)])], marks=(1, 0, 0)), 0)
    yield ("refusal 12: a sigma match after own ones is too large", (0, 0, NO, 0, 9, 0), None, None,
           machine([(0, [(1, 3, 2147483648, 0)])]), machine([(0, [(3, 6, 1, 0), (9, 7, 2147483647, 0)])], marks=(1, 0, 0)), 0)
    # weights
    yield ("refusal 12: the second kept move is too large", (0, 0, NO, 0, NO, 0), None, None,
           machine([(0, [(1, 3, 1, 0), (2, 3, 2147483648, 0)])]), machine([(0, [(3, 4, 2147483647, 0)])]), 0)
    yield ("a final weight too large", (0, 0, NO, 0, NO, 0), None, None, machine([(2147483648, [])]), machine([(2147483647, [])]), 0)
    yield ("a cost MAX absorbs, a final weight zero is not final", (0, 0, NO, 0, NO, 0), None, None,
           machine([(MAX, [(1, 3, MAX, 0)])]), machine([(4294967294, [(3, 4, 4294967294, 0)])]), 0)
    # shapes of lists
    yield ("lists that share a tail", (0, 0, NO, 0, NO, 0), None, None,
           [2, 3, 2, 0, 0, 0, 1, 0, 0, 2, 1, 4, 5, 1, 1, 0, 3, 6, 2, 1, 1, 3, 7, 3, 1, 0, 0], machine([(0, [(1, 8, 0, 0), (2, 9, 0, 0), (3, 9, 0, 0)])]), 0)
    yield ("a final weight zero is final for the filters", (0, 1, NO, 0, NO, 0), None, None,
           machine([(None, [(2, 0, 0, 0)])]), machine([(MAX, [])]), 0)
    # refusals 5 to 7
    yield ("refusal 5", (0, 0, 9, 0, NO, 0), None, None, machine([(None, [(1, 4, 1, 0), (2, 0, 1, 0)])]), MIXED2, 0)
    yield ("refusal 6", (0, 0, NO, 0, 9, 0), None, None, MIXED1, machine([(None, [(4, 4, 1, 0), (2, 0, 1, 0)])]), 0)
    yield ("refusal 7", (0, 0, NO, 0, NO, 0), None, None,
           machine([(None, [(1, 4, 1, 0), (2, 0, 1, 0)])]), machine([(None, [(4, 4, 1, 0), (2, 0, 1, 0)])]), 0)
    yield ("refusal 4, machine 1's sigma", (0, 0, 0, 0, NO, 0), None, None, MIXED1, MIXED2, 0)
    yield ("refusal 4, machine 2's sigma", (0, 0, NO, 0, 0, 0), None, None, MIXED1, MIXED2, 0)


def parsed(out):
    """One answer of `oracle order`: the side (or the number of the opening's refusal), the transitions or the refusal at each ordered state, the found states."""
    lines = out.strip().split("\n")
    if not lines[0].startswith("side"):
        return int(lines[0].split()[1]), [], []
    side, answers, states = lines[0].split()[1], [], []
    for line in lines[1:]:
        kind, *rest = line.split()
        if kind == "e":
            answers.append([])
        elif kind == "refused":
            answers.append(int(rest[0]))
        elif kind == "t":
            answers[-1].append([int(x) for x in rest])
        elif kind == "s":
            states.append(([int(x) for x in rest[1:4]], rest[4:]))
    return side, answers, states


def wants(side, answer, states, n):
    """The words of `answer` in Cases.antt."""
    if isinstance(side, int):
        return [0, side]
    ws = [{"input": 1, "output": 2, "both": 3}[side], 1] + states[0][0]
    final = states[n][1]
    ws += [1, 0] if final == ["-"] else [0, int(final[1])] if final[0] == "refused" else [2, int(final[0])]
    if isinstance(answer, int):
        return ws + [0, answer]
    return ws + [1] + sum(([i, o, w] + states[to][0] for i, o, w, to in answer), [])


def antt(ws):
    return "".join(f"{w} ∷ " for w in ws) + "[]"


def named(ws):
    """The machine by its name in the file, or its words."""
    return next((name for name, known in NAMED.items() if known == ws), f"({antt(ws)})")


def option(ws):
    return "None" if ws is None else f"(Some ({antt(ws)}))"


def entry(settings, a1, a2, m1, m2, triple, want):
    return (f"case_of ({antt(settings)}) {named(m1)} {named(m2)} {option(a1)} {option(a2)} {triple[0]} {triple[1]} {triple[2]} ({antt(want)})")


def chosen(oracle):
    """For each chosen case what it shows, its entry, and whether the answer is ours."""
    inputs = list(cases())
    for (what, *given, n), one in zip(inputs, reference(oracle, [rust.whole(range(n + 1), *given) for _, *given, n in inputs])):
        side, answers, states = parsed(one.answer)
        triple, answer = ((0, 0, 0), None) if isinstance(side, int) else (states[n][0], answers[n])
        yield what, entry(*given, triple, wants(side, answer, states, n)), one.ours


def drawn(oracle, seed, count):
    """The same of the first twelve states of drawn machines."""
    rng = random.Random(int(seed))
    inputs = [some_case(rng, ALL) for _ in range(int(count))]
    for given, one in zip(inputs, reference(oracle, [rust.whole(range(12), *given) for given in inputs])):
        side, answers, states = parsed(one.answer)
        if isinstance(side, int):
            if side in (4, 5, 6, 7):
                yield "drawn", entry(*given, (0, 0, 0), [0, side]), False
            continue
        for n in range(min(12, len(states))):
            # where the order comes too early for a state, or room lacks
            if answers[n] not in (9, 13):
                yield "drawn", entry(*given, states[n][0], wants(side, answers[n], states, n)), one.ours


def table(name, entries):
    print(f"unfoldable pub {name} : List Case\nunfolding case_of\n{name} =")
    for what, e in entries:
        print(f"    -- {what}\n    {e} ∷")
    print("    []")


def main():
    oracle = rust.oracle_at(sys.argv[1])
    found = list(drawn(oracle, *sys.argv[3:5]) if sys.argv[2:3] == ["--random"] else chosen(oracle))
    print("-- Written by tests/state_cases.py. The inputs are ours.")
    print("use mathlib.Core.List.{List, [], ◌∷◌}")
    print("use Rattle.std.specs.Prelude.{None, Some}")
    print("use Prim.Native.Nat.{ℕ}")
    print("use Rattle.words.proofs.Cases.{Case, case_of}")
    print()
    for name, ws in NAMED.items():
        print(f"abbrev {name} : List ℕ\n{name} = {antt(ws)}\n")
    print("-- the answers are the Rust's (rustfst 8e1391df1e, final weights equal to zero read as 01 reads them)")
    table("rust_cases", [(what, e) for what, e, ours in found if not ours])
    print("\n-- a label that is looked up has own and sigma matches: the answers are the definition's, worked out by tests/model.py")
    table("our_cases", [(what, e) for what, e, ours in found if ours])


if __name__ == "__main__":
    main()

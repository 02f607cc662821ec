#!/usr/bin/env python3
"""Writes crates/replay/stdin, crates/replay/stdout and tests/ours.txt: the cases are ours; the answers are the Rust's, but for those that tests/ours.txt
numbers, which are the definition's (tests/reference.py), and for the last case, in which the input ends.

    python3 tests/replay_cases.py RUST      RUST is the folder of the Rust sources, or the program that oracle/build made of it
    python3 tests/replay_cases.py --check   holds the three files to the model in tests/model.py, without the Rust

First the proved cases of document 01 but for the ninth, which needs a smaller memory than the form has; every chosen input of tests/state_cases.py, document
01's "run only" case and its slips among them; the inputs of docs/DIFFERENCES.md; memory filled to the last record and one beyond. Then cases drawn by
oracle/gen.py from SEED, until each feature that tests/features.py names stands in WANTED of them (but for memory that is nearly full, whose answers are long).
All this for document 01's filters, then for request 2.1's. Then cases with ignored labels (request 2.7), until each feature that tests/ignored.py names stands in
QUIETLY of them; of these the Rust is asked with the machines replaced. A case that tests/ours.txt numbers counts for features that are ours alone. The exit
status is 1 where a feature stands in fewer, or a filter's opening is accepted in fewer than LEAST. The same sources give the same files.
"""
import os
import random
import sys
import textwrap
from collections import Counter

import rust
import state_cases
from features import BOTH, LONG, WAYS, of_filter, required
from gen import ADDED, ALL, BASE, FILTERS, ignoring, listed, mixed
from ignored import QUIET, of_ignored_checks, of_ignored_moves, of_list
from reference import answers, looked_at, worked
from state_cases import MAX, ONE1, ONE2

SEED, WANTED, QUIETLY, LEAST = 12, 20, 6, 60
BATCH, DRAWS = 2000, 20000
# bytes of a drawn case and its answer: large ones only where a feature is lacking in small ones
SMALL, LARGE = 480, 2000


def plain(kind, filter):
    return [kind, filter, MAX, 0, MAX, 0]


def listing(settings, m1, m2, allowed1=None, allowed2=None):
    return rust.whole(None, list(settings), allowed1, allowed2, list(m1), list(m2))


def weighing(w):
    """One state, final with weight w, and on it one transition 1:1 of weight w."""
    return listed([(w, [(1, 1, w, 0)])])


def stars():
    """The proved cases, each with what document 01 says of the answer."""
    with open(os.path.join(rust.ROOT, "crates/composed/stdout")) as f:
        example = f.read()
    yield listing(plain(0, 0), ONE1, ONE2), lambda a: a == example
    yield listing(plain(0, 1), ONE1, ONE2), lambda a: a.endswith("end 4 3\n")
    yield listing(plain(0, 2), ONE1, ONE2), lambda a: a.endswith("end 3 2\n") and a.split("\n")[2].startswith("t 1 7 5 ")
    yield listing(plain(0, 0), ONE1[:2] + [0] + ONE1[3:], ONE2), lambda a: a.endswith("end 0 0\n")
    yield listing(plain(0, 0), weighing(2147483647), weighing(2147483647)), lambda a: "s 0 0 0 0 4294967294\nt 1 1 4294967294 0\n" in a
    yield listing(plain(0, 0), weighing(2147483648), weighing(2147483647)), lambda a: a == "refused 12\n"
    yield listing(plain(1, 0), weighing(65535), weighing(65537)), lambda a: f"s 0 0 0 0 {MAX}\nt 1 1 {MAX} 0\n" in a
    yield listing(plain(1, 0), weighing(65536), weighing(65536)), lambda a: a == "refused 12\n"
    marked1 = listed([(None, [(1, 4, 0, 0), (2, 4, 0, 0)])], marks=(0, 1, 0))
    marked2 = listed([(None, [(4, 7, 0, 0), (4, 8, 0, 0)])], marks=(1, 0, 0))
    yield listing(plain(0, 0), marked1, marked2), lambda a: a.split("\n")[2:6] == ["t 1 7 0 0", "t 1 8 0 0", "t 2 7 0 0", "t 2 8 0 0"]


def differences():
    """The inputs of docs/DIFFERENCES.md, three indented lines each."""
    rows = [r.split() for r in open(os.path.join(rust.ROOT, "docs/DIFFERENCES.md")) if r.startswith("    ") and r.strip().replace(" ", "").isdigit()]
    numbers = [[int(w) for w in r] for r in rows]
    for k in range(0, len(numbers), 3):
        yield listing(*numbers[k:k + 3])


def full():
    """1024 transition records and 1025; 1024 states and 1025, in a run and in one expansion; a weight too large, a walked sigma and lacking room in turn; the
    last move a sigma match after own ones, too large at 1024 and without room at 1025."""
    def loops(a, b, sigma=MAX, last=(1, 1), found=(1, 2)):
        row, loop = [(1, 1, 1, 0)] * (a - 1) + [(1, *last, 0)], [(1, 2, 2, 0)] * (b - 1) + [(found[0], 2, found[1], 0)]
        return listing([0, 0, MAX, 0, sigma, 0], listed([(1, row)]), listed([(1, loop)], marks=(1, 0, 0)))

    def chains(a, b):
        return listing(plain(0, 0), *(listed([(1, [(1 - k, k, 1, s + 1)]) for s in range(n - 1)] + [(1, [])]) for k, n in ((0, a), (1, b))))

    yield loops(32, 32)
    yield loops(25, 41)
    yield loops(33, 32, last=(1, MAX - 1))
    yield loops(33, 32, sigma=9, last=(9, 1))
    yield loops(34, 32, sigma=9, last=(9, 1))
    yield loops(32, 32, sigma=9, last=(1, 2147483647), found=(9, 2147483648))
    yield loops(25, 41, sigma=9, found=(9, 2))
    yield chains(32, 32)
    yield chains(25, 41)
    fan = [listed([(1, [(1, 1, 1, i + 1) for i in range(32)])] + [(1, [])] * 32) for _ in (0, 1)]
    yield listing(plain(0, 0), *fan)
    yield [[0, 1, 0]] + listing(plain(0, 0), *fan)[1:]
    # state 1 lacks room for its 1024 transitions, state 2 does not for its 32
    three = listed([(1, [(1, 1, 1, 1), (1, 1, 1, 2)]), (1, [(1, 1, 1, 0)] * 32), (1, [(2, 1, 1, 1)])])
    yield [[0, 1, 2, 1, 0]] + listing(plain(0, 0), three, listed([(1, [(1, 2, 2, 0)] * 32)], marks=(1, 0, 0)))[1:]


def above():
    """The first value that is no filter."""
    for case in (listing(plain(0, len(FILTERS)), ONE1, ONE2), listing([0, len(FILTERS), 0, 0, MAX, 0], [], [])):
        yield case
        yield [[0]] + case[1:]


def chosen():
    yield from (case for case, _ in stars())
    for _, settings, a1, a2, m1, m2, n in state_cases.cases():
        yield listing(settings, m1, m2, a1, a2)
        yield [list(range(n, -1, -1)) * 2] + listing(settings, m1, m2, a1, a2)[1:]
    yield from differences()
    yield from full()
    yield from above()


def chosen_once(base):
    """The chosen cases with document 01's filters, or the others; each once."""
    return list({rust.text(c): c for c in chosen() if (c[1][1] in BASE) == base}.values())


class Collection:
    """The cases that are taken, by their text, with their references, and how often each feature stands in them."""

    def __init__(self, oracle):
        self.oracle, self.taken, self.counts = oracle, {}, Counter()

    def take(self, case, reference, found):
        text = rust.text(case)
        if text not in self.taken:
            self.taken[text] = reference
            self.counts.update(found)

    def drawn(self, draw, filters):
        """The cases with these filters drawn from the seed, small ones first."""
        rng, small, large = random.Random(SEED), [], []
        for _ in range(DRAWS // BATCH):
            for one in looked_at(self.oracle, [draw(rng, filters) for _ in range(BATCH)]):
                size = len(rust.text(one[0])) + len(one[1].answer)
                (small if size <= SMALL else large if size <= LARGE else []).append(one)
        return small + large

    def fill(self, filters):
        """Cases with these filters for each feature that is wanted, the rarest first."""
        self.fill_by(mixed, filters, WANTED, lambda name: name not in LONG)

    def fill_by(self, draw, filters, wanted, counts):
        holding = {}
        for one in self.drawn(draw, filters):
            for name in filter(counts, one[2]):
                holding.setdefault(name, []).append(one)
        for name in sorted(holding, key=lambda name: (len(holding[name]), name)):
            for one in holding[name]:
                if self.counts[name] < wanted:
                    self.take(*one)

    def lacking(self):
        """What stands in too few cases."""
        quiet = {*of_ignored_checks(), *of_ignored_moves(), *map(of_list, WAYS), "listing refused 18", "opening refused 18"}
        loud = {*(name for name in self.counts if not name.startswith(QUIET)), *required()} - {*LONG, *quiet}
        for names, wanted in ((loud, WANTED), (quiet, QUIETLY)):
            yield from sorted(f"{name} ({self.counts[name]})" for name in names if self.counts[name] < wanted)
        for filter in ALL:
            opened = sum(self.counts[of_filter(filter, way)] for way in WAYS)
            if opened < LEAST:
                yield f"filter {FILTERS[filter]}, an accepted opening ({opened})"


# The input ends inside a case: its settings without a line feed, and no machine. The missing lines are empty, so that machine 1 is malformed.
CUT, CUT_ANSWER = f"-\n0 0 {MAX} 0 {MAX} 0", "refused 2\n"


FOLDER = os.path.join(rust.ROOT, "crates/replay")
STDIN, STDOUT, OURS = os.path.join(FOLDER, "stdin"), os.path.join(FOLDER, "stdout"), os.path.join(rust.ROOT, "tests/ours.txt")
WHAT = "The cases of crates/replay, counted from 1, whose answers are the definition's, by tests/model.py: a label that is looked up has own and sigma matches."


def write(taken):
    with open(STDIN, "w") as f:
        f.writelines([*taken, CUT])
    with open(STDOUT, "w") as f:
        f.writelines(answer + "--\n" for answer in [*(one.answer for one in taken.values()), CUT_ANSWER])
    with open(OURS, "w") as f:
        numbers = " ".join(str(n) for n, one in enumerate(taken.values(), 1) if one.ours)
        f.write(f"{WHAT}\n{textwrap.fill(numbers, 150)}\n")


def check():
    """Holds every answer, and the numbers of ours, to the model."""
    words = [None if line == "-\n" else [int(w) for w in line.split()] for line in open(STDIN)]
    ours = {int(n) for line in open(OURS).readlines()[1:] for n in line.split()}
    theirs = rust.split(open(STDOUT).read())
    for n, answer in enumerate(theirs, 1):
        case = words[7 * n - 7:7 * n]
        mine, seen = worked(case + [[]] * (7 - len(case)), rust.ROOM)
        assert mine == answer and (BOTH in seen) == (n in ours), f"case {n}:\n{rust.text(case)}the file:\n{answer}the model:\n{mine}"
    print(f"{len(theirs)} answers are the model's, and {len(ours)} of them ours")


def main():
    if sys.argv[1:] == ["--check"]:
        return check()
    oracle = rust.oracle_at(sys.argv[1])
    for (case, holds), answer in zip(list(stars()), answers(oracle, [c for c, _ in stars()])):
        assert holds(answer), (case, answer)
    all_, own = Collection(oracle), 0
    for filters in (BASE, ADDED):
        cases = chosen_once(filters == BASE)
        for one in looked_at(oracle, cases):
            all_.take(*one)
        all_.fill(filters)
        own += len(cases)
    before = len(all_.taken)
    all_.fill_by(ignoring, ALL, QUIETLY, lambda name: name.startswith(QUIET))
    write(all_.taken)
    for name, count in sorted(all_.counts.items()):
        print(f"{count:6} {name}")
    lacking, ours = list(all_.lacking()), sum(one.ours for one in all_.taken.values())
    print(f"in too few cases: {', '.join(lacking) or 'nothing'}")
    print(f"{len(all_.taken)} cases, {own} of them chosen, {len(all_.taken) - before} with ignored labels; {len(all_.taken) - ours} answers are the Rust's and {ours} ours; "
          f"{os.path.getsize(STDIN)} bytes in, {os.path.getsize(STDOUT)} bytes out; seed {SEED}")
    sys.exit(1 if lacking else 0)


if __name__ == "__main__":
    main()

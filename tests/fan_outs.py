#!/usr/bin/env python3
"""Compares the program `fan_out` (request 2.6) with the model in model.py on fresh random cases; the Rust states no fan-out.

    python3 tests/fan_outs.py [--cases N] [--seed S] [--fan-out PATH]

The program is taken from its crate's out/, as in tests/compare.py. Settings and machines are drawn by oracle/gen.py, without allowed lists, which it has not.
Prints how often each sort of answer came, which sorts came never, and the first difference in full; the exit status is 1 where there is one. Defaults: 10000
cases, a seed from the clock.
"""
import argparse
import random
import sys
import time
from collections import Counter
from itertools import product

import rust
from compare import printed, program
from gen import ALL, mixed
from machine import MAX, Words, word_at
from model import Composition, Lent, Refused, fan_out

# so many matches are counted together with more
MANY = 4
# own and sigma matches at a state that has a sigma transition; without an allowed list the latter are never lacking
SIGMAS = ("neither own nor sigma matches", "sigma matches alone", "own matches alone", "own and sigma matches")
APART = "unsorted side, other labels between the matches"


def drawn_query(draw, settings, lent):
    """Machine, state and label; mostly a state of the machine, and a label of its list."""
    n = draw.choice((1,) * 5 + (2,) * 5 + (0, 3, MAX))
    m = Words(lent.words[n - 1] if n in (1, 2) else [])
    s = draw.randrange(min(m.S, 64)) if m.S and draw.random() < 0.9 else draw.choice((m.S, MAX))
    listed = [m.tr(t, 2 - n) for t in m.list(s)] if s < m.S and m.well_formed() else []
    sigma = word_at(settings, 2 * n) if n in (1, 2) else 9
    return [n, s, draw.choice(listed) if listed and draw.random() < 0.5 else draw.choice((0, 0, 0, MAX, MAX, sigma, 1, 2, 3, 9, MAX - 1))]


def matches(count):
    return "1 match" if count == 1 else f"{count} matches" if count < MANY else f"{MANY} matches and more"


def of_machine(k, what):
    return f"fan-out in machine {k + 1}, {what}"


def of_silent(x, epsilons, sigma):
    """What the look-up of 0 or MAX shows."""
    return f"label {'MAX' if x else 0}, {'epsilons' if epsilons else 'no epsilon'}{', sigma set' if sigma else ''}"


def of_count(c, k, s, x):
    """What an accepted look-up in machine k (0 or 1) shows."""
    yield matches(c.fan_out(k, s, x))
    if x in (0, MAX):
        yield of_silent(x, c.labelled(k, s, 0), c.sigma[k] != MAX)
        return
    own, rest = c.labelled(k, s, x), c.sigma_matches(k, s, x)
    if c.has_sigma(k, s):
        yield SIGMAS[2 * (own != []) + (rest != [])]
    if not c.machines[k].sorted(1 - k):
        yield f"unsorted side, {matches(len(own))}"
        records = c.machines[k].list(s)
        if own and records[records.index(own[0]):records.index(own[-1]) + 1] != own:
            yield APART


def of_fan_out(settings, lent, query, number):
    """What a query shows; `number` is that of its refusal, or 0."""
    yield f"fan-out refused {number}" if number else "a fan-out"
    if number not in (0, 9, 11):
        return
    c = Composition(settings, lent, None)
    if query is None or len(query) != 3 or query[0] not in (1, 2):
        yield f"fan-out refused 9, {'no query' if query is None or len(query) != 3 else 'no such machine'}"
        return
    n, s, x = query
    rows = [f"refused {number}"] + [f"refused {number}, the label is sigma's"] * (x == c.sigma[n - 1] != MAX) if number else of_count(c, n - 1, s, x)
    yield from (of_machine(n - 1, row) for row in rows)


def of_fan_outs(lists=True):
    """What must be seen, with allowed lists or without."""
    yield from (f"fan-out refused {n}" for n in (*range(1, 8), 9, 11))
    yield "fan-out refused 9, no such machine"
    silent = [of_silent(*row) for row in product((0, MAX), (False, True), (False, True))]
    apart = [f"unsorted side, {matches(n)}" for n in range(3)] + [APART]
    refused = ["refused 9", "refused 9, the label is sigma's", "refused 11, the label is sigma's"]
    for k, row in product((0, 1), [matches(n) for n in range(MANY + 1)] + silent + list(SIGMAS if lists else SIGMAS[1::2]) + apart + refused):
        yield of_machine(k, row)


def answered(settings, lent, query):
    """What the program prints, and what the query shows."""
    try:
        count, number = fan_out(settings, lent, query)[0], 0
    except Refused as r:
        count, number = None, r.number
    return f"refused {number}\n" if number else f"{count}\n", set(of_fan_out(settings, lent, query, number))


def main():
    words = argparse.ArgumentParser(usage=__doc__.split("\n\n")[1].strip())
    words.add_argument("--cases", type=int, default=10000)
    words.add_argument("--seed", type=int, default=int(time.time()))
    words.add_argument("--fan-out")
    args = words.parse_args()
    path, rng, counts, differences, began = program(args.fan_out, "fan_out"), random.Random(args.seed), Counter(), 0, time.time()
    for _ in range(args.cases):
        _, settings, _, _, _, *machines = mixed(rng, ALL)
        lent = Lent(*machines, None, None)
        query = drawn_query(rng, settings, lent)
        text = rust.text([settings, *machines, query])
        wanted, seen = answered(settings, lent, query)
        got = printed(path, text)
        counts.update(seen)
        differences += got != wanted
        if got != wanted and differences == 1:
            print(f"first difference:\n{text}the model:\n{wanted}the program:\n{got}", flush=True)
    for name, count in sorted(counts.items()):
        print(f"{count:7} {name}")
    lacking = sorted(set(of_fan_outs(lists=False)) - set(counts))
    print(f"{args.cases} cases, seed {args.seed}: {differences} differences; not shown: {lacking or 'nothing'}; {time.time() - began:.0f} seconds")
    sys.exit(1 if differences else 0)


if __name__ == "__main__":
    main()

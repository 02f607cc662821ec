#!/usr/bin/env python3
"""Benchmark inputs: three lines as `composed` reads them (settings, machine 1, machine 2), without its limits.

cases.py NAME [SCALE] [SEED] > case

NAME is random, epsilon, fanout, chain, kerning, or for an expansion of many targets one-label, one-label-twice, labels, labels-twice.
SCALE (1) makes it so many times as large: machine 2 in random, epsilon and chain (the rule of heads spreads 31 times as far by machine
2's states as by machine 1's), both in fanout, the text in kerning, the targets in the others. FILTER (0) and KIND (0: cost, 1: count)
come from the environment. All lists are consecutive and sorted on the matched side, which is marked so.
"""
import os
import random
import sys

NO_LABEL = 4294967295
KIND = int(os.environ.get('KIND', '0'))
ONE = KIND  # the kind's one


def machine(states, finals, arcs, side, marks):
    """arcs: {state: [(input, output, weight, target)]}, sorted by the field `side` (0 input, 1 output); the start is state 0."""
    records, firsts = [], []
    for s in range(states):
        listed = sorted(arcs.get(s, []), key=lambda arc: arc[side])
        firsts.append(len(records) + 1 if listed else 0)
        for k, arc in enumerate(listed):
            records.append(list(arc) + [len(records) + 2 if k + 1 < len(listed) else 0])
    words = [states, len(records), 1] + marks
    for s in range(states):
        words += [firsts[s], 1 if s in finals else 0, finals.get(s, 0)]
    for record in records:
        words += record
    return words


def drawn(states, degree, labels, rng, side, eps):
    """Every state has `degree` transitions with drawn labels and targets; on its side a label is epsilon with the chance eps."""
    arcs = {}
    for s in range(states):
        arcs[s] = [(0 if rng.random() < eps and side == 0 else rng.randrange(1, labels),
                    0 if rng.random() < eps and side == 1 else rng.randrange(1, labels),
                    rng.randrange(100), rng.randrange(states)) for _ in range(degree)]
    return machine(states, {states - 1: 3}, arcs, side, [1, 0, 0] if side == 0 else [0, 1, 0])


def text(word, weight, end, marks=(0, 1, 0)):
    """A chain that reads one word."""
    return machine(len(word) + 1, {len(word): end}, {i: [(x, x, weight, i + 1)] for i, x in enumerate(word)}, 1, list(marks))


def wide(found, times, labels):
    """One state whose expansion finds so many new ones, each so many times: each by a label of its own, or all by one label."""
    targets = range(1, found + 1)
    if labels:
        arcs = [(x, x, ONE, x) for x in targets]
        return machine(found + 1, {}, {0: arcs * times}, 1, [0, 1, 0]), machine(found + 1, {}, {0: arcs}, 0, [1, 0, 0])
    return text([1], ONE, ONE), machine(found + 1, {}, {0: [(1, 1, ONE, x) for x in targets] * times}, 0, [1, 0, 0])


def pair(name, k, rng):
    if name == 'random':  # many pairs of states
        return drawn(120, 6, 20, rng, 1, 0.0), drawn(120 * k, 6, 20, rng, 0, 0.0)
    if name == 'epsilon':  # many epsilons on both inner sides
        return drawn(80, 5, 12, rng, 1, 0.3), drawn(80 * k, 5, 12, rng, 0, 0.3)
    if name == 'fanout':  # a long word against one state with many letters: the cost of a look-up
        labels, length = 6000 * k, 9000 * k
        word = [rng.randrange(1, labels) for _ in range(length)]
        return text(word, 1, 0), machine(1, {0: 0}, {0: [(x, x, 2, 0) for x in range(1, labels)]}, 0, [1, 0, 0])
    if name == 'chain':  # a text with three letters at each place against a machine of rules
        labels, length = 60, 180
        arcs = {i: [(x, x, 1, i + 1) for x in sorted({rng.randrange(1, labels) for _ in range(3)})] for i in range(length)}
        return machine(length + 1, {length: 0}, arcs, 1, [0, 1, 0]), drawn(200 * k, 40, labels, rng, 0, 0.05)
    if name == 'kerning':  # a text against pair kerning of 400 glyphs: 160,000 pairs
        glyphs, length = 400, 20000 * k
        word = [rng.randrange(1, glyphs + 1) for _ in range(length)]
        arcs = {s: [(g, g, 1 + rng.randrange(3), g) for g in range(1, glyphs + 1)] for s in range(glyphs + 1)}
        return text(word, ONE, ONE), machine(glyphs + 1, {s: ONE for s in range(glyphs + 1)}, arcs, 0, [1, 0, 0])
    if name in ('one-label', 'one-label-twice', 'labels', 'labels-twice'):
        return wide(16384 * k, 2 if name.endswith('twice') else 1, name.startswith('labels'))
    raise SystemExit('no such case: ' + name)


def main():
    name = sys.argv[1]
    k = int(sys.argv[2]) if len(sys.argv) > 2 else 1
    seed = int(sys.argv[3]) if len(sys.argv) > 3 else 1
    a, b = pair(name, k, random.Random(seed))
    print(KIND, os.environ.get('FILTER', '0'), NO_LABEL, 0, NO_LABEL, 0)
    print(*a)
    print(*b)


main()

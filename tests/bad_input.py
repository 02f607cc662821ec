#!/usr/bin/env python3
"""Writes what crates/bad_input must print: its cases are read from the program, the answers are computed here from document 01.

    python3 tests/bad_input.py > crates/bad_input/stdout
"""
import os
import re
from itertools import product

from machine import MAX, Words
from model import MOVES, Lent, filtered
from gen import FILTERS

ROOT = os.path.dirname(os.path.dirname(os.path.abspath(__file__)))
SOURCE = open(os.path.join(ROOT, "crates/bad_input/src/main.rt")).read()
BODIES = dict(re.findall(r"fn (\w+)\(\) \{\n(.*?)\n\}", SOURCE, re.S))


# the lists under which each is read, and the sigma labels: as in show.rt
LISTS = ([], [5, 1, 9, 5], [MAX, 0])
SIGMAS = (5, MAX)


def number(w):
    return MAX if w == "MAX" else int(w.replace("u32", ""))


def cases():
    """The slices given to `machine`, in the order of the calls in `main`."""
    for name in re.findall(r"(\w+)\(\);", BODIES["main"]):
        arrays = {}
        for let, repeated, count, words, call, part in re.findall(
                r"let (\w+) = \[(?:(\w+); (\d+)|([^;\]]*))\];|machine\(&(\w+)(?:\[\.\.(\d+)\])?\);", BODIES[name]):
            if let:
                arrays[let] = [number(repeated)] * int(count) if repeated else [number(w) for w in words.replace("\n", " ").replace(",", " ").split()]
            else:
                yield arrays[call][:int(part)] if part else arrays[call]


def read(m, ignored, sigma1, sigma2):
    """Machine 1 and machine 2 are the same words, read by outputs and by inputs."""
    return Lent(m, m, None, None, ignored).read([0, 0, sigma1, 0, sigma2, 0])


def side(a, b, sigma1, sigma2):
    if sigma1 == 0 or sigma2 == 0:
        return 4
    if sigma1 != MAX and not a.sorted(1):
        return 5
    if sigma2 != MAX and not b.sorted(0):
        return 6
    marks = (a.word(4) == 1, b.word(3) == 1)
    if marks == (True, True):
        return 3
    if marks[0] or marks[1]:
        return 2 if marks[0] else 1
    return 2 if a.sorted(1) else 1 if b.sorted(0) else 7


def line(letter, *numbers):
    print(" ".join([letter] + [str(int(n)) for n in numbers]))


def machine(m, ignored):
    """As it stands, and as it is read by its outputs (a) and by its inputs (b)."""
    w, (a, b) = Words(m), read(m, ignored, *SIGMAS)
    line("p", w.well_formed(), b.sorted(0), a.sorted(1), b.acceptor(), a.acceptor())
    start = w.word(2)
    marks = w.word(3), w.word(4), b.word(3), a.word(4), w.word(5), b.word(5), a.word(5)
    line("h", w.word(2 ** 64 - 1), w.S, w.T, start, *marks, *([1, start - 1] if start else [0]))
    for s in (0, MAX):
        line("s", w.state(s, 0), w.state(s, MAX), w.first(s), len(w.list(s)), w.state(s, 1) == 1, w.state(s, 2),
             b.none(0, s), a.none(1, s), b.all(0, s), a.all(1, s))
    for t in (0, 1, MAX):
        line("r", w.tr(t, 4), w.tr(t, MAX), w.next(t), *(x for k, read in ((0, b), (1, a)) for x in (w.tr(t, k), read.tr(t, k), *(read.tr(t, j) for j in range(4)))))
    line("f", a.none(1, MAX), a.all(1, MAX), b.none(0, 0), b.all(0, 0))
    line("m", *([side(*read(m, ignored, *sigmas), *sigmas) for sigmas in ((MAX, MAX), (5, MAX), (MAX, 5), (5, 0))] if w.well_formed() else []))


def times(kind, a, b):
    if kind == 0:
        return [1, MAX] if MAX in (a, b) else [1, a + b] if a + b < MAX else [0]
    return [1, a * b] if a * b <= MAX else [0]


def weights(kind):
    zero = MAX if kind == 0 else 0
    pairs = ((MAX, MAX), (MAX, 1), (2147483647, 2147483647), (2147483648, 2147483647), (65535, 65537), (65536, 65536))
    line("w", 0 if kind == 0 else 1, zero, zero == 0, zero == MAX, *(n for a, b in pairs for n in times(kind, a, b)))


def cells(filter):
    """Both "none" and "all" hold of both machines; a cell is [1, next f] or [0]. A larger filter is read as the last, an f above 2 as 2."""
    out = []
    for f in (0, 1, 2, MAX):
        for move in MOVES:
            to = filtered(min(filter, len(FILTERS) - 1), move, [True] * 2, [True] * 2, min(f, 2))
            out += [0] if to is None else [1, to]
    line("c", *out)


for m, ignored in product(cases(), LISTS):
    machine(m, ignored)
for numbers, name in re.findall(r"for \w+ in \[([^\]]*)\] \{\n *(weights|cells)\(\w+\);", BODIES["main"]):
    for k in numbers.split(", "):
        {"weights": weights, "cells": cells}[name](number(k))

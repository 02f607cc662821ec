#!/usr/bin/env python3
"""Compares the programs `replay` and `composed` with the Rust on fresh random cases, and with the definition where that stands (tests/reference.py).

    python3 tests/compare.py RUST [--cases N] [--seed S] [--replay PATH] [--composed PATH]

RUST is the folder `rustfst/src` of rustfst at commit 8e1391df1e (oracle/build makes a program around it; needs rustc), or that program. The two programs
are taken from their crates' out/, where `rt ci` and `rt run` leave them; the latter is run where they are not there. Cases are drawn by oracle/gen.py, a quarter of them
with ignored labels; whole listings and orders of expansions go to `replay`, and the whole listings without allowed lists to `composed` as well. Prints how often each feature of
tests/features.py came up, how many answers were the Rust's and how many ours, and the first difference in full; the exit status is 1 where there is one.
Defaults: 20000 cases, a seed from the clock.
"""
import argparse
import os
import random
import subprocess
import sys
import time
from collections import Counter

import rust
from features import BOTH
from gen import ALL, ignoring, mixed
from reference import looked_at

BATCH = 500


def program(path, name):
    folder = os.path.join(rust.ROOT, "crates", name)
    path = path or os.path.join(folder, "out", name)
    if not os.path.exists(path):
        with open(os.path.join(folder, "stdin"), "rb") as given:
            subprocess.run(["rt", "run"], cwd=folder, stdin=given, stdout=subprocess.DEVNULL, check=True)
    return path


def printed(path, text):
    """What a program prints, and how it ended where that is not well."""
    run = subprocess.run([path], input=text.encode(), stdout=subprocess.PIPE, stderr=subprocess.PIPE)
    ended = "" if run.returncode == 0 and not run.stderr else f"(exit status {run.returncode}) {run.stderr.decode(errors='replace')}"
    return run.stdout.decode(errors="replace") + ended


def replayed(path, cases):
    """What `replay` answers to each case; asked one by one where the answers are not as many as the cases."""
    parts = rust.split(printed(path, "".join(map(rust.text, cases))))
    if len(parts) != len(cases):
        return ["".join(rust.split(printed(path, rust.text(case)))) for case in cases]
    return parts


class Comparison:
    def __init__(self):
        self.counts, self.asked, self.differences = Counter(), Counter(), 0

    def hold(self, name, case, answer, wanted):
        self.asked[name] += 1
        if answer == wanted.answer:
            return
        self.differences += 1
        if self.differences == 1:
            whose = "the definition" if wanted.ours else "the Rust"
            print(f"first difference, program {name}:\n{rust.text(case)}{whose}:\n{wanted.answer}the program:\n{answer}", flush=True)

    def batch(self, oracle, replay, composed, cases):
        for got, (case, wanted, found) in zip(replayed(replay, cases), looked_at(oracle, cases)):
            self.hold("replay", case, got, wanted)
            if case[0] is None and case[2:5] == [None, None, []]:
                self.hold("composed", case, printed(composed, rust.text([case[1]] + case[5:])), wanted)
            self.counts.update(found)


def main():
    words = argparse.ArgumentParser(usage=__doc__.split("\n\n")[1].strip())
    words.add_argument("rust")
    words.add_argument("--cases", type=int, default=20000)
    words.add_argument("--seed", type=int, default=int(time.time()))
    words.add_argument("--replay")
    words.add_argument("--composed")
    args = words.parse_args()
    oracle = rust.oracle_at(args.rust)
    replay, composed = program(args.replay, "replay"), program(args.composed, "composed")
    rng, seen, began = random.Random(args.seed), Comparison(), time.time()
    for done in range(0, args.cases, BATCH):
        seen.batch(oracle, replay, composed, [(ignoring if rng.random() < 0.25 else mixed)(rng, ALL) for _ in range(min(BATCH, args.cases - done))])
    for name, count in sorted(seen.counts.items()):
        print(f"{count:7} {name}")
    asked = ", ".join(f"{n} answers of {name}" for name, n in seen.asked.items())
    print(f"{args.cases} cases, {seen.counts[BOTH]} of them ours, seed {args.seed}: {asked}; {seen.differences} differences; {time.time() - began:.0f} seconds")
    sys.exit(1 if seen.differences else 0)


if __name__ == "__main__":
    main()

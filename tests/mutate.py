#!/usr/bin/env python3
"""Changes the code, or the definitions, of a crate in one place at a time, and sees whether the prover refuses.

    tests/mutate.py COPY --crate NAME [--definitions | --wrong] [--kinds K,K] [--only PATTERN] [--limit N] [--sample K --seed S] [--together N] [--log FILE]

COPY is a private copy of the repository, in which NAME is proved; each change is made there, judged by `rt check` and taken back. The gate does not run this:
it takes hours. Verdicts: refused (the prover says not-proved), no program (the compiler, or for definitions the type checker of specs/, refuses the text before any proof is
looked at; not scored), timeout, survived. Survivors that tests/mutants.txt explains are counted apart; the others are printed. A refusal says that the proof that stands does
not fit the changed text: nearly always because the contract is false of it, but a change that keeps the meaning may be refused too. With --wrong the changes are those of
docs/WRONG.md: two or more wrong programs for each public function, each with an input at which it is wrong.
"""
import argparse
import collections
import json
import os
import pathlib
import random
import re
import signal
import subprocess
import sys

import mutate_code
import mutate_definitions

SECONDS = 90
HERE = pathlib.Path(__file__).resolve().parent
Mutant = collections.namedtuple("Mutant", "file name kind start end new text")


def code_mutants(root, crate):
    paths = sorted(root.glob("crates/*/src/*.rt"), key=lambda p: (p.parts[-3] == crate, p))
    known = mutate_code.Known([mutate_code.Source(p.read_text()) for p in paths])
    for path in sorted((root / "crates" / crate / "src").glob("*.rt")):
        text = path.read_text()
        for name, change in mutate_code.mutants_of(text, known):
            yield Mutant(path.relative_to(root), name, *change, text)


def definition_mutants(root, crate):
    known = mutate_definitions.Known(p.read_text() for p in sorted(root.glob("crates/*/specs/*.antt")))
    for path in sorted((root / "crates" / crate / "specs").glob("*.antt")):
        text = mutate_definitions.with_imports(path.read_text())
        for name, change in mutate_definitions.mutants_of(text, known):
            yield Mutant(path.relative_to(root), name, *change, text)


def line_in(text, start, end, wanted):
    """The place of the one line that reads so between two places."""
    at, found = start, []
    for line in text[start:end].split("\n"):
        if line.strip() == wanted:
            found.append((at + len(line) - len(line.lstrip()), at + len(line.rstrip())))
        at += len(line) + 1
    return found


def wrong_rows(crate):
    """The rows of docs/WRONG.md for a crate: function, file, the line before and after."""
    of = None
    for line in (HERE.parent / "docs/WRONG.md").read_text().split("\n"):
        row = re.match(r"\| `(\w+)`, `(\w+\.rt)` \| `(.*?)` \| (?:`(.*?)`|line dropped) \|", line)
        of = line[3:] if line.startswith("## ") else of
        if row and of == crate:
            yield [part and part.replace(r"\|", "|") for part in row.groups()]


def wrong_programs(root, crate):
    for name, file, old, new in wrong_rows(crate):
        file = pathlib.Path("crates", crate, "src", file)
        text = (root / file).read_text()
        source = mutate_code.Source(text)
        bodies = [f.body for f in source.functions if f.name == name]
        places = [p for a, b in bodies for p in line_in(text, source.tokens[a].start, source.tokens[b].end, old)]
        if len(places) != 1:
            sys.exit(f"{file}: {name} has the line {len(places)} times: {old}")
        yield Mutant(file, name, "wrong", *places[0], new or "", text)


def lines(text):
    return " ".join(line.strip() for line in text.strip("\n").split("\n"))


def shown(m):
    """The lines that a mutant changes, before and after."""
    first = m.text.rfind("\n", 0, m.start) + 1
    last = m.text.find("\n", m.end)
    return lines(m.text[first:last]), lines(m.text[first:m.start] + m.new + m.text[m.end:last])


def line_of(m):
    return m.text.count("\n", 0, m.start) + 1


def distinct(mutants):
    seen = set()
    for m in mutants:
        key = (m.file, m.text[:m.start] + m.new + m.text[m.end:])
        if key not in seen:
            seen.add(key)
            yield m


def check(root, crate, seconds=SECONDS):
    """What `rt check` prints; None after too long a time."""
    child = subprocess.Popen(["nice", "-n", "4", "rt", "check"], cwd=root / "crates" / crate, stdout=subprocess.PIPE, stderr=subprocess.STDOUT, text=True, start_new_session=True)
    try:
        return child.communicate(timeout=seconds)[0]
    except subprocess.TimeoutExpired:
        os.killpg(child.pid, signal.SIGKILL)
        child.communicate()
        return None


def verdict(said, definitions):
    if said is None:
        return "timeout"
    last = next((line for line in reversed(said.split("\n")) if line.startswith("logic=")), "")
    if last.startswith("logic=proved"):
        return "survived"
    if not last.startswith("logic=not-proved"):
        return "no program"
    return "no program" if definitions and re.search(r"/specs/\w+\.antt:\d+:\d+: error", said) else "refused"


def refusers(said):
    """The theorems and functions that are refused first hand, not because they cite another."""
    found = re.findall(r"/proofs/([\w/]+)\.antt:\d+:\d+: error: `([^`]+)`: (?!`[^`]+` was not admitted|[^\n]*cannot be unfolded because)", said or "")
    return list(dict.fromkeys(f"{name} ({file})" for file, name in found))


def result(m, verdict, by):
    old, new = shown(m)
    return {"file": str(m.file), "line": line_of(m), "name": m.name, "kind": m.kind, "old": old, "new": new, "verdict": verdict, "by": by}


def said_of(root, crate, mutants):
    """What the check says of the copy with these changes, each in a function of its own."""
    kept = {m.file: m.text for m in mutants}
    whole = {file: (root / file).read_text() for file in kept}
    try:
        for file, text in kept.items():
            for m in sorted((m for m in mutants if m.file == file), key=lambda m: -m.start):
                text = text[:m.start] + m.new + text[m.end:]
            (root / file).write_text(text)
        return check(root, crate)
    finally:
        for file, text in whole.items():
            (root / file).write_text(text)


def judge(root, crate, m, definitions):
    said = said_of(root, crate, [m])
    return result(m, verdict(said, definitions), refusers(said))


def refused_itself(said, m):
    """Whether the function's own proof file is refused first hand: a function's proof looks at its own body and at the contracts of those that it calls."""
    places = [re.sub(r".* \((.*)\)$", r"\1", by).split("/") for by in refusers(said)]
    return any(parts[-2:-1] == [m.name] and parts[-1] in ("Proof", "Answers", "Invariants") and (m.file.stem in parts or m.file.stem in ("lib", "main")) for parts in places)


def judge_together(root, crate, mutants):
    """One check of changes in different functions. What is not refused for its own sake is judged again alone; where the compiler refuses the text, each half is tried."""
    if len(mutants) == 1:
        return [judge(root, crate, mutants[0], False)]
    said = said_of(root, crate, mutants)
    if verdict(said, False) == "no program":
        half = len(mutants) // 2
        return judge_together(root, crate, mutants[:half]) + judge_together(root, crate, mutants[half:])
    return [result(m, "refused", []) if refused_itself(said, m) else judge(root, crate, m, False) for m in mutants]


def batches(root, crate, mutants, most):
    """The mutants in groups of at most so many, each in a function of its own; a constant's alone."""
    functions = {(p.relative_to(root), f.name) for p in (root / "crates" / crate / "src").glob("*.rt") for f in mutate_code.Source(p.read_text()).functions}
    left = list(mutants)
    while left:
        group = []
        for m in left:
            places = [(o.file, o.name) for o in group]
            if not group or len(group) < most and (m.file, m.name) not in places and {(m.file, m.name), *places} <= functions:
                group.append(m)
        left = [m for m in left if m not in group]
        yield group


def explained():
    """The survivors of tests/mutants.txt: file and name, the line before and after, with the reason."""
    reasons, place, old, new = {}, None, None, None
    for line in (HERE / "mutants.txt").read_text().split("\n"):
        mark, rest = line[:2], line[2:].strip()
        if mark == "- ":
            old = rest
        elif mark == "+ ":
            new = rest
        elif mark == "= ":
            reasons[(*place, old, new)] = rest
        elif line.startswith("crates/"):
            place = tuple(line.split())
    return reasons


def key(r):
    return r["file"], r["name"], r["old"], r["new"]


def place(r):
    """A line may stand in a function twice."""
    return (*key(r), r["line"])


def chosen(args, root):
    listed = wrong_programs if args.wrong else definition_mutants if args.definitions else code_mutants
    mutants = list(distinct(listed(root, args.crate)))
    if args.kinds:
        mutants = [m for m in mutants if m.kind in args.kinds.split(",")]
    if args.only:
        mutants = [m for m in mutants if re.search(args.only, f"{m.file} {m.name}")]
    if args.sample:
        mutants = sorted(random.Random(args.seed).sample(mutants, min(args.sample, len(mutants))), key=lambda m: (m.file, m.start))
    return mutants[:args.limit]


def report(crate, results):
    reasons = explained()
    count = collections.Counter(r["verdict"] for r in results)
    known = sum(r["verdict"] == "survived" and key(r) in reasons for r in results)
    print(f"{crate}: {len(results)} mutants, {count['no program']} no program, {count['refused']} refused, {count['timeout']} timeout, "
          f"{known} survived and explained, {count['survived'] - known} survived")
    for r in results:
        if r["verdict"] in ("survived", "timeout") and key(r) not in reasons:
            print(f"{r['verdict']}: {r['file']}:{r['line']} {r['name']}\n- {r['old']}\n+ {r['new']}")


def arguments():
    parser = argparse.ArgumentParser()
    parser.add_argument("copy", type=pathlib.Path)
    parser.add_argument("--crate", required=True)
    parser.add_argument("--definitions", action="store_true")
    parser.add_argument("--wrong", action="store_true", help="the wrong programs of docs/WRONG.md")
    parser.add_argument("--kinds")
    parser.add_argument("--only", help="a pattern for the file and the name")
    parser.add_argument("--limit", type=int)
    parser.add_argument("--sample", type=int)
    parser.add_argument("--seed", type=int, default=1)
    parser.add_argument("--together", type=int, default=1, help="so many changes in one check, each in a function of its own")
    parser.add_argument("--log", type=pathlib.Path, help="verdicts, one a line; those that it holds are not judged again")
    parser.add_argument("--list", action="store_true", help="print the mutants and judge none")
    return parser.parse_args()


def listed(mutants):
    for m in mutants:
        print(f"{m.file}:{line_of(m)} {m.name}, {m.kind}\n- {shown(m)[0]}\n+ {shown(m)[1]}")
    print(f"{len(mutants)} mutants:", ", ".join(f"{n} {kind}" for kind, n in collections.Counter(m.kind for m in mutants).most_common()))


def logged(args):
    if not args.log or not args.log.exists():
        return {}
    return {place(r): r for r in map(json.loads, args.log.read_text().splitlines())}


def judged(args, root, mutants):
    """The results of all, each new one written to the log as soon as it is there."""
    old = logged(args)
    places = {m: place(result(m, "", [])) for m in mutants}
    done = [old[places[m]] for m in mutants if places[m] in old]
    left = [m for m in mutants if places[m] not in old]
    for group in [[m] for m in left] if args.definitions else batches(root, args.crate, left, args.together):
        new = [judge(root, args.crate, m, True) for m in group] if args.definitions else judge_together(root, args.crate, group)
        done += new
        if args.log:
            with args.log.open("a") as log:
                log.writelines(json.dumps(r, ensure_ascii=False) + "\n" for r in new)
    return done


def main():
    args = arguments()
    root = args.copy.resolve()
    mutants = chosen(args, root)
    if args.list:
        return listed(mutants)
    if root == HERE.parent:
        sys.exit("give a private copy of the repository, not the repository itself")
    if verdict(check(root, args.crate, None), args.definitions) != "survived":
        sys.exit(f"{args.crate} is not proved as it stands")
    report(args.crate, judged(args, root, mutants))


main()

#!/usr/bin/env python3
"""Holds the program beside OpenFst's tools on drawn machines.

    tests/openfst.py PROGRAM [CASES [SEED]]
    tests/openfst.py --sigma PROGRAM [CASES [SEED]]

Texts: `rinkolza print` against `fstcompile | fstprint`, with and without symbol tables, as acceptors, with kept state numbers.
Compositions: `rinkolza compose --sort never` against `fstcompose --connect=false`, each filter, lists sorted on both inner sides, on one, on
none (which both refuse; then sorted first).
Pictures: `rinkolza draw` through `dot`, and its edges against `fstdraw`'s.

--sigma: compositions with a sigma label on machine 1, on machine 2 or on both, each filter and rewrite mode, against OpenFst's SigmaMatcher; refusals 5, 6, 10
and 11 against its errors. fstcompose has no option for that matcher, so openfst_sigma.cc asks the library for it: this needs g++ and OpenFst's headers. OpenFst has no allowed lists, and none are drawn. "own and sigma matches": a label that is looked up at the start has both.

Costs are below 2 ^ 20, so that OpenFst's floating point numbers are exact. Compositions are held to be equal line by line: state numbers and the order of
transitions too. Where the tools are not installed the script says so and ends well.
"""
import random
import re
import shutil
import subprocess
import sys
import tempfile
from pathlib import Path

TOOLS = ["fstcompile", "fstprint", "fstcompose", "fstdraw"]
# Ours and OpenFst's name for each.
FILTERS = {"sequence": "sequence", "alternate": "alt_sequence", "match": "match", "null": "null", "trivial": "trivial", "no_match": "no_match"}
REWRITES = ["auto", "always", "never"]
# The fields of a line that hold the inner label, in machine 1 and in machine 2.
SIDES = 3, 2
# OpenFst's errors by sigma, and the refusals that stand for them.
ERRORS = {
    "1st argument cannot perform required matching": 5,
    "2nd argument cannot perform required matching": 6,
    "Both sides can't require match": 10,
    "bad label (sigma)": 11,
}


def run(*words, stdin=b""):
    """Exit status, standard output and standard error."""
    done = subprocess.run([str(w) for w in words], input=stdin, capture_output=True)
    return done.returncode, done.stdout, done.stderr.decode()


def compiled(text, *options):
    """A compiled machine; none where fstcompile refuses the text. (It may refuse with status 0 and write nothing.)"""
    status, binary, _ = run("fstcompile", *options, stdin=text.encode())
    return binary if status == 0 and binary else None


def printed(binary, *options):
    status, text, error = run("fstprint", *options, stdin=binary)
    assert status == 0, error
    return text.decode()


class Draw:
    def __init__(self, seed):
        self.random = random.Random(seed)

    def weight(self, dear=0.1):
        r = self.random
        if r.random() < 0.3:
            return ""
        if r.random() < dear:
            return r.choice(["Infinity", "0", "1048575", "3.0", "1e2", "1.5e+01", "7", "0.5"] if dear > 0.1 else ["Infinity", "0", "1048575"])
        return str(r.randrange(1, 9))

    def text(self, labels, acceptor=False, odd=False):
        """Lines of a machine with states of any numbers; odd: also lines that are refused."""
        r = self.random
        ids = r.sample(range(0, 40 if odd else 12), r.randrange(1, 6))
        lines = []
        for _ in range(r.randrange(0, 9)):
            between = lambda: r.choice(["\t", " ", "  ", "\t\t"]) if odd else "\t"
            if r.random() < 0.7:
                fields = [r.choice(ids), r.choice(ids)] + [r.choice(labels) for _ in range(1 if acceptor else 2)]
            else:
                fields = [r.choice(ids)]
            fields.append(self.weight(0.3 if odd else 0.1))
            if odd and r.random() < 0.02:
                fields.insert(r.randrange(len(fields)), r.choice(["x", "-1", "7"]))
            lines.append(between().join(str(f) for f in fields if f != ""))
            if odd and r.random() < 0.1:
                lines.append("")
        return "\n".join(lines) + ("\n" if lines else "")

    def machine(self, side, sort):
        """Lines of a machine without gaps; its lists sorted by the label on that side (2 input, 3 output), or as they fall."""
        r = self.random
        states, labels = r.choice([r.randrange(1, 5), r.randrange(1, 12)]), r.choice([2, 3, 4, 7])
        lists = {s: [] for s in range(states)}
        for _ in range(r.randrange(0, 3 * states + 3)):
            s = r.randrange(states)
            pair = [r.choice([0, r.randrange(labels)]), r.choice([0, r.randrange(labels)])]
            lists[s].append([s, r.randrange(states)] + pair + [self.weight()])
        return self.lines(lists, side, sort)

    def lines(self, lists, side, sort):
        """Lines of a machine with these lists, some of its states final."""
        lines = []
        for s, trs in lists.items():
            lines += sorted(trs, key=lambda t: t[side]) if sort else trs
            if not trs or self.random.random() < 0.4:
                lines.append([s, self.random.choice(["Infinity", "", "2", "5"])])
        return "".join("\t".join(str(f) for f in line if f != "") + "\n" for line in lines)

    def sigma_lists(self, side, sigma, letters):
        """Lists of a machine whose labels on that side are 0, these letters and, where there is one, sigma; with sigma it may be an acceptor."""
        r = self.random
        states, acceptor = r.randrange(1, 5), sigma is not None and r.random() < 0.3
        lists = {s: [] for s in range(states)}
        for _ in range(r.randrange(2 * states, 8 * states)):
            tr = [r.randrange(states), r.randrange(states), 0, 0, self.weight()]
            outer = 5 - side
            tr[side] = r.choice([0] + letters + ([] if sigma is None else [sigma, sigma]))
            tr[outer] = tr[side] if acceptor else r.choice([0, 1, 2, tr[side]])
            lists[tr[0]].append(tr)
        return lists

    def sigma_machines(self):
        """Sigma labels (none: no sigma), and the lists and lines of two machines. Seldom a machine has the other's sigma, or is not sorted by its own: both refuse that."""
        r = self.random
        one, other = r.randrange(1, 5), r.randrange(1, 5)
        sigmas = r.choice(3 * [(one, None)] + 4 * [(None, one)] + [(one, other)])
        letters = [[x for x in range(1, 5) if x != shunned or r.random() < 0.1] for shunned in reversed(sigmas)]
        lists = [self.sigma_lists(*each) for each in zip(SIDES, sigmas, letters)]
        sorts = [r.random() < (0.6 if sigma is None else 0.95) for sigma in sigmas]
        return sigmas, lists, [self.lines(*each) for each in zip(lists, SIDES, sorts)]


def same_text(program, draw, folder):
    """Texts that OpenFst accepts are printed alike, but for weights that are not whole."""
    symbols = folder / "symbols"
    symbols.write_text("<eps>\t0\na\t1\nb 2\nc\t3\n")
    named = draw.random.random() < 0.4
    acceptor, kept = draw.random.random() < 0.3, draw.random.random() < 0.3
    text = draw.text(["<eps>", "a", "b", "c"] if named else ["0", "1", "2", "30"], acceptor, odd=True)
    tables = [f"--isymbols={symbols}", f"--osymbols={symbols}"] if named else []
    flags = ["--acceptor"] * acceptor
    reading = ["--keep-state-numbering"] * kept
    status, ours, error = run(program, "print", *tables, *flags, *reading, "-", stdin=text.encode())
    binary = compiled(text, *tables, *flags, *(w.replace("-state-n", "_state_n").replace("--keep-", "--keep_") for w in reading))
    if status == 3 and "is not a whole number" in error:
        return "not whole"
    if binary is None:
        assert status == 3 and "standard input:" in error, (text, ours, error)
        return "refused"
    theirs = printed(binary, *tables, *flags)
    assert status == 0 and ours.decode() == theirs, (text, ours.decode(), theirs, error)
    return "same"


def edges(dot):
    return sorted(re.findall(r'(\d+ -> \d+) \[label = "([^"]*)"', dot))


def same_picture(program, draw, folder):
    text = draw.machine(2, False)
    status, ours, error = run(program, "draw", "-", stdin=text.encode())
    _, theirs, _ = run("fstdraw", "--precision=9", stdin=compiled(text))
    assert status == 0 and edges(ours.decode()) == edges(theirs.decode()), (text, ours, theirs, error)
    if shutil.which("dot"):
        status, svg, error = run("dot", "-Tsvg", stdin=ours)
        assert status == 0 and b"</svg>" in svg and not error, (text, error)
    return "same"


def after_sorting(program, ours_filter, theirs_filter, folder):
    """Neither list is sorted: ours sorts both. OpenFst is given what ours sorts, since fstarcsort orders equal labels by the other label, and ours leaves their order."""
    for k, side in enumerate(("output", "input")):
        _, text, _ = run(program, "print", f"--sort={side}", "--keep-state-numbering", folder / f"{k}.txt")
        (folder / f"{k}.fst").write_bytes(compiled(text.decode(), "--keep_state_numbering"))
    status, ours, error = run(program, "compose", f"--filter={ours_filter}", folder / "0.txt", folder / "1.txt")
    _, binary, message = run("fstcompose", "--connect=false", f"--compose_filter={theirs_filter}", folder / "0.fst", folder / "1.fst")
    assert status == 0 and ours.decode() == printed(binary), (ours, error, message)
    return f"{ours_filter} same after sorting"


def same_composition(program, draw, folder):
    sort1, sort2 = draw.random.random() < 0.6, draw.random.random() < 0.6
    texts = draw.machine(3, sort1), draw.machine(2, sort2)
    ours_filter, theirs_filter = draw.random.choice(list(FILTERS.items()))
    for k, text in enumerate(texts):
        (folder / f"{k}.txt").write_text(text)
        (folder / f"{k}.fst").write_bytes(compiled(text))
    status, ours, error = run(program, "compose", "--sort=never", f"--filter={ours_filter}", folder / "0.txt", folder / "1.txt")
    told, binary, message = run("fstcompose", "--connect=false", f"--compose_filter={theirs_filter}", folder / "0.fst", folder / "1.fst")
    if "cannot match on output labels" in message:
        assert status == 1 and "refused 7:" in error, (texts, ours, error)
        return after_sorting(program, ours_filter, theirs_filter, folder)
    assert told == 0 and status == 0, (texts, error, message)
    theirs = printed(binary)
    assert ours.decode() == theirs, (ours_filter, texts, ours.decode(), theirs)
    return f"{ours_filter} same"


def start_has_both(lists, sigmas):
    """Whether at the start a label that is looked up in the machine with sigma has matches of its own there, beside sigma's; sigma is on one machine."""
    inner = [{tr[side] for tr in machine[0]} for machine, side in zip(lists, SIDES)]
    looked = 0 if sigmas[0] is not None else 1
    return sigmas[looked] in inner[looked] and bool((inner[0] & inner[1]) - {0})


def sigma_options(draw, sigmas):
    """A filter and rewrite modes, as ours and theirs name them."""
    ours_filter, theirs_filter = draw.random.choice(list(FILTERS.items()))
    ours, theirs = ["--sort=never", f"--filter={ours_filter}"], [theirs_filter]
    for k, sigma in enumerate(sigmas, 1):
        mode = draw.random.choice(REWRITES)
        theirs += [-1 if sigma is None else sigma, mode]
        ours += [] if sigma is None else [f"--sigma{k}={sigma}", f"--rewrite{k}={mode}"]
    return ours, theirs


def same_sigma(program, peer, draw, folder):
    sigmas, lists, texts = draw.sigma_machines()
    for k, text in enumerate(texts):
        (folder / f"{k}.txt").write_text(text)
        (folder / f"{k}.fst").write_bytes(compiled(text))
    options, words = sigma_options(draw, sigmas)
    status, ours, error = run(program, "compose", *options, folder / "0.txt", folder / "1.txt")
    told, binary, message = run(peer, folder / "0.fst", folder / "1.fst", *words)
    case = options, texts, ours.decode(), error, message
    for theirs, number in ERRORS.items():
        if theirs in message:
            assert told == 1 and status == 1 and f"refused {number}" in error, case
            return f"refused {number} by both"
    assert told == 0 and status == 0, case
    assert ours.decode() == printed(binary), (case, printed(binary))
    if None not in sigmas:
        return "same, sigma on both machines"
    return "same, own and sigma matches" if start_has_both(lists, sigmas) else "same"


def same_examples(program):
    """The machines in examples/, with their symbols, by every filter."""
    folder = Path(__file__).resolve().parent.parent / "examples"
    table = folder / "labels.syms"
    tables = [f"--isymbols={table}", f"--osymbols={table}"]
    with tempfile.TemporaryDirectory() as scratch:
        for name in ("glyphs", "spacing"):
            (Path(scratch) / name).write_bytes(compiled((folder / f"{name}.txt").read_text(), *tables))
        for ours_filter, theirs_filter in FILTERS.items():
            words = ["--symbols", table, "--filter", ours_filter, folder / "glyphs.txt", folder / "spacing.txt"]
            status, ours, error = run(program, "compose", *words)
            _, binary, _ = run("fstcompose", "--connect=false", f"--compose_filter={theirs_filter}", Path(scratch) / "glyphs", Path(scratch) / "spacing")
            assert status == 0 and ours.decode() == printed(binary, *tables), (ours_filter, ours, error)
    print(f"openfst: same_examples: {len(FILTERS)} same")


def built(folder):
    """The program around OpenFst's library; none where compiler or headers are not installed."""
    peer, source = folder / "openfst_sigma", Path(__file__).resolve().parent / "openfst_sigma.cc"
    if not shutil.which("g++"):
        return None
    status, _, error = run("g++", "-std=c++17", "-O1", "-o", peer, source, "-lfst", "-ldl")
    if "fst/fstlib.h: No such file" in error:
        return None
    assert status == 0, error
    return peer


def repeat(check, cases, seed, *words):
    """Draws cases for a check and counts what it says of them."""
    draw, results = Draw(f"{seed} {check.__name__}"), {}
    for _ in range(cases):
        with tempfile.TemporaryDirectory() as folder:
            result = check(*words, draw, Path(folder))
        results[result] = results.get(result, 0) + 1
    print(f"openfst: {check.__name__}: " + ", ".join(f"{n} {word}" for word, n in sorted(results.items())))


def with_sigma(program, cases, seed):
    with tempfile.TemporaryDirectory() as folder:
        peer = built(Path(folder))
        if peer is None:
            print("openfst: sigma: skipped: g++ or OpenFst's headers not installed")
        else:
            repeat(same_sigma, cases, seed, program, peer)


def main():
    words = [word for word in sys.argv[1:] if word != "--sigma"]
    program = Path(words[0]).resolve()
    cases = int(words[1]) if len(words) > 1 else 200
    seed = int(words[2]) if len(words) > 2 else 13
    lacking = [tool for tool in TOOLS if not shutil.which(tool)]
    if lacking:
        print(f"openfst: skipped: {', '.join(lacking)} not installed (OpenFst's command-line tools)")
        return
    if "--sigma" in sys.argv:
        return with_sigma(program, cases, seed)
    same_examples(program)
    for check in (same_text, same_picture, same_composition):
        repeat(check, cases if check != same_picture else cases // 5, seed, program)


main()

"""Cases of the program `replay` and the Rust's answers to them, through the program of oracle/ built around rustfst's sources."""
import os
import subprocess
import sys

ROOT = os.path.dirname(os.path.dirname(os.path.abspath(__file__)))
sys.path.insert(0, os.path.join(ROOT, "oracle"))
# all six filters
PLAIN = ["--filters6"]
# and a final weight equal to zero as document 01 reads it
READING = [*PLAIN, "--zero-final"]
# records of states and of transitions
ROOM = (1024, 1024)


def built(source):
    """Builds the program around the Rust sources in the folder `source`; its path."""
    path = os.path.join(ROOT, "oracle/target/oracle")
    subprocess.run([os.path.join(ROOT, "oracle/build"), source, path], check=True)
    return path


def oracle_at(path):
    """`path` is the program itself, or the folder of the Rust sources to build it around."""
    return built(path) if os.path.isdir(path) else path


def whole(order, settings, allowed1, allowed2, m1, m2):
    """A case without ignored labels."""
    return [order, settings, allowed1, allowed2, [], m1, m2]


def text(case):
    """A case of seven lines: "-" (a whole listing) or state numbers (expansions in that order); the settings; two allowed lists ("-": no
    list); the ignored labels; both machines. Or what the oracle is asked, which knows no ignored labels. None is "-"."""
    return "".join(("-" if line is None else " ".join(map(str, line))) + "\n" for line in case)


def split(answers):
    """The answers in what `oracle --many` or `replay` printed: each is followed by a line "--"."""
    parts = answers.split("--\n")
    return parts[:-1] if parts[-1] == "" else parts


def answers(oracle, cases, room=ROOM, reading=READING):
    """What the Rust answers to each case, of six lines. Stops where the oracle does: that is a finding by itself."""
    out = [None] * len(cases)
    asked = ["--many", "--lists", f"--room={room[0]}:{room[1]}", *reading]
    for command, places in (("composed", [k for k, c in enumerate(cases) if c[0] is None]),
                            ("order", [k for k, c in enumerate(cases) if c[0] is not None])):
        lines = "".join(text(cases[k] if command == "order" else cases[k][1:]) for k in places)
        got = split(subprocess.run([oracle, command, *asked], input=lines, stdout=subprocess.PIPE, text=True, check=True).stdout)
        assert len(got) == len(places), (command, len(got), len(places))
        for k, answer in zip(places, got):
            out[k] = answer
    return out

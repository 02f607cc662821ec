#!/usr/bin/env python3
"""Gives damaged input to the program `composed`, or to `fan_out`, in pieces that end anywhere, and compares what it prints.

    python3 tests/damaged.py RUST [--inputs N] [--seed S] [--composed PATH]
    python3 tests/damaged.py --fan-out [PATH] [--inputs N] [--seed S]

RUST and PATH as in tests/compare.py. What an input means is worked out here from document 01, "The listing": three lines of decimal words, or a line that is
malformed. Where 1 to 3 refuse it that is the answer; else the one of tests/reference.py to the words. The Rust's harness also gets the bytes, reads them by
itself, and must answer as it does to the words. `fan_out` reads the same three lines and a fourth (request 2.6); its answer is that of tests/model.py, and what
its fourth lines were like after an accepted opening is counted too.
Prints how often each damage was done and each answer came, and the first difference in full; the exit status is 1 where there is one. Defaults: 10000 inputs,
a seed from the clock.
"""
import argparse
import fcntl
import random
import re
import struct
import subprocess
import sys
import termios
import time
from collections import Counter

import rust
from compare import program
from fan_outs import answered, drawn_query
from gen import ALL, FILTERS, listed, mixed
from machine import LIMIT, MAX, Words
from model import Lent
from reference import reference

BATCH = 500
ODD_BYTES = b" \t\r\n\0\x0b\x0c+-.,;:/xe_\"'\x1a\x7f\x80\xa0\xc2\xff" + b"0123456789"
ODD_WORDS = (0, 1, 2, 3, 4095, 4096, 65536, LIMIT, LIMIT + 1, 2 ** 31, MAX - 1, MAX)
# spellings of numbers up to the limit, and above it
WITHIN = [str(MAX - 1), str(MAX), "0" + str(MAX), "0" * 50 + str(MAX), str(2 ** 31)]
ABOVE = [str(MAX + 1), str(MAX + 2), str(2 ** 33), str(10 ** 10), "00000" + str(MAX + 1), str(2 ** 64 - 1), str(2 ** 64), str(2 ** 64 + 1),
         str(2 ** 64 + MAX), "9" * 19, "9" * 20, "1" + "0" * 40]


# -- what an input means

def words_of(line):
    """The words of a line: apart by spaces, tabs or carriage returns, decimal digits alone, up to MAX. None where anything else stands in it."""
    words = []
    for digits in filter(None, re.split(rb"[ \t\r]+", line)):
        value = digits.lstrip(b"0")
        if not re.fullmatch(rb"[0-9]+", digits) or len(value) > 10 or int(value or b"0") > MAX:
            return None
        words.append(int(value or b"0"))
    return words


def meaning(data):
    """The refusal 1, 2 or 3, or the three lists of words. A line ends at a line feed or with the input; a missing line is empty; later lines are not read."""
    settings, *machines = map(words_of, (data.split(b"\n") + [b"", b""])[:3])
    if settings is None or len(settings) != 6 or settings[0] > 1 or settings[1] >= len(FILTERS) or settings[3] > 2 or settings[5] > 2:
        return 1
    for k, m in enumerate(machines):
        if m is None or len(m) > 4096 or not Words(m).well_formed():
            return 2 + k
    return [settings] + machines


def fourth(data):
    """The fourth line; None where there is none."""
    rows = data.split(b"\n")
    return rows[3] if len(rows) > 4 or len(rows) == 4 and rows[3] else None


def fan_out_meaning(data):
    """What `fan_out` prints, and what that shows. The three lines as above; a missing fourth line is empty, and later ones are not read."""
    m = meaning(data)
    if isinstance(m, int):
        return f"refused {m}\n", {f"fan-out refused {m}"}
    return answered(m[0], Lent(*m[1:], None, None), words_of(fourth(data) or b""))


def of_fourth(data):
    """What the fourth line is like, by its bytes."""
    line = fourth(data)
    if line is None:
        yield "missing"
        return
    words = re.findall(rb"[^ \t\r]+", line)
    yield f"of {len(words) if len(words) < 5 else '5 and more'} words"
    for name, sort in (("a tab", rb"\t"), ("a carriage return", rb"\r"), ("more than one blank", rb"[ \t\r]{2}"), ("a blank at an end", rb"^[ \t\r]|[ \t\r]$"),
                       ("leading zeros", rb"(?<![0-9])0[0-9]"), ("another byte", rb"[^0-9 \t\r]")):
        if re.search(sort, line):
            yield name
    if any(re.fullmatch(rb"[0-9]+", w) and int(w) > MAX for w in words):
        yield "a word above MAX"
    rows = data.split(b"\n")
    yield "ends with the input" if len(rows) == 4 else "a fifth line" if len(rows) > 5 or rows[4] else "alone at the end"


# -- damage to words: `lines` are the settings and the two machines, and for `fan_out` the query

def a_machine(rng, lines):
    return lines[rng.choice((1, 2))]


def put(m, at, value):
    if 0 <= at < len(m):
        m[at] = value % 2 ** 32


def some_state(rng, m):
    return 6 + 3 * rng.randrange(max(1, m[0]))


def some_record(rng, m):
    """Its number, and where it starts."""
    t = rng.randint(1, max(1, m[1]))
    return t, 6 + 3 * m[0] + 5 * (t - 1)


def wrong_count(rng, lines):
    m, at = a_machine(rng, lines), rng.randint(0, 1)
    put(m, at, rng.choice([m[at] + 1, m[at] - 1, 0, LIMIT, LIMIT + 1, MAX]))


def other_mark(rng, lines):
    put(a_machine(rng, lines), rng.randint(3, 5), rng.randint(0, 3))


def other_start(rng, lines):
    m = a_machine(rng, lines)
    put(m, 2, rng.choice([0, m[0], m[0] + 1, MAX]))


def other_first(rng, lines):
    m = a_machine(rng, lines)
    put(m, some_state(rng, m), rng.choice([0, m[1], m[1] + 1, MAX]))


def other_final(rng, lines):
    m = a_machine(rng, lines)
    s = some_state(rng, m)
    put(m, s + 1, rng.choice([0, 1, 2, MAX]))
    put(m, s + 2, rng.choice([0, 1, MAX]))


def other_next(rng, lines):
    m = a_machine(rng, lines)
    t, at = some_record(rng, m)
    put(m, at + 4, rng.choice([0, t - 1, t, t + 1, m[1], m[1] + 1, MAX]))


def other_target(rng, lines):
    m = a_machine(rng, lines)
    put(m, some_record(rng, m)[1] + 3, rng.choice([0, m[0] - 1, m[0], MAX]))


def other_label(rng, lines):
    m = a_machine(rng, lines)
    put(m, some_record(rng, m)[1] + rng.randint(0, 1), rng.choice([0, 1, 9, MAX - 1, MAX]))


def other_setting(rng, lines):
    put(lines[0], rng.randrange(6), rng.choice([0, 1, 2, 3, len(FILTERS) - 1, len(FILTERS), 9, MAX]))


def other_word(rng, lines):
    m = rng.choice(lines)
    put(m, rng.randrange(max(1, len(m))), rng.choice(ODD_WORDS))


def word_more(rng, lines):
    m = rng.choice(lines)
    m.insert(rng.randint(0, len(m)), rng.choice(ODD_WORDS))


def word_less(rng, lines):
    m = rng.choice(lines)
    at = rng.randrange(max(1, len(m)))
    del m[at:at + 1]


def long_line(rng, lines):
    """A machine of 4091 to 4101 words, most of its records in no list; or so many words that are none. Returns how many."""
    total = rng.choice([4091, 4095, 4096, 4096, 4097, 4097, 4098, 4101])
    k = rng.randint(1, 2)
    if rng.random() < 0.2:
        lines[k] = [rng.choice([0, 1])] * total
        return total
    states = next(s for s in range(1, 6) if (total - 6 - 3 * s) % 5 == 0)
    records = [[1, 1, 1, 0] for _ in range((total - 6 - 3 * states) // 5)]
    lines[k] = listed([(1, records)] + [(1, [])] * (states - 1))
    lines[k][6] = max(0, len(records) - rng.randint(0, 3))
    return len(lines[k])


WORD_DAMAGE = [wrong_count, other_mark, other_start, other_first, other_final, other_next, other_target, other_label, other_setting, other_word, word_more,
               word_less, long_line]


# -- damage to bytes

def somewhere(rng, data):
    return rng.randint(0, len(data))


def byte_changed(rng, data):
    at = somewhere(rng, data)
    return data[:at] + bytes([rng.choice(ODD_BYTES) if rng.random() < 0.7 else rng.randrange(256)]) + data[at + 1:]


def byte_more(rng, data):
    at = somewhere(rng, data)
    return data[:at] + bytes([rng.choice(ODD_BYTES) if rng.random() < 0.7 else rng.randrange(256)]) + data[at:]


def byte_less(rng, data):
    at = somewhere(rng, data)
    return data[:at] + data[at + 1:]


def cut(rng, data):
    at = somewhere(rng, data)
    return data[:at] if rng.random() < 0.8 else data[at:]


def doubled(rng, data):
    a, b = sorted((somewhere(rng, data), somewhere(rng, data)))
    b = min(b, a + rng.choice([1, 3, 20, 5000]))
    return data[:b] + data[a:]


def blanks(rng, data):
    """Blanks of all sorts where one stands, and at the ends of lines."""
    def some(_):
        return bytes(rng.choice(b" \t\r") for _ in range(rng.choice([1, 1, 2, 5, 300])))
    data = re.sub(rb" ", some, data) if rng.random() < 0.7 else data
    return re.sub(rb"\n", lambda m: some(m) + b"\n" + some(m), data) if rng.random() < 0.7 else data.replace(b"\n", b"\r\n")


def zeros(rng, data):
    """Leading zeros, at one word or at many."""
    share = rng.choice([0.02, 0.3, 1.0])
    return re.sub(rb"[0-9]+", lambda m: b"0" * rng.choice([1, 2, 9, 30, 700]) + m[0] if rng.random() < share else m[0], data)


def a_word(rng, data, new, sort=rb"[0-9]+"):
    """One word of a sort spelled otherwise: `new` gets its digits."""
    found = list(re.finditer(sort, data))
    if not found:
        return data
    m = rng.choice(found)
    return data[:m.start()] + new(m[0]) + data[m.end():]


def at_the_limit(rng, data):
    """A word, or one that is MAX, becomes a number up to the limit or above it."""
    sort = rng.choice([rb"[0-9]+", rb"4294967295"])
    return a_word(rng, data, lambda _: rng.choice(rng.choice([WITHIN, ABOVE])).encode(), sort)


def wrapped(rng, data):
    """A word with 2 ^ 32 or 2 ^ 64 or a multiple added: a reader that wraps would take it for the word."""
    return a_word(rng, data, lambda w: str(int(w[-9:]) + rng.choice([2 ** 32, 2 ** 33, 2 ** 64, 2 ** 64 + 2 ** 32, 10 ** 10 * 2 ** 32])).encode())


def signed(rng, data):
    return a_word(rng, data, lambda w: rng.choice([b"+" + w, b"-" + w, w + b".", w + b".0", w + b"e0", b"0x" + w, w + b"u32", w + b",", b"-0", b"\xef\xbc\x91"]))


def line_less(rng, data):
    rows = data.split(b"\n")
    del rows[rng.randrange(len(rows))]
    return b"\n".join(rows)


def line_more(rng, data):
    rows = data.split(b"\n")
    rows.insert(rng.randint(0, len(rows)), rng.choice([b"", b" ", b"1", rng.choice(rows), b"\0\xff" * 40, b"x" * 70000]))
    return b"\n".join(rows)


def no_last_feed(rng, data):
    return data.rstrip(b"\n") + rng.choice([b"", b"", b" ", b"\r", b"\0"])


def nothing(rng, data):
    return rng.choice([data, data, b"", b"\n", b"\n\n", b"\n\n\n", b" ", b"\xef\xbb\xbf" + data])


BYTE_DAMAGE = [byte_changed, byte_more, byte_less, cut, doubled, blanks, zeros, at_the_limit, wrapped, signed, line_less, line_more, no_last_feed, nothing]


def query_less(rng, line):
    words = line.split()
    return b" ".join(words[:rng.randrange(len(words) or 1)])


def query_more(rng, line):
    more = [rng.choice([b"0", b"1", b"x", str(MAX).encode()])] * rng.choice([1, 1, 1, 2, 5000])
    return b" ".join(line.split() + more if rng.random() < 0.7 else more + line.split())


def query_word(rng, line):
    """A word becomes an odd one: another machine, state or label."""
    return a_word(rng, line, lambda _: str(rng.choice(ODD_WORDS)).encode())


def fifth_line(rng, line):
    return line + b"\n" + rng.choice([line, b"x", b"1 0 0", b"\0\xff" * 40, b" " * 70000])


def no_query(rng, line):
    return rng.choice([None, None, b"", b" ", b"\t\r "])


QUERY_DAMAGE = [query_less, query_more, query_word, fifth_line, no_query, *BYTE_DAMAGE]


def at_the_fourth(rng, data, how):
    """The damage done to the fourth line alone."""
    rows = data.split(b"\n")
    new = how(rng, rows[3]) if len(rows) > 3 else b""
    return b"\n".join(rows[:3] + ([b""] if new is None and rng.random() < 0.5 else [] if new is None else [new] + rows[4:]))


def undamaged(rng):
    """Settings and two machines."""
    while True:
        case = mixed(rng, ALL)
        if sum(map(len, case[5:])) < 400:
            return [list(case[1])] + [list(m) for m in case[5:]]


def drawn(rng):
    """A damaged input, and what was done."""
    lines = undamaged(rng)
    return damaged(rng, lines, rng.choice([(1, 0), (0, 1), (0, 1), (1, 1), (0, 2), (2, 0)]))


def drawn_fan_out(rng):
    """The same with a fourth line, which is mostly damaged by itself."""
    lines = undamaged(rng)
    lines.append(drawn_query(rng, lines[0], Lent(*lines[1:], None, None)))
    data, done = damaged(rng, lines, rng.choice([(0, 0), (0, 0), (0, 0), (0, 0), (1, 0), (0, 1), (1, 1)]))
    if rng.random() < 0.7:
        how = rng.choice(QUERY_DAMAGE)
        return at_the_fourth(rng, data, how), done + [f"{how.__name__} at the fourth line"]
    return data, done or ["none"]


def damaged(rng, lines, harm):
    """The lines as bytes, after so much damage to words and to bytes, and what was done."""
    done = []
    for _ in range(harm[0]):
        how = rng.choice(WORD_DAMAGE)
        if all(len(m) > 6 for m in lines[1:3]):
            more = how(rng, lines)
            done.append(how.__name__ + (f" {more}" if more else ""))
    data = "".join(" ".join(map(str, m)) + "\n" for m in lines).encode()
    for _ in range(harm[1]):
        how = rng.choice(BYTE_DAMAGE)
        data = how(rng, data)
        done.append(how.__name__)
    return data, done


# -- giving it

def pieces(rng, data):
    size = rng.choice([1, 2, 7, 64, 1000, 4095, 4096, 4097, 65536])
    at = 0
    while at < len(data):
        end = at + (rng.randint(1, size) if len(data) / size < 300 else len(data))
        yield data[at:end]
        at = end


def printed(rng, path, data):
    """What the program prints. Each piece is read before the next is written, so that every read ends where a piece does."""
    run = subprocess.Popen([path], stdin=subprocess.PIPE, stdout=subprocess.PIPE, stderr=subprocess.PIPE, bufsize=0)
    try:
        for piece in pieces(rng, data):
            run.stdin.write(piece)
            while run.poll() is None and struct.unpack("i", fcntl.ioctl(run.stdin, termios.FIONREAD, b"\0" * 4))[0]:
                pass
    except BrokenPipeError:
        pass
    out, err = run.communicate()
    return out.decode(errors="replace") + ("" if run.returncode == 0 and not err else f"(exit status {run.returncode}) {err!r}\n")


def wanted(oracle, inputs):
    """The answer to each input, and the Rust's to the same words."""
    means = [meaning(data) for data in inputs]
    found = reference(oracle, [rust.whole(None, m[0], None, None, *m[1:]) for m in means if isinstance(m, list)])
    for m in means:
        if isinstance(m, int):
            yield f"refused {m}\n", f"refused {m}\n"
        else:
            one = next(found)
            yield one.answer, one.rust


class Tally:
    """What was done and answered, and how often what came was not what was wanted."""

    def __init__(self):
        self.counts, self.differences = Counter(), 0

    def damage(self, how, answer, good):
        """Answers what was said: the refusal, or `good` for any other answer."""
        said = answer.strip() if answer.startswith("refused") else good
        self.counts.update({f"damage {name}" for name in how} | {f"answer {said}"})
        if said not in ("refused 1", "refused 2", "refused 3"):
            self.counts.update(f"damage {name}, still of well-formed words" for name in set(how))
        return said

    def hold(self, how, data, *answers):
        """Each of the answers is who gave it, what was wanted, and what came."""
        if all(answer == got for _, answer, got in answers):
            return
        self.differences += 1
        if self.differences == 1:
            print(f"first difference ({', '.join(how)}):\n{data!r}", flush=True)
            for who, answer, got in answers:
                print(f"wanted of {who}:\n{answer}{who}:\n{got}", end="", flush=True)


# `cuts` draws the pieces: how many are written before a program stops reading is not the seed's, and the inputs shall be
def composed_inputs(rng, cuts, tally, inputs, oracle, path):
    for done in range(0, inputs, BATCH):
        batch = [drawn(rng) for _ in range(min(BATCH, inputs - done))]
        for (data, how), (answer, theirs) in zip(batch, wanted(oracle, [data for data, _ in batch])):
            tally.damage(how, answer, "a listing")
            tally.counts["answer ours, and not the Rust's"] += answer != theirs
            by_harness = subprocess.run([oracle, "composed", *rust.READING], input=data, stdout=subprocess.PIPE, check=True).stdout.decode()
            tally.hold(how, data, ("the program", answer, printed(cuts, path, data)), ("the harness", theirs, by_harness))


def fan_out_inputs(rng, cuts, tally, inputs, path):
    for _ in range(inputs):
        data, how = drawn_fan_out(rng)
        answer, seen = fan_out_meaning(data)
        said = tally.damage(how, answer, "a number")
        tally.counts.update(seen)
        if said in ("refused 9", "refused 11", "a number"):
            tally.counts.update(f"fourth line {row}, {said}" for row in of_fourth(data))
        tally.hold(how, data, ("the program", answer, printed(cuts, path, data)))


def main():
    words = argparse.ArgumentParser(usage=__doc__.split("\n\n")[1].strip())
    words.add_argument("rust", nargs="?")
    words.add_argument("--inputs", type=int, default=10000)
    words.add_argument("--seed", type=int, default=int(time.time()))
    words.add_argument("--composed")
    words.add_argument("--fan-out", nargs="?", const="")
    args = words.parse_args()
    if (args.rust is None) == (args.fan_out is None):
        words.error("either RUST or --fan-out")
    rng, cuts, tally, began = random.Random(args.seed), random.Random(args.seed), Tally(), time.time()
    if args.rust is None:
        fan_out_inputs(rng, cuts, tally, args.inputs, program(args.fan_out, "fan_out"))
    else:
        composed_inputs(rng, cuts, tally, args.inputs, rust.oracle_at(args.rust), program(args.composed, "composed"))
    for name, count in sorted(tally.counts.items()):
        print(f"{count:7} {name}")
    print(f"{args.inputs} inputs, seed {args.seed}: {tally.differences} differences; {time.time() - began:.0f} seconds")
    sys.exit(1 if tally.differences else 0)


if __name__ == "__main__":
    main()

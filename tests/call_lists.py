#!/usr/bin/env python3
"""Writes lists of calls drawn from a seed, and what crates/call_lists must print for them.

    python3 tests/call_lists.py                 writes crates/call_lists/stdin and crates/call_lists/stdout
    python3 tests/call_lists.py --rust RUST     compares the model with the Rust on the machines that are drawn

What must be printed is worked out by the model in model.py. RUST is the folder of rustfst's sources, or the program that oracle/build made around it; it knows
no sessions and no memory, so what is compared with it are the side, the lists and final weights, where it is the reference (reference.py). Fan-outs of look-ups
(request 2.6) stand after openings, and in lists of their own. Labels are ignored (request 2.7), sigma labels listed among them (request 2.8), in further
lists, where the labels may change between calls.
"""
import os
import random
import sys
from collections import Counter
from functools import partial
from itertools import product

import rust
from fan_outs import drawn_query, of_fan_out, of_fan_outs
from features import BOTH, Watched, of_cell, of_sigmas
from gen import ADDED, ALL, FILTERS, QUIET, damaged_case, ignored_of, own_and_sigma_case, quiet_case, sigma_case, unsorted_case
from ignored import WALKED, checked, of_ignored, of_ignored_checks, of_ignored_moves, of_list
from machine import LIMIT, MAX, Words
from model import EXPANDED, FILTER_STATE, FIRST, MOVES, STATE_WORDS, TR_WORDS, Lent, World, fan_out, filtered
from reference import reference
from state_cases import parsed

SEED, CASES, OPENINGS = 1, 80, 3000
# the sizes of the arrays of the program
WORDS, BYTES = 49152, 131072
# the lists of fan-outs alone that are drawn, to take few of them, and the fan-outs in each
FAN_OUT_LISTS, IN_EACH = 2000, 6
# the numbers that each call must answer somewhere in the lists
WANTED = {"o": (0, 1, 2, 3, 4, 5, 6, 7, 13), "e": range(14), "f": (*range(10), 12), "r": (*range(9), 10, 11, 12, 13)}
# request 2.1's "from any f": the cells that must be gone through from an f that only a changed record has
ANY_F = [of_cell(filter, move, f, filtered(filter, move, None, None, f)) for filter, move, f in product(ADDED, MOVES, (1, 2))]
# what must be shown of sigma, each in so many lists: a refusal is of a call that looked up a label with own and sigma matches
SIGMAS, OFTEN = [*of_sigmas(), *(f"{BOTH}, refused {n}" for n in (11, 12, 13))], 3
# and so of the fan-out of a look-up
FAN_OUTS = [*of_fan_outs()]
# and of ignored labels: the lists that are drawn, to take few of them, and the calls that must be refused 18; what a fan-out of an ignored label shows
IGNORING_LISTS = 8000
OF_IGNORED = [of_list(f"fan-out of an ignored label, {what}") for what in ("no match", "sigma matches")]
OF_LISTED = [of_list(f"fan-out of a listed sigma, {what}") for what in ("refused 11", "own matches on the other machine")]
EMPTY_PART = of_list("an empty part where the list is refused")
IGNORED = [*((letter, 18) for letter in "oefrc"), *of_ignored_checks(), *of_ignored_moves(), *OF_IGNORED, *OF_LISTED, EMPTY_PART]


def weight(draw, kind):
    return draw.choice((0, 1, 2, 3, 7, 2147483648, MAX - 1, MAX) if draw.random() < 0.08 else (0, 1, 2, 3) if kind == 0 else (1, 1, 2, 3, 0))


def machine(draw, k, kind, sigma):
    """Machine k (0 or 1) with small lists: mostly sorted on its inner side, marks that are true."""
    S = draw.randint(1, 3) if draw.random() < 0.97 else 0
    labels, eps = draw.choice((1, 1, 2)), draw.choice((0, 0.2, 0.5))
    order, same = draw.random() < 0.85, draw.random() < 0.2
    records, heads = [], []

    def label(also):
        if also and sigma not in (0, MAX) and draw.random() < 0.3:
            return sigma
        return 0 if draw.random() < eps else draw.randint(1, labels)

    for s in range(S):
        own = []
        for _ in range(draw.choice((0, 1, 2, 2, 3))):
            r = [label(k == 1), label(k == 0), weight(draw, kind), draw.randrange(S)]
            own.append([r[1 - k], r[1 - k]] + r[2:] if same else r)
        if order:
            own.sort(key=lambda r: r[1 - k])
        final = draw.random() < 0.6
        heads += [len(records) + 1 if own else 0, int(final), weight(draw, kind) if final else 0]
        for j, r in enumerate(own):
            records.append(r + [len(records) + 2 if j + 1 < len(own) else 0])
    words = [S, len(records), draw.randint(1, S) if S and draw.random() < 0.97 else 0, 0, 0, 0] + heads + sum(records, [])
    m = Words(words)
    for side in (0, 1):
        if draw.random() < 0.5:
            words[3 + side] = 1 if m.sorted(side) else 2
    if m.acceptor() and draw.random() < 0.5:
        words[5] = 1
    return words


def some(draw):
    """1, and seldom 0."""
    return int(draw.random() < 0.95)


def drawn_settings(draw):
    sigmas = [draw.choice((9, 9, 1)) * some(draw) if draw.random() < 0.3 else MAX for _ in (0, 1)]
    return [draw.randint(0, 1), draw.choice(ALL), sigmas[0], draw.randint(0, 2), sigmas[1], draw.randint(0, 2)]


def drawn_list(draw):
    return [draw.choice((0, 1, 2, 3, 9, MAX)) for _ in range(draw.randint(0, 3))] if draw.random() < 0.3 else None


def drawn_inputs(draw):
    """Settings, allowed lists and machines; some with an aim at sigma."""
    if draw.random() < 0.4:
        return draw.choice((sigma_case, own_and_sigma_case, own_and_sigma_case))(draw, ALL)
    settings = drawn_settings(draw)
    return [settings, drawn_list(draw), drawn_list(draw), *(machine(draw, k, settings[0], settings[2 + 2 * k]) for k in (0, 1))]


def fan_out_inputs(draw):
    """The same, some with an aim at lists that fall."""
    return unsorted_case(draw, ALL, 3) if draw.random() < 0.3 else drawn_inputs(draw)


def ignoring_inputs(draw):
    """With ignored labels; damage is done by the lists themselves."""
    return quiet_case(draw, ALL, [aim for aim in QUIET if aim[0] is not damaged_case])


ODD = (0, 1, 2, 3, 4, 5, len(FILTERS), 7, 8, 9, 65536, LIMIT, LIMIT + 1, 2 ** 31, MAX)


class Case:
    """One list of calls: its lines in `asked`, what the program prints in `seen`, what its accepted calls passed in `passed`, the present one in `passing`.
    Fan-outs are drawn by `asking`, so that the other calls do not depend on them."""

    def __init__(self, draw, asking=None, inputs=drawn_inputs):
        self.draw, self.asking, self.asked, self.seen, self.passed, self.passing = draw, asking, [], [], set(), set()
        self.settings, *lists, m1, m2 = inputs(draw)
        self.lent = Lent(m1, m2, *lists)
        fill = draw.choice((0, 0, 7, MAX))
        sizes = (draw.choice((1, 2, 5)) * some(draw), STATE_WORDS * draw.choice((1, 3, 6, 12)) * some(draw) + draw.randrange(STATE_WORDS),
                 TR_WORDS * draw.choice((2, 6, 20, 20)) * some(draw) + draw.randrange(TR_WORDS))
        self.world = World([fill] * sizes[0], [fill] * sizes[1], [fill] * sizes[2], [0] * 9, partial(Watched, self.passing))
        self.ask(1, *sizes, fill)
        for k in (0, 1):
            self.lend(k)
        self.listing(0)
        self.listing(1)
        if self.lent.ignored:
            self.ignore(self.lent.ignored)

    def ask(self, code, *words):
        self.asked.append([1 + len(words), code, *words])

    def lend(self, k):
        self.ask(2 + k, *self.lent.words[k])

    def listing(self, k):
        own = self.lent.allowed[k]
        self.ask(4 + k, *([0] if own is None else [1] + own))

    def ignore(self, labels):
        """Without this line no label is ignored."""
        self.lent.ignored = labels
        self.ask(15, *labels)

    def answered(self, letter, words, settings=None):
        """What a call answered; an opening and a fan-out are given settings, the others have the session's."""
        settings = self.world.session[:6] if settings is None else settings
        self.passed.update(of_ignored(settings, self.lent))
        if letter == "p" and checked(settings, self.lent)[0] == 18:
            self.passed.add(EMPTY_PART)
        self.seen.append([letter, *words, "/", *self.world.session, "/", self.world.mixed()])
        if words[:1] == [0]:
            self.passed |= self.passing
        elif BOTH in self.passing:
            self.passed.add(f"{BOTH}, refused {words[0]}")
        if words[:1] == [11]:
            self.passed |= self.passing & {WALKED}
        self.passing.clear()

    def open(self, settings):
        self.ask(8, *settings)
        self.answered("o", self.world.calling(self.world.open, settings, self.lent), settings)
        if self.asking.random() < 0.25:
            self.fan_out(settings)

    def fan_out(self, settings):
        query = drawn_query(self.asking, settings, self.lent)
        self.ask(14, *settings, *query)
        answer = self.world.calling(fan_out, settings, self.lent, query)
        self.answered("c", answer, settings)
        self.passed.update(of_fan_out(settings, self.lent, query, answer[0]))
        if query[2] in self.lent.ignored and answer[0] in (0, 11):
            self.passed.update(self.of_fan_out(query[2] in self.lent.silent(settings), *answer))

    def of_fan_out(self, silent, number, count=0):
        """What the fan-out of a listed label shows: one that is replaced, or a sigma label."""
        if silent:
            yield OF_IGNORED[count > 0]
        else:
            yield from OF_LISTED[:1] if number else OF_LISTED[1:] * (count > 0)

    def call(self):
        found = self.world.session[7]
        n = self.draw.randrange(min(found, 12)) if found and self.draw.random() < 0.9 else self.draw.choice((0, 1, found, MAX))
        what = self.draw.randint(0, 9)
        if what < 4:
            self.expand(n)
        elif what < 6:
            self.ask(10, n)
            self.answered("f", self.world.calling(self.world.final, n, self.lent))
        elif what < 8:
            self.ask(11)
            self.answered("r", self.world.run(self.lent))
        else:
            listed = [k for k in range(min(found, self.world.state_room())) if self.world.state(k, FIRST)]
            n = self.draw.choice(listed) if listed and self.draw.random() < 0.8 else n
            self.ask(12, n)
            self.answered("p", self.world.records(n, self.lent))

    def expand(self, n):
        self.ask(9, n)
        self.answered("e", self.world.calling(self.world.expand, n, self.lent))

    def expand_from_any(self):
        """Expands a found state after giving it another f, which breaks no form."""
        found = range(min(self.world.session[7], self.world.state_room()))
        waiting = [n for n in found if self.world.state(n, EXPANDED) == 0]
        if waiting:
            n = self.draw.choice(waiting)
            self.word_set(1, STATE_WORDS * n + FILTER_STATE, self.draw.randint(1, 2))
            self.expand(n)

    def show(self):
        self.ask(13)
        for letter, slice in zip("hst", (self.world.heads, self.world.states, self.world.trs)):
            self.seen.append([letter, *slice])

    def damage(self):
        """Changes one word of the session, of memory, or of a machine; what it changes back."""
        draw, what = self.draw, self.draw.randint(0, 2)
        if what == 0:
            old = list(self.world.session)
            self.world.session = list(old)
            self.world.session[draw.randrange(9)] = draw.choice(ODD)
            self.ask(6, *self.world.session)
            return lambda: self.session_back(old)
        if what == 1:
            which = draw.randint(0, 2)
            slice = (self.world.heads, self.world.states, self.world.trs)[which]
            # mostly a used word
            used = (len(slice), STATE_WORDS * self.world.session[7], TR_WORDS * self.world.session[8])[which]
            i = draw.randrange(max(1, min(len(slice), used)))
            if i >= len(slice):
                return lambda: None
            old = slice[i]
            self.word_set(which, i, draw.choice(ODD + (old + 1, max(1, old) - 1)) % 2 ** 32)
            return lambda: self.word_set(which, i, old)
        return self.damage_machine()

    def damage_machine(self):
        """Changes one word of a machine; what it changes back."""
        draw, k = self.draw, self.draw.randint(0, 1)
        old = self.lent.words[k]
        words = list(old)
        # often an inner label, so that a list falls
        label = 6 + 3 * old[0] + 5 * draw.randrange(max(1, old[1])) + 1 - k
        words[label if label < len(words) and draw.random() < 0.5 else draw.randrange(len(words))] = draw.choice(ODD)
        self.machine_set(k, words)
        return lambda: self.machine_set(k, old)

    def session_back(self, old):
        self.world.session = old
        self.ask(6, *old)

    def word_set(self, which, i, v):
        slice = (self.world.heads, self.world.states, self.world.trs)[which]
        if i < len(slice):
            slice[i] = v
        self.ask(7, which, i, v)

    def machine_set(self, k, words):
        self.lent.words[k] = words
        self.lend(k)

    def open_again(self):
        """With other settings, or with a machine, memory or a session that is damaged for this call."""
        if self.draw.random() < 0.5:
            other = list(self.settings)
            other[self.draw.randrange(6)] = self.draw.choice(ODD)
            self.open(other)
        else:
            back = self.damage()
            self.open(self.settings)
            back()

    def play(self):
        draw = self.draw
        if draw.random() < 0.2:
            self.call()
        self.open(self.settings)
        for _ in range(draw.randint(3, 9)):
            if draw.random() < 0.2:
                back = self.damage()
                for _ in range(draw.randint(1, 2)):
                    self.call()
                if draw.random() < 0.9:
                    back()
            elif draw.random() < 0.12:
                self.open_again()
            elif draw.random() < 0.3:
                self.expand_from_any()
            else:
                self.call()
        self.show()
        return self

    def ignore_otherwise(self):
        """Other labels, mostly refused ones or none; what changes them back."""
        draw, old = self.draw, self.lent.ignored
        new = list(old)
        new.insert(draw.randint(0, len(new)), draw.choice((0, MAX)))
        self.ignore(draw.choice((new, new, [], ignored_of(draw, self.settings, self.lent.words))))
        return lambda: self.ignore(old)

    def play_ignoring(self):
        """Calls with ignored labels, which change now and then for a call or two; machines and session are damaged too."""
        draw = self.draw
        if draw.random() < 0.1:
            self.call()
        self.open(self.settings)
        for _ in range(draw.randint(2, 6)):
            what = draw.random()
            if what < 0.35:
                back = self.ignore_otherwise() if draw.random() < 0.7 else self.damage()
                for _ in range(draw.randint(1, 2)):
                    self.call()
                if draw.random() < 0.2:
                    self.fan_out(self.settings)
                back()
            elif what < 0.5:
                back = self.ignore_otherwise() if draw.random() < 0.5 else lambda: None
                self.open_again()
                back()
            elif what < 0.65:
                self.fan_out(self.settings)
            else:
                self.call()
        self.show()
        return self

    def fan_outs(self):
        """Fan-outs alone: with the settings, with another word among them, with a damaged machine."""
        for _ in range(IN_EACH):
            what, settings = self.draw.random(), list(self.settings)
            if what < 0.2:
                settings[self.draw.randrange(6)] = self.draw.choice(ODD)
            back = self.damage_machine() if what > 0.9 else lambda: None
            self.fan_out(settings)
            back()
        return self

    def shown(self):
        return {(r[0], r[1]) for r in self.seen if len(r) > 1} | self.passed


def cases():
    """The first CASES lists, and of those drawn after them each that shows something which is wanted in more lists."""
    draw, asking, found = random.Random(SEED), random.Random(SEED), []
    lacking = Counter({(letter, n): 1 for letter, numbers in WANTED.items() for n in numbers} | dict.fromkeys(ANY_F, 1) | dict.fromkeys(SIGMAS, OFTEN))
    while lacking or len(found) < CASES:
        c = Case(draw, asking).play()
        new = lacking & Counter(c.shown())
        if new or len(found) < CASES:
            found.append(c)
            lacking -= new
    found += fan_out_cases(found)
    return found + ignoring_cases()


def fan_out_cases(before):
    """Lists of fan-outs alone, so that with the lists before them each sort stands in OFTEN."""
    draw = random.Random(SEED)
    drawn = [Case(draw, draw, fan_out_inputs).fan_outs() for _ in range(FAN_OUT_LISTS)]
    return few_of(drawn, Counter(dict.fromkeys(FAN_OUTS, OFTEN)) - Counter(row for c in before for row in c.shown()))


def ignoring_cases():
    """Lists with ignored labels, each sort in OFTEN of them."""
    draw = random.Random(SEED)
    drawn = [Case(draw, draw, ignoring_inputs).play_ignoring() for _ in range(IGNORING_LISTS)]
    return few_of(drawn, Counter(dict.fromkeys(IGNORED, OFTEN)))


def few_of(drawn, lacking):
    """Of the lists that are drawn always the one that shows most of what is lacking for its length. Fails where they do not show it."""
    found = []
    while lacking:
        c = max(drawn, key=lambda c: len(lacking & Counter(c.shown())) / sum(map(len, c.asked)))
        new = lacking & Counter(c.shown())
        assert new, f"not shown often enough: {lacking}"
        found.append(c)
        drawn.remove(c)
        lacking -= new
    return found


def compare(oracle):
    draw = random.Random(SEED)
    drawn = [Case(draw, inputs=inputs) for inputs in (drawn_inputs, ignoring_inputs) for _ in range(OPENINGS)]
    asked = [[range(8), c.settings, *c.lent.allowed, c.lent.ignored, *c.lent.words] for c in drawn]
    theirs = [parsed(one.answer) for one in reference(oracle, asked) if not one.ours]
    expansions = sum(len(answers) for _, answers, _ in theirs)
    print(f"{len(theirs)} openings and {expansions} expansions answered as the Rust answers; {len(drawn) - len(theirs)} openings are ours")


def main():
    if sys.argv[1:2] == ["--rust"]:
        return compare(rust.oracle_at(sys.argv[2]))
    found = cases()
    for row, n in sorted(Counter(str(row) for c in found for row in c.shown().intersection([BOTH, *SIGMAS, *FAN_OUTS, *IGNORED])).items()):
        print(f"{n:4} {row}")
    asked = [" ".join(map(str, r)) for c in found for r in c.asked]
    words, size = sum(len(r.split()) for r in asked), sum(len(r) + 1 for r in asked)
    print(f"{len(found)} lists, {words} words and {size} bytes in")
    assert words <= WORDS and size <= BYTES
    folder = os.path.join(rust.ROOT, "crates/call_lists")
    for name, rows in (("stdin", (r for c in found for r in c.asked)), ("stdout", (r for c in found for r in c.seen))):
        with open(os.path.join(folder, name), "w") as f:
            f.writelines(" ".join(map(str, r)) + "\n" for r in rows)


if __name__ == "__main__":
    main()

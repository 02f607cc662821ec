"""What a case of `replay` shows: names of the rows of document 01 and of requests 2.1, 2.4 and 2.7 that it goes through, by the model in model.py and the answer."""
from collections import Counter
from functools import cache
from itertools import product

import ignored as quiet
from machine import MAX, Words
from model import MOVES, SIDES, Composition, Lent, Read, Refused, filtered, side_for
from gen import ALL, FILTERS

# a look-up at which request 2.4's definition is the reference, not the Rust
BOTH = "a label with own and sigma matches (ours)"
SEVERAL, BEFORE = "more than one of each", "sigma before the label in the list"
WAYS = ("whole listing", "order of expansions")
# features whose answers are long: memory that is nearly full
LONG = ("more than 1000 states stored", "more than 1000 transitions stored", "order, an expansion after refused 13", f"{BOTH}, refused 13")


def of_filter(filter, what):
    return f"filter {FILTERS[filter]}, {what}"


def of_move(filter, move, what):
    return of_filter(filter, (f"{move + 1} alone" if move in (0, 1) else move) + what)


def of_cell(filter, move, f, to):
    return of_move(filter, move, f", f {f}: {'drop' if to is None else to}")


def of_opening(settings, side, way):
    """What an accepted opening shows of its filter."""
    sigmas = [f"sigma of machine {k + 1} set" for k in (0, 1) if settings[2 + 2 * k] != MAX]
    for what in [f"side {SIDES[side]}", f"kind {settings[0]}", way, *sigmas]:
        yield of_filter(settings[1], what)


def of_both(k, what):
    """What a look-up in machine k (0 or 1) that finds both own and sigma matches shows."""
    return f"{BOTH}, machine {k + 1}, {what}"


def of_sigma(k, what):
    return f"sigma of machine {k + 1}, {what}"


def by_list(allowed):
    return "no allowed list" if allowed is None else "an allowed list" if allowed else "an empty allowed list"


def kept_out(own, allowed):
    return f"{'own matches alone, sigma' if own else 'label'} kept out by its {'allowed list' if allowed else 'empty allowed list'}"


def mode_of(mode, acceptor):
    return f"mode {mode}" + (", acceptor mark" if mode == 0 and acceptor else "")


def of_sigmas():
    """What a label with own and sigma matches must be seen with, and one that has the ones or the others."""
    for k in (0, 1):
        modes, sides = [f"rewritten, {mode_of(*m)}" for m in product((0, 1, 2), (0, 1))], [f"side {SIDES[side]}" for side in (1 - k, 2)]
        for what in [*modes, *sides, "kind 0", "kind 1", by_list(None), by_list([1]), SEVERAL, BEFORE]:
            yield of_both(k, what)
        for what in modes + [kept_out(own, allowed) for own, allowed in product((False, True), ([], [1]))]:
            yield of_sigma(k, what)


def required():
    """What every filter must be seen with: what its table makes of each move from f = 0; the sides, the kinds, the sigmas, listings and orders."""
    for filter, move, *facts in product(ALL, MOVES, *[(False, True)] * 4):
        yield of_cell(filter, move, 0, filtered(filter, move, facts[:2], facts[2:], 0))
    for filter, side, kind, way in product(ALL, range(len(SIDES)), (0, 1), WAYS):
        yield from of_opening([kind, filter, 1, 0, 1, 0], side, way)
    yield from (of_filter(filter, BOTH) for filter in ALL)
    yield from of_sigmas()


class Kept(Read):
    """A machine that works out each state's list, "none" and "all" once."""

    def __init__(self, *read):
        super().__init__(*read)
        self.list, self.none, self.all = (cache(f) for f in (super().list, super().none, super().all))


class Watched(Composition):
    """The model, noting in `seen` where it passes."""

    def __init__(self, seen, settings, lent, side):
        super().__init__(settings, lent, side)
        self.machines = lent.read(settings, Kept)
        self.lent, self.seen, self.silent = lent, seen, lent.silent(settings)
        overlap = lent.ignored and self.silent != set(lent.ignored)
        self.before = quiet.before(lent).read(settings, Kept) if overlap else self.machines

    def looked_up(self, s1, s2):
        m = super().looked_up(s1, s2)
        if self.side == 2:
            lengths = [len(self.machines[k].list(s)) for k, s in ((0, s1), (1, s2))]
            if self.has_sigma(m, (s1, s2)[m]):
                self.seen.add(f"side both, decided by the sigma of machine {m + 1}")
            else:
                sign = "<" if lengths[0] < lengths[1] else "=" if lengths[0] == lengths[1] else ">"
                self.seen.add(f"side both, decided by lengths, 1 {sign} 2")
        return m

    def matches(self, k, s, x):
        if x == self.sigma[k] and x in self.lent.ignored:
            self.seen.add(quiet.WALKED)
        found = super().matches(k, s, x)
        if self.has_sigma(k, s):
            self.seen.update(self.of_look_up(k, s, x))
        return found

    def of_look_up(self, k, s, x):
        """What a look-up at a state with a sigma transition shows."""
        sigma, allowed, mode = self.sigma[k], self.allowed[k], mode_of(self.mode[k], self.machines[k].word(5))
        own, rest = self.labelled(k, s, x), self.sigma_matches(k, s, x)
        rows = [f"rewritten, {mode}"]
        if rest and self.lent.ignored and self.mode[k] == 0 and Words(self.lent.words[k]).word(5):
            yield quiet.of_machine(k, quiet.REWRITTEN if self.machines[k].apart else quiet.REWRITTEN_STILL)
        if rest and sigma in self.lent.ignored:
            yield quiet.of_machine(k, quiet.MATCHED)
        if any(self.record(k, t)[:2] == [sigma] * 2 for t in self.labelled(k, s, sigma)):
            rows.append(f"held on both sides, {mode}")
        if own and rest:
            rows += [by_list(allowed), f"side {SIDES[self.side]}", f"kind {self.kind}"]
            rows += [SEVERAL] * (len(own) > 1 and len(rest) > 1) + [BEFORE] * (sigma < x)
            yield from [BOTH, of_filter(self.filter, BOTH)]
            yield from (of_both(k, row) for row in rows)
        elif rest:
            yield from (of_sigma(k, row) for row in rows)
            if allowed is not None:
                yield of_sigma(k, "label let in by its allowed list")
        else:
            yield of_sigma(k, kept_out(own, allowed))

    def cell(self, move, states, f):
        to = super().cell(move, states, f)
        self.seen.add(of_cell(self.filter, move, f, to))
        self.seen.update(self.of_replaced(move, states))
        if move in (0, 1):
            other = self.machines[1 - move]
            s = states[1 - move]
            if not other.list(s) and other.state(s, 1) == 0:
                self.seen.add(of_move(self.filter, move, " beside an empty nonfinal state"))
            if other.state(s, 1) == 1 and other.state(s, 2) == self.zero() and all(other.tr(t, move) == 0 for t in other.list(s)):
                self.seen.add(of_move(self.filter, move, " beside a final weight zero without which \"all\" would hold"))
        return to

    def of_replaced(self, move, states):
        """What a move by an epsilon shows, where the state has a label that is replaced, or a sigma label that is listed."""
        for k in (0, 1) if self.lent.ignored and move != "label" else ():
            raw, now, old = Words(self.lent.words[k]), self.machines[k], self.before[k]
            if move in (k, "both") and any(raw.tr(t, 1 - k) in self.silent for t in raw.list(states[k])):
                yield quiet.of_filter(self.filter, k)
            for what, holds in ((quiet.NONE_NOW, now.none(1 - k, states[k]) > old.none(1 - k, states[k])),
                                (quiet.ALL_NO_LONGER, now.all(1 - k, states[k]) < old.all(1 - k, states[k]))):
                if move == 1 - k and holds:
                    yield quiet.of_machine(k, what)

    def times(self, a, b):
        exact = a + b if self.kind == 0 else a * b
        if exact in (MAX - 1, MAX, MAX + 1) and not (self.kind == 0 and MAX in (a, b)):
            self.seen.add(f"kind {self.kind}, exact product {exact}")
        w = super().times(a, b)
        if w == self.zero():
            self.seen.add("a product equal to zero")
        return w


def of_words(k, m, kind):
    """What the words of machine k (0 or 1) hold."""
    w = Words(m)
    if not w.well_formed():
        return
    name = f"machine {k + 1}"
    yield f"{name}, mark of the matched side {w.word(4 - k)}"
    if w.word(5):
        yield f"{name}, acceptor mark"
    if w.word(2) == 0:
        yield f"{name} without a start"
    lists = [w.list(s) for s in range(w.S)]
    firsts = [w.first(s) for s in range(w.S)]
    entered = Counter([f for f in firsts if f] + [w.next(t) for t in {t for row in lists for t in row} if w.next(t)])
    if any(n > 1 for n in entered.values()):
        yield f"{name}, lists that share a tail"
    if len({t for row in lists for t in row}) < w.T:
        yield f"{name}, a record in no list"
    if any(w.tr(t, k) > 65535 for t in range(1, w.T + 1) for k in (0, 1)):
        yield f"{name}, labels above 65535"
    if any(w.state(s, 1) and w.state(s, 2) == (MAX, 0)[kind] for s in range(w.S)):
        yield f"{name}, a final weight zero"


def of_lists(settings, allowed):
    for k in (0, 1):
        sigma, mode, own = settings[2 + 2 * k], settings[3 + 2 * k], allowed[k]
        if sigma not in (0, MAX):
            yield f"sigma of machine {k + 1} set, mode {mode}"
            yield f"sigma of machine {k + 1} set, {by_list(own)}"


def of_order(lines):
    """What the answer to an order of expansions tells of it."""
    expanded = [line for line in lines if line.startswith("e ")]
    if "refused 9" in lines:
        yield "order, a state not found yet"
    if len(set(expanded)) < len(expanded):
        yield "order, a state again"
    if set(expanded) != {f"e {n}" for n in range(len(set(expanded)))}:
        yield "order, states left out"
    if any(line.startswith("refused 1") for line in lines[1:-1]):
        yield "order, goes on after a refused expansion"


def memory(order, lines):
    """How full memory is left, where the last line says."""
    if lines[-1].startswith("end "):
        states, trs = map(int, lines[-1].split()[1:])
        yield from [name for name, n in zip(LONG, (states, trs)) if n > 1000]
    if order is not None and "refused 13" in lines:
        after = lines[lines.index("refused 13"):]
        if any(line.startswith("e ") for line in after):
            yield LONG[2]


def of_ours(way, lines, seen):
    """What a case with a label that has own and sigma matches is counted for: nothing that does not name this."""
    yield from (row for row in seen if BOTH in row)
    yield from (f"{BOTH}, {row}" for row in {way, *lines} if row == way or row.startswith("refused"))


def features(case, answer, seen):
    """What a case shows, by its answer and what the model passed."""
    order, settings, allowed, ignored, machines = case[0], case[1], case[2:4], case[4], case[5:7]
    lines = answer.rstrip("\n").split("\n")
    way = WAYS[order is not None]
    if BOTH in seen:
        return set(of_ours(way, lines, seen))
    found = {way} | seen
    if order == []:
        found.add("order, empty")
    found |= {("opening " if k == 0 else "") + line for k, line in enumerate(lines) if line.startswith("refused")}
    if order is None and lines[0].startswith("refused"):
        found = {f.replace("opening ", "listing ") for f in found}
    found |= {"final weight refused 12" for line in lines if line.startswith("s ") and line.endswith("refused 12")}
    found |= {line for line in lines[:1] if line.startswith("side")}
    found.update(memory(order, lines))
    if order is not None:
        found.update(of_order(lines))
    if "end 0 0" in lines:
        found.add("no state found")
    found.update(quiet.of_ignored(settings, Lent(*machines, *allowed, ignored)))
    if quiet.of_list("side input") in found or quiet.of_list("side output") in found:
        found.add(quiet.of_list(way))
    if len(settings) != 6:
        return found
    found |= {f"kind {settings[0]}", f"filter {settings[1]}"} if settings[0] < 2 and settings[1] in ALL else set()
    try:
        side = side_for(settings, Lent(*machines, *allowed, ignored))
    except Refused:
        return found
    found.update(of_opening(settings, side, way))
    found.update(of_lists(settings, allowed))
    for k in (0, 1):
        found.update(of_words(k, machines[k], settings[0]))
    return found

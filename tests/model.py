"""Document 01's calls with request 2.1's filters, 2.4's sigma, 2.6's fan-out, 2.7's ignored labels and 2.8's exemption, worked out from their text: the checks, the moves, the
memory."""
from machine import LIMIT, MAX, Words
from gen import FILTERS

# the words of a state record (s1, s2, f, expanded, first, next) and of a transition record
STATE_WORDS, TR_WORDS = 6, 5
# the places in a state record of f, and of what is written after the triple
FILTER_STATE = 2
EXPANDED, FIRST, NEXT = 3, 4, 5
# the sides by their numbers in a session
SIDES = ("input", "output", "both")
# the moves, as the model names them: machine 1 or machine 2 alone, both by an epsilon, both by a label
MOVES = (0, 1, "both", "label")
# request 2.1: the moves that each of its filters drops; the others are kept with f = 0, from any f
DROPPED = {"null": (0, 1), "trivial": (), "no-match": ("both",)}


class Refused(Exception):
    def __init__(self, number):
        self.number = number


def refuse(test, number):
    if test:
        raise Refused(number)


class Read(Words):
    """A machine as it is read under a list of ignored labels (request 2.7): those of `silent` count as 0 on the side `inner`. With a list, which is empty where
    `silent` is None, the mark of that side is read as 0, and so is an acceptor mark that is true no longer."""

    def __init__(self, m, inner, silent):
        super().__init__(m)
        self.inner, self.silent = inner, silent
        self.apart = silent is not None and not self.acceptor()

    def tr(self, t, k):
        x = super().tr(t, k)
        return 0 if k == self.inner and self.silent is not None and x in self.silent else x

    def word(self, i):
        unread = self.silent is not None and (i == 3 + self.inner or i == 5 and self.apart)
        return 0 if unread else super().word(i)


class Lent:
    """The two machines, their allowed lists (None: no list) and the ignored labels."""

    def __init__(self, m1, m2, allowed1, allowed2, ignored=()):
        self.words, self.allowed, self.ignored = [m1, m2], [allowed1, allowed2], list(ignored)

    def machines(self):
        """As they are lent."""
        return Words(self.words[0]), Words(self.words[1])

    def silent(self, settings):
        """The labels that are replaced: those of the list but for the sigma labels (request 2.8). None where the list is empty."""
        return set(self.ignored) - {settings[2], settings[4]} if self.ignored else None

    def read(self, settings, sort=Read):
        """As they are read: machine 1 by its outputs, machine 2 by its inputs."""
        return [sort(m, 1 - k, self.silent(settings)) for k, m in enumerate(self.words)]


def side_for(settings, lent):
    """Checks 1 to 7, with 18 after 3; the number of the side."""
    refuse(len(settings) != 6, 1)
    kind, filter, sigma1, mode1, sigma2, mode2 = settings
    refuse(kind > 1 or filter >= len(FILTERS) or mode1 > 2 or mode2 > 2, 1)
    a, b = lent.machines()
    refuse(not a.well_formed(), 2)
    refuse(not b.well_formed(), 3)
    refuse(0 in lent.ignored or MAX in lent.ignored, 18)
    a, b = lent.read(settings)
    refuse(sigma1 == 0 or sigma2 == 0, 4)
    refuse(sigma1 != MAX and not a.sorted(1), 5)
    refuse(sigma2 != MAX and not b.sorted(0), 6)
    mark1, mark2 = a.word(4) == 1, b.word(3) == 1
    if mark1 and mark2:
        return 2
    if mark1 or mark2:
        return 1 if mark1 else 0
    if a.sorted(1):
        return 1
    refuse(not b.sorted(0), 7)
    return 0


def filtered(filter, move, none, every, f):
    """The filters' table: the next f, or None where the move is dropped. `none` and `every` tell of machine 1 and of machine 2."""
    if FILTERS[filter] in DROPPED:
        return None if move in DROPPED[FILTERS[filter]] else 0
    if move == "label":
        return 0
    if move == "both":
        return 0 if filter == 2 and f == 0 else None
    if filter == 2:
        other, own = 1 - move, 1 + move
        if f == 0:
            return 0 if none[other] else None if every[other] else own
        return own if f == own else None
    if filter == move:
        # sequence and machine 1, alternate and machine 2: the filter state decides
        return (0 if f == 0 else None) if move == 0 else (None if f == 1 else 0)
    return None if every[1 - move] else 0 if none[1 - move] else 1


class Composition:
    def __init__(self, settings, lent, side):
        self.kind, self.filter = settings[:2]
        self.sigma, self.mode = (settings[2], settings[4]), (settings[3], settings[5])
        self.machines, self.allowed, self.side = lent.read(settings), lent.allowed, side

    def inner(self, k, t):
        """The inner label of machine k's record t: an output of machine 1, an input of machine 2."""
        return self.machines[k].tr(t, 1 - k)

    def times(self, a, b):
        if self.kind == 0:
            if MAX in (a, b):
                return MAX
            refuse(a + b >= MAX, 12)
            return a + b
        refuse(a * b > MAX, 12)
        return a * b

    def zero(self):
        return MAX if self.kind == 0 else 0

    def labelled(self, k, s, x):
        """The transitions of machine k at state s with the inner label x."""
        return [t for t in self.machines[k].list(s) if self.inner(k, t) == x]

    def has_sigma(self, k, s):
        return self.sigma[k] != MAX and self.labelled(k, s, self.sigma[k]) != []

    def looked_up(self, s1, s2):
        """The machine that is looked up, 0 or 1."""
        if self.side < 2:
            return 1 - self.side
        at1, at2 = self.has_sigma(0, s1), self.has_sigma(1, s2)
        refuse(at1 and at2, 10)
        if at1 or at2:
            return 0 if at1 else 1
        return 1 if len(self.machines[0].list(s1)) <= len(self.machines[1].list(s2)) else 0

    def record(self, k, t):
        return [self.machines[k].tr(t, j) for j in range(4)]

    def sigma_matches(self, k, s, x):
        """The sigma records of machine k at state s, rewritten to the label x, where that is allowed."""
        sigma, both = self.sigma[k], self.mode[k] == 1 or self.mode[k] == 0 and self.machines[k].word(5) == 1
        if sigma == MAX or self.allowed[k] is not None and x not in self.allowed[k]:
            return []
        records = [self.record(k, t) for t in self.labelled(k, s, sigma)]
        return [[x if side == 1 - k or both and r[side] == sigma else r[side] for side in (0, 1)] + r[2:] for r in records]

    def matches(self, k, s, x):
        """The records of machine k at state s that match the label x, neither 0 nor MAX: its own, then sigma's."""
        refuse(self.sigma[k] != MAX and x == self.sigma[k], 11)
        return [self.record(k, t) for t in self.labelled(k, s, x)] + self.sigma_matches(k, s, x)

    def fan_out(self, k, s, x):
        """Request 2.6: how many matches a look-up of any label gives: of 0 the loop and the epsilons, of MAX the epsilons alone."""
        if x in (0, MAX):
            return len(self.labelled(k, s, 0)) + (1 if x == 0 else 0)
        return len(self.matches(k, s, x))

    def cell(self, move, states, f):
        """What the filter makes of a move at these states: the next f, or None."""
        none = [self.machines[k].none(1 - k, states[k]) for k in (0, 1)]
        every = [self.machines[k].all(1 - k, states[k]) for k in (0, 1)]
        return filtered(self.filter, move, none, every, f)

    def steps(self, s1, s2, f):
        """The kept moves in their order, each as input, output, weight and target triple. A refusal is raised at its place."""
        states = (s1, s2)
        m = self.looked_up(s1, s2)
        w = 1 - m
        rest = [[0, 0, 0 if self.kind == 0 else 1, states[k]] for k in (0, 1)]
        epsilons = [self.record(m, t) for t in self.labelled(m, states[m], 0)]

        def made(move, walked, found):
            g = self.cell(move, states, f)
            if g is None:
                return
            a, b = (walked, found) if w == 0 else (found, walked)
            yield a[0], b[1], self.times(a[2], b[2]), (a[3], b[3], g)

        for e in epsilons:
            yield from made(m, rest[w], e)
        for t in self.machines[w].list(states[w]):
            r, x = self.record(w, t), self.inner(w, t)
            if x == 0:
                yield from made(w, r, rest[m])
                for e in epsilons:
                    yield from made("both", r, e)
            else:
                for e in self.matches(m, states[m], x):
                    yield from made("label", r, e)

    def final(self, s1, s2):
        """The final weight, or None."""
        a, b = self.machines
        if a.state(s1, 1) != 1 or b.state(s2, 1) != 1:
            return None
        w = self.times(a.state(s1, 2), b.state(s2, 2))
        return None if w == self.zero() else w

    def start(self):
        words = [m.word(2) for m in self.machines]
        return (words[0] - 1, words[1] - 1, 0) if all(words) else None


def fan_out(settings, lent, query):
    """Request 2.6 for a query of machine (1 or 2), state and label: checks 1 to 7 and 18, then 9 for a query not of three words, another machine or a state not below
    S, then the look-up with its 11."""
    c = Composition(settings, lent, side_for(settings, lent))
    refuse(query is None or len(query) != 3, 9)
    machine, s, x = query
    refuse(machine not in (1, 2) or s >= c.machines[machine - 1].S, 9)
    return [c.fan_out(machine - 1, s, x)]


def room(slice, size):
    return min(LIMIT, len(slice) // size)


def state_record(t, next):
    """The record of a state just found."""
    return [*t, 0, 0, next]


class World:
    """The latest session and the three slices; each call answers a list of words, the refusal's number or 0 first. `composing` makes the composition that a
    call works with, of settings, machines and side."""

    def __init__(self, heads, states, trs, session, composing=Composition):
        self.heads, self.states, self.trs, self.session, self.composing = heads, states, trs, session, composing

    def calling(self, call, *args):
        kept = list(self.heads), list(self.states), list(self.trs), list(self.session)
        try:
            return [0] + call(*args)
        except Refused as r:
            self.heads, self.states, self.trs, self.session = kept
            return [r.number]

    def state(self, n, k):
        return self.states[STATE_WORDS * n + k]

    def triple(self, n):
        return tuple(self.state(n, k) for k in range(3))

    def state_room(self):
        return room(self.states, STATE_WORDS)

    def tr_room(self):
        return room(self.trs, TR_WORDS)

    def form(self, S1, S2):
        used, last = self.session[7:9]
        if any(h > used for h in self.heads) or used and not self.heads:
            return False
        for n in range(used):
            s1, s2, f = self.triple(n)
            expanded, first, next = (self.state(n, k) for k in (EXPANDED, FIRST, NEXT))
            if s1 >= S1 or s2 >= S2 or f > 2 or expanded > 1 or first > last or next > n or expanded == 0 and first:
                return False
        for i in range(last):
            target, next = self.trs[TR_WORDS * i + 3:TR_WORDS * i + 5]
            if target >= used or next not in (0, i + 2) or next > last:
                return False
        return True

    def entered(self, lent):
        """Checks 1 to 8 and 18."""
        side = side_for(self.session[:6], lent)
        a, b = lent.machines()
        used, last = self.session[7:9]
        refuse(self.session[6] != side or used > self.state_room() or last > self.tr_room() or not self.form(a.S, b.S), 8)
        return self.composing(self.session[:6], lent, side)

    def found(self, n):
        refuse(n >= self.session[7], 9)

    def slot(self, t):
        return (t[0] + 31 * t[1] + t[2]) % len(self.heads)

    def find(self, t):
        link = self.heads[self.slot(t)]
        while link:
            if self.triple(link - 1) == t:
                return link - 1
            link = self.state(link - 1, NEXT)
        return None

    def add(self, t):
        n = self.session[7]
        refuse(n >= self.state_room(), 13)
        self.states[STATE_WORDS * n:STATE_WORDS * (n + 1)] = state_record(t, self.heads[self.slot(t)])
        self.heads[self.slot(t)] = n + 1
        self.session[7] = n + 1
        return n

    def open(self, settings, lent):
        side = side_for(settings, lent)
        start = Composition(settings, lent, side).start()
        refuse(start is not None and (self.state_room() == 0 or not self.heads), 13)
        self.heads = [0] * len(self.heads)
        self.session = list(settings) + [side, 0, 0]
        if start is not None:
            self.add(start)
        return []

    def part(self, n):
        first = self.state(n, FIRST)
        count, link = 0, first
        while link:
            count, link = count + 1, self.trs[TR_WORDS * link - 1]
        return [first, count]

    def expand(self, n, lent):
        return self.expansion(self.entered(lent), n)

    def expansion(self, c, n):
        self.found(n)
        if self.state(n, EXPANDED) == 1:
            return self.part(n)
        before = self.session[8]
        for i, o, w, t in c.steps(*self.triple(n)):
            refuse(self.session[8] >= self.tr_room(), 13)
            to = self.find(t)
            to = self.add(t) if to is None else to
            k = self.session[8]
            if k > before:
                self.trs[TR_WORDS * k - 1] = k + 1
            self.trs[TR_WORDS * k:TR_WORDS * (k + 1)] = [i, o, w, to, 0]
            self.session[8] = k + 1
        count = self.session[8] - before
        first = before + 1 if count else 0
        self.states[STATE_WORDS * n + EXPANDED:STATE_WORDS * n + FIRST + 1] = [1, first]
        return [first, count]

    def final(self, n, lent):
        c = self.entered(lent)
        self.found(n)
        w = c.final(*self.triple(n)[:2])
        return [0] if w is None else [1, w]

    def run(self, lent):
        """Each expansion before a refused one stays."""
        try:
            c = self.entered(lent)
        except Refused as r:
            return [r.number]
        n = 0
        while n < self.session[7]:
            number = self.calling(self.expansion, c, n)[0]
            if number:
                return [number]
            n += 1
        return [0]

    def records(self, n, lent):
        try:
            self.entered(lent)
            self.found(n)
        except Refused:
            return []
        return self.stored(n)

    def stored(self, n):
        """The records of state n; none where it is not expanded."""
        first, count = self.part(n) if self.state(n, EXPANDED) == 1 else (0, 0)
        return self.trs[TR_WORDS * (first - 1):TR_WORDS * (first - 1 + count)] if count else []

    def mixed(self):
        h = 0
        for w in self.heads + self.states + self.trs:
            h = (31 * h + w + 1) % 2 ** 32
        return h

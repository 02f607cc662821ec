"""A machine in words, as document 01 has it."""

import rust  # the folder of gen
from gen import LIMIT, MAX


def word_at(m, i):
    return m[i] if i < len(m) else 0


class Words:
    """Document 01's machine in words; a word past the end is 0, as are those of a state that is not there and of record 0, and a first or next that breaks its
    rule is 0."""

    def __init__(self, m):
        self.m, self.S, self.T = m, word_at(m, 0), word_at(m, 1)

    def word(self, i):
        return word_at(self.m, i)

    def state(self, s, k):
        return self.word(6 + 3 * s + k) if s < self.S else 0

    def tr(self, t, k):
        return self.word(6 + 3 * self.S + 5 * (t - 1) + k) if t else 0

    def first(self, s):
        return self.state(s, 0) if self.state(s, 0) <= self.T else 0

    def next(self, t):
        n = self.tr(t, 4)
        return n if t < n <= self.T else 0

    def list(self, s):
        out, t = [], self.first(s)
        while t:
            out.append(t)
            t = self.next(t)
        return out

    def sorted(self, k):
        # a state past the end has no list
        for s in range(min(self.S, len(self.m))):
            labels = [self.tr(t, k) for t in self.list(s)]
            if labels != sorted(labels):
                return False
        return True

    def acceptor(self):
        # a record past the end has only words 0
        return all(self.tr(t, 0) == self.tr(t, 1) for t in range(1, min(self.T, len(self.m)) + 1))

    def well_formed(self):
        S, T = self.S, self.T
        if S > LIMIT or T > LIMIT or len(self.m) != 6 + 3 * S + 5 * T or self.word(2) > S:
            return False
        for s in range(S):
            first, final, weight = (self.state(s, k) for k in range(3))
            if first > T or final > 1 or (final == 0 and weight != 0):
                return False
        for t in range(1, T + 1):
            a, b, _, target, n = (self.tr(t, k) for k in range(5))
            if a == MAX or b == MAX or target >= S or not (n == 0 or t < n <= T):
                return False
        for mark, fact in ((self.word(3), self.sorted(0)), (self.word(4), self.sorted(1))):
            if mark > 2 or mark == 1 and not fact or mark == 2 and fact:
                return False
        return self.word(5) == 0 or self.word(5) == 1 and self.acceptor()

    def none(self, k, s):
        return all(self.tr(t, k) != 0 for t in self.list(s))

    def all(self, k, s):
        return all(self.tr(t, k) == 0 for t in self.list(s)) and self.state(s, 1) != 1

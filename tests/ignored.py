"""Ignored labels (requests 2.7 and 2.8): the machines with which the Rust is asked, and what a list of labels shows in a call."""
from itertools import product

from gen import ALL, FILTERS
from machine import MAX, Words
from model import SIDES, Lent, Refused, side_for

# the words that a machine line may have, and a list that is called long
LINE, LONG_LIST = 4096, 8
# the start of every row here
QUIET = "ignored"


class Overlapped(Lent):
    """As they were read before request 2.8: sigma labels of the list are replaced too."""

    def silent(self, settings):
        return set(self.ignored) if self.ignored else None


def before(lent):
    return Overlapped(*lent.words, *lent.allowed, lent.ignored)


def replaced(m, inner, silent):
    """The words of a well-formed machine with these labels of a side replaced, the mark of that side 0, and the acceptor mark 0 where a record then has its labels
    apart."""
    words, records = list(m), range(6 + 3 * m[0], len(m), 5)
    for at in records:
        if words[at + inner] in silent:
            words[at + inner] = 0
    words[3 + inner] = 0
    if any(words[at] != words[at + 1] for at in records):
        words[5] = 0
    return words


def checked(settings, lent):
    """The refusal's number or 0, and the side, of the checks of an opening."""
    try:
        return 0, side_for(settings, lent)
    except Refused as r:
        return r.number, None


def asked(case):
    """The six lines with which the Rust is asked: the machines replaced, where there is a list and 1 to 3 refuse nothing. None where the list is refused."""
    order, settings, *lists, ignored, m1, m2 = case
    lent = Lent(*(m if len(m) <= LINE else [] for m in (m1, m2)), *lists, ignored)
    number, _ = checked(settings, lent)
    if number in (1, 2, 3) or not ignored:
        return [order, settings, *lists, m1, m2]
    if number == 18:
        return None
    silent = lent.silent(settings)
    return [order, settings, *lists, replaced(m1, 1, silent), replaced(m2, 0, silent)]


def of_list(what):
    return f"{QUIET}, {what}"


def of_machine(k, what):
    return of_list(f"machine {k + 1}, {what}")


def of_filter(filter, k):
    return of_list(f"filter {FILTERS[filter]}, a move by an epsilon of machine {k + 1} that is a replaced label")


def said(number):
    return f"refused {number}" if number else "accepted"


def told(number, side):
    return said(number) if number else f"side {SIDES[side]}"


SORTED_NO_LONGER, SORTED_NOW = "sorted no longer", "sorted now, and not as lent"
ACCEPTOR, KEPT = "acceptor mark read as 0", "acceptor mark kept"
REWRITTEN, REWRITTEN_STILL = "sigma rewritten by an acceptor mark read as 0", "sigma rewritten by an acceptor mark that is kept"
REPLACED, OUTER = "labels replaced", "an outer label that is listed"
SIGMA, OTHER_SIGMA = "its sigma listed", "the sigma of the other machine listed"
HANDS_ON = of_list("machine 1 hands on the sigma of machine 2, which is listed")
BY_SIDE, LOOKED_UP = of_list("sigma of machine 2 a plain label by the side, and not without the list"), of_list("sigma of machine 2 looked up, machine 1 unsorted")
NOTHING, MANY, TWICE = of_list("nothing replaced"), of_list("a long list"), of_list("a label twice")
# of sigma labels that are listed, where request 2.8 makes a difference
SIGMAS_ALONE, WALKED = of_list("sigma labels alone"), of_list("a listed sigma walked on the other machine, refused 11")
KEPT_NOW, MATCHED = "acceptor mark kept, and not before", "letters matched by its sigma, which is listed"
NONE_NOW, ALL_NO_LONGER = "\"none\" holds, and not before", "\"all\" holds no longer"


def of_machines(settings, lent):
    """What a list makes of each machine."""
    for k, (raw, read, old) in enumerate(zip(lent.machines(), lent.read(settings), before(lent).read(settings))):
        records = range(1, raw.T + 1)
        labels = {raw.tr(t, 1 - k) for t in records}
        if labels & lent.silent(settings):
            yield of_machine(k, REPLACED)
        if raw.sorted(1 - k) != read.sorted(1 - k):
            yield of_machine(k, SORTED_NO_LONGER if raw.sorted(1 - k) else SORTED_NOW)
        if raw.word(4 - k):
            yield of_machine(k, f"mark {raw.word(4 - k)} read as 0")
        if raw.word(5):
            yield of_machine(k, KEPT if read.word(5) else ACCEPTOR)
        if read.word(5) and not old.word(5):
            yield of_machine(k, KEPT_NOW)
        for j, what in ((k, SIGMA), (1 - k, OTHER_SIGMA)):
            if settings[2 + 2 * j] in labels & set(lent.ignored):
                yield of_machine(k, what)
        if {raw.tr(t, k) for t in records} & set(lent.ignored):
            yield of_machine(k, OUTER)


def of_ignored(settings, lent):
    """What a list that is not empty shows in a call with these settings."""
    if not lent.ignored:
        return
    (number, side), (plain, other) = checked(settings, lent), checked(settings, Lent(*lent.words, *lent.allowed))
    bad = [x for x in lent.ignored if x in (0, MAX)]
    if number in (1, 2, 3):
        yield from [of_list(f"refused {number} before 18")] * bool(bad)
        return
    if number == 18:
        where = "" if lent.ignored[0] == bad[0] else ", behind others"
        yield of_list(f"refused 18 by {'MAX' if bad[0] else 0}{where}")
        yield from [of_list(f"refused 18 before {plain}")] * bool(plain)
        return
    yield of_list(said(number) if number else f"side {SIDES[side]}")
    if number != plain:
        yield of_list(f"{said(number)} in place of {said(plain)}")
    elif number == 0 and side != other:
        yield of_list(f"side {SIDES[side]} in place of {SIDES[other]}")
    if (number, side) != checked(settings, before(lent)):
        yield of_list(f"{told(number, side)} for {told(*checked(settings, before(lent)))} before")
    found = set(of_machines(settings, lent))
    yield from found
    yield from [SIGMAS_ALONE] * (set(lent.ignored) <= {settings[2], settings[4]})
    yield from [NOTHING] * (not found & {of_machine(k, REPLACED) for k in (0, 1)})
    yield from [MANY] * (len(lent.ignored) > LONG_LIST) + [TWICE] * (len(set(lent.ignored)) < len(lent.ignored))
    if number == 0 and settings[4] != MAX:
        yield from [LOOKED_UP] * (side == 0) + [BY_SIDE] * (side == 1 and other != 1)
        outputs = {Words(lent.words[0]).tr(t, 1) for t in range(1, Words(lent.words[0]).T + 1)}
        yield from [HANDS_ON] * (settings[4] in outputs & set(lent.ignored))


def of_ignored_checks():
    """What must be seen of the checks, in any call with a list."""
    yield from (of_list(f"refused {n} before 18") for n in (1, 2, 3))
    yield from (of_list(f"refused 18 by {x}{where}") for x, where in product((0, "MAX"), ("", ", behind others")))
    yield from (of_list(f"refused 18 before {n}") for n in (4, 5, 6, 7))
    yield from (of_list(what) for what in ("refused 4", "refused 5", "refused 6", "refused 7", "side input", "side output"))
    yield from (of_list(f"{said(a)} in place of {said(b)}") for a, b in ((5, 0), (6, 0), (7, 0), (0, 5), (0, 6), (0, 7)))
    yield from (of_list(f"side {a} in place of {b}") for a, b in (("output", "both"), ("output", "input"), ("input", "both"), ("input", "output")))
    pairs = (("side output", "refused 5"), ("refused 5", "side output"), ("side input", "refused 6"), ("side output", "refused 6"), ("refused 6", "side input"),
             ("refused 6", "side output"), ("side input", "side output"), ("side output", "side input"), ("refused 5", "refused 6"), ("refused 6", "refused 5"))
    yield from (of_list(f"{now} for {then} before") for now, then in pairs)
    whats = (REPLACED, SORTED_NO_LONGER, SORTED_NOW, "mark 1 read as 0", "mark 2 read as 0", ACCEPTOR, KEPT, KEPT_NOW, SIGMA, OTHER_SIGMA, OUTER)
    yield from (of_machine(k, what) for k, what in product((0, 1), whats))
    yield from (NOTHING, SIGMAS_ALONE, MANY, TWICE, BY_SIDE, LOOKED_UP, HANDS_ON)


def of_ignored_moves():
    """And of the moves, in accepted expansions."""
    yield from (of_filter(filter, k) for filter, k in product(ALL, (0, 1)))
    yield from (of_machine(k, what) for k, what in product((0, 1), (REWRITTEN, REWRITTEN_STILL, MATCHED, NONE_NOW, ALL_NO_LONGER)))
    yield WALKED

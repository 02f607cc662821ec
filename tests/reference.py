"""The answer that stands for a case of `replay`: the Rust's where no label that is looked up has both own matches and allowed sigma matches, and there the
model in model.py must give the same; elsewhere the definition's (request 2.4), worked out by the model, which is called ours. Where labels are ignored (request
2.7) the Rust, which knows of none, is asked with the machines replaced; a list that is refused, 18, is found here."""
from functools import partial
from typing import NamedTuple

import rust
from features import BOTH, Watched, features
from ignored import asked
from model import SIDES, STATE_WORDS, TR_WORDS, Composition, Lent, Refused, World, refuse

# the words that a machine line may have; heads, on which no answer depends
LINE, HEADS = 4096, 1024


class Reference(NamedTuple):
    answer: str
    ours: bool
    # the Rust's answer, and the features that the model passed
    rust: str
    seen: set


def transitions(w, n):
    words = w.stored(n)
    return [" ".join(map(str, ["t", *words[k:k + 4]])) for k in range(0, len(words), TR_WORDS)]


def state(w, final, n):
    return " ".join(map(str, ["s", n, *w.triple(n), "-" if final is None else final]))


def listing(w, lent, c):
    number = w.run(lent)[0]
    refuse(number, number)
    for n, final in enumerate([c.final(*w.triple(n)[:2]) for n in range(w.session[7])]):
        yield from [state(w, final, n), *transitions(w, n)]


def ordered(w, lent, c, order):
    watched = w.entered(lent)
    for n in order:
        number = w.calling(w.expansion, watched, n)[0]
        yield from [f"refused {number}"] if number else [f"e {n}", *transitions(w, n)]
    for n in range(w.session[7]):
        try:
            yield state(w, c.final(*w.triple(n)[:2]), n)
        except Refused as r:
            yield state(w, f"refused {r.number}", n)


def worked(case, room):
    """The model's answer to a case, in the oracle's form, and the features that it passed."""
    order, settings, *lists, ignored, m1, m2 = case
    seen, lent = set(), Lent(*(m if len(m) <= LINE else [] for m in (m1, m2)), *lists, ignored)
    w = World([0] * HEADS, [0] * (STATE_WORDS * room[0]), [0] * (TR_WORDS * room[1]), [0] * 9, partial(Watched, seen))
    try:
        w.open(settings, lent)
        c = Composition(settings, lent, w.session[6])
        lines = list(listing(w, lent, c) if order is None else ordered(w, lent, c, order))
        lines = [f"side {SIDES[w.session[6]]}", *lines, f"end {w.session[7]} {w.session[8]}"]
    except Refused as r:
        lines = [f"refused {r.number}"]
    return "".join(line + "\n" for line in lines), seen


def answers(oracle, cases, room=rust.ROOM, reading=rust.READING):
    """What the Rust answers to each case: to the replaced machines."""
    read = [asked(case) for case in cases]
    found = iter(rust.answers(oracle, [case for case in read if case is not None], room, reading))
    return ["refused 18\n" if case is None else next(found) for case in read]


def reference(oracle, cases, room=rust.ROOM):
    """For each case the answer that stands. Stops where the Rust and the model should agree and do not."""
    for case, theirs in zip(cases, answers(oracle, cases, room)):
        answer, seen = worked(case, room)
        ours = BOTH in seen
        assert ours or answer == theirs, f"the model is wrong:\n{rust.text(case)}the Rust:\n{theirs}the model:\n{answer}"
        yield Reference(answer, ours, theirs, seen)


def looked_at(oracle, cases):
    """For each case its reference and all its features."""
    plain = answers(oracle, cases, reading=rust.PLAIN)
    for case, one, other in zip(cases, reference(oracle, cases), plain):
        found = features(case, one.answer, one.seen)
        if one.ours and one.rust != one.answer:
            found.add(f"{BOTH}, the Rust answers otherwise")
        if not one.ours and one.answer != other:
            found.add("a final weight zero that plain Rust answers otherwise")
        yield case, one, found

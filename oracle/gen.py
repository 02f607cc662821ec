#!/usr/bin/env python3
"""Random cases for the oracle and for the programs `composed` and `replay`.

gen.py SEED COUNT --mixed|--ignoring [--filters6]
gen.py SEED COUNT [--lists] [--order] [--filters6] [--damage] [--size N]
gen.py SEED --big S1 T1 S2 T2 LABELS [--kind K] [--filter F] [--eps P]

The first form prints COUNT cases of seven lines, as `replay` reads them: "-" (a
whole listing) or state numbers (expansions in that order), the settings, the
two allowed lists ("-": no list), the ignored labels (none), both machines. They
are drawn with an aim (AIMS below), so that sigma in all modes, alone and after a
label's own matches, both ways of deciding under side "both", epsilons beside
empty states, every refusal and full memory turn up often; with --ignoring
labels are ignored (QUIET below). The second form prints COUNT groups of
lines for `oracle --many`: with --order a line of state numbers, then the
settings, then with --lists the two allowed lists, then both machines; --damage
breaks about one machine in three. In both, --filters6 also draws the filters 3
to 5. The third form prints one group of three lines for `oracle bench`: a
machine of S1 states and T1 transitions and one of S2 and T2, with that many
labels above 0 and a share P of epsilons. The same arguments print the same
lines.
"""
import random
import sys

MAX = 4294967295
# the most states and transitions of a machine, and records of each sort
LIMIT = 16777215
# the filters' names by their values: document 01's, then those of request 2.1
FILTERS = ("sequence", "alternate", "match", "null", "trivial", "no-match")
ALL = range(len(FILTERS))
BASE, ADDED = ALL[:3], ALL[3:]


def falls(firsts, recs, side):
    """Whether a label falls within the list of some state."""
    met = set(f for f in firsts if f)
    for r in range(1, len(recs) + 1):
        nxt = recs[r - 1][4]
        if r in met and nxt:
            met.add(nxt)
            if recs[nxt - 1][side] < recs[r - 1][side]:
                return True
    return False


def weight(rng, kind, plain):
    if plain:
        return rng.choice([0, 1, 2, 3, 7]) if kind == 0 else rng.choice([1, 1, 2, 3, 5])
    return rng.choice([0, 0, 1, 1, 2, 3, 65535, 65536, 65537, 2147483647, 2147483648,
                       MAX - 1, MAX])


def machine(rng, kind, inner, sigma, size, plain, want, labels=None, foreign=MAX, marked=0.55,
            epsilons=(0.0, 0.2, 0.4, 0.6, 0.9), same=0.3, share=0.3):
    """The words of a machine. `inner` is 0 where inputs are matched and 1
    where outputs are; `want` says what to aim at: sorted inner labels,
    sorted on both sides, or nothing. `labels`: those above 0 that are drawn.
    `foreign`: the other machine's sigma, which stands here now and then as a label.
    `marked`: how often a side mark tells what is so. `same`: how often it is an
    acceptor. `share`: how often a matched label is sigma."""
    if rng.random() < 0.03:
        states = rng.randint(0, 1)
    else:
        states = rng.randint(1, size)
    count = 0 if states == 0 else rng.randint(states, 3 * states + 1)
    if rng.random() < 0.1:
        count = min(count, rng.randint(0, 2))
    labels = labels or range(1, rng.choice([2, 2, 3, 4]))
    eps = rng.choice(epsilons)
    acceptor = rng.random() < same

    def label():
        return 0 if rng.random() < eps else rng.choice(labels)

    def matched():
        if sigma not in (0, MAX) and rng.random() < share:
            return sigma
        if foreign != MAX and rng.random() < 0.08:
            return foreign
        return label()

    recs = []
    for _ in range(count):
        mine = matched()
        other = mine if acceptor else (sigma if sigma != MAX and rng.random() < 0.1 else label())
        rec = [0, 0, weight(rng, kind, plain), rng.randrange(states), 0]
        rec[inner], rec[1 - inner] = mine, other
        recs.append(rec)

    firsts = [0] * states
    shared = rng.random() < 0.5
    if shared:
        # Any forest of chains: tails are shared, some records stand in no list.
        if want == "both":
            recs.sort(key=lambda r: r[inner])
            outs = sorted(r[1 - inner] for r in recs)
            for r, o in zip(recs, outs):
                r[1 - inner] = r[inner] if acceptor else o
        elif want == "inner":
            recs.sort(key=lambda r: r[inner])
        for i, r in enumerate(recs, 1):
            if i < count and rng.random() < 0.75:
                r[4] = i + 1 if rng.random() < 0.7 else rng.randint(i + 1, count)
        for s in range(states):
            if count and rng.random() < 0.85:
                firsts[s] = rng.randint(1, max(1, count * 2 // 3))
    else:
        # Each state has its own list, a run of records.
        cuts = sorted(rng.randint(0, count) for _ in range(max(0, states - 1)))
        bounds = [0] + cuts + [count] if states else []
        for s in range(states):
            a, b = bounds[s], bounds[s + 1]
            run = recs[a:b]
            if want == "both":
                run.sort(key=lambda r: r[inner])
                outs = sorted(r[1 - inner] for r in run)
                for r, o in zip(run, outs):
                    r[1 - inner] = r[inner] if acceptor else o
            elif want == "inner":
                run.sort(key=lambda r: r[inner])
            recs[a:b] = run
            for i in range(a, b):
                recs[i][4] = i + 2 if i + 1 < b else 0
            firsts[s] = a + 1 if b > a else 0

    zero = MAX if kind == 0 else 0
    plain = plain and rng.random() < 0.8
    words = []
    for s in range(states):
        if rng.random() < 0.45:
            w = zero if rng.random() < 0.2 else weight(rng, kind, plain)
            words += [firsts[s], 1, w]
        else:
            words += [firsts[s], 0, 0]
    marks = []
    for side in (0, 1):
        if rng.random() < 1 - marked:
            marks.append(0)
        else:
            marks.append(2 if falls(firsts, recs, side) else 1)
    equal = all(r[0] == r[1] for r in recs)
    marks.append(1 if equal and rng.random() < 0.6 else 0)
    start = 0 if states == 0 or rng.random() < 0.03 else rng.randint(1, states)
    busy = [s + 1 for s in range(states) if firsts[s]]
    if start and busy and rng.random() < 0.9:
        start = rng.choice(busy)
    words = [states, count, start] + marks + words
    for r in recs:
        words += r
    return words


def damaged(rng, words):
    words = list(words)
    for _ in range(rng.choice([1, 1, 2])):
        what = rng.random()
        if what < 0.1:
            words.append(rng.choice([0, 1, MAX]))
        elif what < 0.2 and words:
            words.pop(rng.randrange(len(words)))
        elif words:
            i = rng.randrange(len(words)) if rng.random() < 0.6 else rng.randrange(min(6, len(words)))
            words[i] = rng.choice([0, 1, 2, 3, words[i] + 1, max(0, words[i] - 1), LIMIT, LIMIT + 1, MAX])
            words[i] = min(words[i], MAX)
    return words


def sigma_of(rng, own):
    x = rng.random()
    if x < 0.6:
        return MAX
    if x < 0.62:
        return 0
    if x < 0.9:
        return own
    return rng.randint(1, 4)


def case(rng, args):
    kind = rng.randint(0, 1)
    filt = rng.choice(args["filters"])
    sig = [sigma_of(rng, 9), sigma_of(rng, 8)]
    size = args.get("size", 5)
    plain = rng.random() < 0.8
    wants = [rng.choice(["both", "inner", "inner", "none"]) for _ in range(2)]
    m = [machine(rng, kind, 1, sig[0], size, plain, wants[0]),
         machine(rng, kind, 0, sig[1], size, plain, wants[1])]
    modes = [rng.randint(0, 2), rng.randint(0, 2)]
    settings = [kind, filt, sig[0], modes[0], sig[1], modes[1]]
    if args.get("damage"):
        for i in (0, 1):
            if rng.random() < 0.3:
                m[i] = damaged(rng, m[i])
        if rng.random() < 0.03:
            settings = damaged(rng, settings)
    lines = []
    if args.get("order"):
        lines.append([rng.randint(0, rng.choice([1, 3, 8, 20])) for _ in range(rng.randint(0, 14))])
    lines.append(settings)
    if args.get("lists"):
        for _ in (0, 1):
            if rng.random() < 0.4:
                lines.append(None)
            else:
                lines.append([rng.choice([0, 1, 2, 3, 4, 5, 8, 9, MAX])
                              for _ in range(rng.randint(0, 5))])
    return lines + m


def order_of(rng):
    """State numbers to expand: any, or those from 0 up in a shuffled order, some of them again."""
    if rng.random() < 0.5:
        return [rng.randint(0, rng.choice([1, 3, 8, 20])) for _ in range(rng.randint(0, 14))]
    numbers = list(range(1, rng.randint(2, 9))) + [rng.randint(0, 4) for _ in range(rng.randint(0, 3))]
    rng.shuffle(numbers)
    return [0] + numbers


def allowed_of(rng):
    x = rng.random()
    return None if x < 0.4 else [] if x < 0.5 else [rng.choice([0, 1, 2, 3, 4, 5, 8, 9, MAX]) for _ in range(rng.randint(1, 5))]


def any_case(rng, filters):
    """Any machines, settings and lists."""
    return case(rng, {"filters": filters, "lists": True, "size": rng.choice([2, 3, 4, 5])})


def damaged_case(rng, filters):
    """Machines, and now and then settings, that are refused by 1 to 3."""
    lines = case(rng, {"filters": filters, "lists": True, "damage": True, "size": 3})
    if rng.random() < 0.2:
        at = rng.randrange(6)
        above = len(FILTERS) if at == 1 else 3
        lines[0] = rng.choice([lines[0][:at] + [rng.choice([2, above, MAX])] + lines[0][at + 1:], lines[0][:at], lines[0] + [0]])
    return lines


def sigma_case(rng, filters, size=3):
    """Sigma on one machine or on both, which have few labels of their own and
    mostly marks; a walked label may be the other machine's sigma."""
    kind, plain = rng.randint(0, 1), rng.random() < 0.9
    sigma = rng.choice([(9, MAX), (MAX, 8), (9, 8), (9, 9)])
    marked = [rng.choice([0.0, 1.0, 1.0]) for _ in (0, 1)]
    if rng.random() < 0.5:
        # the other machine's mark would take the side
        marked = [float(sigma[0] != MAX), float(sigma[1] != MAX)]
    m = [machine(rng, kind, 1 - k, sigma[k], size, plain, "inner", labels=(1,) if sigma[k] != MAX else (1, 2, 3),
                 foreign=sigma[1 - k], marked=marked[k], epsilons=(0.0, 0.1, 0.3), same=0.5, share=0.5) for k in (0, 1)]
    settings = [kind, rng.choice(filters), sigma[0], rng.randint(0, 2), sigma[1], rng.randint(0, 2)]
    return [settings, allowed_of(rng), allowed_of(rng)] + m


def own_and_sigma_case(rng, filters, size=2):
    """Sigma on one machine, below its own labels or above them, and that machine's
    mark; the other has the same labels, so that many have both own matches and
    sigma's."""
    kind, own = rng.randint(0, 1), rng.randint(0, 1)
    sigma = [rng.choice([1, 9]) if k == own else MAX for k in (0, 1)]
    m = [machine(rng, kind, 1 - k, sigma[k], size, rng.random() < 0.9, "inner", labels=(2, 3), marked=float(k == own or rng.random() < 0.5),
                 epsilons=(0.0, 0.0, 0.2), same=0.5, share=0.4) for k in (0, 1)]
    settings = [kind, rng.choice(filters), sigma[0], rng.randint(0, 2), sigma[1], rng.randint(0, 2)]
    return [settings, allowed_of(rng), allowed_of(rng)] + m


def some_case(rng, filters):
    """Any machines, or such with labels that have both own matches and sigma's."""
    return rng.choice([any_case, own_and_sigma_case])(rng, filters)


def epsilon_case(rng, filters, size=3):
    """Many epsilons on the inner sides, states that end early, final weights zero."""
    kind = rng.randint(0, 1)
    m = [machine(rng, kind, inner, MAX, size, True, "inner", labels=(1,), epsilons=(0.5, 0.8, 1.0)) for inner in (1, 0)]
    for w in m:
        for s in range(w[0]):
            x = rng.random()
            if x < 0.2:
                w[6 + 3 * s + 1:6 + 3 * s + 3] = [0, 0]
            elif x < 0.4:
                w[6 + 3 * s + 1:6 + 3 * s + 3] = [1, MAX if kind == 0 else 0]
    return [[kind, rng.choice(filters), MAX, 0, MAX, 0], allowed_of(rng), allowed_of(rng)] + m


def unsorted_case(rng, filters, size=4):
    """Machines that are not sorted: refusals 5 to 7, and the side by fact."""
    kind = rng.randint(0, 1)
    sigma = [rng.choice([MAX, MAX, MAX, 9]) for _ in (0, 1)]
    m = [machine(rng, kind, 1 - k, sigma[k], size, True, rng.choice(["inner", "none", "none"]), labels=(1, 2, 3, 4),
                 epsilons=(0.2,)) for k in (0, 1)]
    return [[kind, rng.choice(filters), sigma[0], 0, sigma[1], 0], None, None] + m


def large_case(rng, filters, size=3):
    """Weights at the limits of both kinds."""
    kind = rng.randint(0, 1)
    m = [machine(rng, kind, inner, MAX, size, False, "inner", labels=(1,), epsilons=(0.0, 0.4)) for inner in (1, 0)]
    return [[kind, rng.choice(filters), MAX, 0, MAX, 0], None, None] + m


def listed(states, start=1, marks=(0, 0, 0)):
    """The words of a machine: for each state its final weight or None and its
    transitions (input, output, weight, target)."""
    words, recs = [], []
    for final, trs in states:
        words += [len(recs) + 1 if trs else 0, 0 if final is None else 1, final or 0]
        for k, t in enumerate(trs):
            recs.append(list(t) + [len(recs) + 2 if k + 1 < len(trs) else 0])
    return [len(states), len(recs), start, *marks] + words + sum(recs, [])


def full_transitions(rng, filters):
    """Loops times loops: some 1024 transition records, the room of the
    programs. Machine 1's states share one chain. Now and then a walked sigma or
    a weight too large stands in it, and is answered only where room was not
    lacking before it. Where machine 2 has a sigma, its last loops may be sigma's."""
    kind, sigma = rng.randint(0, 1), rng.choice([MAX, 9])
    sigmas = 0 if sigma == MAX else rng.choice([0, 1, 9])
    loops, length = rng.choice([25, 31, 32, 33, 41]), rng.choice([25, 31, 32, 33, 41])
    states = rng.randint(1, 3)
    chain = [[rng.randint(0, 3), 1, 1, rng.randrange(states)] for _ in range(length)]
    if rng.random() < 0.6:
        chain[rng.choice([rng.randrange(length), length - 1])][1:3] = rng.choice([[9, 1], [1, MAX - 1]])
    final = rng.choice([None, 1])
    machine1 = listed([(final, chain)] + [(final, [])] * (states - 1))
    for s in range(1, states):
        machine1[6 + 3 * s] = rng.choice([1, length, length - 1, rng.randint(1, length)])
    machine2 = listed([(1, [[1 if k < loops - sigmas else sigma, k % 5, 2, 0] for k in range(loops)])], marks=(1, 0, 0))
    return [[kind, rng.choice(filters), MAX, 0, sigma, 0], None, None, machine1, machine2]


def full_states(rng, filters):
    """A chain of epsilons beside a chain of epsilons: some 1024 states, but under
    match and null, which take them together."""
    kind, length = rng.randint(0, 1), rng.choice([(32, 32), (25, 41), (41, 25), (33, 31), (64, 16), (33, 33)])
    chains = []
    for k in (0, 1):
        n = length[k]
        row = [[0 if k else 1 + s % 3, 1 + s % 3 if k else 0, 1, s + 1] for s in range(n - 1)]
        chains.append(listed([(1, [r]) for r in row] + [(1, [])]))
    apart = [f for f in filters if FILTERS[f] not in ("match", "null")]
    return [[kind, rng.choice(apart), MAX, 0, MAX, 0], None, None] + chains


def full_fan(rng, filters):
    """One expansion that finds some 1024 states: each pair of targets is another
    one. From state 0 on, or (one state more) beside it."""
    kind, beside = rng.randint(0, 1), rng.randint(0, 1)
    machines = []
    for k, width in enumerate(rng.choice([(32, 32), (31, 33), (25, 41), (16, 64)])):
        fan = [(1 + i % 3, 1, 1, i + beside) if k == 0 else (1, 1 + i % 3, 1, i + beside) for i in range(width)]
        machines.append(listed([(1, fan)] + [(1, [])] * (width - 1 + beside)))
    return [[kind, rng.choice(filters), MAX, 0, MAX, 0], None, None] + machines


def inner_labels(m, side):
    """The labels above 0 of a side of a machine, if the words are one."""
    return [x for x in m[6 + 3 * m[0] + side::5] if x not in (0, MAX)] if len(m) > 6 else []


def ignored_of(rng, settings, machines):
    """Ignored labels (request 2.7), at least one: such as the inner sides have, sigma labels with them or alone (request 2.8), such as neither has, many and some
    twice; seldom a list with 0 or MAX, which is refused."""
    own = sum((inner_labels(m, 1 - k) for k, m in enumerate(machines)), [])
    sigmas = [x for x in (settings[2], settings[4]) if x not in (0, MAX)] if len(settings) == 6 else []
    other = [rng.choice([6, 7, 50, 70000, MAX - 1]) for _ in range(rng.randint(1, 2))]
    x = rng.random()
    if x < 0.1:
        return other
    out = [rng.choice(own or other) for _ in range(rng.choice([1, 1, 2, 3]))]
    if x < 0.2:
        out = sigmas or out
    elif x < 0.35:
        out += sigmas
    elif x < 0.4:
        out += [rng.choice(own + other) for _ in range(rng.randint(8, 24))]
    elif x < 0.5:
        out.insert(rng.randint(0, len(out)), rng.choice([0, MAX]))
    elif x < 0.6:
        out += other
    rng.shuffle(out)
    return out


def silent_case(rng, filters, size=2):
    """Sigma on machine 2, which is sorted, and a machine 1 that is not: where labels are ignored the side is input only then. Machine 1 may hand on the sigma
    label."""
    kind = rng.randint(0, 1)
    first = machine(rng, kind, 1, MAX, size, True, "none", labels=(1, 2, 3, 4), foreign=rng.choice([MAX, 9]), epsilons=(0.0, 0.2))
    second = machine(rng, kind, 0, 9, size, True, "inner", labels=rng.choice([(1, 2), (2, 3, 4)]), epsilons=(0.0, 0.2), same=0.6, share=0.4)
    return [[kind, rng.choice(filters), MAX, 0, 9, rng.randint(0, 2)], allowed_of(rng), allowed_of(rng), first, second]


def two_sigmas_case(rng, filters, size=2):
    """A sigma label on each machine, the lists sorted or not: where the two are listed, 5 and 6 may stand for each other."""
    kind, sigmas = rng.randint(0, 1), (3, rng.choice([2, 3, 9]))
    m = [machine(rng, kind, 1 - k, sigmas[k], size, True, rng.choice(["none", "inner"]), labels=(1, 2, 4), epsilons=(0.0,)) for k in (0, 1)]
    return [[kind, rng.choice(filters), sigmas[0], rng.randint(0, 2), sigmas[1], rng.randint(0, 2)], allowed_of(rng), allowed_of(rng)] + m


def acceptor_case(rng, filters, size=2):
    """Sigma on an acceptor, which is often marked as one, rewritten as the mark says. A label of it that is ignored takes the mark from it."""
    kind, own = rng.randint(0, 1), rng.randint(0, 1)
    m = [machine(rng, kind, 1 - k, 9, size, True, "inner", labels=(1, 2), epsilons=(0.0,), same=1.0, share=0.5) if k == own else
         machine(rng, kind, 1 - k, MAX, size, True, "none" if own else "inner", labels=(2, 3, 4), epsilons=(0.0, 0.2)) for k in (0, 1)]
    return [[kind, rng.choice(filters), *((9, 0, MAX, 0) if own == 0 else (MAX, 0, 9, 0))], None, None] + m


def widened(rng, lines):
    """The same case with larger labels in the same order; 0 and MAX stay."""
    new = sorted(rng.sample(range(1, MAX), 9))
    new[8] = rng.choice([new[8], MAX - 1])
    wide = lambda x: new[x - 1] if 0 < x < 10 else x
    settings, *lists = lines[:3]
    settings = [wide(x) if i in (2, 4) else x for i, x in enumerate(settings)]
    lists = [None if own is None else [wide(x) for x in own] for own in lists]
    machines = [[wide(x) if i >= 6 + 3 * m[0] and (i - 6 - 3 * m[0]) % 5 < 2 else x for i, x in enumerate(m)] for m in lines[3:]]
    return [settings] + lists + machines


# how often each is drawn
AIMS = [(any_case, 30), (sigma_case, 34), (own_and_sigma_case, 12), (epsilon_case, 14), (unsorted_case, 6), (large_case, 8), (damaged_case, 8),
        (full_transitions, 3), (full_states, 1), (full_fan, 1)]


def mixed(rng, filters):
    """A case of seven lines: an aim, and a whole listing or an order. No label is ignored."""
    aim = rng.choices([a for a, _ in AIMS], [n for _, n in AIMS])[0]
    order = order_of(rng) if aim is not full_states and rng.random() < 0.45 else None
    lines = aim(rng, filters)
    if aim is not damaged_case and rng.random() < 0.1:
        lines = widened(rng, lines)
    return [order] + lines[:3] + [[]] + lines[3:]


# the same of the cases with ignored labels
QUIET = [(any_case, 24), (sigma_case, 24), (own_and_sigma_case, 16), (silent_case, 30), (two_sigmas_case, 12), (acceptor_case, 40), (epsilon_case, 8),
         (unsorted_case, 20), (large_case, 4), (damaged_case, 4)]


def quiet_case(rng, filters, aims=QUIET):
    """Settings, allowed lists, ignored labels and machines, drawn with an aim."""
    aim = rng.choices([a for a, _ in aims], [n for _, n in aims])[0]
    settings, *lists, m1, m2 = aim(rng, filters)
    return [settings, *lists, ignored_of(rng, settings, [m1, m2]), m1, m2]


def ignoring(rng, filters):
    """A case of seven lines with ignored labels: an aim, and a whole listing or an order."""
    return [order_of(rng) if rng.random() < 0.6 else None, *quiet_case(rng, filters)]


def text(line):
    return "-" if line is None else " ".join(map(str, line))


def big(rng, states1, count1, states2, count2, labels, kind, filt, eps):
    """Two machines with private lists of about equal length, sorted on the
    matched side and so marked."""
    lines = [[kind, filt, MAX, 0, MAX, 0]]
    for inner, states, count in ((1, states1, count1), (0, states2, count2)):
        owner = [i * states // count for i in range(count)]
        recs = []
        for s in owner:
            rec = [0, 0, rng.randint(0, 9) if kind == 0 else 1, rng.randrange(states), 0]
            for side in (0, 1):
                rec[side] = 0 if rng.random() < eps else rng.randint(1, labels)
            recs.append((s, rec))
        recs.sort(key=lambda x: (x[0], x[1][inner]))
        firsts = [0] * states
        for i, (s, rec) in enumerate(recs):
            if not firsts[s]:
                firsts[s] = i + 1
            rec[4] = i + 2 if i + 1 < count and recs[i + 1][0] == s else 0
        marks = [0, 0, 0]
        marks[inner] = 1
        words = [states, count, 1] + marks
        for s in range(states):
            words += [firsts[s], 1, 1] if s % 10 == 9 else [firsts[s], 0, 0]
        for _, rec in recs:
            words += rec
        lines.append(words)
    return lines


def main():
    argv = sys.argv[1:]
    names = {"--kind": 0, "--filter": 0, "--eps": 0.05, "--size": 5}
    for k in names:
        if k in argv:
            i = argv.index(k)
            names[k] = float(argv[i + 1]) if k == "--eps" else int(argv[i + 1])
            del argv[i:i + 2]
    rng = random.Random(int(argv[0]))
    if argv[1] == "--big":
        for line in big(rng, *map(int, argv[2:7]), names["--kind"], names["--filter"],
                        names["--eps"]):
            print(text(line))
        return
    args = {a[2:]: True for a in argv[2:]}
    args["size"] = names["--size"]
    args["filters"] = ALL if args.get("filters6") else BASE
    drawn = {"mixed": mixed, "ignoring": ignoring}
    for _ in range(int(argv[1])):
        whole = next((draw(rng, args["filters"]) for name, draw in drawn.items() if args.get(name)), None)
        for line in whole or case(rng, args):
            print(text(line))


if __name__ == "__main__":
    main()

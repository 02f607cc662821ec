//! The two ways of an expansion, held to each other where the choice between them turns.
//!
//! A state whose bounds shut out every refusal is expanded by plain loops that store at once (fast); else every move is
//! weighed before any is stored (slow). The rule of the choice stands again in `common/choice.rs`, to draw cases on
//! both sides of each border and to count them. No answer is taken from it: answers, sessions and all words of memory
//! of the one way are held to those of the other, and refusals to what an expansion needs.

mod common;

use common::choice::{inputs, is_sorted, list, opened, put_weight, rule, times, words, zero};
use common::choice::{Met, INNER, MAX, WEIGHT};
use common::{Draw, Fixed, World, LEAST};
use rinkolza::sys::{self, STATE_WORDS, TR_WORDS};
use rinkolza::Inputs;

/// An expansion in plenty of room.
struct Step {
    n: u32,
    before: Fixed,
    after: Fixed,
    answer: Result<(u32, u32), u32>,
}

fn used(fixed: &Fixed) -> (usize, usize) {
    (fixed.found() as usize, fixed.tr_count() as usize)
}

impl Step {
    fn take(met: &mut Met, fixed: &Fixed, n: u32) -> Step {
        let (before, mut after) = (fixed.clone(), fixed.clone());
        let answer = met.expand(&mut after, n);
        let (states, trs) = used(&after);
        let (states, trs) = (STATE_WORDS * states, TR_WORDS * trs);
        let (old, new) = (&before.memory, &after.memory);
        let stays =
            old.states[states..] == new.states[states..] && old.trs[trs..] == new.trs[trs..];
        assert!(stays, "behind the used records, {n} of {:?}", fixed.inputs);
        assert!(
            answer.is_ok() || before == after,
            "{n} of {:?}",
            fixed.inputs
        );
        Step {
            n,
            before,
            after,
            answer,
        }
    }

    /// The expansion from a copy of the memory before it, cut to this room and a part of a record, is the same; where
    /// the room does not suffice it is refused and nothing is changed.
    fn in_room(&self, met: &mut Met, states: usize, trs: usize) {
        let mut cut = self.before.clone();
        let memory = &mut cut.memory;
        memory
            .states
            .truncate(STATE_WORDS * states + states % STATE_WORDS);
        memory.trs.truncate(TR_WORDS * trs + trs % TR_WORDS);
        let kept = cut.clone();
        let answer = met.expand(&mut cut, self.n);
        let case = || format!("{} in {states}, {trs} of {:?}", self.n, kept.inputs);
        let (needed_states, needed_trs) = used(&self.after);
        if states < needed_states || trs < needed_trs {
            assert_eq!(answer, Err(13), "{}", case());
            assert!(cut == kept, "{}", case());
            return;
        }
        assert_eq!(answer, self.answer, "{}", case());
        let (memory, whole) = (&cut.memory, &self.after.memory);
        let same = cut.session == self.after.session
            && memory.heads == whole.heads
            && whole.states.starts_with(&memory.states)
            && whole.trs.starts_with(&memory.trs);
        assert!(same, "{}", case());
    }

    /// The rooms about the border, and about what the expansion needs.
    fn in_rooms(&self, met: &mut Met) {
        let moves = rule(words(&self.before), self.n).moves;
        let ((states, trs), (new_states, new_trs)) = (used(&self.before), used(&self.after));
        self.in_room(met, states + moves, trs + moves);
        self.in_room(met, new_states, new_trs);
        if moves > 0 {
            self.in_room(met, states + moves - 1, trs + moves);
            self.in_room(met, states + moves, trs + moves - 1);
        }
        if new_states > states {
            self.in_room(met, new_states - 1, trs + moves);
        }
        if new_trs > trs {
            self.in_room(met, states + moves, new_trs - 1);
        }
    }
}

#[test]
fn room() {
    let (mut draw, mut met) = (Draw(71), Met::default());
    let (mut all, mut sides) = (0, [0; 3]);
    for _ in 0..500 {
        let drawn = inputs(&mut draw, 5, 5);
        let mut roomy = opened(&mut draw, drawn);
        sides[roomy.side() as usize] += 1;
        for _ in 0..1 + draw.below(12) {
            let n = draw.below(roomy.found());
            let moves = rule(words(&roomy), n).moves;
            let step = Step::take(&mut met, &roomy, n);
            assert!(step.answer.is_ok(), "{n} of {:?}", roomy.inputs);
            step.in_rooms(&mut met);
            let stored = step.after.tr_count() - roomy.tr_count();
            all += u32::from(moves > 0 && stored as usize == moves);
            roomy = step.after;
        }
    }
    println!("{all} with as many moves as there could be; by side {sides:?}");
    assert!(all > 20, "{all}");
    assert!(sides.iter().all(|&count| count > 60));
    met.holds(Met {
        fast: 2000,
        slow: 3000,
        too_large: 0,
        no_room: 1000,
    });
}

/// Two weights whose product is the largest that fits, or next to it.
fn border(draw: &mut Draw, kind: u32) -> (u32, u32) {
    let (p, q) = if kind == 0 {
        let p = [draw.next() as u32 / 2, MAX - 1, 3][draw.below(3) as usize];
        let sum = u64::from(MAX) + u64::from(draw.below(3)) - 1;
        (p, (sum - u64::from(p)).min(u64::from(MAX - 1)) as u32)
    } else {
        let factors = [2, 3, 5, 255, 257, 65535, 65536, 65537, MAX / 3, MAX / 2 + 1];
        let p = factors[draw.below(factors.len() as u32) as usize];
        (p, MAX / p + draw.below(2))
    };
    [(p, q), (q, p)][draw.below(2) as usize]
}

/// The start's transitions that meet by labels that are no epsilons, in the order of their moves: input, output and
/// weight, or refusal 12.
fn pairs(fixed: &Fixed) -> Result<Vec<[u32; 3]>, u32> {
    let (first, second) = (list(&fixed.inputs.first, 0), list(&fixed.inputs.second, 0));
    let after = |i| (0..second.len()).map(move |j| (i, j));
    let mut places: Vec<(usize, usize)> = (0..first.len()).flat_map(after).collect();
    if !rule(words(fixed), 0).walks_first {
        places.sort_by_key(|place| place.1);
    }
    let met = places.iter().map(|&(i, j)| (first[i], second[j]));
    let met = met.filter(|(a, b)| a[INNER[0]] == b[INNER[1]] && b[INNER[1]] != 0);
    let weighed = met.map(|(a, b)| {
        let weight = times(fixed.inputs.settings[0], a[WEIGHT], b[WEIGHT]);
        weight.map(|weight| [a[0], b[1], weight]).ok_or(12)
    });
    weighed.collect()
}

fn has_epsilon(words: &[u32], inner: usize) -> bool {
    list(words, 0).iter().any(|record| record[inner] == 0)
}

fn has_zero(inputs: &Inputs) -> bool {
    let mut both = [list(&inputs.first, 0), list(&inputs.second, 0)].concat();
    both.retain(|record| record[WEIGHT] == zero(inputs.settings[0]));
    !both.is_empty()
}

/// Expands the start, where not both lists have epsilons: whether it succeeds.
fn weigh_start(met: &mut Met, fixed: &Fixed) -> bool {
    let expected = pairs(fixed);
    let step = Step::take(met, fixed, 0);
    let inputs = &fixed.inputs;
    assert_eq!(step.answer.err(), expected.clone().err(), "{inputs:?}");
    let Ok(expected) = expected else {
        return false;
    };
    step.in_rooms(met);
    if !has_epsilon(&inputs.first, INNER[0]) && !has_epsilon(&inputs.second, INNER[1]) {
        let trs = step.after.trs(0).into_iter();
        let stored: Vec<_> = trs.map(|tr| [tr.input, tr.output, tr.weight]).collect();
        assert_eq!(stored, expected, "{inputs:?}");
    }
    true
}

#[test]
fn weights() {
    let (mut draw, mut met) = (Draw(73), Met::default());
    // By kind: fast with the largest product that fits, and a zero beside it; slow with a larger one, and accepted.
    let (mut at, mut zeros, mut beyond) = ([0; 2], [0; 2], [0; 2]);
    for _ in 0..3000 {
        let mut drawn = inputs(&mut draw, 3, 3);
        let kind = drawn.settings[0] as usize;
        let (p, q) = border(&mut draw, kind as u32);
        let put = put_weight(&mut draw, &mut drawn.first, p);
        let put = put_weight(&mut draw, &mut drawn.second, q) && put;
        // Which pairs of epsilons there are is the filters' own.
        if !put || has_epsilon(&drawn.first, INNER[0]) && has_epsilon(&drawn.second, INNER[1]) {
            continue;
        }
        let fixed = opened(&mut draw, drawn);
        let allows = rule(words(&fixed), 0).allows;
        let accepted = weigh_start(&mut met, &fixed);
        let (p, q, most) = (u64::from(p), u64::from(q), u64::from(MAX));
        let largest = [p + q == most - 1, p * q == most][kind];
        at[kind] += u32::from(allows && largest);
        zeros[kind] += u32::from(allows && largest && has_zero(&fixed.inputs));
        beyond[kind] += u32::from(!allows && accepted);
    }
    println!("{at:?} at the border, {zeros:?} with zeros, {beyond:?} beyond it and accepted");
    let counts = [at, zeros, beyond].concat();
    assert!(counts.iter().all(|&count| count > 50), "{counts:?}");
    met.holds(Met {
        fast: 1000,
        slow: 1000,
        too_large: 200,
        no_room: 500,
    });
}

/// The same inputs with a sigma label, on one machine or on both; only a sorted one may have it.
fn with_sigma(draw: &mut Draw, plain: &Inputs, label: u32) -> Inputs {
    let mut inputs = plain.clone();
    let sorted1 = is_sorted(&plain.first, INNER[0]);
    let sorted2 = is_sorted(&plain.second, INNER[1]);
    let drawn = draw.below(3);
    if sorted1 && (drawn != 1 || !sorted2) {
        inputs.settings[2..4].copy_from_slice(&[label, draw.below(3)]);
        inputs.allowed1 = draw.one_in(2).then(|| vec![1, 2]);
    }
    if sorted2 && (drawn != 0 || !sorted1) {
        inputs.settings[4..6].copy_from_slice(&[label, draw.below(3)]);
        inputs.allowed2 = draw.one_in(2).then(|| vec![2, label]);
    }
    inputs
}

#[test]
fn sigma_that_no_list_has() {
    let (mut draw, mut met) = (Draw(79), Met::default());
    let mut set = [0; 3];
    for _ in 0..500 {
        let mut drawn = inputs(&mut draw, 5, 5);
        draw.make_heavy_one_in(3, &mut drawn);
        let mut plain = opened(&mut draw, drawn);
        let mut other = plain.clone();
        let label = [4, 9, MAX - 1][draw.below(3) as usize];
        other.inputs = with_sigma(&mut draw, &plain.inputs, label);
        other.session = Fixed::open(other.inputs.clone(), LEAST).unwrap().session;
        let [_, _, sigma1, _, sigma2, _] = other.inputs.settings;
        set[usize::from(sigma1 != MAX) + 2 * usize::from(sigma2 != MAX) - 1] += 1;
        for _ in 0..1 + draw.below(12) {
            let n = draw.below(plain.found());
            let answer = met.expand(&mut plain, n);
            let same = answer == met.expand(&mut other, n)
                && plain.session.0[6..] == other.session.0[6..]
                && plain.memory == other.memory;
            assert!(same, "{n} of {:?} and {:?}", plain.inputs, other.inputs);
        }
        assert_eq!(plain.run(), other.run());
        assert!(plain.memory == other.memory, "{:?}", other.inputs);
    }
    println!("sigma on 1, on 2, on both: {set:?}");
    assert!(set.iter().all(|&count| count > 40));
    met.holds(Met {
        fast: 800,
        slow: 1000,
        too_large: 200,
        no_room: 0,
    });
}

/// The refusal by sigma at the start: 10 where both states need matching, 11 where a walked label is the other's sigma.
fn sigma_refusal(fixed: &Fixed) -> Option<u32> {
    let inputs = &fixed.inputs;
    let labels = |words, inner| -> Vec<u32> {
        let list = list(words, 0);
        list.iter().map(|record| record[inner]).collect()
    };
    let labels1 = labels(&inputs.first, INNER[0]);
    let labels2 = labels(&inputs.second, INNER[1]);
    let [_, _, sigma1, _, sigma2, _] = inputs.settings;
    let (has1, has2) = (labels1.contains(&sigma1), labels2.contains(&sigma2));
    let walks_first = match (fixed.side(), has1, has2) {
        (2, true, true) => return Some(10),
        (2, true, false) => false,
        (2, false, true) => true,
        _ => rule(words(fixed), 0).walks_first,
    };
    let walked_sigma = match walks_first {
        true => labels1.contains(&sigma2),
        false => labels2.contains(&sigma1),
    };
    walked_sigma.then_some(11)
}

/// The plain loops know no sigma: they would refuse nothing.
#[test]
fn sigma_that_lists_have() {
    let mut draw = Draw(81);
    let mut refused = [0; 2];
    for _ in 0..2500 {
        let plain = inputs(&mut draw, 2, 2);
        let drawn = with_sigma(&mut draw, &plain, 3);
        let mut fixed = opened(&mut draw, drawn);
        let (expected, before) = (sigma_refusal(&fixed), fixed.clone());
        let lent = fixed.inputs.lent();
        let answer = sys::expand(&lent, &mut fixed.session, &mut fixed.memory, 0);
        assert_eq!(answer.err(), expected, "{:?}", before.inputs);
        if let Some(number) = expected {
            assert!(fixed == before, "{:?}", before.inputs);
            refused[number as usize - 10] += 1;
        }
    }
    println!("refused by 10 and by 11: {refused:?}");
    assert!(refused.iter().all(|&count| count > 30));
}

//! Machines with long lists, drawn and chosen: thousands of moves from a composed state.

use super::choice::{INNER, MAX};
use super::{keeps_both, Draw};
use rinkolza::{Inputs, Machine, Options, Tr};

const SIGMA: u32 = MAX - 1;

/// The inner labels of two lists that make thousands of moves; the machine with sigma, where one has it.
fn long_labels(draw: &mut Draw, filter: u32) -> ([Vec<u32>; 2], Option<usize>) {
    // Where both lists have many labels, each look-up scans one of them: fewer, and seldom.
    let (many, fewer) = (1200 + draw.below(4400), 2000 + draw.below(400));
    let some = 50 + draw.below(30) as usize;
    let each = |last: u32| (1..=last).collect();
    let pair = |label| [vec![label; some], vec![label; 100 - some / 2]];
    let drawn = draw.below(9);
    let mut labels = match drawn {
        0 => [each(fewer), each(fewer)],
        1..=3 => pair(1),
        4..=6 if keeps_both(filter) => pair(0),
        4..=6 => [vec![0; many as usize], vec![0, 0, 1]],
        _ => [each(many / 2), vec![1, SIGMA, SIGMA]],
    };
    let turned = draw.below(2) as usize;
    labels.rotate_left(turned);
    (labels, (drawn > 6).then_some(1 - turned))
}

/// A machine whose states 0 and 1 have lists with these labels; their targets rise twice, rise and fall, are drawn, are
/// one, or, most often, rise.
fn long_lists(draw: &mut Draw, inner: usize, labels: &[u32], mark: u32) -> Vec<u32> {
    let count = labels.len() as u32;
    let mut words = vec![count.max(2), 2 * count, 1, 0, 0, 0];
    words[3 + inner] = mark;
    words.extend([1, draw.below(2), 0, 1 + count, draw.below(2), 0]);
    words.resize(6 + 3 * words[0] as usize, 0);
    for list in 0..2 {
        let pattern = draw.below(8);
        for (place, &label) in (0..).zip(labels) {
            let target = match pattern {
                0 => place % (count / 2 + 1),
                1 => place.min(count - 1 - place),
                2 => draw.below(count),
                3 => 1,
                _ => place,
            };
            let own = list * count + place + 1;
            let next = if place + 1 < count { own + 1 } else { 0 };
            let mut record = [draw.below(4), draw.below(4), draw.below(3), target, next];
            record[inner] = label;
            words.extend(record);
        }
    }
    words
}

/// Two machines with long lists, and settings, sometimes with sigma on one of them.
pub fn wide(draw: &mut Draw) -> Inputs {
    let mut settings = [draw.below(2), draw.filter(), MAX, 0, MAX, 0];
    let (labels, sigma) = long_labels(draw, settings[1]);
    let mut marks = [draw.below(2), draw.below(2)];
    if let Some(machine) = sigma {
        marks[machine] = 1;
        settings[2 + 2 * machine..][..2].copy_from_slice(&[SIGMA, draw.below(3)]);
    }
    Inputs {
        first: long_lists(draw, INNER[0], &labels[0], marks[0]),
        second: long_lists(draw, INNER[1], &labels[1], marks[1]),
        settings,
        allowed1: None,
        allowed2: None,
        ignored: Vec::new(),
    }
}

/// Two machines of which the first has a transition to each of these states; the second has one that never matches.
pub fn alone(targets: impl Iterator<Item = u32>) -> Inputs {
    let trs: Vec<_> = targets.map(|to| (0, Tr::new(1, 0, 0, to))).collect();
    let first = Machine::from_lists(Some(0), &trs, &[]).unwrap();
    let second = Machine::from_lists(Some(0), &[(0, Tr::new(1, 1, 0, 0))], &[]).unwrap();
    Inputs::of(&first, &second, &Options::default())
}

/// The same machines with a sigma label that no transition has.
pub fn with_sigma(inputs: &Inputs) -> Inputs {
    let mut inputs = inputs.clone();
    inputs.settings[2] = SIGMA;
    inputs
}

/// Two machines of which the second has a transition to as many states of each class as are counted here; all match the
/// one of the first, so that the targets are (0, state, 0). The class of (s1, s2, f) is, as in the library,
/// (40503 s1 + 30011 s2 + f) % 65521 % classes.
pub fn crowded(counts: &[usize]) -> Inputs {
    let classes = counts.len() as u32;
    let of_class = |class| (1..).filter(move |state| 30011 * state % 65521 % classes == class);
    let states = (0..).zip(counts);
    let targets = states.flat_map(|(class, &count)| of_class(class).take(count));
    let trs: Vec<_> = targets.map(|to| (0, Tr::new(1, 1, 0, to))).collect();
    let first = Machine::from_lists(Some(0), &[(0, Tr::new(1, 1, 0, 0))], &[]).unwrap();
    let second = Machine::from_lists(Some(0), &trs, &[]).unwrap();
    Inputs::of(&first, &second, &Options::default())
}

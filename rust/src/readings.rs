//! The readings of a machine: its accepting paths, by length.

#![forbid(unsafe_code)]

use crate::machine::{Machine, Tr, EPSILON};
use crate::settings::Kind;

/// A path from the start to a final state.
#[derive(Clone, Debug, PartialEq, Eq)]
#[non_exhaustive]
pub struct Reading {
    /// The transitions in their order.
    pub trs: Vec<Tr>,
    /// The final weight of the state in which the path ends.
    pub final_weight: u32,
    /// What the weights are.
    pub kind: Kind,
}

impl Reading {
    /// The word that is read: the input labels without epsilons.
    pub fn input(&self) -> Vec<u32> {
        word(self.trs.iter().map(|tr| tr.input))
    }

    /// The word that is written: the output labels without epsilons.
    pub fn output(&self) -> Vec<u32> {
        word(self.trs.iter().map(|tr| tr.output))
    }

    /// The weight of the whole path with its final weight: a sum of costs, a product of counts; none where it is
    /// above 18446744073709551615.
    pub fn weight(&self) -> Option<u64> {
        let mut weights = self.trs.iter().map(|tr| u64::from(tr.weight));
        let last = u64::from(self.final_weight);
        match self.kind {
            Kind::Cost => weights.try_fold(last, u64::checked_add),
            Kind::Count => weights.try_fold(last, u64::checked_mul),
        }
    }
}

fn word(labels: impl Iterator<Item = u32>) -> Vec<u32> {
    labels.filter(|&label| label != EPSILON).collect()
}

/// The readings of a machine, see [`Machine::readings`].
#[derive(Clone, Debug)]
pub struct Readings<'m> {
    machine: &'m Machine,
    kind: Kind,
    /// For each state the sources of what leads there from a state that the start reaches.
    sources: Vec<Vec<u32>>,
    /// At place k the states that the start reaches and from which a path of k transitions ends.
    ends: Vec<States>,
    /// How many transitions the readings have that are given now.
    length: usize,
    /// The path that is being walked: each state with the place of the transition to be tried next.
    path: Vec<(u32, usize)>,
}

impl<'m> Readings<'m> {
    pub(crate) fn new(machine: &'m Machine, kind: Kind) -> Readings<'m> {
        let (reached, sources) = reach(machine, kind);
        let last = |&state: &u32| {
            let weight = machine.final_weight(state);
            weight.is_some_and(|weight| weight != kind.zero())
        };
        let ends = States::new(reached.into_iter().filter(last).collect(), machine);
        let mut readings = Readings {
            machine,
            kind,
            sources,
            ends: vec![ends],
            length: 0,
            path: Vec::new(),
        };
        readings.begin();
        readings
    }

    /// The states from which a path of so many transitions ends. Where the last two sets were equal so are all others,
    /// and only one of them is kept.
    fn ending_in(&self, count: usize) -> &States {
        &self.ends[count.min(self.ends.len() - 1)]
    }

    /// Stands at the start, where a reading of this length begins there.
    fn begin(&mut self) {
        let ends = self.ending_in(self.length);
        let start = self.machine.start();
        self.path = start
            .filter(|&start| ends.has(start))
            .map(|start| (start, 0))
            .into_iter()
            .collect();
    }

    /// Goes on to the next length; false where no path of that length ends.
    fn lengthen(&mut self) -> bool {
        self.length += 1;
        if self.ends.len() == self.length {
            let last = &self.ends[self.length - 1];
            let mut before: Vec<u32> = last
                .list()
                .iter()
                .flat_map(|&state| &self.sources[state as usize])
                .copied()
                .collect();
            before.sort_unstable();
            before.dedup();
            let next = States::new(before, self.machine);
            if next != *last {
                self.ends.push(next);
            }
        }
        self.begin();
        !self.ending_in(self.length).is_empty()
    }

    /// The next reading of this length. Only transitions from which a path of the right length ends are walked, so
    /// that every walk comes to a reading.
    fn walk(&mut self) -> Option<Reading> {
        while let Some(&(state, place)) = self.path.last() {
            let left = self.length + 1 - self.path.len();
            if left == 0 {
                let reading = self.reading(state);
                self.path.pop();
                return Some(reading);
            }
            let ends = self.ending_in(left - 1);
            let trs = &self.machine.trs(state)[place..];
            let zero = self.kind.zero();
            match trs
                .iter()
                .position(|tr| tr.weight != zero && ends.has(tr.target))
            {
                Some(more) => {
                    let target = trs[more].target;
                    self.path.pop();
                    self.path.push((state, place + more + 1));
                    self.path.push((target, 0));
                }
                None => drop(self.path.pop()),
            }
        }
        None
    }

    /// The path that was walked, which ends in this state.
    fn reading(&self, last: u32) -> Reading {
        let taken = &self.path[..self.length];
        Reading {
            trs: taken
                .iter()
                .map(|&(state, next)| self.machine.trs(state)[next - 1])
                .collect(),
            final_weight: self.machine.final_weight(last).unwrap_or(self.kind.zero()),
            kind: self.kind,
        }
    }
}

impl Iterator for Readings<'_> {
    type Item = Reading;

    fn next(&mut self) -> Option<Reading> {
        loop {
            if let Some(reading) = self.walk() {
                return Some(reading);
            }
            if self.ending_in(self.length).is_empty() || !self.lengthen() {
                return None;
            }
        }
    }
}

impl std::iter::FusedIterator for Readings<'_> {}

/// The states that the start reaches, and for each state the sources among them of what leads there; transitions of
/// weight zero do not count.
fn reach(machine: &Machine, kind: Kind) -> (Vec<u32>, Vec<Vec<u32>>) {
    let mut reached: Vec<u32> = machine.start().into_iter().collect();
    let mut known = vec![false; machine.state_count()];
    let mut sources = vec![Vec::new(); machine.state_count()];
    for &state in &reached {
        known[state as usize] = true;
    }
    let mut next = 0;
    while let Some(&state) = reached.get(next) {
        next += 1;
        let counts = |tr: &&Tr| tr.weight != kind.zero();
        for tr in machine.trs(state).iter().filter(counts) {
            let target = tr.target as usize;
            sources[target].push(state);
            if !known[target] {
                known[target] = true;
                reached.push(tr.target);
            }
        }
    }
    reached.sort_unstable();
    (reached, sources)
}

/// A set of states: in order where they are few, else a bit for each state of the machine.
#[derive(Clone, Debug, PartialEq, Eq)]
enum States {
    Few(Vec<u32>),
    Many(Vec<u32>),
}

impl States {
    /// The set of these, which are in order.
    fn new(list: Vec<u32>, machine: &Machine) -> States {
        let words = machine.state_count().div_ceil(32);
        if list.len() <= words {
            return States::Few(list);
        }
        let mut bits = vec![0; words];
        for state in list {
            bits[state as usize / 32] |= 1 << (state % 32);
        }
        States::Many(bits)
    }

    fn has(&self, state: u32) -> bool {
        match self {
            States::Few(list) => list.binary_search(&state).is_ok(),
            States::Many(bits) => (bits[state as usize / 32] >> (state % 32)) & 1 == 1,
        }
    }

    fn list(&self) -> Vec<u32> {
        match self {
            States::Few(list) => list.clone(),
            States::Many(bits) => (0..32 * bits.len() as u32)
                .filter(|&state| self.has(state))
                .collect(),
        }
    }

    fn is_empty(&self) -> bool {
        matches!(self, States::Few(list) if list.is_empty())
    }
}

//! What an expansion must answer in any room, worked out from the moves of a state in their order: at each, 12 where its
//! weight is too large, then 13 where there is no record for it or for a target that is new.

use super::choice::{records_of, times, INNER, WEIGHT};
use super::{Fixed, World};
use rinkolza::sys::TR_WORDS;
use rinkolza::{Inputs, Tr};
use std::collections::BTreeSet;

/// The same machines, of fewer than 65535 transitions, with costs that name their records, counted from 1.
pub fn named(inputs: &Inputs) -> Inputs {
    let mut named = inputs.clone();
    named.settings[0] = 0;
    for (place, record) in records_of(&mut named.first).enumerate() {
        record[WEIGHT] = (place as u32 + 1) << 16;
    }
    for (place, record) in records_of(&mut named.second).enumerate() {
        record[WEIGHT] = place as u32 + 1;
    }
    named
}

/// A move that the filter keeps: the records it is made of (0: that machine rests), its target, and its weight, none
/// where that is too large.
pub struct Move {
    pub made_of: [usize; 2],
    pub target: u32,
    pub weight: Option<u32>,
}

impl Move {
    fn of(inputs: &Inputs, tr: Tr) -> Move {
        let made_of = [tr.weight as usize >> 16, tr.weight as usize & 0xffff];
        let kind = inputs.settings[0];
        // A machine that rests supplies the weight one: cost 0, count 1.
        let weight = |machine| word(inputs, machine, made_of[machine], WEIGHT).unwrap_or(kind);
        Move {
            made_of,
            target: tr.target,
            weight: times(kind, weight(0), weight(1)),
        }
    }

    /// The inner label of the machine's record; none where it rests.
    fn label(&self, inputs: &Inputs, machine: usize) -> Option<u32> {
        word(inputs, machine, self.made_of[machine], INNER[machine])
    }

    pub fn is_by_sigma(&self, inputs: &Inputs) -> bool {
        let sigma = |machine: usize| inputs.settings[2 + 2 * machine];
        (0..2).any(|machine| self.label(inputs, machine) == Some(sigma(machine)))
    }

    /// Whether both machines move, on epsilons.
    pub fn is_by_epsilons(&self, inputs: &Inputs) -> bool {
        (0..2).all(|machine| self.label(inputs, machine) == Some(0))
    }
}

/// A word of a machine's record.
fn word(inputs: &Inputs, machine: usize, record: usize, place: usize) -> Option<u32> {
    let words = [&inputs.first, &inputs.second][machine];
    let before = TR_WORDS * record.checked_sub(1)?;
    Some(words[6 + 3 * words[0] as usize + before + place])
}

/// The expansion of state n, with as many states found and transitions stored before it.
pub struct Step {
    pub n: u32,
    pub found: usize,
    pub stored: usize,
    pub moves: Vec<Move>,
    /// How many new targets there are up to each move.
    new: Vec<usize>,
}

impl Step {
    /// The expansion of a state whose list, with weights that name records, is this.
    pub fn of(before: &Fixed, n: u32, list: Vec<Tr>) -> Step {
        let kept = |tr| Move::of(&before.inputs, tr);
        let moves: Vec<Move> = list.into_iter().map(kept).collect();
        let mut met = BTreeSet::new();
        let new = moves.iter().map(|kept| {
            if kept.target >= before.found() {
                met.insert(kept.target);
            }
            met.len()
        });
        Step {
            n,
            found: before.found() as usize,
            stored: before.tr_count() as usize,
            new: new.collect(),
            moves,
        }
    }

    /// Whether a record meets its own label and then, as the next move, sigma.
    pub fn has_own_before_sigma(&self, inputs: &Inputs) -> bool {
        self.moves.windows(2).any(|pair| {
            let [own, sigma] = [0, 1].map(|place| pair[place].is_by_sigma(inputs));
            let met = |machine: usize| pair[0].made_of[machine] == pair[1].made_of[machine];
            !own && sigma && (met(0) || met(1))
        })
    }

    /// The room that it needs.
    pub fn needs(&self) -> (usize, usize) {
        let new = self.new.last().copied().unwrap_or(0);
        (self.found + new, self.stored + self.moves.len())
    }

    /// The refusal in this room, by the first move that is refused.
    pub fn refusal(&self, (states, trs): (usize, usize)) -> Option<u32> {
        let lacks =
            |place: usize| self.stored + place + 1 > trs || self.found + self.new[place] > states;
        let refused = |(place, kept): (usize, &Move)| match kept.weight {
            None => Some(12),
            Some(_) => lacks(place).then_some(13),
        };
        self.moves.iter().enumerate().find_map(refused)
    }

    /// What the expansion answers.
    pub fn answer(&self, room: (usize, usize)) -> Result<(u32, u32), u32> {
        match self.refusal(room) {
            Some(number) => Err(number),
            None if self.moves.is_empty() => Ok((0, 0)),
            None => Ok((self.stored as u32 + 1, self.moves.len() as u32)),
        }
    }
}

//! Lists of ignored labels, and what the header says that they make of two machines.

use super::choice::{records_of, INNER, MAX};
use super::Draw;
use rinkolza::Inputs;

/// Whether a list is refused.
pub fn is_refused(list: &[u32]) -> bool {
    list.contains(&0) || list.contains(&MAX)
}

impl Draw {
    /// So many labels, most of which the machines of `Draw::machine` have; 3 is the sigma of `Draw::inputs`.
    fn labels(&mut self, count: u32) -> Vec<u32> {
        (0..count).map(|_| 1 + self.below(4)).collect()
    }

    /// A list that is not empty and not refused: of labels that machines have, now and then of others alone, or long.
    pub fn some_ignored(&mut self) -> Vec<u32> {
        match self.below(8) {
            0 => vec![MAX - 1 - self.below(50)],
            1 => {
                let mut long: Vec<u32> = (0..40).map(|_| 9 + self.below(40)).collect();
                let place = self.below(40) as usize;
                long[place] = 1 + self.below(3);
                long
            }
            _ => {
                let count = 1 + self.below(3);
                self.labels(count)
            }
        }
    }

    /// Mostly an empty list; now and then one that is refused.
    pub fn ignored(&mut self) -> Vec<u32> {
        match self.below(8) {
            0..4 => Vec::new(),
            4 => {
                let mut list = self.some_ignored();
                let place = self.below(list.len() as u32 + 1) as usize;
                list.insert(place, [0, MAX][self.below(2) as usize]);
                list
            }
            _ => self.some_ignored(),
        }
    }
}

/// The inputs that with an empty list have the same answers, where both machines are well formed: inner labels replaced but
/// for sigma labels, the marks of the inner sides 0, an acceptor mark 0 where some record has its two labels apart.
pub fn replaced(inputs: &Inputs) -> Inputs {
    let mut replaced = inputs.clone();
    replaced.ignored.clear();
    if inputs.ignored.is_empty() {
        return replaced;
    }
    let [_, _, sigma1, _, sigma2, _] = inputs.settings;
    let silent = |label| inputs.ignored.contains(&label) && label != sigma1 && label != sigma2;
    let machines = [&mut replaced.first, &mut replaced.second];
    for (words, inner) in machines.into_iter().zip(INNER) {
        let mut apart = false;
        for record in records_of(words) {
            if silent(record[inner]) {
                record[inner] = 0;
            }
            apart |= record[0] != record[1];
        }
        words[3 + inner] = 0;
        words[5] *= u32::from(!apart);
    }
    replaced
}

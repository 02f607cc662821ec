//! A machine as the words that the library takes; `include/rinkolza.h` describes them.
//!
//! Header: state count, transition count, start plus one, input mark, output mark, acceptor mark; then three words
//! for each state (first transition, final, final weight) and five for each transition (input, output, weight,
//! target, next). Transitions count from 1.

#![forbid(unsafe_code)]

use crate::error::Error;
use crate::machine::{By, Machine, Tr};

const HEADER: usize = 6;
const STATE: usize = 3;
/// The words of a transition, in a machine as in a composition.
pub(crate) const TR: usize = 5;

/// Which marks the words carry.
#[derive(Clone, Copy, Debug, PartialEq, Eq)]
pub enum Marks {
    /// What is true of the lists: sorted or not on each side, acceptor or not.
    True,
    /// Unknown on each side; nothing said of the acceptor.
    Unknown,
}

/// The machine's words. Each state's transitions stand one after the other.
pub fn encode(machine: &Machine, marks: Marks) -> Vec<u32> {
    let states = machine.state_count();
    let mut words = Vec::with_capacity(HEADER + STATE * states + TR * machine.tr_count());
    words.push(states as u32);
    words.push(machine.tr_count() as u32);
    words.push(machine.start().map_or(0, |start| start + 1));
    words.extend(header_marks(machine, marks));
    let mut used = 0;
    for state in machine.states() {
        let count = machine.trs(state).len() as u32;
        words.push(if count == 0 { 0 } else { used + 1 });
        let weight = machine.final_weight(state);
        words.push(weight.is_some() as u32);
        words.push(weight.unwrap_or(0));
        used += count;
    }
    encode_trs(machine, &mut words);
    words
}

fn header_marks(machine: &Machine, marks: Marks) -> [u32; 3] {
    let side = |by| if machine.is_sorted(by) { 1 } else { 2 };
    match marks {
        Marks::True => [
            side(By::Input),
            side(By::Output),
            machine.is_acceptor() as u32,
        ],
        Marks::Unknown => [0, 0, 0],
    }
}

fn encode_trs(machine: &Machine, words: &mut Vec<u32>) {
    let mut own = 0;
    for state in machine.states() {
        let trs = machine.trs(state);
        for (place, tr) in trs.iter().enumerate() {
            own += 1;
            let next = if place + 1 == trs.len() { 0 } else { own + 1 };
            words.extend([tr.input, tr.output, tr.weight, tr.target, next]);
        }
    }
}

/// The machine that the words hold; marks are not looked at. Lists that share a tail become lists of their own.
///
/// # Errors
///
/// [`Error::Machine`] where the words are not a machine, or with lists of their own it has more than
/// [`LARGEST_COUNT`](crate::LARGEST_COUNT) transitions; [`Error::Memory`] where there is no memory for it.
pub fn decode(words: &[u32]) -> Result<Machine, Error> {
    let bad = || Error::Machine("these words are not a machine".to_string());
    let header = words.get(..HEADER).ok_or_else(bad)?;
    let (states, trs) = (header[0] as usize, header[1] as usize);
    if words.len() != HEADER + STATE * states + TR * trs {
        return Err(bad());
    }
    let (records, tail) = words[HEADER..].split_at(STATE * states);
    let mut machine = Machine::new();
    for _ in 0..states {
        machine.add_state()?;
    }
    machine.set_start(header[2].checked_sub(1))?;
    for (state, record) in records.chunks_exact(STATE).enumerate() {
        if record[1] > 1 {
            return Err(bad());
        }
        machine.set_final(state as u32, (record[1] == 1).then_some(record[2]))?;
        let mut next = record[0];
        while next != 0 {
            let tr = tail
                .chunks_exact(TR)
                .nth(next as usize - 1)
                .ok_or_else(bad)?;
            machine.add_tr(state as u32, tr_of(tr))?;
            if tr[4] != 0 && tr[4] <= next {
                return Err(bad());
            }
            next = tr[4];
        }
    }
    Ok(machine)
}

/// How many transitions the list of a state has, in the words of a machine; of any other words some number.
pub(crate) fn list_length(words: &[u32], state: u32) -> usize {
    let word = |place: usize| words.get(place).copied().unwrap_or(0);
    let tail = HEADER + STATE * word(0) as usize;
    let mut next = word(HEADER + STATE * state as usize);
    let mut length = 0;
    while next != 0 {
        length += 1;
        let after = word(tail + TR * (next as usize - 1) + 4);
        next = if after > next { after } else { 0 };
    }
    length
}

/// The transition in a record of five words.
pub(crate) fn tr_of(record: &[u32]) -> Tr {
    Tr::new(record[0], record[1], record[2], record[3])
}

/// Transitions in records of five words, in list order.
#[derive(Clone, Debug)]
pub struct Trs<'a>(&'a [u32]);

impl<'a> Trs<'a> {
    /// The transitions in these words; a rest of fewer than five is passed over.
    pub fn new(records: &'a [u32]) -> Trs<'a> {
        Trs(records)
    }
}

impl Iterator for Trs<'_> {
    type Item = Tr;

    fn next(&mut self) -> Option<Tr> {
        if self.0.len() < TR {
            return None;
        }
        let (record, rest) = self.0.split_at(TR);
        self.0 = rest;
        Some(tr_of(record))
    }

    fn size_hint(&self) -> (usize, Option<usize>) {
        let count = self.0.len() / TR;
        (count, Some(count))
    }
}

impl ExactSizeIterator for Trs<'_> {}

#[cfg(test)]
mod tests {
    use super::*;

    #[test]
    fn words_of_the_first_case() {
        let words = [
            3, 2, 1, 0, 0, 0, 1, 0, 0, 2, 0, 0, 0, 1, 0, 1, 0, 1, 1, 0, 2, 5, 2, 2, 0,
        ];
        let machine = decode(&words).unwrap();
        assert_eq!(encode(&machine, Marks::Unknown), words);
        let marked = encode(&machine, Marks::True);
        assert_eq!(marked[3..6], [1, 1, 0]);
    }

    #[test]
    fn shared_tails_and_damage() {
        let shared = [
            2, 2, 1, 0, 0, 0, 1, 0, 0, 2, 0, 0, 1, 1, 0, 0, 2, 2, 2, 0, 1, 0,
        ];
        let machine = decode(&shared).unwrap();
        assert_eq!((machine.trs(0).len(), machine.trs(1).len()), (2, 1));
        let mut loops = shared;
        loops[21] = 2;
        assert!(decode(&loops).is_err());
        assert!(decode(&shared[..21]).is_err());
        assert!(decode(&[]).is_err());
        assert!(decode(&[u32::MAX, u32::MAX, 0, 0, 0, 0]).is_err());
    }
}

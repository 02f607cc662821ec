//! What costs about the same: state by state and a run, a shared tail and lists of their own. Were each call to check all that is used, or to forget what it
//! has seen of the lists, the first would cost over a hundred times as much here; were the tail walked for each state, the second would cost ten thousand
//! times as much. The bounds are far from all, and each time is the best of several, so that a busy machine does not matter.

mod common;

use common::{grid, LARGE};
use rinkolza::sys::{self, Memory, Session};
use rinkolza::{Composition, Inputs, Machine, Options, Tr};
use std::time::{Duration, Instant};

/// The best of several times of what is done with a fresh composition, or with fresh memory.
fn best<T: Clone>(fresh: &T, mut work: impl FnMut(&mut T)) -> Duration {
    let time = || {
        let mut own = fresh.clone();
        let begun = Instant::now();
        work(&mut own);
        begun.elapsed()
    };
    std::iter::repeat_with(time).take(7).min().unwrap()
}

/// A word of 2000 letters against a state with 6000: each expansion looks up one letter in the long list.
fn letters() -> Inputs {
    let one = |place| (place, Tr::new(1, 1 + 7 * place % 6000, 0, place + 1));
    let word: Vec<_> = (0..2000).map(one).collect();
    let known = |letter| (0, Tr::new(letter, 1, 0, 0));
    let all: Vec<_> = (1..=6000).map(known).collect();
    let word = Machine::from_lists(Some(0), &word, &[]).unwrap();
    let all = Machine::from_lists(Some(0), &all, &[]).unwrap();
    Inputs::of(&word, &all, &Options::default())
}

#[test]
fn one_by_one_costs_about_a_run() {
    let open = Composition::open_words(letters(), LARGE, LARGE).unwrap();
    let whole = best(&open, |composition| composition.run().unwrap());
    let single = best(&open, |composition| {
        let mut n = 0;
        while n < composition.found() {
            composition.expand(n).unwrap();
            n += 1;
        }
        assert_eq!(n, 2001);
    });
    assert!(single <= 6 * whole, "{single:?} against {whole:?}");
}

const STATES: u32 = 60_000;
const RECORDS: u32 = 150_000;

/// The time of opening a machine by where lists begin and what comes after a record. Its outputs are marked sorted, and
/// record 1, which stands in no list, falls against record 2, so that the lists are walked.
fn opening(first: impl Fn(u32) -> u32, next: impl Fn(u32) -> u32) -> Duration {
    let mut words = vec![STATES, RECORDS, 1, 0, 1, 0];
    words.extend((0..STATES).flat_map(|state| [first(state), 0, 0]));
    for record in 1..=RECORDS {
        words.extend([1, if record == 1 { 2 } else { 1 }, 0, 0, next(record)]);
    }
    let inputs = Inputs {
        first: words,
        ..grid(2)
    };
    best(&Memory::new(LARGE).unwrap(), |memory| {
        let lent = inputs.lent();
        let refused = sys::open(&inputs.settings, &lent, &mut Session::default(), memory);
        assert_eq!(refused, 0);
    })
}

/// One tail of 84464 records, all above 65536, which the states enter one record after another; and a list of two
/// records for each state.
#[test]
fn shared_tails_cost_about_lists_of_their_own() {
    let shared = opening(|state| 65537 + state, |record| (record + 1) % (RECORDS + 1));
    let own = opening(|state| 3 + 2 * state, |record| (record + 1) * (record % 2));
    assert!(shared <= 6 * own, "{shared:?} against {own:?}");
}

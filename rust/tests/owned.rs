//! The calls that do not check, held to those that do: in drawn compositions each is made beside the other on a copy of the same words, and answers and all words at exit are compared.

mod common;

use common::{Draw, Fixed, World};
use rinkolza::sys::{self, Owned, Piece};
use rinkolza::{Error, Refusal, Room};

/// How often each number was answered, by the call.
type Seen = [[u32; 14]; 6];

/// The words that are owned, for calls that check.
fn copy(owned: &Owned) -> Fixed {
    Fixed {
        inputs: owned.inputs().clone(),
        session: *owned.session(),
        memory: owned.memory().clone(),
    }
}

/// A piece of a run by calls that check: one expansion after the other.
fn piece(fixed: &mut Fixed, n: u32, k: u32) -> Piece {
    let (mut next, mut refused) = (n, None);
    while refused.is_none() && next < fixed.found() && next - n < k {
        let lent = fixed.inputs.lent();
        refused = sys::expand(&lent, &mut fixed.session, &mut fixed.memory, next).err();
        next += u32::from(refused.is_none());
    }
    Piece {
        refused,
        next,
        left: fixed.found().saturating_sub(next),
    }
}

/// All final weights by calls that check, or the first refusal with its state.
fn final_weights(fixed: &Fixed) -> Result<Vec<Option<u32>>, (u32, u32)> {
    let states = 0..fixed.found();
    states
        .map(|n| fixed.final_weight(n).map_err(|number| (number, n)))
        .collect()
}

fn number_and_state(error: Error) -> (u32, u32) {
    match error {
        Error::Refused {
            refusal,
            state: Some(state),
        } => (refusal.number(), state),
        other => panic!("{other}"),
    }
}

const EXPAND: usize = 0;
const FINAL_WEIGHT: usize = 1;
const RECORDS: usize = 2;
const FINAL_WEIGHTS: usize = 3;
const PIECE: usize = 4;
const RUN: usize = 5;

/// Makes a call in both ways.
fn one_call(draw: &mut Draw, owned: &mut Owned, seen: &mut Seen) {
    let mut checked = copy(owned);
    let n = draw.below(checked.found() + 2);
    let call = draw.below(6) as usize;
    let number = match call {
        EXPAND => {
            let lent = checked.inputs.lent();
            let expanded = sys::expand(&lent, &mut checked.session, &mut checked.memory, n);
            assert_eq!(owned.expand(n), expanded);
            expanded.err()
        }
        FINAL_WEIGHT => {
            let weight = checked.final_weight(n);
            assert_eq!(owned.final_weight(n), weight);
            weight.err()
        }
        RECORDS => {
            let part = sys::records(&checked.inputs.lent(), &checked.session, &checked.memory, n);
            assert_eq!(owned.records(n), part);
            None
        }
        FINAL_WEIGHTS => {
            let weights = final_weights(&checked);
            assert_eq!(owned.final_weights().map_err(number_and_state), weights);
            weights.err().map(|(number, _)| number)
        }
        PIECE => {
            let k = draw.below(9);
            let made = piece(&mut checked, n, k);
            assert_eq!(owned.run_from(n, k), made);
            made.refused
        }
        _ => {
            let made = owned.run_from(0, u32::MAX);
            assert_eq!(made.refused, checked.run().err());
            assert_eq!(made.refused.is_none(), made.left == 0);
            assert_eq!(made.next + made.left, checked.found());
            made.refused
        }
    };
    assert_eq!(copy(owned), checked);
    seen[call][number.unwrap_or(0) as usize] += 1;
}

#[test]
fn drawn_calls() {
    let mut draw = Draw(23);
    let mut seen = Seen::default();
    for _ in 0..10_000 {
        let mut inputs = draw.inputs(6, 6);
        draw.make_heavy_one_in(2, &mut inputs);
        inputs.ignored = draw.ignored();
        let room = Room {
            heads: 1 + draw.below(20) as usize,
            states: 1 + draw.below(40) as usize,
            trs: draw.below(120) as usize,
        };
        let Ok(mut owned) = Owned::open(inputs, room) else {
            continue;
        };
        for _ in 0..1 + draw.below(16) {
            one_call(&mut draw, &mut owned, &mut seen);
        }
    }
    let answered: [(usize, &[usize]); 6] = [
        (EXPAND, &[0, 9, 10, 11, 12, 13]),
        (FINAL_WEIGHT, &[0, 9, 12]),
        (RECORDS, &[0]),
        (FINAL_WEIGHTS, &[0, 12]),
        (PIECE, &[0, 10, 11, 12, 13]),
        (RUN, &[0, 10, 11, 12, 13]),
    ];
    for (call, numbers) in answered {
        let met: Vec<usize> = (0..14).filter(|&number| seen[call][number] > 0).collect();
        assert_eq!(met, numbers, "call {call}: {:?}", seen[call]);
    }
}

#[test]
fn past_the_found_states_nothing_is_done() {
    let room = Room {
        heads: 8,
        states: 99,
        trs: 99,
    };
    let mut owned = Owned::open(common::grid(4), room).unwrap();
    owned.run_from(0, 3);
    let (before, found) = (owned.clone(), owned.session().used_states());
    for n in [found, found + 1, 70_000, u32::MAX] {
        for k in [0, 1, u32::MAX] {
            let piece = owned.run_from(n, k);
            assert_eq!((piece.refused, piece.next, piece.left), (None, n, 0));
        }
        assert_eq!(owned.expand(n), Err(Refusal::NotFound.number()));
        assert!(owned.records(n).is_empty());
    }
    assert_eq!(owned, before);
}

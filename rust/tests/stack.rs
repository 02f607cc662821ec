//! Every call does with a small stack: all eleven are made on a thread with 160 KiB of it, 48 of them taken where nothing is checked, on machines that take the checks through all their
//! paths, and answer as on the main thread.

mod common;

use common::{grid, Draw, Fixed, Seen, World};
use rinkolza::sys::{self, Owned, Piece};
use rinkolza::{words, Inputs, Room, Tr};
use std::hint::black_box;
use std::thread;

/// The header's bound is lower; the rest is for the test's own frames.
const STACK: usize = 160 * 1024;
/// By so much the bound is lower for the calls that do not check.
const TAKEN: usize = 48 * 1024;
const FEW: Room = Room {
    heads: 64,
    states: 8,
    trs: 8,
};
const MOST: Room = Room {
    heads: 64,
    states: 4096,
    trs: 4096,
};

/// Transitions of a large machine.
const MANY: u32 = 100_000;

/// What the calls that check answered, and what they left.
#[derive(Debug, PartialEq)]
struct Checked {
    expanded: Vec<Result<Vec<Tr>, u32>>,
    ran: Result<(), u32>,
    weights: Vec<Result<Option<u32>, u32>>,
    fan_outs: Vec<Result<u32, u32>>,
    left: Fixed,
}

/// The same of those that do not check.
#[derive(Debug, PartialEq)]
struct Trusted {
    expanded: Vec<Result<(u32, u32), u32>>,
    pieces: Vec<Piece>,
    weights: Vec<Result<Option<u32>, u32>>,
    all: Option<Vec<Option<u32>>>,
    records: Vec<Vec<u32>>,
    left: Owned,
}

/// The look-ups of some labels at the start of either machine, and at a state that is not there.
fn fan_outs(inputs: &Inputs) -> Vec<Result<u32, u32>> {
    let queries = [[1, 0, 0], [1, 0, 5], [2, 0, 3], [2, 0, MANY], [2, MANY, 1]];
    let look_up = |[machine, state, label]: [u32; 3]| {
        sys::fan_out(&inputs.settings, &inputs.lent(), machine, state, label)
    };
    queries.map(look_up).to_vec()
}

/// Opens, expands, runs, weighs, hands back and looks up; each of the calls on expansions checks the records too.
fn checked(inputs: Inputs) -> Result<Checked, u32> {
    let mut left = Fixed::open(inputs, MOST)?;
    let expanded = (0..4).map(|n| left.expand(n)).collect();
    let ran = left.run();
    Ok(Checked {
        expanded,
        ran,
        weights: (0..left.found().min(9))
            .map(|n| left.final_weight(n))
            .collect(),
        fan_outs: fan_outs(&left.inputs),
        left,
    })
}

/// The same, in memory that grows on 13.
fn trusted(inputs: Inputs) -> Option<Trusted> {
    let mut left = Owned::open(inputs, FEW).ok()?;
    let expanded = (0..4).map(|n| left.expand(n)).collect();
    let mut pieces = vec![left.run_from(0, 5)];
    while let Some(larger) = left.memory().room().larger(MOST) {
        let last = pieces[pieces.len() - 1];
        if last.refused == Some(13) {
            left.lengthen(larger.states, larger.trs).unwrap();
        } else if last.refused.is_some() || last.left == 0 {
            break;
        }
        pieces.push(left.run_from(last.next, 3000));
    }
    let found = left.session().used_states();
    Some(Trusted {
        expanded,
        pieces,
        weights: (0..found).map(|n| left.final_weight(n)).collect(),
        all: left.final_weights().ok(),
        records: (0..found).map(|n| left.records(n).to_vec()).collect(),
        left,
    })
}

fn on_a_small_stack<T: Send + 'static>(work: impl FnOnce() -> T + Send + 'static) -> T {
    let thread = thread::Builder::new().stack_size(STACK).spawn(work);
    thread.expect("a thread").join().expect("no panic")
}

/// Takes a part of the stack. (A thread with less of it could be given one that had more.)
fn with_less<T>(work: impl FnOnce() -> T) -> T {
    let taken = [0_u8; TAKEN];
    black_box(&taken);
    let done = work();
    black_box(&taken);
    done
}

/// All calls on these machines give the same with a small stack; with damaged memory too. Says what the opening answered
/// and the side.
fn compare(inputs: &Inputs) -> Result<u32, u32> {
    let twice = |inputs: &Inputs| {
        let (here, there) = (inputs.clone(), inputs.clone());
        let answers = (checked(here.clone()), trusted(here));
        let small = || (checked(there.clone()), with_less(|| trusted(there)));
        assert!(answers == on_a_small_stack(small));
        answers
    };
    let (checked, _) = twice(inputs);
    let mut damaged = checked?.left;
    let side = damaged.session.side();
    // The first record's chain leads to itself.
    damaged.memory.states[sys::STATE_WORDS - 1] = 1;
    let refused = on_a_small_stack(move || {
        let lent = damaged.inputs.lent();
        sys::expand(&lent, &mut damaged.session, &mut damaged.memory, 0)
    });
    assert_eq!(refused, Err(8));
    Ok(side)
}

/// The machine with what is true of each side and of the whole said in its marks.
fn marked(words: &[u32]) -> Vec<u32> {
    words::encode(&words::decode(words).unwrap(), words::Marks::True)
}

#[test]
fn drawn_machines() {
    let mut draw = Draw(29);
    let (mut sides, mut refusals) = ([0; 3], Seen::default());
    for round in 0..60 {
        let mut inputs = draw.inputs(60, 6);
        if round % 2 == 0 {
            inputs.first = marked(&inputs.first);
            inputs.second = marked(&inputs.second);
        }
        if round % 4 > 1 {
            inputs.ignored = draw.ignored();
        }
        match compare(&inputs) {
            Ok(side) => sides[side as usize] += 1,
            Err(number) => refusals[number as usize] += 1,
        }
    }
    assert!(sides.iter().all(|&count| count > 3), "{sides:?}");
    assert!(refusals[5] + refusals[6] > 0, "{refusals:?}");
}

/// One state with a long list, sorted or not; its sortedness is judged in fact.
fn wide(count: u32, falling: bool) -> Vec<u32> {
    let mut words = vec![2, count, 1, 0, 0, 0, 1, 1, 0, 0, 1, 0];
    for own in 1..=count {
        let label = if falling { 1 + count - own } else { own };
        words.extend([label, label, 1, 1, if own < count { own + 1 } else { 0 }]);
    }
    words
}

#[test]
fn large_machines() {
    let compared = |first: &[u32], second: &[u32], settings| {
        compare(&Inputs {
            first: first.to_vec(),
            second: second.to_vec(),
            settings,
            allowed1: Some(vec![5, 6, 7]),
            allowed2: None,
            ignored: Vec::new(),
        })
    };
    let plain = [0, 0, u32::MAX, 0, u32::MAX, 0];
    let sigma = [0, 2, MANY, 1, u32::MAX, 0];
    let (rising, falling) = (wide(MANY, false), wide(MANY, true));
    let few = wide(9, true);
    assert_eq!(compared(&rising, &few, plain), Ok(1));
    assert_eq!(compared(&rising, &few, sigma), Ok(1));
    assert_eq!(compared(&few, &rising, plain), Ok(0));
    assert_eq!(compared(&few, &falling, plain), Err(7));
    let rising = marked(&rising);
    let few = marked(&wide(9, false));
    assert_eq!(
        (&rising[3..6], &few[3..6]),
        (&[1, 1, 1][..], &[1, 1, 1][..])
    );
    assert_eq!(compared(&rising, &few, plain), Ok(2));
    assert_eq!(compared(&few, &rising, sigma), Ok(2));
    assert_eq!(compare(&grid(200)), Ok(1));
}

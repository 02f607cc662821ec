//! Machines of a million states and two million transitions, and the limit of each sort.
//!
//! A chain and a drawn machine are composed with a small one, and every state and transition is held to a plain
//! composition made here. What it took is printed: `cargo test --release --test large -- --nocapture`.

mod common;

use common::{number, Draw, Fixed, World};
use rinkolza::sys::{self, Memory, Session, STATE_WORDS, TR_WORDS};
use rinkolza::{Composition, Inputs, Machine, Options, Room, Side, Tr, LARGEST_COUNT};
use std::time::{Duration, Instant};

const STATES: u32 = 1_000_000;
const PLAIN: [u32; 6] = [0, 0, u32::MAX, 0, u32::MAX, 0];

/// The composition of two machines without epsilons, the first walked, in the order of finding.
struct Expected {
    pairs: Vec<(u32, u32)>,
    /// Where each state's transitions begin.
    firsts: Vec<usize>,
    trs: Vec<Tr>,
}

fn expected(first: &Machine, second: &Machine) -> Expected {
    let mut numbers = vec![u32::MAX; first.state_count() * second.state_count()];
    let (mut pairs, mut firsts, mut trs) = (vec![(0, 0)], vec![0], Vec::new());
    numbers[0] = 0;
    let mut done = 0;
    while done < pairs.len() {
        let (s1, s2) = pairs[done];
        for walked in first.trs(s1) {
            let same = |found: &&Tr| found.input == walked.output;
            for found in second.trs(s2).iter().filter(same) {
                let (t1, t2) = (walked.target, found.target);
                let number = &mut numbers[t1 as usize * second.state_count() + t2 as usize];
                if *number == u32::MAX {
                    *number = pairs.len() as u32;
                    pairs.push((t1, t2));
                }
                let weight = walked.weight + found.weight;
                trs.push(Tr::new(walked.input, found.output, weight, *number));
            }
        }
        done += 1;
        firsts.push(trs.len());
    }
    Expected { pairs, firsts, trs }
}

/// All that was found is what is expected: origins, transitions, and final weights.
fn compare(composition: &Composition, first: &Machine, second: &Machine) {
    let expected = expected(first, second);
    assert_eq!(composition.found() as usize, expected.pairs.len());
    assert_eq!(composition.tr_count() as usize, expected.trs.len());
    for n in composition.states() {
        let (s1, s2) = expected.pairs[n as usize];
        let triple = composition.triple(n).unwrap();
        assert_eq!((triple.first, triple.second, triple.filter), (s1, s2, 0));
        let own = expected.firsts[n as usize]..expected.firsts[n as usize + 1];
        let list = expected.trs[own].iter().copied();
        assert!(composition.trs(n).eq(list), "the transitions of state {n}");
        let weights = first.final_weight(s1).zip(second.final_weight(s2));
        let last = composition.final_weight(n).unwrap();
        assert_eq!(last, weights.map(|(a, b)| a + b), "{n}");
    }
}

/// How many records a look-up walks in the mean, by the rule of the heads.
fn mean_chain(composition: &Composition) -> f64 {
    let heads = composition.room().heads;
    let mut chains = vec![0u64; heads];
    for n in composition.states() {
        let triple = composition.triple(n).unwrap();
        let word = u64::from(triple.first) + 31 * u64::from(triple.second);
        chains[(word + u64::from(triple.filter)) as usize % heads] += 1;
    }
    let walked: u64 = chains.iter().map(|length| length * length).sum();
    walked as f64 / 2.0 / composition.found() as f64
}

fn megabytes(bytes: usize) -> f64 {
    bytes as f64 / 1e6
}

fn tell(name: &str, machine: &Machine, composition: &Composition, times: [Duration; 2]) {
    let (states, trs) = (
        composition.found() as usize,
        composition.tr_count() as usize,
    );
    let room = composition.room();
    let own = 4 * (6 + 3 * machine.state_count() + 5 * machine.tr_count());
    let lent = 4 * (room.heads + STATE_WORDS * room.states + TR_WORDS * room.trs);
    let used = 4 * (STATE_WORDS * states + TR_WORDS * trs);
    let records = (states + trs) as f64;
    println!(
        "{name}: {} states and {} transitions, {:.1} MB of words, opened in {:.2} s",
        machine.state_count(),
        machine.tr_count(),
        megabytes(own),
        times[0].as_secs_f64()
    );
    println!(
        "  composed: {states} states and {trs} transitions in {:.2} s, {:.0} ns for each; {:.1} records walked in a look-up",
        times[1].as_secs_f64(),
        times[1].as_nanos() as f64 / records,
        mean_chain(composition)
    );
    println!(
        "  lent: {:.1} MB, of it {:.1} MB heads; records in use {:.1} MB, so {:.1} bytes lent for each state and transition",
        megabytes(lent),
        megabytes(4 * room.heads),
        megabytes(used),
        lent as f64 / records
    );
}

/// Opens, runs, compares and tells.
fn compose(name: &str, first: &Machine, second: &Machine) -> Composition {
    let begun = Instant::now();
    let mut composition = Composition::open(first, second, &Options::default()).unwrap();
    let opened = begun.elapsed();
    composition.run().unwrap();
    let times = [opened, begun.elapsed() - opened];
    assert_eq!(composition.side(), Side::Input);
    compare(&composition, first, second);
    tell(name, first, &composition, times);
    composition
}

/// A state that takes the labels 1 and 2, and writes others.
fn one_state() -> Machine {
    let loops = [(0, Tr::new(1, 7, 3, 0)), (0, Tr::new(2, 8, 5, 0))];
    Machine::from_lists(Some(0), &loops, &[(0, 2)]).unwrap()
}

#[test]
fn a_chain_of_a_million_states() {
    let falling = |n| [(n, Tr::new(n, 2, 1, n + 1)), (n, Tr::new(9, 1, 4, n + 1))];
    let trs: Vec<(u32, Tr)> = (0..STATES - 1).flat_map(falling).collect();
    let first = Machine::from_lists(Some(0), &trs, &[(STATES - 1, 6)]).unwrap();
    let composition = compose("chain", &first, &one_state());
    // Two alternatives at each place: the composed machine is the chain.
    assert_eq!(composition.found(), STATES);
    assert_eq!(composition.tr_count(), 2 * (STATES - 1));
    let last = composition.trs(STATES - 2).last();
    assert_eq!(last, Some(Tr::new(9, 7, 7, STATES - 1)));
    assert_eq!(composition.final_weight(STATES - 1), Ok(Some(8)));
    assert!(mean_chain(&composition) < 2.0);
}

/// Two transitions from each state to drawn ones, some states final.
fn drawn(draw: &mut Draw) -> Machine {
    let mut trs = Vec::new();
    for state in 0..STATES {
        for _ in 0..2 {
            let (label, target) = (1 + draw.below(4), draw.below(STATES));
            trs.push((state, Tr::new(draw.below(9), label, draw.below(9), target)));
        }
    }
    let last: Vec<(u32, u32)> = (0..STATES / 7).map(|n| (7 * n, n % 5)).collect();
    Machine::from_lists(Some(0), &trs, &last).unwrap()
}

/// Two states that take the labels 1 to 4, but for the second 4.
fn two_states() -> Machine {
    let mut trs = Vec::new();
    for state in 0..2 {
        for label in 1..5 - state {
            let target = (state + label) % 2;
            trs.push((state, Tr::new(label, 10 * label + state, label, target)));
        }
    }
    Machine::from_lists(Some(0), &trs, &[(0, 1), (1, 9)]).unwrap()
}

#[test]
fn a_drawn_machine_of_a_million_states() {
    let first = drawn(&mut Draw(41));
    assert_eq!(
        (first.state_count(), first.tr_count()),
        (1_000_000, 2_000_000)
    );
    let composition = compose("drawn", &first, &two_states());
    assert!(composition.found() > 1_000_000, "{}", composition.found());
    assert!(mean_chain(&composition) < 4.0);
}

/// A machine with so many states and transitions whose other words are 0: no list, nothing final.
fn bare(states: usize, trs: usize) -> Vec<u32> {
    let mut words = vec![0; 6 + 3 * states + 5 * trs];
    words[..3].copy_from_slice(&[states as u32, trs as u32, 1]);
    words
}

#[test]
fn the_limit_of_a_machine() {
    let few = Room {
        heads: 1,
        states: 1,
        trs: 1,
    };
    let opened = |first, second| {
        let inputs = Inputs {
            first,
            second,
            settings: PLAIN,
            allowed1: None,
            allowed2: None,
            ignored: Vec::new(),
        };
        let opened = Composition::open_words(inputs, few, few);
        opened.map(|opened| opened.found()).map_err(number)
    };
    let most = LARGEST_COUNT;
    assert_eq!(opened(bare(most, 0), bare(1, 0)), Ok(1));
    assert_eq!(opened(bare(1, most), bare(1, 0)), Ok(1));
    assert_eq!(opened(bare(1, 0), bare(most, 0)), Ok(1));
    assert_eq!(opened(bare(1, 0), bare(1, most)), Ok(1));
    assert_eq!(opened(bare(most + 1, 0), bare(1, 0)), Err(2));
    assert_eq!(opened(bare(1, most + 1), bare(1, 0)), Err(2));
    assert_eq!(opened(bare(1, 0), bare(most + 1, 0)), Err(3));
    assert_eq!(opened(bare(1, 0), bare(1, most + 1)), Err(3));
}

/// Memory in which so many records of each sort are in use, all words 0, and there are words for one more than the most:
/// each state is (0, 0, 0), not expanded, with one transition to the new state (1, 1, 0).
fn nearly_full(states: usize, trs: usize) -> Fixed {
    let step = vec![2, 1, 1, 0, 0, 0, 1, 0, 0, 0, 1, 0, 5, 5, 1, 1, 0];
    let settings: [u32; 6] = PLAIN;
    let mut session = Session::default();
    session.0[..6].copy_from_slice(&settings);
    // Both sides are sorted in fact, so that machine 1 is looked up.
    session.0[6..].copy_from_slice(&[1, states as u32, trs as u32]);
    Fixed {
        inputs: Inputs {
            first: step.clone(),
            second: step,
            settings,
            allowed1: None,
            allowed2: None,
            ignored: Vec::new(),
        },
        session,
        memory: Memory {
            heads: vec![0],
            states: vec![0; STATE_WORDS * (LARGEST_COUNT + 1)],
            trs: vec![0; TR_WORDS * (LARGEST_COUNT + 1)],
        },
    }
}

#[test]
fn the_limit_of_records() {
    let most = LARGEST_COUNT;
    let expand = |states, trs| {
        let mut fixed = nearly_full(states, trs);
        let lent = fixed.inputs.lent();
        let part = sys::expand(&lent, &mut fixed.session, &mut fixed.memory, 0);
        let stored = fixed.found() as usize == states + 1;
        assert_eq!(part.is_ok(), stored);
        if stored {
            assert_eq!(fixed.triple(states as u32), (1, 1, 0));
        }
        part
    };
    assert_eq!(expand(most - 1, 0), Ok((1, 1)));
    assert_eq!(expand(1, most - 1), Ok((most as u32, 1)));
    assert_eq!(expand(most, 0), Err(13));
    assert_eq!(expand(1, most), Err(13));
    assert_eq!(expand(most + 1, 0), Err(8));
    assert_eq!(expand(1, most + 1), Err(8));
}

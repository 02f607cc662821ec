//! A run remembers what it has seen of the machines' lists, and so do expansions without checks, from call to call; an
//! expansion that checks remembers nothing. All must answer and leave the same, in drawn compositions with room and
//! without, and with machines of more states than are remembered.

mod common;

use common::choice::{inputs, list, records_of, words, Met, Words, INNER, MAX, WEIGHT};
use common::{Draw, Fixed, World};
use rinkolza::sys::{self, Owned};
use rinkolza::{Inputs, Room};

/// How many states of a machine are remembered at once: s and s + 1024 share an entry.
const REMEMBERED: usize = 1024;

/// Expands all states in number order, one by one; answers the state at which it ends and the refusal there.
fn expand_all(met: &mut Met, owned: &mut Owned) -> (u32, Option<u32>) {
    let (mut n, mut refused) = (0, None);
    while refused.is_none() && n < owned.session().used_states() {
        met.way((owned.inputs(), owned.session(), owned.memory()), n);
        refused = owned.expand(n).err();
        n += u32::from(refused.is_none());
    }
    met.refusal(refused);
    (n, refused)
}

/// A run by the call that checks. Memory has words behind its end: what is written there shows in the counts.
fn run_checked(opened: &Owned) -> (Fixed, Option<u32>) {
    let mut checked = Fixed {
        inputs: opened.inputs().clone(),
        session: *opened.session(),
        memory: opened.memory().clone(),
    };
    checked.memory.states.reserve(1000);
    checked.memory.trs.reserve(1000);
    let refused = checked.run().err();
    (checked, refused)
}

/// The expansions of all states in number order, a run by the call that checks, one at once and one in pieces.
fn run_and_expand(draw: &mut Draw, met: &mut Met, opened: &Owned) -> Owned {
    let (mut run, mut pieces, mut steps) = (opened.clone(), opened.clone(), opened.clone());
    let case = || format!("{:?} of {:?}", opened.memory().room(), opened.inputs());
    let (n, refused) = expand_all(met, &mut steps);
    let (checked, answer) = run_checked(opened);
    assert_eq!(answer, refused, "{}", case());
    let same = checked.session == *steps.session() && checked.memory == *steps.memory();
    assert!(same, "{}", case());
    let whole = run.run_from(0, MAX);
    assert_eq!((whole.next, whole.refused), (n, refused), "{}", case());
    let most = 1 + draw.below(steps.session().used_states());
    let mut piece = pieces.run_from(0, most);
    while piece.refused.is_none() && piece.left > 0 {
        piece = pieces.run_from(piece.next, most);
    }
    assert_eq!(piece, whole, "{}", case());
    assert!(run == steps && pieces == steps, "{}", case());
    steps
}

#[test]
fn runs() {
    let (mut draw, mut met) = (Draw(83), Met::default());
    for _ in 0..600 {
        let mut drawn = inputs(&mut draw, 6, 6);
        if draw.one_in(3) {
            draw.make_heavy(&mut drawn.first);
        }
        let mut room = Room {
            heads: 1 + draw.below(8) as usize,
            states: 240,
            trs: 4000,
        };
        let roomy = Owned::open(drawn.clone(), room).unwrap();
        let found = run_and_expand(&mut draw, &mut met, &roomy);
        room.states = 1 + draw.below(found.session().used_states()) as usize;
        room.trs = draw.below(2 + found.session().used_trs()) as usize;
        let tight = Owned::open(drawn, room).unwrap();
        run_and_expand(&mut draw, &mut met, &tight);
    }
    met.holds(Met {
        fast: 1000,
        slow: 300,
        too_large: 50,
        no_room: 100,
    });
}

/// Some weights of a machine become so large that a list with one is slow, at labels that the other no longer has.
fn weigh_down(draw: &mut Draw, heavy: (&mut [u32], usize), other: (&mut [u32], usize)) {
    records_of(other.0).for_each(|record| record[other.1] = record[other.1].min(2));
    for record in records_of(heavy.0).filter(|record| record[heavy.1] == 3) {
        if draw.one_in(4) {
            record[WEIGHT] = MAX - 1;
        }
    }
}

/// The states of a machine whose lists are asked for, where composed states are expanded in this order: with a sigma
/// label none.
fn asked(words: Words<'_>, order: impl Iterator<Item = u32>, machine: usize) -> Vec<u32> {
    let [_, _, sigma1, _, sigma2, _] = words.0.settings;
    let of = |n| words.2.state(n).expect("the state is found")[machine];
    match (sigma1, sigma2) {
        (MAX, MAX) => order.map(of).collect(),
        _ => Vec::new(),
    }
}

/// How often the entry of a state that is asked for is that of another state.
fn replaced(asked: &[u32]) -> usize {
    let mut entries = vec![MAX; REMEMBERED];
    let other = asked.iter().filter(|&&state| {
        let held = std::mem::replace(&mut entries[state as usize % REMEMBERED], state);
        held != MAX && held != state
    });
    other.count()
}

/// Whether the records of a state's list are not consecutive.
fn is_scattered(words: &[u32], state: u32) -> bool {
    let nexts = list(words, state).into_iter().map(|record| record[4]);
    let first = words[6 + 3 * state as usize];
    let own: Vec<u32> = std::iter::once(first).chain(nexts).collect();
    own.windows(2).any(|pair| pair[1] > pair[0] + 1)
}

const PLENTY: Room = Room {
    heads: 16384,
    states: 28_000,
    trs: 100_000,
};

/// Two machines, one of them with up to three times as many states as are remembered.
fn large_inputs(draw: &mut Draw, round: usize) -> Inputs {
    let (states1, states2) = [(3000, 3), (3, 3000)][round % 2];
    let mut drawn = inputs(draw, states1, states2);
    let first = (&mut drawn.first[..], INNER[0]);
    let second = (&mut drawn.second[..], INNER[1]);
    match round % 2 {
        0 => weigh_down(draw, first, second),
        _ => weigh_down(draw, second, first),
    }
    drawn
}

#[test]
fn runs_that_forget() {
    let (mut draw, mut met) = (Draw(89), Met::default());
    let mut forgot = [0; 2];
    for round in 0..30 {
        let opened = Owned::open(large_inputs(&mut draw, round), PLENTY).unwrap();
        let found = run_and_expand(&mut draw, &mut met, &opened);
        let words = (found.inputs(), found.session(), found.memory());
        let states = 0..found.session().used_states();
        for (machine, forgot) in forgot.iter_mut().enumerate() {
            *forgot += replaced(&asked(words, states.clone(), machine));
        }
    }
    println!("{forgot:?} entries replaced");
    assert!(forgot.iter().all(|&count| count > 1000));
    met.holds(Met {
        fast: 10_000,
        slow: 2000,
        too_large: 0,
        no_room: 0,
    });
}

/// Expands up to 1500 states, one by one in a drawn order, without checks and with them; the first go on from copies now
/// and then. Answers the order, and what is left.
fn expand_both(draw: &mut Draw, inputs: Inputs) -> (Vec<u32>, Fixed) {
    let mut owned = Owned::open(inputs.clone(), PLENTY).unwrap();
    let mut checked = Fixed::open(inputs, PLENTY).unwrap();
    let (mut order, mut waiting) = (Vec::new(), vec![0]);
    while order.len() < 1500 && !waiting.is_empty() {
        let n = waiting.swap_remove(draw.below(waiting.len() as u32) as usize);
        let found = checked.found();
        let lent = checked.inputs.lent();
        let expanded = sys::expand(&lent, &mut checked.session, &mut checked.memory, n);
        assert_eq!(owned.expand(n), expanded, "{n} of {:?}", checked.inputs);
        if draw.one_in(100) {
            owned = owned.clone();
        }
        waiting.extend(found..checked.found());
        order.push(n);
    }
    let same = *owned.session() == checked.session && *owned.memory() == checked.memory;
    assert!(same, "{:?}", checked.inputs);
    (order, checked)
}

#[test]
fn expansions_that_forget() {
    let mut draw = Draw(113);
    let (mut forgot, mut scattered) = ([0; 2], [0; 2]);
    for round in 0..24 {
        let drawn = large_inputs(&mut draw, round);
        let (order, left) = expand_both(&mut draw, drawn);
        let machines = [&left.inputs.first, &left.inputs.second];
        for (machine, list) in machines.into_iter().enumerate() {
            let asked = asked(words(&left), order.iter().copied(), machine);
            forgot[machine] += replaced(&asked);
            let not_consecutive = asked.iter().filter(|&&state| is_scattered(list, state));
            scattered[machine] += not_consecutive.count();
        }
    }
    println!("{forgot:?} entries replaced, {scattered:?} lists not consecutive");
    assert!(forgot.iter().chain(&scattered).all(|&count| count > 300));
}

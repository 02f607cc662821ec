//! The rule by which one of the two ways of an expansion is chosen, and compositions drawn for both.

use super::{Draw, Fixed, World};
use rinkolza::sys::{self, Memory, Session, STATE_WORDS, TR_WORDS};
use rinkolza::{Inputs, Room};

pub const MAX: u32 = u32::MAX;
/// The word of a record that holds the inner label, in machine 1 and in machine 2, and that of the weight.
pub const INNER: [usize; 2] = [1, 0];
pub const WEIGHT: usize = 2;
/// A machine is a header, three words for each state, and the records of its transitions.
const HEADER: usize = 6;
const STATE: usize = 3;

/// The records of a state's list.
pub fn list(words: &[u32], state: u32) -> Vec<&[u32]> {
    let records = &words[HEADER + STATE * words[0] as usize..];
    let mut next = words[HEADER + STATE * state as usize];
    let mut list = Vec::new();
    while next != 0 {
        let record = &records[TR_WORDS * (next as usize - 1)..][..TR_WORDS];
        list.push(record);
        next = record[4];
    }
    list
}

/// All records.
pub fn records_of(words: &mut [u32]) -> std::slice::ChunksExactMut<'_, u32> {
    let from = HEADER + STATE * words[0] as usize;
    words[from..].chunks_exact_mut(TR_WORDS)
}

/// Puts a weight at a drawn place of the list of state 0; whether there is one.
pub fn put_weight(draw: &mut Draw, words: &mut [u32], weight: u32) -> bool {
    let count = list(words, 0).len() as u32;
    let mut own = words[HEADER];
    for _ in 0..draw.below(count.max(1)) {
        own = records_of(words).nth(own as usize - 1).unwrap()[4];
    }
    let record = own
        .checked_sub(1)
        .and_then(|at| records_of(words).nth(at as usize));
    record.map(|record| record[WEIGHT] = weight).is_some()
}

pub fn is_sorted(words: &[u32], inner: usize) -> bool {
    let falls = |pair: &[&[u32]]| pair[0][inner] > pair[1][inner];
    (0..words[0]).all(|state| !list(words, state).windows(2).any(falls))
}

pub fn zero(kind: u32) -> u32 {
    [MAX, 0][kind as usize]
}

/// The product of two weights; none: it is too large.
pub fn times(kind: u32, a: u32, b: u32) -> Option<u32> {
    match kind {
        _ if a == zero(kind) || b == zero(kind) => Some(zero(kind)),
        0 => a.checked_add(b).filter(|&sum| sum != MAX),
        _ => a.checked_mul(b),
    }
}

/// What the rule asks of a list: length, epsilons, the longest run of one label, the largest weight but for the zero.
struct Facts {
    len: usize,
    eps: usize,
    run: usize,
    most: u32,
}

fn facts(words: &[u32], inner: usize, kind: u32, state: u32) -> Facts {
    let list = list(words, state);
    let runs = list.chunk_by(|a, b| a[inner] == b[inner]);
    let weights = list.iter().map(|record| record[WEIGHT]);
    Facts {
        len: list.len(),
        eps: list.iter().filter(|record| record[inner] == 0).count(),
        run: runs.map(<[_]>::len).max().unwrap_or(0),
        most: weights.filter(|&w| w != zero(kind)).max().unwrap_or(0),
    }
}

/// What the rule says of a state.
pub struct Rule {
    pub walks_first: bool,
    /// The most moves that there could be: there must be so many records of each sort for the fast way.
    pub moves: usize,
    /// Whether weights and sigma labels allow the fast way.
    pub allows: bool,
}

/// The words of a composition.
pub type Words<'a> = (&'a Inputs, &'a Session, &'a Memory);

pub fn words(fixed: &Fixed) -> Words<'_> {
    (&fixed.inputs, &fixed.session, &fixed.memory)
}

pub fn rule((inputs, session, memory): Words<'_>, n: u32) -> Rule {
    let [kind, _, sigma1, _, sigma2, _] = inputs.settings;
    let record = memory.state(n).expect("the state is found");
    let one = facts(&inputs.first, INNER[0], kind, record[0]);
    let two = facts(&inputs.second, INNER[1], kind, record[1]);
    let walks_first = match session.side() {
        2 => one.len <= two.len,
        side => side == 0,
    };
    let (p, q, most) = (u64::from(one.most), u64::from(two.most), u64::from(MAX));
    let fits = [p + q < most, p * q <= most][kind as usize];
    let (walked, looked) = if walks_first { (one, two) } else { (two, one) };
    Rule {
        walks_first,
        moves: looked.eps + walked.len * (looked.run + 1),
        allows: fits && sigma1 == MAX && sigma2 == MAX,
    }
}

/// How many expansions the rule gives to each way, and how many were refused by 12 and by 13.
#[derive(Debug, Default, PartialEq)]
pub struct Met {
    pub fast: u32,
    pub slow: u32,
    pub too_large: u32,
    pub no_room: u32,
}

impl Met {
    /// Counts the way of an expansion; a state that is expanded already has none.
    pub fn way(&mut self, words: Words<'_>, n: u32) {
        let (rule, room) = (rule(words, n), words.2.room());
        let states = words.1.used_states() as usize + rule.moves <= room.states;
        let trs = words.1.used_trs() as usize + rule.moves <= room.trs;
        let new = u32::from(words.2.state(n).expect("the state is found")[3] == 0);
        match rule.allows && states && trs {
            true => self.fast += new,
            false => self.slow += new,
        }
    }

    pub fn refusal(&mut self, refused: Option<u32>) {
        match refused {
            None => (),
            Some(12) => self.too_large += 1,
            Some(13) => self.no_room += 1,
            Some(other) => panic!("refused by {other}"),
        }
    }

    pub fn expand(&mut self, fixed: &mut Fixed, n: u32) -> Result<(u32, u32), u32> {
        self.way(words(fixed), n);
        let lent = fixed.inputs.lent();
        let answer = sys::expand(&lent, &mut fixed.session, &mut fixed.memory, n);
        self.refusal(answer.err());
        answer
    }

    /// So many of each at least.
    pub fn holds(&self, least: Met) {
        println!("{self:?}");
        let ways = self.fast >= least.fast && self.slow >= least.slow;
        let refusals = self.too_large >= least.too_large && self.no_room >= least.no_room;
        assert!(ways && refusals, "{self:?}, not {least:?}");
    }
}

/// The same lists with their records elsewhere, rising along each list but not always consecutive; an empty list may
/// become the tail of another.
fn scatter(draw: &mut Draw, words: &[u32]) -> Vec<u32> {
    let lists: Vec<_> = (0..words[0]).map(|state| list(words, state)).collect();
    let mut order = Vec::new();
    for (state, list) in lists.iter().enumerate() {
        let (from, step) = (draw.below(words[1] + 1), draw.below(3));
        order.extend((0..list.len()).map(|place| (from + step * place as u32, state, place)));
    }
    order.sort();
    let mut firsts = vec![0; lists.len()];
    let mut scattered = words.to_vec();
    let records = records_of(&mut scattered).zip(&order).enumerate();
    for (before, (record, &(_, state, place))) in records.rev() {
        record.copy_from_slice(lists[state][place]);
        record[4] = firsts[state];
        firsts[state] = before as u32 + 1;
    }
    for (state, first) in firsts.into_iter().enumerate() {
        let shares = first == 0 && words[1] > 0 && draw.one_in(2);
        let tail = if shares { 1 + draw.below(words[1]) } else { 0 };
        scattered[HEADER + STATE * state] = first.max(tail);
    }
    scattered
}

/// A machine with lists sorted by the inner label or as they fall, with inner epsilons or without, its weights small or
/// zero, its records in the order of the states or scattered.
fn machine(draw: &mut Draw, inner: usize, sorted: bool, states: u32, kind: u32) -> Vec<u32> {
    let mut words = draw.machine(sorted.then_some(inner), states, 6);
    let least = draw.below(2);
    for record in records_of(&mut words) {
        record[inner] = record[inner].max(least);
        record[WEIGHT] = draw.below(3);
        if draw.one_in(5) {
            record[WEIGHT] = zero(kind);
        }
    }
    match draw.below(2) {
        0 => words,
        _ => scatter(draw, &words),
    }
}

/// Two machines of up to so many states, at least one of them sorted, and settings without sigma.
pub fn inputs(draw: &mut Draw, states1: u32, states2: u32) -> Inputs {
    let kind = draw.below(2);
    let sorted = [(true, true), (true, false), (false, true)][draw.below(3) as usize];
    let mut first = machine(draw, INNER[0], sorted.0, states1, kind);
    let mut second = machine(draw, INNER[1], sorted.1, states2, kind);
    if sorted == (true, true) && draw.one_in(2) {
        (first[4], second[3]) = (1, 1);
    }
    Inputs {
        first,
        second,
        settings: [kind, draw.filter(), MAX, 0, MAX, 0],
        allowed1: None,
        allowed2: None,
        ignored: Vec::new(),
    }
}

/// Opened with plenty of room for some expansions, any words behind what is used.
pub fn opened(draw: &mut Draw, inputs: Inputs) -> Fixed {
    let room = Room {
        heads: 1 + draw.below(8) as usize,
        states: 240,
        trs: 1200,
    };
    let mut fixed = Fixed::open(inputs, room).expect("an opening");
    let used = STATE_WORDS * fixed.found() as usize;
    let memory = &mut fixed.memory;
    for word in memory.states[used..].iter_mut().chain(&mut memory.trs) {
        *word = draw.next() as u32;
    }
    fixed
}

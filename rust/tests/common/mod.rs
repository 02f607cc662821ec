//! What several tests share: draws, and a composition as the lines of document 01's listing.

#![allow(dead_code)]

pub mod choice;
pub mod ignored;
pub mod moves;
pub mod wide;

use rinkolza::sys::{self, Memory, Session, TR_WORDS};
use rinkolza::{words, Composition, Filter, Inputs, Room, Tr};

/// The epsilon filters, each at the place of its number.
pub const FILTERS: [Filter; 6] = [
    Filter::Sequence,
    Filter::Alternate,
    Filter::Match,
    Filter::Null,
    Filter::Trivial,
    Filter::NoMatch,
];

/// By the first so many of them two readings that agree are one reading.
pub const EXACT: usize = 3;

/// Whether the filter of this number ever keeps a move of one machine alone, on an inner epsilon.
pub fn keeps_alone(filter: u32) -> bool {
    FILTERS[filter as usize] != Filter::Null
}

/// Whether the filter of this number ever keeps a move by an inner epsilon of both machines.
pub fn keeps_both(filter: u32) -> bool {
    matches!(
        FILTERS[filter as usize],
        Filter::Match | Filter::Null | Filter::Trivial
    )
}

/// Room that no small composition uses up; it is had at once.
pub const LARGE: Room = Room {
    heads: 16384,
    states: 65535,
    trs: 65535,
};

/// How often each number was answered, 0 where the call was accepted.
pub type Seen = [u32; 19];

/// The least of each sort.
pub const LEAST: Room = Room {
    heads: 1,
    states: 1,
    trs: 1,
};

/// Numbers that look random, the same at every run.
pub struct Draw(pub u64);

impl Draw {
    pub fn next(&mut self) -> u64 {
        self.0 = self.0.wrapping_add(0x9e37_79b9_7f4a_7c15);
        let mut word = self.0;
        word = (word ^ (word >> 30)).wrapping_mul(0xbf58_476d_1ce4_e5b9);
        word = (word ^ (word >> 27)).wrapping_mul(0x94d0_49bb_1331_11eb);
        word ^ (word >> 31)
    }

    /// Below the limit, which is not 0.
    pub fn below(&mut self, limit: u32) -> u32 {
        (self.next() % u64::from(limit)) as u32
    }

    pub fn one_in(&mut self, count: u32) -> bool {
        self.below(count) == 0
    }

    /// A small number, or one at the edge of what a word holds.
    pub fn word(&mut self) -> u32 {
        match self.below(8) {
            0 => u32::MAX - self.below(3),
            1 => self.next() as u32,
            2 => self.below(20_000_000),
            _ => self.below(7),
        }
    }

    pub fn words(&mut self, most: u32) -> Vec<u32> {
        (0..self.below(most + 1)).map(|_| self.word()).collect()
    }

    /// A machine in words, its lists sorted by the input label (0), the output label (1), or as they fall.
    pub fn machine(&mut self, sort: Option<usize>, states: u32, trs: u32) -> Vec<u32> {
        let states = 1 + self.below(states);
        let mut words = vec![states, 0, 1, 0, 0, 0];
        let mut records: Vec<u32> = Vec::new();
        for _ in 0..states {
            let list = self.list(sort, states, trs);
            let first = records.len() as u32 / 5 + 1;
            words.push(if list.is_empty() { 0 } else { first });
            let last = self.one_in(2) as u32;
            words.extend([last, last * self.below(4)]);
            for (place, tr) in list.iter().enumerate() {
                let own = first + place as u32;
                records.extend(tr);
                records.push(if place + 1 == list.len() { 0 } else { own + 1 });
            }
        }
        words[1] = records.len() as u32 / 5;
        words.extend(records);
        if let Some(side) = sort {
            words[3 + side] = self.below(2);
        }
        words
    }

    fn list(&mut self, sort: Option<usize>, states: u32, trs: u32) -> Vec<[u32; 4]> {
        let count = self.below(trs + 1);
        let mut list: Vec<[u32; 4]> = (0..count)
            .map(|_| {
                [
                    self.below(4),
                    self.below(4),
                    self.below(4),
                    self.below(states),
                ]
            })
            .collect();
        if let Some(side) = sort {
            list.sort_by_key(|tr| tr[side]);
        }
        list
    }

    /// The number of a filter.
    pub fn filter(&mut self) -> u32 {
        self.below(FILTERS.len() as u32)
    }

    /// Two machines that can be matched, and settings, sometimes with sigma.
    pub fn inputs(&mut self, states: u32, trs: u32) -> Inputs {
        let sides = [(true, true), (true, false), (false, true)][self.below(3) as usize];
        let sigma = |draw: &mut Draw| if draw.one_in(3) { 3 } else { u32::MAX };
        Inputs {
            first: self.machine(sides.0.then_some(1), states, trs),
            second: self.machine(sides.1.then_some(0), states, trs),
            settings: [
                self.below(2),
                self.filter(),
                sigma(self),
                self.below(3),
                sigma(self),
                self.below(3),
            ],
            allowed1: self.one_in(3).then(|| vec![1, 2]),
            allowed2: self.one_in(3).then(|| vec![2, 7]),
            ignored: Vec::new(),
        }
    }

    /// Makes some of a machine's weights, final weights too, so large that products may not fit.
    pub fn make_heavy(&mut self, words: &mut [u32]) {
        let (header, records) = words.split_at_mut(6);
        let (states, trs) = records.split_at_mut(3 * header[0] as usize);
        let last = states.chunks_exact_mut(3).filter(|state| state[1] == 1);
        for record in last.chain(trs.chunks_exact_mut(5)) {
            if self.one_in(4) {
                record[2] = u32::MAX - 1 - self.below(3);
            }
        }
    }

    /// Makes both machines heavy, once in so many times.
    pub fn make_heavy_one_in(&mut self, count: u32, inputs: &mut Inputs) {
        if self.one_in(count) {
            self.make_heavy(&mut inputs.first);
            self.make_heavy(&mut inputs.second);
        }
    }
}

/// Two machines in words, without allowed lists.
pub fn lending(first: &[u32], second: &[u32], settings: [u32; 6], ignored: &[u32]) -> Inputs {
    Inputs {
        first: first.to_vec(),
        second: second.to_vec(),
        settings,
        allowed1: None,
        allowed2: None,
        ignored: ignored.to_vec(),
    }
}

/// Two chains of so many states, the first with output epsilon all along, the second with input epsilon: every pair of
/// their states is found, side × side.
pub fn grid(side: u32) -> Inputs {
    let chain = |input: u32, output: u32| {
        let mut words = vec![side, side - 1, 1, 0, 0, 0];
        for state in 0..side {
            words.extend([if state + 1 < side { state + 1 } else { 0 }, 1, 0]);
        }
        for state in 1..side {
            words.extend([input, output, 1, state, 0]);
        }
        words
    };
    Inputs {
        first: chain(1, 0),
        second: chain(0, 1),
        settings: [0, 0, u32::MAX, 0, u32::MAX, 0],
        allowed1: None,
        allowed2: None,
        ignored: Vec::new(),
    }
}

/// A composition under test; refusals by their numbers.
pub trait World: Sized {
    fn side(&self) -> u32;
    fn found(&self) -> u32;
    fn tr_count(&self) -> u32;
    fn triple(&self, n: u32) -> (u32, u32, u32);
    fn expand(&mut self, n: u32) -> Result<Vec<Tr>, u32>;
    fn run(&mut self) -> Result<(), u32>;
    fn final_weight(&self, n: u32) -> Result<Option<u32>, u32>;
    fn trs(&self, n: u32) -> Vec<Tr>;
}

/// The five calls that check and are lent memory, which stays as it is.
#[derive(Clone, Debug, PartialEq, Eq)]
pub struct Fixed {
    pub inputs: Inputs,
    pub session: Session,
    pub memory: Memory,
}

impl Fixed {
    pub fn open(inputs: Inputs, room: Room) -> Result<Fixed, u32> {
        let mut fixed = Fixed {
            inputs,
            session: Session::default(),
            memory: Memory::new(room).expect("memory"),
        };
        let number = sys::open(
            &fixed.inputs.settings,
            &fixed.inputs.lent(),
            &mut fixed.session,
            &mut fixed.memory,
        );
        answered(number)?;
        Ok(fixed)
    }
}

fn answered(number: u32) -> Result<(), u32> {
    match number {
        0 => Ok(()),
        refused => Err(refused),
    }
}

fn records(part: &[u32]) -> Vec<Tr> {
    words::Trs::new(part).collect()
}

impl World for Fixed {
    fn side(&self) -> u32 {
        self.session.side()
    }

    fn found(&self) -> u32 {
        self.session.used_states()
    }

    fn tr_count(&self) -> u32 {
        self.session.used_trs()
    }

    fn triple(&self, n: u32) -> (u32, u32, u32) {
        let record = self.memory.state(n).expect("the state is found");
        (record[0], record[1], record[2])
    }

    fn expand(&mut self, n: u32) -> Result<Vec<Tr>, u32> {
        let lent = self.inputs.lent();
        let (first, count) = sys::expand(&lent, &mut self.session, &mut self.memory, n)?;
        let from = TR_WORDS * first.saturating_sub(1) as usize;
        let part = records(&self.memory.trs[from..from + TR_WORDS * count as usize]);
        assert_eq!(part, self.trs(n), "records of {n}");
        Ok(part)
    }

    fn run(&mut self) -> Result<(), u32> {
        let lent = self.inputs.lent();
        answered(sys::run(&lent, &mut self.session, &mut self.memory))
    }

    fn final_weight(&self, n: u32) -> Result<Option<u32>, u32> {
        sys::final_weight(&self.inputs.lent(), &self.session, &self.memory, n)
    }

    fn trs(&self, n: u32) -> Vec<Tr> {
        records(sys::records(
            &self.inputs.lent(),
            &self.session,
            &self.memory,
            n,
        ))
    }
}

impl World for Composition {
    fn side(&self) -> u32 {
        Composition::side(self) as u32
    }

    fn found(&self) -> u32 {
        Composition::found(self)
    }

    fn tr_count(&self) -> u32 {
        Composition::tr_count(self)
    }

    fn triple(&self, n: u32) -> (u32, u32, u32) {
        let triple = Composition::triple(self, n).expect("the state is found");
        (triple.first, triple.second, triple.filter)
    }

    fn expand(&mut self, n: u32) -> Result<Vec<Tr>, u32> {
        match Composition::expand(self, n) {
            Ok(trs) => Ok(trs.collect()),
            Err(error) => Err(number(error)),
        }
    }

    fn run(&mut self) -> Result<(), u32> {
        Composition::run(self).map_err(number)
    }

    fn final_weight(&self, n: u32) -> Result<Option<u32>, u32> {
        Composition::final_weight(self, n).map_err(number)
    }

    fn trs(&self, n: u32) -> Vec<Tr> {
        Composition::trs(self, n).collect()
    }
}

/// The refusal's number.
pub fn number(error: rinkolza::Error) -> u32 {
    error.refusal().expect("a refusal").number()
}

/// Document 01's listing: runs, then takes the final weights in number order.
pub fn listing(world: Result<impl World, u32>) -> Result<String, u32> {
    let mut world = world?;
    world.run()?;
    let mut text = side_line(&world);
    let mut last = Vec::new();
    for n in 0..world.found() {
        last.push(world.final_weight(n)?);
    }
    for (n, weight) in last.into_iter().enumerate() {
        text += &state_line(&world, n as u32, Ok(weight));
        text += &tr_lines(&world.trs(n as u32));
    }
    Ok(text + &format!("end {} {}\n", world.found(), world.tr_count()))
}

/// Expansions in an order given, then the found states.
pub fn ordered(world: Result<impl World, u32>, order: &[u32]) -> Result<String, u32> {
    let mut world = world?;
    let mut text = side_line(&world);
    for &n in order {
        text += &match world.expand(n) {
            Ok(trs) => format!("e {n}\n{}", tr_lines(&trs)),
            Err(refused) => format!("refused {refused}\n"),
        };
    }
    for n in 0..world.found() {
        text += &state_line(&world, n, world.final_weight(n));
    }
    Ok(text + &format!("end {} {}\n", world.found(), world.tr_count()))
}

fn side_line(world: &impl World) -> String {
    let side = ["input", "output", "both"][world.side() as usize];
    format!("side {side}\n")
}

fn state_line(world: &impl World, n: u32, weight: Result<Option<u32>, u32>) -> String {
    let (first, second, filter) = world.triple(n);
    let last = match weight {
        Ok(Some(weight)) => weight.to_string(),
        Ok(None) => "-".to_string(),
        Err(refused) => format!("refused {refused}"),
    };
    format!("s {n} {first} {second} {filter} {last}\n")
}

fn tr_lines(trs: &[Tr]) -> String {
    trs.iter()
        .map(|tr| format!("t {} {} {} {}\n", tr.input, tr.output, tr.weight, tr.target))
        .collect()
}

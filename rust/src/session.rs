//! A composition that owns its memory.
//!
//! The library below works in memory that it is lent and refuses a call, 13, where a record is lacking. Here memory
//! is owned: on 13 the state and transition records get more room behind and the refused call is made again. It is
//! proved of the library that every call then answers as it would have and that what was answered before stays.
//! Since nobody else writes what is owned, machines and memory are checked by the opening alone.

#![forbid(unsafe_code)]

use crate::error::{Error, Refusal};
use crate::machine::Machine;
use crate::prepare::{Inputs, Which};
use crate::settings::{Options, Room, FEW_STATES, FEW_TRS};
use crate::sys::Owned;
use crate::words::{self, Trs};
use std::ops::Range;

/// The side on which the machines are matched.
#[derive(Clone, Copy, Debug, PartialEq, Eq)]
pub enum Side {
    /// The first machine is walked, its outputs looked up among the second's inputs.
    Input,
    /// The second machine is walked, its inputs looked up among the first's outputs.
    Output,
    /// Decided state by state.
    Both,
}

/// A composed state's origin: the states of both machines, and the filter's.
#[derive(Clone, Copy, Debug, PartialEq, Eq, Hash)]
pub struct Triple {
    /// The first machine's state.
    pub first: u32,
    /// The second machine's state.
    pub second: u32,
    /// The filter's state, from 0 to 2; by the filters `Null`, `Trivial` and `NoMatch` always 0.
    pub filter: u32,
}

/// How far a run has come.
#[derive(Clone, Copy, Debug, PartialEq, Eq)]
pub struct Progress {
    /// States expanded from 0 on in number order.
    pub expanded: u32,
    /// States found.
    pub found: u32,
    /// Transitions stored.
    pub trs: u32,
}

/// Two machines being composed.
///
/// ```
/// use rinkolza::{Composition, Machine, Options, Tr};
///
/// let first = Machine::from_lists(Some(0), &[(0, Tr::new(1, 5, 2, 1))], &[(1, 0)])?;
/// let second = Machine::from_lists(Some(0), &[(0, Tr::new(5, 9, 3, 1))], &[(1, 4)])?;
/// let mut composition = Composition::open(&first, &second, &Options::default())?;
/// composition.run()?;
/// let composed = composition.machine()?;
/// assert_eq!(composed.trs(0), [Tr::new(1, 9, 5, 1)]);
/// assert_eq!(composed.final_weight(1), Some(4));
/// # Ok::<(), rinkolza::Error>(())
/// ```
#[derive(Clone, Debug)]
pub struct Composition {
    owned: Owned,
    room: Room,
    most: Room,
    growths: u32,
    next: u32,
}

impl Composition {
    /// Opens the composition of two machines, sorted first as the options say.
    ///
    /// # Errors
    ///
    /// [`Error::Refused`] by [`Refusal::Ignored`], [`Refusal::SigmaZero`], [`Refusal::FirstUnsorted`],
    /// [`Refusal::SecondUnsorted`] or [`Refusal::NoSide`] (the last three under [`Sort::Never`](crate::Sort::Never) alone), or
    /// by [`Refusal::NoRoom`] where `room` and `most` leave none for a state or a head; [`Error::Memory`] where there is no
    /// memory for the room.
    pub fn open(
        first: &Machine,
        second: &Machine,
        options: &Options,
    ) -> Result<Composition, Error> {
        let inputs = Inputs::of(first, second, options);
        Composition::open_words(inputs, options.room, options.most)
    }

    /// Opens the composition of two machines in words, see [`words`](crate::words), with room that may grow up to
    /// `most`; both count as [`Room::LARGEST`] where they are above it. Of what `room` has none it takes what suits the
    /// machines, see [`Options::room`], within `most`.
    ///
    /// # Errors
    ///
    /// [`Error::Refused`] by the numbers 1 to 7, 13 or 18; [`Error::Memory`] where there is no memory for the room.
    pub fn open_words(inputs: Inputs, room: Room, most: Room) -> Result<Composition, Error> {
        let most = most.within(Room::LARGEST);
        let room = suited(room.within(Room::LARGEST), &inputs, most);
        Ok(Composition {
            owned: Owned::open(inputs, room)?,
            room,
            most,
            growths: 0,
            next: 0,
        })
    }

    /// Expands state n, where it is not yet, and gives its transitions.
    ///
    /// # Errors
    ///
    /// [`Error::Refused`], with the state, by [`Refusal::NotFound`], [`Refusal::BothNeedMatching`],
    /// [`Refusal::SigmaWalked`], [`Refusal::TooLarge`] or, where no more room is left to grow, [`Refusal::NoRoom`];
    /// [`Error::Memory`] where memory to grow is not to be had. The composition stays as it was and may be asked again.
    pub fn expand(&mut self, n: u32) -> Result<Trs<'_>, Error> {
        let (first, count) = loop {
            match self.owned.expand(n) {
                Ok(part) => break part,
                Err(number) => self.make_room(number, n)?,
            }
        };
        Ok(Trs::new(self.owned.memory().part(first, count)))
    }

    /// Expands all states, those that are found on the way too, in number order.
    ///
    /// # Errors
    ///
    /// As for [`Composition::expand`] at one of the states, [`Refusal::NotFound`] apart; the states expanded before it
    /// stay.
    pub fn run(&mut self) -> Result<(), Error> {
        self.piece(u32::MAX)
    }

    /// Expands at most `count` states, the lowest numbers first, as a run does; says how far it has come.
    ///
    /// # Errors
    ///
    /// As for [`Composition::run`].
    pub fn step(&mut self, count: u32) -> Result<Progress, Error> {
        let mut left = count;
        loop {
            let stretch = self.stretch(left);
            if stretch == 0 {
                return Ok(self.progress());
            }
            self.piece(stretch)?;
            left -= stretch;
        }
    }

    /// Runs in steps of `every` states (at least one) and tells `show` after each how far it has come.
    ///
    /// # Errors
    ///
    /// As for [`Composition::run`].
    pub fn run_with(&mut self, every: u32, mut show: impl FnMut(Progress)) -> Result<(), Error> {
        loop {
            let progress = self.step(every.max(1))?;
            show(progress);
            if progress.expanded == progress.found {
                return Ok(());
            }
        }
    }

    /// The final weight of state n; none where it is not final.
    ///
    /// # Errors
    ///
    /// [`Error::Refused`], with the state, by [`Refusal::NotFound`] or [`Refusal::TooLarge`].
    pub fn final_weight(&self, n: u32) -> Result<Option<u32>, Error> {
        let weight = self.owned.final_weight(n);
        weight.map_err(|number| Error::refused(Refusal::known(number)).at(Some(n)))
    }

    /// How many matches the look-up of a label has at a state of one of the two machines, see [`Inputs::fan_out`]. The
    /// state's number is that in its machine; [`Composition::triple`] tells of which two a composed state is made. Each
    /// call goes through both machines.
    ///
    /// # Errors
    ///
    /// [`Error::Refused`], without a composed state, by [`Refusal::NotFound`] where the machine has no such state, or by
    /// [`Refusal::SigmaWalked`] where the label is the machine's sigma label.
    ///
    /// ```
    /// use rinkolza::{Composition, Machine, Options, Tr, Which};
    ///
    /// let word = Machine::from_lists(Some(0), &[(0, Tr::new(1, 5, 2, 1))], &[(1, 0)])?;
    /// let rules = [(0, Tr::new(5, 8, 1, 0)), (0, Tr::new(5, 9, 3, 0))];
    /// let rules = Machine::from_lists(Some(0), &rules, &[(0, 4)])?;
    /// let mut composition = Composition::open(&word, &rules, &Options::default())?;
    /// assert_eq!(composition.fan_out(Which::Second, 0, 5)?, 2);
    /// assert_eq!(composition.expand(0)?.len(), 2);
    /// # Ok::<(), rinkolza::Error>(())
    /// ```
    pub fn fan_out(&self, machine: Which, state: u32, label: u32) -> Result<u32, Error> {
        self.owned.inputs().fan_out(machine, state, label)
    }

    /// The transitions of state n, where it is expanded; else none.
    pub fn trs(&self, n: u32) -> Trs<'_> {
        Trs::new(self.owned.records(n))
    }

    /// The composed machine as far as it is expanded; its states are those found, 0 the start.
    ///
    /// # Errors
    ///
    /// [`Error::Refused`] by [`Refusal::TooLarge`] where a final weight is; [`Error::Memory`] where there is no memory for
    /// the machine.
    pub fn machine(&self) -> Result<Machine, Error> {
        let mut machine = Machine::new();
        for _ in self.states() {
            machine.add_state()?;
        }
        for (n, weight) in self.states().zip(self.owned.final_weights()?) {
            for tr in self.trs(n) {
                machine.add_tr(n, tr)?;
            }
            machine.set_final(n, weight)?;
        }
        machine.set_start((self.found() > 0).then_some(0))?;
        Ok(machine)
    }

    /// The side on which the machines are matched.
    pub fn side(&self) -> Side {
        match self.owned.session().side() {
            0 => Side::Input,
            1 => Side::Output,
            _ => Side::Both,
        }
    }

    /// The states that are found, by their numbers from 0 on.
    pub fn states(&self) -> Range<u32> {
        0..self.found()
    }

    /// How many states are found.
    pub fn found(&self) -> u32 {
        self.owned.session().used_states()
    }

    /// How many transitions are stored.
    pub fn tr_count(&self) -> u32 {
        self.owned.session().used_trs()
    }

    /// Whether state n is found and expanded.
    pub fn is_expanded(&self, n: u32) -> bool {
        self.record(n).is_some_and(|record| record[3] == 1)
    }

    /// Where state n comes from; none where it is not found.
    pub fn triple(&self, n: u32) -> Option<Triple> {
        let record = self.record(n)?;
        Some(Triple {
            first: record[0],
            second: record[1],
            filter: record[2],
        })
    }

    /// The room that the composition has by now.
    pub fn room(&self) -> Room {
        self.room
    }

    /// How often the room had to grow.
    pub fn growths(&self) -> u32 {
        self.growths
    }

    /// How far it has come.
    pub fn progress(&self) -> Progress {
        Progress {
            expanded: self.lowest_unexpanded(),
            found: self.found(),
            trs: self.tr_count(),
        }
    }

    /// The lowest number that is not an expanded state's; the search begins where one ended before, since expanded
    /// states stay so.
    fn lowest_unexpanded(&self) -> u32 {
        let mut n = self.next;
        while self.is_expanded(n) {
            n += 1;
        }
        n
    }

    /// How many states are found and not expanded, from the lowest such up to the next that is expanded; at most so many.
    fn stretch(&self, most: u32) -> u32 {
        let lowest = self.lowest_unexpanded();
        let end = self.found().min(lowest.saturating_add(most));
        let unexpanded = (lowest..end).take_while(|&n| !self.is_expanded(n));
        unexpanded.count() as u32
    }

    fn record(&self, n: u32) -> Option<&[u32]> {
        if n >= self.found() {
            return None;
        }
        self.owned.memory().state(n)
    }

    /// A piece of a run: at most k states, from the lowest that is not expanded on. Where room is lacking it grows and
    /// goes on.
    fn piece(&mut self, k: u32) -> Result<(), Error> {
        self.next = self.lowest_unexpanded();
        let end = self.next.saturating_add(k);
        loop {
            let piece = self.owned.run_from(self.next, end - self.next);
            self.next = piece.next;
            match piece.refused {
                None => return Ok(()),
                Some(number) => self.make_room(number, piece.next)?,
            }
        }
    }

    /// After a call that was refused at state n: more room, where that is what is lacking; else the refusal.
    fn make_room(&mut self, number: u32, n: u32) -> Result<(), Error> {
        let refusal = Refusal::known(number);
        match self.larger(n) {
            Some(larger) if refusal == Refusal::NoRoom => self.grow(larger),
            _ => Err(Error::refused(refusal).at(Some(n))),
        }
    }

    /// The room to grow into after state n lacked some: of each sort of which it may lack records twice as many, and for
    /// a move of each transition of its two lists, since to be refused again in a wide state takes long. None where it
    /// can lack no record that there may be. Heads stay as opened.
    fn larger(&self, n: u32) -> Option<Room> {
        let (one, other) = self.list_lengths(n);
        let Room { heads, states, trs } = self.room;
        let (found, stored) = (self.found() as usize, self.tr_count() as usize);
        // A move takes a transition, or none, of each list: there are no more moves than such pairs.
        let moves = (one + 1).saturating_mul(other + 1);
        let end = |room: usize, used: usize, most: usize| match room < used.saturating_add(moves) {
            true => most.max(room),
            false => room,
        };
        let most = Room {
            heads,
            states: end(states, found, self.most.states),
            trs: end(trs, stored, self.most.trs),
        };
        let twice = self.room.larger(most)?;
        let listed = Room {
            heads,
            states: twice.states.max(found + one + other),
            trs: twice.trs.max(stored + one + other),
        };
        Some(listed.within(most))
    }

    /// How many transitions the two states that state n is made of have.
    fn list_lengths(&self, n: u32) -> (usize, usize) {
        let lent = self.owned.inputs();
        self.triple(n).map_or((0, 0), |triple| {
            let first = words::list_length(&lent.first, triple.first);
            (first, words::list_length(&lent.second, triple.second))
        })
    }

    /// Grows. Where memory is not to be had all stays, and it may be asked for again.
    fn grow(&mut self, larger: Room) -> Result<(), Error> {
        self.owned.lengthen(larger.states, larger.trs)?;
        self.room = larger;
        self.growths += 1;
        Ok(())
    }
}

/// The room, with what suits the machines where it names nothing.
fn suited(room: Room, inputs: &Inputs, most: Room) -> Room {
    // No more states or transitions than there are words for: these may be any words.
    let count = |words: &[u32], place: usize| {
        let word = words.get(place).copied().unwrap_or(0);
        (word as usize).min(words.len())
    };
    let both = |place| (count(&inputs.first, place), count(&inputs.second, place));
    let ((states1, states2), (trs1, trs2)) = (both(0), both(1));
    let named = |named: usize, suits: usize, most: usize| match named {
        0 => suits.min(most),
        named => named,
    };
    Room {
        heads: named(room.heads, Room::heads_for(states1, states2), most.heads),
        states: named(room.states, FEW_STATES.max(states1 + states2), most.states),
        trs: named(room.trs, FEW_TRS.max(trs1 + trs2), most.trs),
    }
}

/// Composes two machines whole: opens, runs, and gives the composed machine. [`Filter`](crate::Filter) says how often a
/// reading is listed there.
///
/// # Errors
///
/// As for [`Composition::open`], [`Composition::run`] and [`Composition::machine`]; there is nothing half done.
///
/// ```
/// use rinkolza::{compose, text, Format, Options};
///
/// let format = Format::default();
/// let first = text::read("0 1 1 5 2\n1\n", "first", &format)?;
/// let second = text::read("0 1 5 9 3\n1 4\n", "second", &format)?;
/// let composed = compose(&first, &second, &Options::default())?;
/// assert_eq!(text::write(&composed, &format)?, "0\t1\t1\t9\t5\n1\t4\n");
/// # Ok::<(), rinkolza::Error>(())
/// ```
pub fn compose(first: &Machine, second: &Machine, options: &Options) -> Result<Machine, Error> {
    let mut composition = Composition::open(first, second, options)?;
    composition.run()?;
    composition.machine()
}

#[cfg(test)]
mod tests {
    use super::*;
    use crate::machine::Tr;

    /// A chain of nine states whose transitions read epsilon: composed with any machine it moves alone.
    fn chain() -> Machine {
        let tr = |state| (state, Tr::new(0, 1, 1, state + 1));
        let trs: Vec<(u32, Tr)> = (0..8).map(tr).collect();
        Machine::from_lists(Some(0), &trs, &[(8, 0)]).unwrap()
    }

    #[test]
    fn without_memory_to_grow_into_all_stays() {
        let one = Machine::from_lists(Some(0), &[], &[(0, 0)]).unwrap();
        let room = Room {
            heads: 1,
            states: 4,
            trs: 4,
        };
        let options = Options {
            room,
            ..Options::default()
        };
        let mut composition = Composition::open(&one, &chain(), &options).unwrap();
        composition.expand(0).unwrap();
        composition.most = room;
        let lacking = composition.run().unwrap_err();
        assert_eq!(lacking, Error::refused(Refusal::NoRoom).at(Some(3)));
        // Memory of this size is never to be had.
        let huge = Room {
            states: usize::MAX / 16,
            ..room
        };
        let refused = composition.grow(huge).unwrap_err();
        assert!(
            matches!(refused, Error::Memory { what: "words", .. }),
            "{refused}"
        );
        assert_eq!((composition.found(), composition.tr_count()), (4, 3));
        assert_eq!(composition.growths(), 0);
        assert_eq!(composition.owned.memory().room(), room);
        assert_eq!(composition.expand(0).unwrap().len(), 1);
        assert_eq!(composition.progress().expanded, 3);
        // Asked again, when it is to be had, the run goes on.
        composition.most = Room::LARGEST;
        composition.run().unwrap();
        assert_eq!((composition.found(), composition.tr_count()), (9, 8));
        // From 4 to 8 and to 16, of each sort.
        assert_eq!(composition.growths(), 2);
    }
}

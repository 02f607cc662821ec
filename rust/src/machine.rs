//! Machines as people build them: states, lists of transitions, final weights.

#![forbid(unsafe_code)]

use crate::error::{reserve, Error};
use crate::readings::Readings;
use crate::settings::Kind;
use std::ops::Range;

/// The label epsilon.
pub const EPSILON: u32 = 0;
/// The largest number that can be a label; 4294967295 never is one.
pub const LARGEST_LABEL: u32 = u32::MAX - 1;
/// The number that is never a label. Looked up, it has the epsilon transitions without the loop, see
/// [`Inputs::fan_out`](crate::Inputs::fan_out).
pub const NO_LABEL: u32 = u32::MAX;
/// The most states, and the most transitions, that a machine or a composition may have.
pub const LARGEST_COUNT: usize = 16_777_215;

/// A transition of a state.
#[derive(Clone, Copy, Debug, PartialEq, Eq, Hash)]
pub struct Tr {
    /// The input label; 0 is epsilon.
    pub input: u32,
    /// The output label; 0 is epsilon.
    pub output: u32,
    /// The weight, a cost or a count; a cost of 4294967295 is infinite.
    pub weight: u32,
    /// The state that the transition leads to.
    pub target: u32,
}

impl Tr {
    /// The transition that reads `input`, writes `output`, weighs `weight` and leads to `target`.
    pub const fn new(input: u32, output: u32, weight: u32, target: u32) -> Tr {
        Tr {
            input,
            output,
            weight,
            target,
        }
    }

    /// The label on this side.
    pub const fn label(&self, by: By) -> u32 {
        match by {
            By::Input => self.input,
            By::Output => self.output,
        }
    }
}

/// The side of a machine by whose labels its lists are sorted or looked up.
#[derive(Clone, Copy, Debug, PartialEq, Eq)]
pub enum By {
    /// By input labels; the second machine's inner side.
    Input,
    /// By output labels; the first machine's inner side.
    Output,
}

#[derive(Clone, Debug, Default, PartialEq, Eq)]
struct State {
    trs: Vec<Tr>,
    final_weight: Option<u32>,
}

/// A weighted transducer: states numbered from 0, each with a list of transitions.
///
/// ```
/// use rinkolza::{By, Machine, Tr};
///
/// let mut machine = Machine::from_lists(
///     Some(0),
///     &[(0, Tr::new(2, 2, 5, 1)), (0, Tr::new(1, 0, 1, 1))],
///     &[(1, 0)],
/// )?;
/// assert!(!machine.is_sorted(By::Input));
/// machine.sort(By::Input);
/// assert_eq!(machine.trs(0)[0], Tr::new(1, 0, 1, 1));
/// for state in machine.states() {
///     println!("{state}: {:?} {:?}", machine.trs(state), machine.final_weight(state));
/// }
/// # Ok::<(), rinkolza::Error>(())
/// ```
#[derive(Clone, Debug, Default, PartialEq, Eq)]
pub struct Machine {
    start: Option<u32>,
    states: Vec<State>,
    count: usize,
}

impl Machine {
    /// A machine without states.
    pub fn new() -> Machine {
        Machine::default()
    }

    /// The machine with these transitions, each after the state that it leaves, and these final weights.
    /// States are as many as the largest number that is named asks for.
    ///
    /// # Errors
    ///
    /// [`Error::Machine`] where a state is not below [`LARGEST_COUNT`], a label is above [`LARGEST_LABEL`], or there are
    /// more than [`LARGEST_COUNT`] transitions; [`Error::Memory`] where there is no memory for them.
    pub fn from_lists(
        start: Option<u32>,
        trs: &[(u32, Tr)],
        finals: &[(u32, u32)],
    ) -> Result<Machine, Error> {
        let mut machine = Machine::new();
        for &(source, tr) in trs {
            machine.ensure_state(source)?;
            machine.ensure_state(tr.target)?;
            machine.add_tr(source, tr)?;
        }
        for &(state, weight) in finals {
            machine.ensure_state(state)?;
            machine.set_final(state, Some(weight))?;
        }
        if let Some(start) = start {
            machine.ensure_state(start)?;
            machine.set_start(Some(start))?;
        }
        Ok(machine)
    }

    /// Adds a state without transitions that is not final, and gives its number.
    ///
    /// # Errors
    ///
    /// [`Error::Machine`] where there are [`LARGEST_COUNT`] states already; [`Error::Memory`] where there is no memory for it.
    pub fn add_state(&mut self) -> Result<u32, Error> {
        one_more(self.states.len(), "states")?;
        reserve(&mut self.states, 1, "states")?;
        self.states.push(State::default());
        Ok(self.states.len() as u32 - 1)
    }

    /// Adds states until this number is a state.
    ///
    /// # Errors
    ///
    /// [`Error::Machine`] where the number is not below [`LARGEST_COUNT`]; [`Error::Memory`] where there is no memory for it.
    pub fn ensure_state(&mut self, state: u32) -> Result<(), Error> {
        if state as usize >= LARGEST_COUNT {
            return Err(Error::Machine(format!(
                "state {state} is past the last possible one: a machine has at most {LARGEST_COUNT} states"
            )));
        }
        while self.states.len() <= state as usize {
            self.add_state()?;
        }
        Ok(())
    }

    /// Appends a transition to the list of `source`.
    ///
    /// # Errors
    ///
    /// [`Error::Machine`] where `source` or the target is no state, a label is above [`LARGEST_LABEL`], or there are
    /// [`LARGEST_COUNT`] transitions already; [`Error::Memory`] where there is no memory for it.
    pub fn add_tr(&mut self, source: u32, tr: Tr) -> Result<(), Error> {
        self.known(source)?;
        self.known(tr.target)?;
        if tr.input > LARGEST_LABEL || tr.output > LARGEST_LABEL {
            return Err(Error::Machine(format!(
                "a label is at most {LARGEST_LABEL}"
            )));
        }
        one_more(self.count, "transitions")?;
        let trs = &mut self.states[source as usize].trs;
        reserve(trs, 1, "transitions")?;
        trs.push(tr);
        self.count += 1;
        Ok(())
    }

    /// Makes the state the start, or the machine one without a start.
    ///
    /// # Errors
    ///
    /// [`Error::Machine`] where it is no state.
    pub fn set_start(&mut self, start: Option<u32>) -> Result<(), Error> {
        if let Some(state) = start {
            self.known(state)?;
        }
        self.start = start;
        Ok(())
    }

    /// Gives the state a final weight, or makes it one that is not final.
    ///
    /// A final weight of zero (an infinite cost, a count 0) counts as final for the filters, but no reading ends there.
    /// OpenFst takes such a state for one that is not final; so do the texts here, see [`text`](crate::text).
    ///
    /// # Errors
    ///
    /// [`Error::Machine`] where it is no state.
    pub fn set_final(&mut self, state: u32, weight: Option<u32>) -> Result<(), Error> {
        self.known(state)?;
        self.states[state as usize].final_weight = weight;
        Ok(())
    }

    fn known(&self, state: u32) -> Result<(), Error> {
        if (state as usize) < self.states.len() {
            return Ok(());
        }
        Err(Error::Machine(format!(
            "there is no state {state}: the machine has {} states",
            self.states.len()
        )))
    }

    /// The start.
    pub fn start(&self) -> Option<u32> {
        self.start
    }

    /// How many states there are.
    pub fn state_count(&self) -> usize {
        self.states.len()
    }

    /// The states, by their numbers from 0 on.
    pub fn states(&self) -> Range<u32> {
        0..self.states.len() as u32
    }

    /// The readings: the paths from the start to a final state, the shorter (in transitions) first and those of one
    /// length in the order of the lists. A transition or a final weight of zero (an infinite cost, a count 0) is not
    /// there for a reading.
    ///
    /// Of a composed machine each reading is made of one reading of the first machine and one of the second. By the
    /// filters `Sequence`, `Alternate` and `Match` no two readings are made of the same two; by `Trivial` and `NoMatch`
    /// there may be several, so that a sum over the readings takes some twice; by `Null` some are missing. See
    /// [`Filter`](crate::Filter).
    ///
    /// A machine in which such paths have no cycle has finitely many readings, and after the last there is none. With
    /// a cycle on a path to a final state there are infinitely many, and the iterator has no end: take as many as you
    /// want, or as long as you want. It never searches without end: paths from which no final state can be reached
    /// are not walked, and between two lengths that have readings there are no more lengths than there are states. For
    /// each length up to the present one it keeps the states that matter, no more than a bit for each state.
    ///
    /// ```
    /// use rinkolza::{text, Format, Kind};
    ///
    /// let loops = text::read("0 0 1 5 2\n0 1 2 0 3\n1\n", "m", &Format::default())?;
    /// let short = loops.readings(Kind::Cost).take_while(|reading| reading.trs.len() <= 3);
    /// let words: Vec<_> = short.map(|r| (r.input(), r.output(), r.weight())).collect();
    /// assert_eq!(words, [
    ///     (vec![2], vec![], Some(3)),
    ///     (vec![1, 2], vec![5], Some(5)),
    ///     (vec![1, 1, 2], vec![5, 5], Some(7)),
    /// ]);
    /// # Ok::<(), rinkolza::Error>(())
    /// ```
    pub fn readings(&self, kind: Kind) -> Readings<'_> {
        Readings::new(self, kind)
    }

    /// How many transitions there are.
    pub fn tr_count(&self) -> usize {
        self.count
    }

    /// How many states are final.
    pub fn final_count(&self) -> usize {
        self.states
            .iter()
            .filter(|state| state.final_weight.is_some())
            .count()
    }

    /// The state's transitions in list order; none past the last state.
    pub fn trs(&self, state: u32) -> &[Tr] {
        match self.states.get(state as usize) {
            Some(state) => &state.trs,
            None => &[],
        }
    }

    /// The state's final weight; none where it is not final.
    pub fn final_weight(&self, state: u32) -> Option<u32> {
        self.states.get(state as usize)?.final_weight
    }

    /// Whether no label falls within any list.
    pub fn is_sorted(&self, by: By) -> bool {
        self.is_sorted_as(by, |label| label)
    }

    /// Whether what the labels count as falls within no list.
    pub(crate) fn is_sorted_as(&self, by: By, counts: impl Fn(u32) -> u32) -> bool {
        let is_sorted = |state: &State| state.trs.is_sorted_by_key(|tr| counts(tr.label(by)));
        self.states.iter().all(is_sorted)
    }

    /// Sorts every list; transitions with equal labels stay in their order.
    pub fn sort(&mut self, by: By) {
        for state in &mut self.states {
            state.trs.sort_by_key(|tr| tr.label(by));
        }
    }

    /// Sorts every list by what the labels count as; transitions of which that is equal stay in their order.
    pub(crate) fn sort_as(&mut self, by: By, counts: impl Fn(u32) -> u32) {
        for state in &mut self.states {
            state.trs.sort_by_cached_key(|tr| counts(tr.label(by)));
        }
    }

    /// Whether input equals output in every transition.
    pub fn is_acceptor(&self) -> bool {
        self.states
            .iter()
            .all(|state| state.trs.iter().all(|tr| tr.input == tr.output))
    }
}

/// An error where there are as many as a machine may have.
fn one_more(count: usize, what: &str) -> Result<(), Error> {
    if count < LARGEST_COUNT {
        return Ok(());
    }
    Err(Error::Machine(format!(
        "a machine has at most {LARGEST_COUNT} {what}"
    )))
}

#[cfg(test)]
impl Machine {
    /// The machine with so many transitions counted: one that is all but full, without the memory for it.
    pub(crate) fn counting(mut self, count: usize) -> Machine {
        self.count = count;
        self
    }
}

#[cfg(test)]
mod tests {
    use super::*;

    fn tr(input: u32, output: u32, target: u32) -> Tr {
        Tr::new(input, output, 0, target)
    }

    #[test]
    fn what_is_no_machine_is_not_built() {
        let mut machine = Machine::new();
        assert!(machine.set_start(Some(0)).is_err());
        machine.add_state().unwrap();
        assert!(machine.add_tr(0, tr(1, 1, 1)).is_err());
        assert!(machine.add_tr(1, tr(1, 1, 0)).is_err());
        assert!(machine.add_tr(0, tr(u32::MAX, 1, 0)).is_err());
        assert!(machine.add_tr(0, tr(1, u32::MAX, 0)).is_err());
        assert_eq!((machine.state_count(), machine.tr_count()), (1, 0));
    }

    #[test]
    fn the_most_of_each_sort() {
        assert_eq!(LARGEST_COUNT, (1 << 24) - 1);
        let mut machine = Machine::new();
        assert!(machine.ensure_state(LARGEST_COUNT as u32).is_err());
        assert!(machine.ensure_state(u32::MAX).is_err());
        assert_eq!(machine.state_count(), 0);
        assert!(one_more(LARGEST_COUNT - 1, "states").is_ok());
        assert!(one_more(LARGEST_COUNT, "states").is_err());
        // More than 65535, the limit of old.
        assert!(machine.ensure_state(70_000).is_ok());
        assert_eq!(machine.add_state(), Ok(70_001));
        let mut machine = machine.counting(LARGEST_COUNT - 1);
        machine.add_tr(0, tr(1, 1, 70_001)).unwrap();
        let refused = machine.add_tr(0, tr(1, 1, 0)).unwrap_err();
        assert_eq!(
            refused.to_string(),
            "a machine has at most 16777215 transitions"
        );
        assert_eq!(machine.trs(0).len(), 1);
    }

    #[test]
    fn sorting_is_stable() {
        let lists = [
            (0, tr(3, 1, 0)),
            (0, tr(2, 9, 0)),
            (0, tr(3, 0, 0)),
            (0, tr(2, 1, 0)),
        ];
        let mut machine = Machine::from_lists(Some(0), &lists, &[]).unwrap();
        machine.sort(By::Input);
        assert_eq!(
            machine.trs(0),
            [tr(2, 9, 0), tr(2, 1, 0), tr(3, 1, 0), tr(3, 0, 0)]
        );
        assert!(machine.is_sorted(By::Input) && !machine.is_sorted(By::Output));
    }
}

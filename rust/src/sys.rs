//! The library's calls, made safe: the only place with `unsafe`. For those who keep memory of their own; others use
//! [`Composition`](crate::Composition).
//!
//! `include/rinkolza.h` says what each call reads and writes. It asks two things of a caller, that each pointer
//! points to as many words as its length says and that a slice that is written overlaps no other; Rust's slices and
//! borrows give both.
//!
//! The six functions here answer any words: machines, settings, sessions and memory may be damaged, and each call
//! checks them anew. The calls that do not check are made by [`Owned`] alone, which nobody else can write to.

use crate::error::{reserve, Error, Refusal};
use crate::prepare::Inputs;
use crate::settings::Room;
use std::fmt;

/// What is lent at every call: the machines' words, the allowed lists and the ignored labels.
#[derive(Clone, Copy, Debug)]
pub struct Lent<'a> {
    /// The first machine.
    pub first: &'a [u32],
    /// The second machine.
    pub second: &'a [u32],
    /// The labels that the first machine's sigma may match; none: every label.
    pub allowed1: Option<&'a [u32]>,
    /// The labels that the second machine's sigma may match; none: every label.
    pub allowed2: Option<&'a [u32]>,
    /// The labels that count as 0 on the first machine's outputs and the second's inputs, see
    /// [`Options::ignored`](crate::Options::ignored).
    pub ignored: &'a [u32],
}

/// The words of a state record: the first machine's state, the second's, the filter's, expanded (0 or 1), first
/// transition record, next record of the chain.
pub const STATE_WORDS: usize = 6;
/// The words of a transition record: input, output, weight, target, next.
pub const TR_WORDS: usize = crate::words::TR;

/// The words of a memo, one of which is lent for each machine to the calls that expand without checks.
const MEMO_WORDS: usize = 5120;

/// The three slices in which a composition is stored.
#[derive(Clone, Debug, Default, PartialEq, Eq)]
pub struct Memory {
    /// Heads of the state table's chains.
    pub heads: Vec<u32>,
    /// State records of [`STATE_WORDS`] words.
    pub states: Vec<u32>,
    /// Transition records of [`TR_WORDS`] words.
    pub trs: Vec<u32>,
}

impl Memory {
    /// Memory with this room, its words 0.
    ///
    /// # Errors
    ///
    /// [`Error::Memory`] where so much is not to be had.
    pub fn new(room: Room) -> Result<Memory, Error> {
        Ok(Memory {
            heads: zeros(room.heads)?,
            states: zeros(room.states.saturating_mul(STATE_WORDS))?,
            trs: zeros(room.trs.saturating_mul(TR_WORDS))?,
        })
    }

    /// The room: heads, and whole records of each sort.
    pub fn room(&self) -> Room {
        Room {
            heads: self.heads.len(),
            states: self.states.len() / STATE_WORDS,
            trs: self.trs.len() / TR_WORDS,
        }
    }

    /// The words of so many transition records from this one on, counted from 1, as an expansion answers them.
    pub fn part(&self, first: u32, count: u32) -> &[u32] {
        let from = TR_WORDS * (first as usize).saturating_sub(1);
        let words = TR_WORDS * count as usize;
        self.trs.get(from..from + words).unwrap_or(&[])
    }

    /// The words of the record of state n.
    pub fn state(&self, n: u32) -> Option<&[u32]> {
        self.states.chunks_exact(STATE_WORDS).nth(n as usize)
    }
}

fn zeros(count: usize) -> Result<Vec<u32>, Error> {
    let mut words = Vec::new();
    reserve(&mut words, count, "words")?;
    words.resize(count, 0);
    Ok(words)
}

/// How many words are lacking to so many records of a size.
fn lacking(words: &[u32], records: usize, size: usize) -> usize {
    records.saturating_mul(size).saturating_sub(words.len())
}

/// The nine words of a session: six settings, side, used states, used transitions.
#[derive(Clone, Copy, Debug, Default, PartialEq, Eq)]
pub struct Session(
    /// The words.
    pub [u32; 9],
);

impl Session {
    /// The side's number: 0 input, 1 output, 2 both.
    pub fn side(&self) -> u32 {
        self.0[6]
    }

    /// How many states are found.
    pub fn used_states(&self) -> u32 {
        self.0[7]
    }

    /// How many transitions are stored.
    pub fn used_trs(&self) -> u32 {
        self.0[8]
    }
}

/// Calls a function of the library: what stands before the session, the session, what every call is lent, memory, and
/// what stands after it. A slice is handed over as its pointer and its length; `$ptr` takes the pointers of session and
/// memory, to be read or to be written.
macro_rules! call {
    ($name:ident, $ptr:ident, [$($before:expr),*], $session:expr, $lent:expr, $memory:expr, [$($after:expr),*]) => {{
        let (list1, has1) = listed($lent.allowed1);
        let (list2, has2) = listed($lent.allowed2);
        // SAFETY: every pointer and length is that of a live slice; the slices that are written are borrowed as such.
        unsafe {
            $name(
                $($before.as_ptr(), $before.len(),)*
                $session.0.$ptr(),
                $session.0.len(),
                $lent.first.as_ptr(),
                $lent.first.len(),
                $lent.second.as_ptr(),
                $lent.second.len(),
                list1.as_ptr(),
                list1.len(),
                has1,
                list2.as_ptr(),
                list2.len(),
                has2,
                $lent.ignored.as_ptr(),
                $lent.ignored.len(),
                $memory.heads.$ptr(),
                $memory.heads.len(),
                $memory.states.$ptr(),
                $memory.states.len(),
                $memory.trs.$ptr(),
                $memory.trs.len(),
                $($after,)*
            )
        }
    }};
}

/// Opens a session. Answers 0, or the refusal's number; refused, session and memory stay.
pub fn open(
    settings: &[u32; 6],
    lent: &Lent<'_>,
    session: &mut Session,
    memory: &mut Memory,
) -> u32 {
    call!(
        rinkolza_open,
        as_mut_ptr,
        [settings],
        session,
        lent,
        memory,
        []
    )
}

/// Expands state n. Answers the number of its first record, from 1 on (0: none), and the count.
///
/// # Errors
///
/// The refusal's number, from 1 to 13, or 18; session and memory stay.
pub fn expand(
    lent: &Lent<'_>,
    session: &mut Session,
    memory: &mut Memory,
    n: u32,
) -> Result<(u32, u32), u32> {
    let mut answer = [0; 2];
    match call!(
        rinkolza_expand,
        as_mut_ptr,
        [],
        session,
        lent,
        memory,
        [n, answer.as_mut_ptr(), answer.len()]
    ) {
        0 => Ok((answer[0], answer[1])),
        refused => Err(refused),
    }
}

/// The final weight of state n, none where it is not final.
///
/// # Errors
///
/// The refusal's number: 1 to 9, 12 or 18.
pub fn final_weight(
    lent: &Lent<'_>,
    session: &Session,
    memory: &Memory,
    n: u32,
) -> Result<Option<u32>, u32> {
    let mut answer = [0; 2];
    match call!(
        rinkolza_final_weight,
        as_ptr,
        [],
        session,
        lent,
        memory,
        [n, answer.as_mut_ptr(), answer.len()]
    ) {
        0 => Ok(weight_of(&answer)),
        refused => Err(refused),
    }
}

/// Expands in number order until no state is left or one is refused. Answers 0 or the refusal's number; refused at a
/// state, the expansions before it stay.
pub fn run(lent: &Lent<'_>, session: &mut Session, memory: &mut Memory) -> u32 {
    call!(rinkolza_run, as_mut_ptr, [], session, lent, memory, [])
}

/// The records of state n, [`TR_WORDS`] words each, as a part of the transition slice; empty where it is not expanded or a
/// check from 1 to 9, or 18, would refuse.
pub fn records<'m>(lent: &Lent<'_>, session: &Session, memory: &'m Memory, n: u32) -> &'m [u32] {
    let mut answer = [0; 2];
    call!(
        rinkolza_records,
        as_ptr,
        [],
        session,
        lent,
        memory,
        [n, answer.as_mut_ptr(), answer.len()]
    );
    memory.part(answer[0], answer[1])
}

/// How many matches the look-up of a label has at a state of machine 1, by its outputs, or 2, by its inputs: the loop and
/// sigma matches included. Label 0: the loop and the epsilon transitions; label 4294967295: the epsilon transitions alone.
/// No session is needed and no memory.
///
/// # Errors
///
/// The refusal's number: 1 to 7 or 18 as an opening's; 9 where there is no such machine or state; 11 where the label is
/// that machine's sigma label.
pub fn fan_out(
    settings: &[u32; 6],
    lent: &Lent<'_>,
    machine: u32,
    state: u32,
    label: u32,
) -> Result<u32, u32> {
    let (list1, has1) = listed(lent.allowed1);
    let (list2, has2) = listed(lent.allowed2);
    let mut answer = [0; 1];
    // SAFETY: every pointer and length is that of a live slice; the answer, which is written, is borrowed as such.
    let number = unsafe {
        rinkolza_fan_out(
            settings.as_ptr(),
            settings.len(),
            lent.first.as_ptr(),
            lent.first.len(),
            lent.second.as_ptr(),
            lent.second.len(),
            list1.as_ptr(),
            list1.len(),
            has1,
            list2.as_ptr(),
            list2.len(),
            has2,
            lent.ignored.as_ptr(),
            lent.ignored.len(),
            machine,
            state,
            label,
            answer.as_mut_ptr(),
            answer.len(),
        )
    };
    match number {
        0 => Ok(answer[0]),
        refused => Err(refused),
    }
}

/// A composition that owns its inputs, session and memory, so that its calls need not check them.
///
/// The calls that do not check ask that the checks 1 to 8 and 18 pass. That is proved (`OwnedClaim` in
/// `crates/readings/specs/Owned.antt`) after an accepted opening, where every call gets the same machines and lists and
/// the session and memory as the call before left them, or with words added behind the states and the transitions; and
/// it holds here by construction: the one way to a value is an accepted opening (or a copy of a value, word for word),
/// the fields are private, nothing hands out a way to write them, and only the calls and [`Owned::lengthen`] do.
///
/// Those of them that expand are lent two memos of what the machines' lists are like. They ask that the memos are zeros
/// after the opening and are written by these calls alone: so they are here. Two values are equal where inputs, session
/// and memory are; answers do not depend on the memos.
#[derive(Clone, Debug)]
pub struct Owned {
    inputs: Inputs,
    session: Session,
    memory: Memory,
    memo1: Memo,
    memo2: Memo,
}

impl PartialEq for Owned {
    fn eq(&self, other: &Owned) -> bool {
        self.inputs == other.inputs && self.session == other.session && self.memory == other.memory
    }
}

impl Eq for Owned {}

/// What is remembered of a machine's lists; its words are the library's own.
#[derive(Clone)]
struct Memo(Box<[u32; MEMO_WORDS]>);

impl Memo {
    /// One that knows nothing.
    fn new() -> Result<Memo, Error> {
        let words = zeros(MEMO_WORDS)?;
        Ok(Memo(words.try_into().expect("as many words as a memo has")))
    }

    fn as_mut_ptr(&mut self) -> *mut u32 {
        self.0.as_mut_ptr()
    }
}

impl fmt::Debug for Memo {
    fn fmt(&self, f: &mut fmt::Formatter<'_>) -> fmt::Result {
        f.write_str("Memo(..)")
    }
}

/// How far a piece of a run came.
#[derive(Clone, Copy, Debug, PartialEq, Eq)]
pub struct Piece {
    /// The refusal's number, 10 to 13, where the expansion of state `next` is refused.
    pub refused: Option<u32>,
    /// The state with which the next piece goes on.
    pub next: u32,
    /// How many found states there are from it on.
    pub left: u32,
}

/// Calls a function that does not check.
macro_rules! trusted {
    ($name:ident, $ptr:ident, $own:expr, [$($after:expr),*]) => {{
        let lent = $own.inputs.lent();
        // SAFETY: beside what `call!` says, the checks 1 to 8 and 18 pass and the memos are as they must be, see `Owned`.
        call!($name, $ptr, [], $own.session, lent, $own.memory, [$($after),*])
    }};
}

impl Owned {
    /// Opens a composition in memory with this room, which counts as [`Room::LARGEST`] where it is above it.
    ///
    /// # Errors
    ///
    /// [`Error::Refused`] by the numbers 1 to 7, 13 or 18; [`Error::Memory`] where there is no memory for the room.
    pub fn open(inputs: Inputs, room: Room) -> Result<Owned, Error> {
        let mut session = Session::default();
        let mut memory = Memory::new(room.within(Room::LARGEST))?;
        let (memo1, memo2) = (Memo::new()?, Memo::new()?);
        let number = open(&inputs.settings, &inputs.lent(), &mut session, &mut memory);
        // Refused, nothing is handed out.
        match number {
            0 => Ok(Owned {
                inputs,
                session,
                memory,
                memo1,
                memo2,
            }),
            refused => Err(Error::refused(Refusal::known(refused))),
        }
    }

    /// What is composed.
    pub fn inputs(&self) -> &Inputs {
        &self.inputs
    }

    /// The session as the last call left it.
    pub fn session(&self) -> &Session {
        &self.session
    }

    /// Memory as the last call left it.
    pub fn memory(&self) -> &Memory {
        &self.memory
    }

    /// As [`expand`].
    ///
    /// # Errors
    ///
    /// The refusal's number, from 9 to 13; all stays.
    pub fn expand(&mut self, n: u32) -> Result<(u32, u32), u32> {
        let mut answer = [0; 2];
        match trusted!(
            rinkolza_trusted_expand,
            as_mut_ptr,
            self,
            [
                self.memo1.as_mut_ptr(),
                self.memo2.as_mut_ptr(),
                n,
                answer.as_mut_ptr(),
                answer.len()
            ]
        ) {
            0 => Ok((answer[0], answer[1])),
            refused => Err(refused),
        }
    }

    /// As [`final_weight`].
    ///
    /// # Errors
    ///
    /// The refusal's number: 9 or 12.
    pub fn final_weight(&self, n: u32) -> Result<Option<u32>, u32> {
        let mut answer = [0; 2];
        match trusted!(
            rinkolza_trusted_final_weight,
            as_ptr,
            self,
            [n, answer.as_mut_ptr(), answer.len()]
        ) {
            0 => Ok(weight_of(&answer)),
            refused => Err(refused),
        }
    }

    /// The final weights of all found states.
    ///
    /// # Errors
    ///
    /// [`Error::Refused`] by [`Refusal::TooLarge`], with the first state whose weight is; [`Error::Memory`] where there is
    /// no memory for them.
    pub fn final_weights(&self) -> Result<Vec<Option<u32>>, Error> {
        let mut answer = zeros(2 * self.session.used_states() as usize)?;
        let mut weights = Vec::new();
        reserve(&mut weights, answer.len() / 2, "final weights")?;
        match trusted!(
            rinkolza_trusted_final_weights,
            as_ptr,
            self,
            [answer.as_mut_ptr(), answer.len()]
        ) {
            0 => weights.extend(answer.chunks_exact(2).map(weight_of)),
            refused => {
                let mut states = 0..self.session.used_states();
                let at = states.find(|&n| self.final_weight(n).is_err());
                return Err(Error::refused(Refusal::known(refused)).at(at));
            }
        }
        Ok(weights)
    }

    /// A piece of a run: from state n on, in number order, at most k states are expanded. A state that is expanded
    /// already is passed and counts as one of the k. Refused at a state, the expansions before it stay.
    pub fn run_from(&mut self, n: u32, k: u32) -> Piece {
        let mut answer = [0; 2];
        let number = trusted!(
            rinkolza_trusted_run,
            as_mut_ptr,
            self,
            [
                self.memo1.as_mut_ptr(),
                self.memo2.as_mut_ptr(),
                n,
                k,
                answer.as_mut_ptr(),
                answer.len()
            ]
        );
        Piece {
            refused: (number != 0).then_some(number),
            next: answer[0],
            left: answer[1],
        }
    }

    /// As [`records`]: empty where state n is not found or not expanded.
    pub fn records(&self, n: u32) -> &[u32] {
        let mut answer = [0; 2];
        trusted!(
            rinkolza_trusted_records,
            as_ptr,
            self,
            [n, answer.as_mut_ptr(), answer.len()]
        );
        self.memory.part(answer[0], answer[1])
    }

    /// Adds room behind, up to so many records of each sort in all; where there is as much nothing is done. Heads stay
    /// as opened. Every call then answers as it would have, and one that was refused for lack of room may be made again.
    ///
    /// # Errors
    ///
    /// [`Error::Memory`] where so much is not to be had; all stays.
    pub fn lengthen(&mut self, states: usize, trs: usize) -> Result<(), Error> {
        let memory = &mut self.memory;
        let more_states = lacking(&memory.states, states, STATE_WORDS);
        let more_trs = lacking(&memory.trs, trs, TR_WORDS);
        reserve(&mut memory.states, more_states, "words")?;
        reserve(&mut memory.trs, more_trs, "words")?;
        memory.states.resize(memory.states.len() + more_states, 0);
        memory.trs.resize(memory.trs.len() + more_trs, 0);
        Ok(())
    }
}

/// The final weight in an answer's two words.
fn weight_of(answer: &[u32]) -> Option<u32> {
    (answer[0] == 1).then_some(answer[1])
}

/// An allowed list as a slice and a flag.
fn listed(allowed: Option<&[u32]>) -> (&[u32], u32) {
    match allowed {
        Some(list) => (list, 1),
        None => (&[], 0),
    }
}

#[allow(clippy::too_many_arguments)]
extern "C" {
    fn rinkolza_open(
        settings: *const u32,
        settings_len: usize,
        session: *mut u32,
        session_len: usize,
        m1: *const u32,
        m1_len: usize,
        m2: *const u32,
        m2_len: usize,
        allowed1: *const u32,
        allowed1_len: usize,
        has1: u32,
        allowed2: *const u32,
        allowed2_len: usize,
        has2: u32,
        ignored: *const u32,
        ignored_len: usize,
        heads: *mut u32,
        heads_len: usize,
        states: *mut u32,
        states_len: usize,
        trs: *mut u32,
        trs_len: usize,
    ) -> u32;

    fn rinkolza_expand(
        session: *mut u32,
        session_len: usize,
        m1: *const u32,
        m1_len: usize,
        m2: *const u32,
        m2_len: usize,
        allowed1: *const u32,
        allowed1_len: usize,
        has1: u32,
        allowed2: *const u32,
        allowed2_len: usize,
        has2: u32,
        ignored: *const u32,
        ignored_len: usize,
        heads: *mut u32,
        heads_len: usize,
        states: *mut u32,
        states_len: usize,
        trs: *mut u32,
        trs_len: usize,
        n: u32,
        answer: *mut u32,
        answer_len: usize,
    ) -> u32;

    fn rinkolza_final_weight(
        session: *const u32,
        session_len: usize,
        m1: *const u32,
        m1_len: usize,
        m2: *const u32,
        m2_len: usize,
        allowed1: *const u32,
        allowed1_len: usize,
        has1: u32,
        allowed2: *const u32,
        allowed2_len: usize,
        has2: u32,
        ignored: *const u32,
        ignored_len: usize,
        heads: *const u32,
        heads_len: usize,
        states: *const u32,
        states_len: usize,
        trs: *const u32,
        trs_len: usize,
        n: u32,
        answer: *mut u32,
        answer_len: usize,
    ) -> u32;

    fn rinkolza_run(
        session: *mut u32,
        session_len: usize,
        m1: *const u32,
        m1_len: usize,
        m2: *const u32,
        m2_len: usize,
        allowed1: *const u32,
        allowed1_len: usize,
        has1: u32,
        allowed2: *const u32,
        allowed2_len: usize,
        has2: u32,
        ignored: *const u32,
        ignored_len: usize,
        heads: *mut u32,
        heads_len: usize,
        states: *mut u32,
        states_len: usize,
        trs: *mut u32,
        trs_len: usize,
    ) -> u32;

    fn rinkolza_records(
        session: *const u32,
        session_len: usize,
        m1: *const u32,
        m1_len: usize,
        m2: *const u32,
        m2_len: usize,
        allowed1: *const u32,
        allowed1_len: usize,
        has1: u32,
        allowed2: *const u32,
        allowed2_len: usize,
        has2: u32,
        ignored: *const u32,
        ignored_len: usize,
        heads: *const u32,
        heads_len: usize,
        states: *const u32,
        states_len: usize,
        trs: *const u32,
        trs_len: usize,
        n: u32,
        answer: *mut u32,
        answer_len: usize,
    );

    fn rinkolza_fan_out(
        settings: *const u32,
        settings_len: usize,
        m1: *const u32,
        m1_len: usize,
        m2: *const u32,
        m2_len: usize,
        allowed1: *const u32,
        allowed1_len: usize,
        has1: u32,
        allowed2: *const u32,
        allowed2_len: usize,
        has2: u32,
        ignored: *const u32,
        ignored_len: usize,
        machine: u32,
        state: u32,
        label: u32,
        answer: *mut u32,
        answer_len: usize,
    ) -> u32;

    fn rinkolza_trusted_expand(
        session: *mut u32,
        session_len: usize,
        m1: *const u32,
        m1_len: usize,
        m2: *const u32,
        m2_len: usize,
        allowed1: *const u32,
        allowed1_len: usize,
        has1: u32,
        allowed2: *const u32,
        allowed2_len: usize,
        has2: u32,
        ignored: *const u32,
        ignored_len: usize,
        heads: *mut u32,
        heads_len: usize,
        states: *mut u32,
        states_len: usize,
        trs: *mut u32,
        trs_len: usize,
        memo1: *mut u32,
        memo2: *mut u32,
        n: u32,
        answer: *mut u32,
        answer_len: usize,
    ) -> u32;

    fn rinkolza_trusted_final_weight(
        session: *const u32,
        session_len: usize,
        m1: *const u32,
        m1_len: usize,
        m2: *const u32,
        m2_len: usize,
        allowed1: *const u32,
        allowed1_len: usize,
        has1: u32,
        allowed2: *const u32,
        allowed2_len: usize,
        has2: u32,
        ignored: *const u32,
        ignored_len: usize,
        heads: *const u32,
        heads_len: usize,
        states: *const u32,
        states_len: usize,
        trs: *const u32,
        trs_len: usize,
        n: u32,
        answer: *mut u32,
        answer_len: usize,
    ) -> u32;

    fn rinkolza_trusted_records(
        session: *const u32,
        session_len: usize,
        m1: *const u32,
        m1_len: usize,
        m2: *const u32,
        m2_len: usize,
        allowed1: *const u32,
        allowed1_len: usize,
        has1: u32,
        allowed2: *const u32,
        allowed2_len: usize,
        has2: u32,
        ignored: *const u32,
        ignored_len: usize,
        heads: *const u32,
        heads_len: usize,
        states: *const u32,
        states_len: usize,
        trs: *const u32,
        trs_len: usize,
        n: u32,
        answer: *mut u32,
        answer_len: usize,
    );

    fn rinkolza_trusted_final_weights(
        session: *const u32,
        session_len: usize,
        m1: *const u32,
        m1_len: usize,
        m2: *const u32,
        m2_len: usize,
        allowed1: *const u32,
        allowed1_len: usize,
        has1: u32,
        allowed2: *const u32,
        allowed2_len: usize,
        has2: u32,
        ignored: *const u32,
        ignored_len: usize,
        heads: *const u32,
        heads_len: usize,
        states: *const u32,
        states_len: usize,
        trs: *const u32,
        trs_len: usize,
        answer: *mut u32,
        answer_len: usize,
    ) -> u32;

    fn rinkolza_trusted_run(
        session: *mut u32,
        session_len: usize,
        m1: *const u32,
        m1_len: usize,
        m2: *const u32,
        m2_len: usize,
        allowed1: *const u32,
        allowed1_len: usize,
        has1: u32,
        allowed2: *const u32,
        allowed2_len: usize,
        has2: u32,
        ignored: *const u32,
        ignored_len: usize,
        heads: *mut u32,
        heads_len: usize,
        states: *mut u32,
        states_len: usize,
        trs: *mut u32,
        trs_len: usize,
        memo1: *mut u32,
        memo2: *mut u32,
        n: u32,
        k: u32,
        answer: *mut u32,
        answer_len: usize,
    ) -> u32;
}

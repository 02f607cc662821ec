//! What can go wrong, in words.

#![forbid(unsafe_code)]

use std::fmt;

/// Why a call was refused. The numbers are those of the library's header, `include/rinkolza.h`, which has the causes and
/// the order of the checks.
#[derive(Clone, Copy, Debug, PartialEq, Eq, Hash, PartialOrd, Ord)]
#[non_exhaustive]
pub enum Refusal {
    /// 1: kind, filter or rewrite mode outside its range.
    Settings = 1,
    /// 2: machine 1 malformed.
    FirstMalformed = 2,
    /// 3: machine 2 malformed.
    SecondMalformed = 3,
    /// 4: a sigma label 0.
    SigmaZero = 4,
    /// 5: sigma on machine 1, outputs unsorted.
    FirstUnsorted = 5,
    /// 6: sigma on machine 2, inputs unsorted.
    SecondUnsorted = 6,
    /// 7: no side to match.
    NoSide = 7,
    /// 8: session or memory broken.
    Broken = 8,
    /// 9: state not found yet; of a fan-out, no such state.
    NotFound = 9,
    /// 10: both states need matching.
    BothNeedMatching = 10,
    /// 11: a walked label, or one whose fan-out is asked for, is sigma.
    SigmaWalked = 11,
    /// 12: weight too large.
    TooLarge = 12,
    /// 13: a record or, at opening, a head is lacking.
    NoRoom = 13,
    /// 18: the ignored labels hold 0 or 4294967295. It is judged after 3 and before 4.
    Ignored = 18,
}

/// All refusals, in the order of their numbers.
const ALL: [Refusal; 14] = [
    Refusal::Settings,
    Refusal::FirstMalformed,
    Refusal::SecondMalformed,
    Refusal::SigmaZero,
    Refusal::FirstUnsorted,
    Refusal::SecondUnsorted,
    Refusal::NoSide,
    Refusal::Broken,
    Refusal::NotFound,
    Refusal::BothNeedMatching,
    Refusal::SigmaWalked,
    Refusal::TooLarge,
    Refusal::NoRoom,
    Refusal::Ignored,
];

impl Refusal {
    /// The refusal's number, from 1 to 13 or 18, as in the library's header.
    pub fn number(self) -> u32 {
        self as u32
    }

    /// The refusal with this number; none where no refusal has it.
    pub fn from_number(number: u32) -> Option<Refusal> {
        ALL.into_iter().find(|refusal| refusal.number() == number)
    }

    /// The refusal that the library answered: it answers 0 or a refusal's number and nothing else.
    pub(crate) fn known(number: u32) -> Refusal {
        Refusal::from_number(number).unwrap_or(Refusal::Broken)
    }

    /// What the refusal means, in words.
    pub fn meaning(self) -> &'static str {
        match self {
            Refusal::Settings => "the weight kind, the filter or a rewrite mode is outside its range",
            Refusal::FirstMalformed => "the first machine is malformed",
            Refusal::SecondMalformed => "the second machine is malformed",
            Refusal::SigmaZero => "a sigma label is 0, which is epsilon",
            Refusal::FirstUnsorted => {
                "the first machine has a sigma label, and its transitions are not sorted by output label"
            }
            Refusal::SecondUnsorted => {
                "the second machine has a sigma label, and its transitions are not sorted by input label"
            }
            Refusal::NoSide => {
                "no side to match: neither is the first machine sorted by output label nor the second by input label"
            }
            Refusal::Broken => {
                "the session does not belong to these machines and this memory, or the memory is broken"
            }
            Refusal::NotFound => "there is no such state, or it has not been found yet",
            Refusal::BothNeedMatching => {
                "both states have a sigma transition, so that neither machine can be walked"
            }
            Refusal::SigmaWalked => "a label to look up is the sigma label of the machine it is looked up in",
            Refusal::TooLarge => {
                "a weight is too large: a sum of finite costs reaches 4294967295, or a count is above it"
            }
            Refusal::NoRoom => "no room: a state or transition record, or at opening a head, is lacking",
            Refusal::Ignored => {
                "a label to ignore is 0, which is epsilon already, or 4294967295, which is no label"
            }
        }
    }
}

impl fmt::Display for Refusal {
    fn fmt(&self, f: &mut fmt::Formatter<'_>) -> fmt::Result {
        write!(f, "refused {}: {}", self.number(), self.meaning())
    }
}

/// What the functions of this crate answer where they cannot do what was asked.
#[derive(Clone, Debug, PartialEq, Eq)]
#[non_exhaustive]
pub enum Error {
    /// The composition was refused; `state` is the composed state at which, where there is one.
    Refused {
        /// Why.
        refusal: Refusal,
        /// The composed state whose list or final weight was asked for.
        state: Option<u32>,
    },
    /// A line of a text cannot be read.
    Text {
        /// The file's name, or what stands for it.
        source: String,
        /// The line, counted from 1.
        line: usize,
        /// What is wrong there.
        what: String,
    },
    /// A machine cannot be built or written as asked.
    Machine(String),
    /// Memory for so many items is not to be had.
    Memory {
        /// How many were asked for.
        items: usize,
        /// What they are: words, states, transitions.
        what: &'static str,
    },
}

impl Error {
    /// A refusal without a state.
    pub(crate) fn refused(refusal: Refusal) -> Error {
        Error::Refused {
            refusal,
            state: None,
        }
    }

    /// The same at a composed state, where it is a refusal.
    pub(crate) fn at(self, at: Option<u32>) -> Error {
        match self {
            Error::Refused { refusal, .. } => Error::Refused { refusal, state: at },
            other => other,
        }
    }

    /// The refusal, where the error is one.
    pub fn refusal(&self) -> Option<Refusal> {
        match self {
            Error::Refused { refusal, .. } => Some(*refusal),
            _ => None,
        }
    }
}

impl fmt::Display for Error {
    fn fmt(&self, f: &mut fmt::Formatter<'_>) -> fmt::Result {
        match self {
            Error::Refused {
                refusal,
                state: None,
            } => refusal.fmt(f),
            Error::Refused {
                refusal,
                state: Some(state),
            } => write!(
                f,
                "refused {} at composed state {}: {}",
                refusal.number(),
                state,
                refusal.meaning()
            ),
            Error::Text { source, line, what } => write!(f, "{source}:{line}: {what}"),
            Error::Machine(what) => f.write_str(what),
            Error::Memory { items, what } => {
                write!(f, "there is no memory for {items} {what}")
            }
        }
    }
}

impl std::error::Error for Error {}

/// Room for so many items more, or an error; to push them then cannot fail.
pub(crate) fn reserve<T>(list: &mut Vec<T>, more: usize, what: &'static str) -> Result<(), Error> {
    list.try_reserve(more).map_err(|_| Error::Memory {
        items: list.len().saturating_add(more),
        what,
    })
}

#[cfg(test)]
mod tests {
    use super::*;

    #[test]
    fn numbers_and_words() {
        for number in (1..=13).chain([18]) {
            let refusal = Refusal::from_number(number).expect("a refusal has this number");
            assert_eq!(refusal.number(), number);
            assert!(!refusal.meaning().is_empty());
        }
        assert_eq!(Refusal::from_number(0), None);
        assert!((14..18)
            .chain(19..99)
            .all(|number| Refusal::from_number(number).is_none()));
        let error = Error::Refused {
            refusal: Refusal::TooLarge,
            state: Some(4),
        };
        assert!(error
            .to_string()
            .starts_with("refused 12 at composed state 4: a weight"));
    }
}

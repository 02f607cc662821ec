//! Composition of weighted transducers, for Rust and for the shell.
//!
//! The work is done by the proved library in this repository (`crates/rinkolza`), called through its C interface.
//! This crate adds what a proof has no part in: machines built from lists, OpenFst's text form, pictures, memory
//! that grows, errors in words.
//!
//! ```
//! use rinkolza::{compose, text, Format, Options};
//!
//! let glyphs = "0 1 1 5 2\n1\n";
//! let spacing = "0 1 5 9 3\n1 4\n";
//! let format = Format::default();
//! let first = text::read(glyphs, "glyphs", &format)?;
//! let second = text::read(spacing, "spacing", &format)?;
//! let composed = compose(&first, &second, &Options::default())?;
//! assert_eq!(text::write(&composed, &format)?, "0\t1\t1\t9\t5\n1\t4\n");
//! # Ok::<(), rinkolza::Error>(())
//! ```
//!
//! [`Machine::readings`] lists the accepting paths of a machine, composed or not. How often a composition lists two
//! readings that agree depends on its [`Filter`]: by the default and two others once; by the rest it may be more often,
//! or never.
//!
//! [`Inputs::fan_out`] says how many matches a label has at a state of either machine, so that wide rules are found
//! without composing.
//!
//! [`Options::ignored`] names labels that no rule is to notice, joiners and soft hyphens: they count as epsilon between the
//! two machines.
//!
//! [`Composition`] keeps a composition open: it expands states one by one, as they are asked for, which costs some
//! third more than a whole run (more where states are few), and shows how far a long run has come. A machine, and a
//! composition, has at most [`LARGEST_COUNT`] states and as many transitions. What a composition may be refused for is a
//! [`Refusal`]; the numbers are those of the library's header, `include/rinkolza.h`.

#![deny(unsafe_code)]
#![warn(missing_docs)]
#![warn(clippy::missing_errors_doc)]

pub mod dot;
mod error;
mod machine;
mod prepare;
mod readings;
mod session;
mod settings;
mod symbols;
#[allow(unsafe_code)]
pub mod sys;
pub mod text;
mod weight_text;
pub mod words;

pub use error::{Error, Refusal};
pub use machine::{By, Machine, Tr, EPSILON, LARGEST_COUNT, LARGEST_LABEL, NO_LABEL};
pub use prepare::{to_sort, Inputs, Which};
pub use readings::{Reading, Readings};
pub use session::{compose, Composition, Progress, Side, Triple};
pub use settings::{Filter, Kind, Options, Rewrite, Room, Sigma, Sort};
pub use symbols::SymbolTable;
pub use text::Format;
pub use words::Trs;

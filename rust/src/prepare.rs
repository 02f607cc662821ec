//! What a composition is made of: the machines' words, sorted where asked for, the settings, the allowed lists and the
//! ignored labels.

#![forbid(unsafe_code)]

use crate::error::{Error, Refusal};
use crate::machine::{By, Machine};
use crate::settings::{Options, Sort};
use crate::sys::{self, Lent};
use crate::words::{self, Marks};

/// One of the two machines of a composition.
#[derive(Clone, Copy, Debug, PartialEq, Eq, Hash)]
pub enum Which {
    /// The first, which is looked up by its output labels.
    First,
    /// The second, which is looked up by its input labels.
    Second,
}

impl Which {
    /// The machine's number, 1 or 2, as in the library's header.
    pub fn number(self) -> u32 {
        match self {
            Which::First => 1,
            Which::Second => 2,
        }
    }
}

/// What a composition is made of, in the words that the library takes (machines: see [`words`](crate::words)); it stays
/// the same through all calls.
#[derive(Clone, Debug, PartialEq, Eq)]
pub struct Inputs {
    /// The first machine.
    pub first: Vec<u32>,
    /// The second machine.
    pub second: Vec<u32>,
    /// Kind, filter, sigma 1, mode 1, sigma 2, mode 2.
    pub settings: [u32; 6],
    /// The labels that the first machine's sigma may match; none: every label.
    pub allowed1: Option<Vec<u32>>,
    /// The labels that the second machine's sigma may match; none: every label.
    pub allowed2: Option<Vec<u32>>,
    /// The labels that count as 0 on the first machine's outputs and the second's inputs, see [`Options::ignored`].
    pub ignored: Vec<u32>,
}

impl Inputs {
    /// Both machines in words with true marks, sorted as the options say.
    pub fn of(first: &Machine, second: &Machine, options: &Options) -> Inputs {
        let (sort1, sort2) = to_sort(first, second, options);
        Inputs {
            first: marked(first, sort1.then_some(By::Output), options),
            second: marked(second, sort2.then_some(By::Input), options),
            settings: options.words(),
            allowed1: options.sigma1.allowed.clone(),
            allowed2: options.sigma2.allowed.clone(),
            ignored: options.ignored.clone(),
        }
    }

    /// The inputs as they are lent to a call.
    pub fn lent(&self) -> Lent<'_> {
        Lent {
            first: &self.first,
            second: &self.second,
            allowed1: self.allowed1.as_deref(),
            allowed2: self.allowed2.as_deref(),
            ignored: &self.ignored,
        }
    }

    /// The fan-out of a look-up: how many matches the label has at a state of one of the machines. The state's number is
    /// that in its machine, which sorting does not change.
    ///
    /// The first machine is looked up by its outputs, the second by its inputs, each with its own sigma: the transitions
    /// with the label count, and those with sigma where it may match the label. [`EPSILON`](crate::EPSILON) has a match
    /// for the machine at rest (the loop) and one for each epsilon transition, [`NO_LABEL`](crate::NO_LABEL) the latter
    /// alone. These are the matches that an expansion pairs with each transition that it walks.
    ///
    /// Transitions with an ignored label count among the epsilons, but for sigma labels, which are never replaced. The label
    /// that is asked for is not replaced: an ignored one has no transitions of its own.
    ///
    /// Nothing is opened for it and nothing kept: each call goes through both machines, as an opening does.
    ///
    /// # Errors
    ///
    /// [`Error::Refused`] by the numbers 1 to 7 or 18, as by an opening; then by [`Refusal::NotFound`] where the machine has
    /// no such state; then by [`Refusal::SigmaWalked`] where the label is the machine's sigma label. It names no composed
    /// state.
    ///
    /// ```
    /// use rinkolza::{text, Format, Inputs, Machine, Options, Sigma, Which, EPSILON, NO_LABEL};
    ///
    /// // The letter 2 has two rules, any letter (9) has one; an epsilon leads on without a letter.
    /// let rules = "0 0 2 2 5\n0 1 2 3\n0 0 9 9\n0 1 0 4\n1\n";
    /// let rules = text::read(rules, "rules", &Format::default())?;
    /// let options = Options::new().with_sigma2(Sigma::new(9));
    /// let inputs = Inputs::of(&Machine::new(), &rules, &options);
    /// assert_eq!(inputs.fan_out(Which::Second, 0, 2)?, 3);
    /// assert_eq!(inputs.fan_out(Which::Second, 0, 7)?, 1);
    /// assert_eq!(inputs.fan_out(Which::Second, 0, EPSILON)?, 2);
    /// assert_eq!(inputs.fan_out(Which::Second, 0, NO_LABEL)?, 1);
    /// assert_eq!(inputs.fan_out(Which::Second, 1, 2)?, 0);
    /// # Ok::<(), rinkolza::Error>(())
    /// ```
    pub fn fan_out(&self, machine: Which, state: u32, label: u32) -> Result<u32, Error> {
        sys::fan_out(&self.settings, &self.lent(), machine.number(), state, label)
            .map_err(|number| Error::refused(Refusal::known(number)))
    }
}

/// Which of the two machines are to be sorted by their inner labels, ignored ones taken for 0.
pub fn to_sort(first: &Machine, second: &Machine, options: &Options) -> (bool, bool) {
    let sorted = |machine: &Machine, by| machine.is_sorted_as(by, |label| options.heard(label));
    let (sorted1, sorted2) = (sorted(first, By::Output), sorted(second, By::Input));
    let (sigma1, sigma2) = (options.sigma1.label, options.sigma2.label);
    match options.sort {
        Sort::Never => (false, false),
        Sort::Both => (!sorted1, !sorted2),
        Sort::WhereNeeded => {
            let neither = !sorted1 && !sorted2;
            // Where labels are ignored, a first machine that is sorted is looked up, and the second's sigma is not.
            let both = options.ignored.is_empty() || sigma2.is_none();
            (
                (neither && both) || (!sorted1 && sigma1.is_some()),
                neither || (!sorted2 && sigma2.is_some()),
            )
        }
    }
}

/// The machine's words, with marks that are true of its labels as they are: so the library wants them, whatever is ignored.
fn marked(machine: &Machine, sort: Option<By>, options: &Options) -> Vec<u32> {
    match sort {
        None => words::encode(machine, Marks::True),
        Some(by) => {
            let mut sorted = machine.clone();
            sorted.sort_as(by, |label| options.heard(label));
            words::encode(&sorted, Marks::True)
        }
    }
}

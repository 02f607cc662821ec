//! How to compose: weights, filter, sigma labels, ignored labels, sorting, room.

#![forbid(unsafe_code)]

use crate::machine::{EPSILON, LARGEST_COUNT};

/// What weights are.
#[derive(Clone, Copy, Debug, Default, PartialEq, Eq)]
#[non_exhaustive]
pub enum Kind {
    /// Costs: along a path they add up; one is 0, and zero is infinite, the word 4294967295.
    #[default]
    Cost,
    /// Counts: along a path they multiply; one is 1, zero is 0.
    Count,
}

impl Kind {
    /// The weight that changes nothing.
    pub fn one(self) -> u32 {
        match self {
            Kind::Cost => 0,
            Kind::Count => 1,
        }
    }

    /// The weight of what is not there.
    pub fn zero(self) -> u32 {
        match self {
            Kind::Cost => u32::MAX,
            Kind::Count => 0,
        }
    }
}

/// Which of the orders in which epsilons can be taken is kept.
///
/// A reading of the first machine and one of the second agree where the second reads what the first writes, epsilons
/// left out. Where both have epsilons among their inner labels (the first's outputs, the second's inputs), these can be
/// taken in several orders. How often two readings that agree are then a reading of the composition, without sigma
/// labels (with them see [`Sigma`]), is the filter's own:
///
/// | filter | two readings that agree | a total of counts | the least cost |
/// |---|---|---|---|
/// | `Sequence`, `Alternate`, `Match` | once | right | right |
/// | `Null` | once or never | may be too small | may be too large |
/// | `Trivial`, `NoMatch` | once or more often | may be too large | right |
///
/// Where one of the machines has no inner epsilon, `Trivial` and `NoMatch` list each once too; where neither has one,
/// all six give the same.
///
/// ```
/// use rinkolza::{compose, text, Filter, Format, Kind, Options};
///
/// // One reading each: 1 and 2 become 5, and 5 becomes 7 and 8; the epsilons come first.
/// let first = text::read("0 1 1 0\n1 2 2 5\n2\n", "first", &Format::default())?;
/// let second = text::read("0 1 0 7\n1 2 5 8\n2\n", "second", &Format::default())?;
/// for (filter, times) in [(Filter::Sequence, 1), (Filter::NoMatch, 2), (Filter::Trivial, 3)] {
///     let composed = compose(&first, &second, &Options::new().with_filter(filter))?;
///     assert_eq!(composed.readings(Kind::Cost).count(), times);
/// }
/// # Ok::<(), rinkolza::Error>(())
/// ```
#[derive(Clone, Copy, Debug, Default, PartialEq, Eq)]
#[non_exhaustive]
pub enum Filter {
    /// The first machine's epsilons before the second's; OpenFst's `sequence`.
    #[default]
    Sequence,
    /// The second machine's epsilons before the first's; OpenFst's `alt_sequence`.
    Alternate,
    /// Epsilons of both at once, then of one alone; OpenFst's `match`.
    Match,
    /// Epsilons of both at once, none of one alone; OpenFst's `null`.
    ///
    /// Epsilon is then a label like any other: what is listed, once each, are two readings of as many transitions with
    /// the same inner labels place by place, epsilons included. It is for machines that were made to move together.
    /// Whoever needs every reading must not take it.
    Null,
    /// Every order; OpenFst's `trivial`.
    ///
    /// No reading is lost, and one may be listed more than once. It is for those who seek a least cost or only ask what
    /// is read and written, or who know that one machine has no inner epsilon. Whoever adds up counts, or counts
    /// readings, must not take it.
    Trivial,
    /// Every order of epsilons one by one, none of both at once; OpenFst's `no_match`.
    ///
    /// For the same uses as `Trivial`, and not for the same others; a reading is listed no more often than there.
    NoMatch,
}

/// On which sides a sigma transition takes the label that it matched.
#[derive(Clone, Copy, Debug, Default, PartialEq, Eq)]
#[non_exhaustive]
pub enum Rewrite {
    /// As `Each` for a machine that is marked an acceptor, else as `Matched`.
    #[default]
    Auto,
    /// On each side that holds sigma; OpenFst's `always`.
    Each,
    /// On the matched side alone; OpenFst's `never`.
    Matched,
}

/// A machine's sigma label: it stands for any letter.
///
/// After all transitions of a state that name a label follow those with sigma, rewritten to the label, where the label
/// is allowed; both in the order of the list. Epsilon is no letter. This is OpenFst's sigma, which has no allowed lists.
/// A label for the rest, for what a state does not name (OpenFst's *rho*), is not offered.
///
/// ```
/// use rinkolza::{compose, text, Format, Kind, Options, Sigma};
///
/// // The letter 2 costs 5, any letter (9) costs 0: the word 2 has a reading for each.
/// let word = text::read("0 1 2 2\n1\n", "word", &Format::default())?;
/// let rules = text::read("0 1 2 2 5\n0 1 9 9\n1\n", "rules", &Format::default())?;
/// let costs = |sigma| {
///     let composed = compose(&word, &rules, &Options::new().with_sigma2(sigma))?;
///     let readings = composed.readings(Kind::Cost);
///     Ok::<_, rinkolza::Error>(readings.map(|reading| reading.weight()).collect::<Vec<_>>())
/// };
/// assert_eq!(costs(Sigma::new(9))?, [Some(5), Some(0)]);
/// // Sigma may match 3 and 4 alone: the word has its own transition.
/// assert_eq!(costs(Sigma::new(9).with_allowed([3, 4]))?, [Some(5)]);
/// # Ok::<(), rinkolza::Error>(())
/// ```
///
/// With sigma on the second machine alone, and no output of the first that is this label, the filters `Sequence`,
/// `Alternate` and `Match` list each two readings that agree once, and no others. Two agree then where, epsilons left
/// out, the second reads as many labels as the first writes and, place by place, these are equal, or the second's is
/// sigma and the first's is allowed. (The side must be `Input` or `Both`, as it always is after
/// [`Composition::open`](crate::Composition::open) with such a sigma and no ignored labels; with some it may be `Output`,
/// where the second's sigma is a label like others, see [`Options::ignored`].) With sigma on the first machine, or where the
/// first writes the second's sigma label, nothing is claimed of readings.
#[derive(Clone, Debug, Default, PartialEq, Eq)]
#[non_exhaustive]
pub struct Sigma {
    /// The label; none: the machine has no sigma.
    pub label: Option<u32>,
    /// The rewrite mode.
    pub mode: Rewrite,
    /// The labels that sigma may match; none: every label.
    pub allowed: Option<Vec<u32>>,
}

impl Sigma {
    /// This label is sigma; it is rewritten as the machine's acceptor mark says and may match every label.
    pub fn new(label: u32) -> Sigma {
        Sigma {
            label: Some(label),
            ..Sigma::default()
        }
    }

    /// With this rewrite mode.
    #[must_use]
    pub fn with_mode(mut self, mode: Rewrite) -> Sigma {
        self.mode = mode;
        self
    }

    /// It may match these labels alone.
    #[must_use]
    pub fn with_allowed(mut self, labels: impl Into<Vec<u32>>) -> Sigma {
        self.allowed = Some(labels.into());
        self
    }
}

/// Which machines are sorted by their inner labels before they are composed. An ignored label counts as 0 there too.
#[derive(Clone, Copy, Debug, Default, PartialEq, Eq)]
#[non_exhaustive]
pub enum Sort {
    /// Both where neither is sorted, and one that has a sigma label and is not; else none, so that the lists stay in
    /// the order in which they were given. Where labels are ignored and neither is sorted, but the second alone has a sigma
    /// label, it alone is: a sorted first one would make that sigma a label like others.
    #[default]
    WhereNeeded,
    /// Both.
    Both,
    /// None.
    Never,
}

/// Heads for a small composition, and for one of which much may come.
const FEW_HEADS: usize = 1 << 14;
const MANY_HEADS: usize = 1 << 20;
/// Records to begin with, where the machines are small.
pub(crate) const FEW_STATES: usize = 1024;
pub(crate) const FEW_TRS: usize = 4096;

/// Room for a composition, in records.
#[derive(Clone, Copy, Debug, PartialEq, Eq)]
pub struct Room {
    /// Heads of the state table; more of them make it faster. An open composition keeps those that it was opened with;
    /// where none are named it takes those of [`Room::heads_for`].
    pub heads: usize,
    /// State records.
    pub states: usize,
    /// Transition records.
    pub trs: usize,
}

impl Room {
    /// The largest room: [`LARGEST_COUNT`] records of each sort, more than which no composition can use, and as many
    /// heads. It is there to grow up to: begun with, it takes some 800 megabytes.
    pub const LARGEST: Room = Room {
        heads: LARGEST_COUNT,
        states: LARGEST_COUNT,
        trs: LARGEST_COUNT,
    };

    /// The heads for a composition of machines with so many states.
    ///
    /// The state (s1, s2, f) belongs to head s1 + 31 s2 + f, modulo the number of heads: more than S1 + 31 S2 are never
    /// used, and hardly more than there are pairs of states. Up to that there are as many as make short chains, but no
    /// more than four for each state of a machine (16 bytes, where the machine's words take 12 and 20 for each transition)
    /// or a million in all (four megabytes), and never fewer than 16384. No multiple of 31 is given: it would leave most
    /// heads to no state of the second machine.
    pub fn heads_for(first: usize, second: usize) -> usize {
        let used = first
            .saturating_add(second.saturating_mul(31))
            .min(first.saturating_mul(second));
        let worth = first.saturating_add(second).saturating_mul(4);
        let heads = used.min(worth.max(MANY_HEADS)).max(FEW_HEADS);
        let heads = heads.min(Room::LARGEST.heads);
        heads - usize::from(heads.is_multiple_of(31))
    }

    /// The room, with each count that is above `most` cut down to it.
    pub fn within(self, most: Room) -> Room {
        Room {
            heads: self.heads.min(most.heads),
            states: self.states.min(most.states),
            trs: self.trs.min(most.trs),
        }
    }

    /// Twice the room, within `most`; none where there is no more to be had. A composition takes no less where a call
    /// lacks room, for records alone.
    pub fn larger(self, most: Room) -> Option<Room> {
        let more = |count: usize, most: usize| count.max(1).saturating_mul(2).min(most).max(count);
        let larger = Room {
            heads: more(self.heads, most.heads),
            states: more(self.states, most.states),
            trs: more(self.trs, most.trs),
        };
        (larger != self).then_some(larger)
    }
}

/// How to compose. It may get more fields: begin with [`Options::new`] and set what differs.
///
/// ```
/// use rinkolza::{Filter, Kind, Options, Sigma};
///
/// let mut options = Options::new()
///     .with_kind(Kind::Count)
///     .with_sigma2(Sigma::new(99));
/// options.filter = Filter::Match;
/// assert_eq!(options.words(), [1, 2, u32::MAX, 0, 99, 0]);
/// ```
#[derive(Clone, Debug, PartialEq, Eq)]
#[non_exhaustive]
pub struct Options {
    /// What weights are.
    pub kind: Kind,
    /// The epsilon filter.
    pub filter: Filter,
    /// The first machine's sigma, on its outputs.
    pub sigma1: Sigma,
    /// The second machine's sigma, on its inputs.
    pub sigma2: Sigma,
    /// Labels that count as epsilon on the first machine's outputs and on the second's inputs, the inner labels: joiners,
    /// soft hyphens and other marks that no rule is to notice. In any order, each as often as one likes; but
    /// [`EPSILON`](crate::EPSILON) and [`NO_LABEL`](crate::NO_LABEL) are refused by
    /// [`Refusal::Ignored`](crate::Refusal::Ignored). None, as by default, change nothing.
    ///
    /// With some, the composition is that of the two machines with these labels replaced by 0 on their inner sides. What
    /// the first machine reads and the second writes stays. Two readings agree where their inner labels do after that. A
    /// machine counts as an acceptor, for [`Rewrite::Auto`], where its inputs are its outputs after that too.
    ///
    /// The sigma labels of both machines are exempt, on both: sigma takes precedence, and such a label is never replaced.
    /// Listing one is as leaving it out, but that a list of sigma labels alone is still one that is not empty, with the
    /// effect on the side that the warning below tells of.
    ///
    /// ```
    /// use rinkolza::{compose, text, Format, Options};
    ///
    /// // A text with a soft hyphen, 7, between 2 and 3; the rules know letters alone.
    /// let word = text::read("0 1 2 2\n1 2 7 7\n2 3 3 3\n3\n", "word", &Format::default())?;
    /// let rules = text::read("0 1 2 2 5\n1 2 3 3 4\n2\n", "rules", &Format::default())?;
    /// let options = Options::new().with_ignored([7]);
    /// let composed = compose(&word, &rules, &options)?;
    /// assert_eq!(
    ///     text::write(&composed, &Format::default())?,
    ///     "0\t1\t2\t2\t5\n1\t2\t7\t0\n2\t3\t3\t3\t4\n3\n"
    /// );
    /// # Ok::<(), rinkolza::Error>(())
    /// ```
    ///
    /// # Warning
    ///
    /// Any ignored label, though neither machine has it, shuts out the side [`Both`](crate::Side::Both), and leaves
    /// [`Input`](crate::Side::Input) only where the first machine's outputs are not sorted, ignored labels taken for 0. With
    /// a sigma on the second machine the side may so become [`Output`](crate::Side::Output), where that sigma is a label like
    /// others and matches no letter: readings are lost, and totals change. Who needs both puts the label 0 into the
    /// machines in place of those to be ignored, and leaves this empty.
    ///
    /// It costs time. With any ignored label the library goes through both states' whole lists for each label that it looks
    /// up, as it does with a sigma, and through all ignored labels for each inner label that it reads: where states have
    /// thousands of transitions, that is seconds in place of milliseconds. The label 0 in their place costs nothing.
    pub ignored: Vec<u32>,
    /// What is sorted first.
    pub sort: Sort,
    /// The room to begin with; records grow where they do not suffice. Heads stay as they are at the opening. Of what it
    /// has none, as by default, there is what suits the machines: heads by [`Room::heads_for`], where few for many states
    /// are slow; and records for as many states, and as many transitions, as both have together, since a state that
    /// lacks many is slow, but no fewer than 1024 and 4096. What is above [`Room::LARGEST`] counts as that.
    pub room: Room,
    /// The room beyond which it does not grow. What is above [`Room::LARGEST`] counts as that.
    pub most: Room,
}

impl Default for Options {
    fn default() -> Options {
        Options {
            kind: Kind::default(),
            filter: Filter::default(),
            sigma1: Sigma::default(),
            sigma2: Sigma::default(),
            ignored: Vec::new(),
            sort: Sort::default(),
            room: Room {
                heads: 0,
                states: 0,
                trs: 0,
            },
            most: Room::LARGEST,
        }
    }
}

impl Options {
    /// Costs, the filter sequence, no sigma, no ignored labels, sorted where needed, room as the machines ask for, and
    /// records that grow up to [`Room::LARGEST`].
    pub fn new() -> Options {
        Options::default()
    }

    /// With weights of this kind.
    #[must_use]
    pub fn with_kind(mut self, kind: Kind) -> Options {
        self.kind = kind;
        self
    }

    /// With this epsilon filter.
    #[must_use]
    pub fn with_filter(mut self, filter: Filter) -> Options {
        self.filter = filter;
        self
    }

    /// With this sigma of the first machine, on its outputs.
    #[must_use]
    pub fn with_sigma1(mut self, sigma1: Sigma) -> Options {
        self.sigma1 = sigma1;
        self
    }

    /// With this sigma of the second machine, on its inputs.
    #[must_use]
    pub fn with_sigma2(mut self, sigma2: Sigma) -> Options {
        self.sigma2 = sigma2;
        self
    }

    /// With these labels ignored, see [`Options::ignored`], which has a warning for those who set a sigma too.
    #[must_use]
    pub fn with_ignored(mut self, labels: impl Into<Vec<u32>>) -> Options {
        self.ignored = labels.into();
        self
    }

    /// With this sorting before.
    #[must_use]
    pub fn with_sort(mut self, sort: Sort) -> Options {
        self.sort = sort;
        self
    }

    /// With this room to begin with.
    #[must_use]
    pub fn with_room(mut self, room: Room) -> Options {
        self.room = room;
        self
    }

    /// With this room at most.
    #[must_use]
    pub fn with_most(mut self, most: Room) -> Options {
        self.most = most;
        self
    }

    /// What an inner label counts as: [`EPSILON`](crate::EPSILON) where it is ignored and no sigma label, else itself.
    pub fn heard(&self, label: u32) -> u32 {
        let is_sigma = [&self.sigma1, &self.sigma2]
            .iter()
            .any(|sigma| sigma.label == Some(label));
        match self.ignored.contains(&label) && !is_sigma {
            true => EPSILON,
            false => label,
        }
    }

    /// The six words of the library's settings: kind, filter, sigma 1, mode 1, sigma 2, mode 2; 4294967295 is no sigma.
    pub fn words(&self) -> [u32; 6] {
        let label = |sigma: &Sigma| sigma.label.unwrap_or(u32::MAX);
        [
            self.kind as u32,
            self.filter as u32,
            label(&self.sigma1),
            self.sigma1.mode as u32,
            label(&self.sigma2),
            self.sigma2.mode as u32,
        ]
    }
}

#[cfg(test)]
mod tests {
    use super::*;

    #[test]
    fn room_grows_to_its_end() {
        let mut room = Room {
            heads: 0,
            states: 0,
            trs: 1,
        };
        let mut steps = 0;
        while let Some(larger) = room.larger(Room::LARGEST) {
            assert!(
                larger.heads >= room.heads
                    && larger.states >= room.states
                    && larger.trs >= room.trs
            );
            room = larger;
            steps += 1;
        }
        assert_eq!(room, Room::LARGEST);
        assert_eq!(room.states, 16_777_215);
        assert!(steps < 26, "{steps}");
        let huge = Room {
            heads: usize::MAX,
            states: usize::MAX,
            trs: LARGEST_COUNT + 1,
        };
        assert_eq!(huge.within(Room::LARGEST), Room::LARGEST);
    }

    #[test]
    fn heads_by_the_machines() {
        for (first, second, heads) in [
            (0, 0, 16384),
            (3, 3, 16384),
            (1000, 1000, 32_000),
            // As many as can be used: S1 + 31 S2; 131072 is no multiple of 31.
            (4096, 4096, 131_072),
            (1_000_000, 20, 1_000_620),
            // As many as there are pairs.
            (1, 1_000_000, 1_000_000),
            // Four for each state.
            (20, 1_000_000, 4_000_080),
            // 31 × 4000 of the second machine and a multiple of 31 of the first.
            (31 * 100, 4000, 127_099),
            (100_000_000, 100_000_000, 16_777_215),
            (usize::MAX, usize::MAX, 16_777_215),
        ] {
            assert_eq!(Room::heads_for(first, second), heads, "{first} {second}");
        }
    }

    #[test]
    fn heads_stay_where_they_are_the_most() {
        let room = Room {
            heads: 99,
            states: 3,
            trs: 4,
        };
        let most = Room {
            heads: room.heads,
            ..Room::LARGEST
        };
        let larger = room.larger(most).unwrap();
        assert_eq!(
            (larger.heads, larger.states, larger.trs),
            (room.heads, 2 * room.states, 2 * room.trs)
        );
    }
}

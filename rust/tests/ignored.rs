//! Ignored labels: every answer with a list is that of the replaced words with an empty one. The words that a list makes of
//! two machines are worked out in `common/ignored.rs`, by the header's text.

mod common;

use common::choice::{self, is_sorted, records_of, INNER, MAX};
use common::ignored::replaced;
use common::{lending, Draw, Fixed, Seen, World, LEAST};
use rinkolza::sys::{self, Memory, Owned, Session};
use rinkolza::{
    compose, text, words, By, Composition, Filter, Format, Inputs, Kind, Machine, Options, Refusal,
    Room, Side, Sigma, Sort, Tr,
};

/// Two machines, sorted or not and marked or not, in lists that may stand scattered and share tails, with sigma labels or
/// without; acceptors now and then, marked so.
fn drawn(draw: &mut Draw) -> Inputs {
    let mut inputs = match draw.below(4) {
        0 => choice::inputs(draw, 4, 4),
        1 => Inputs {
            first: draw.machine(None, 4, 5),
            second: draw.machine(None, 4, 5),
            ..draw.inputs(1, 0)
        },
        _ => draw.inputs(5, 5),
    };
    draw.make_heavy_one_in(6, &mut inputs);
    for (words, inner) in [&mut inputs.first, &mut inputs.second]
        .into_iter()
        .zip(INNER)
    {
        if draw.one_in(3) {
            records_of(words).for_each(|record| record[1 - inner] = record[inner]);
            words[4 - inner] = words[3 + inner];
            words[5] = draw.below(2);
        }
        if draw.one_in(3) {
            words[3 + inner] = if is_sorted(words, inner) { 1 } else { 2 };
        }
    }
    inputs.ignored = draw.some_ignored();
    inputs
}

/// Whether the acceptor mark of either machine is read as 0.
fn loses_its_mark(inputs: &Inputs, read: &Inputs) -> bool {
    inputs.first[5] != read.first[5] || inputs.second[5] != read.second[5]
}

/// What was met of the drawn cases.
#[derive(Debug, Default)]
struct Met {
    opened: u32,
    sides: [u32; 2],
    unsorted: u32,
    marks: u32,
    untouched: u32,
    /// The sigma of either machine is listed, and stands among the inner labels of its machine, or of the other.
    own_sigma: u32,
    other_sigma: u32,
}

impl Met {
    fn count(&mut self, inputs: &Inputs, read: &Inputs, opened: Option<u32>) {
        let lost = |words: &[u32], read: &[u32], inner| {
            u32::from(is_sorted(words, inner) && !is_sorted(read, inner))
        };
        self.unsorted += lost(&inputs.first, &read.first, INNER[0]);
        self.unsorted += lost(&inputs.second, &read.second, INNER[1]);
        self.marks += u32::from(loses_its_mark(inputs, read));
        let same = |words: &[u32], read: &[u32]| words[6..] == read[6..];
        let untouched = same(&inputs.first, &read.first) && same(&inputs.second, &read.second);
        self.untouched += u32::from(untouched);
        self.opened += u32::from(opened.is_some());
        if let Some(side) = opened {
            self.sides[side as usize] += 1;
            let [_, _, sigma1, _, sigma2, _] = inputs.settings;
            let mut read = read.clone();
            let listed = |sigma: u32, words: &mut [u32], inner: usize| {
                let has = records_of(words).any(|record| record[inner] == sigma);
                u32::from(has && inputs.ignored.contains(&sigma))
            };
            self.own_sigma += listed(sigma1, &mut read.first, INNER[0]);
            self.own_sigma += listed(sigma2, &mut read.second, INNER[1]);
            self.other_sigma += listed(sigma2, &mut read.first, INNER[0]);
            self.other_sigma += listed(sigma1, &mut read.second, INNER[1]);
        }
    }
}

/// The two worlds have the same session and memory.
fn same(with: &Fixed, read: &Fixed) -> bool {
    with.session == read.session && with.memory == read.memory
}

/// A call on both: the answer in words.
fn called(fixed: &mut Fixed, call: u32, n: u32, label: u32) -> (u32, Vec<u32>) {
    let lent = fixed.inputs.lent();
    let (session, memory) = (&mut fixed.session, &mut fixed.memory);
    match call {
        0 | 1 => match sys::expand(&lent, session, memory, n) {
            Ok((first, count)) => (0, vec![first, count]),
            Err(number) => (number, vec![]),
        },
        2 => match sys::final_weight(&lent, session, memory, n) {
            Ok(weight) => (0, weight.into_iter().collect()),
            Err(number) => (number, vec![]),
        },
        3 => (sys::run(&lent, session, memory), vec![]),
        4 => (0, sys::records(&lent, session, memory, n).to_vec()),
        _ => match sys::fan_out(&fixed.inputs.settings, &lent, 1 + n % 2, n / 2, label) {
            Ok(count) => (0, vec![count]),
            Err(number) => (number, vec![]),
        },
    }
}

#[test]
fn as_of_the_replaced_machines() {
    let (mut draw, mut met, mut seen) = (Draw(191), Met::default(), Seen::default());
    for _ in 0..12_000 {
        let inputs = drawn(&mut draw);
        let read = replaced(&inputs);
        let room = Room {
            heads: 1 + draw.below(5) as usize,
            states: 1 + draw.below(20) as usize,
            trs: draw.below(60) as usize,
        };
        let opened = Fixed::open(inputs.clone(), room);
        let other = Fixed::open(read.clone(), room);
        assert_eq!(opened.as_ref().err(), other.as_ref().err(), "{inputs:?}");
        met.count(&inputs, &read, opened.as_ref().ok().map(World::side));
        let (Ok(mut opened), Ok(mut other)) = (opened, other) else {
            continue;
        };
        assert!(same(&opened, &other), "{inputs:?}");
        for _ in 0..1 + draw.below(10) {
            let (call, n) = (draw.below(6), draw.below(opened.found() + 2));
            // The label of a direct look-up stands in no word.
            let label = draw.below(5);
            let answer = called(&mut opened, call, n, label);
            assert_eq!(answer, called(&mut other, call, n, label), "{inputs:?}");
            assert!(same(&opened, &other), "{inputs:?}");
            seen[answer.0 as usize] += 1;
        }
    }
    println!("{met:?} {seen:?}");
    let sigmas = [met.own_sigma, met.other_sigma];
    let counts = [met.unsorted, met.marks, met.untouched].into_iter();
    assert!(
        counts
            .chain(met.sides)
            .chain(sigmas)
            .all(|count| count > 200),
        "{met:?}"
    );
    for number in [0, 9, 11, 12, 13] {
        assert!(seen[number] > 50, "{number} of {seen:?}");
    }
    // Side "both" cannot be, and so not 10.
    assert_eq!(seen[10], 0);
}

/// The calls that do not check, and memory that grows: the list that was opened with is lent at each.
#[test]
fn a_composition_holds_its_list() {
    let (mut draw, mut grown, mut by_pieces) = (Draw(193), 0, 0);
    for _ in 0..3000 {
        let inputs = drawn(&mut draw);
        let read = replaced(&inputs);
        let open = |inputs| Composition::open_words(inputs, LEAST, Room::LARGEST).ok();
        let (Some(mut one), Some(mut other)) = (open(inputs.clone()), open(read.clone())) else {
            continue;
        };
        assert_eq!(one.run(), other.run());
        assert_eq!(one.side(), other.side());
        assert_eq!(
            (one.found(), one.growths()),
            (other.found(), other.growths())
        );
        assert_eq!(one.machine(), other.machine(), "{inputs:?}");
        assert!(one.states().all(|n| one.triple(n) == other.triple(n)));
        grown += one.growths();
        let room = one.room();
        let owned = |inputs| Owned::open(inputs, room).expect("an opening");
        let (mut one, mut other) = (owned(inputs), owned(read));
        let (mut next, mut left) = (0, 1);
        while left > 0 {
            let piece = one.run_from(next, 3);
            assert_eq!(piece, other.run_from(next, 3));
            (next, left) = (piece.next, piece.left * u32::from(piece.refused.is_none()));
            by_pieces += 1;
        }
        assert_eq!(one.final_weights(), other.final_weights());
        assert_eq!(one.session(), other.session());
        assert_eq!(one.memory(), other.memory());
    }
    println!("{grown} growths, {by_pieces} pieces");
    assert!(grown > 1000 && by_pieces > 1000);
}

/// One state, these transitions, these marks.
fn state(labels: &[(u32, u32)], marks: [u32; 3]) -> Vec<u32> {
    let trs: Vec<_> = labels
        .iter()
        .map(|&(input, output)| (0, Tr::new(input, output, 1, 0)))
        .collect();
    let machine = Machine::from_lists(Some(0), &trs, &[(0, 1)]).unwrap();
    let mut words = words::encode(&machine, words::Marks::Unknown);
    words[3..6].copy_from_slice(&marks);
    words
}

/// Costs and the filter sequence, without sigma.
const PLAIN: [u32; 6] = [0, 0, MAX, 0, MAX, 0];

const ROOM: Room = Room {
    heads: 4,
    states: 9,
    trs: 99,
};

/// The side that an opening takes, or its refusal.
fn side(inputs: Inputs) -> Result<u32, u32> {
    Fixed::open(inputs, ROOM).map(|fixed| fixed.side())
}

/// Input and output labels of the start's list.
fn labels(inputs: Inputs) -> Vec<(u32, u32)> {
    let mut fixed = Fixed::open(inputs, ROOM).unwrap();
    let trs = fixed.expand(0).unwrap().into_iter();
    trs.map(|tr| (tr.input, tr.output)).collect()
}

/// Labels 2 and 5 with 5 ignored: an epsilon behind a label.
#[test]
fn a_list_may_unsort_a_side() {
    let first = state(&[(1, 2), (1, 5)], [0, 1, 0]);
    let second = state(&[(2, 7), (5, 8)], [1, 0, 0]);
    let with = |settings, ignored: &[u32]| side(lending(&first, &second, settings, ignored));
    assert_eq!(with(PLAIN, &[]), Ok(2));
    assert_eq!(with(PLAIN, &[9]), Ok(1));
    assert_eq!(with(PLAIN, &[2]), Ok(1));
    assert_eq!(with(PLAIN, &[5]), Err(7));
    assert_eq!(with(PLAIN, &[5, 2]), Ok(1));
    assert_eq!(with([0, 0, 2, 0, MAX, 0], &[5]), Err(5));
    assert_eq!(with([0, 0, MAX, 0, 2, 0], &[5]), Err(6));
    // A sigma label is exempt.
    assert_eq!(with([0, 0, 5, 0, MAX, 0], &[5]), Ok(1));
    assert_eq!(with([0, 0, MAX, 0, 5, 0], &[5]), Ok(1));
}

/// A side may be sorted by a list, though its mark says that it is not, and truly so.
#[test]
fn the_mark_of_an_unsorted_side_is_read_as_unknown() {
    let first = state(&[(1, 2), (1, 5), (1, 3)], [0, 2, 0]);
    let second = state(&[(2, 7), (4, 8), (3, 9)], [2, 0, 0]);
    let with = |ignored: &[u32]| side(lending(&first, &second, PLAIN, ignored));
    assert_eq!(with(&[]), Err(7));
    assert_eq!(with(&[9]), Err(7));
    assert_eq!(with(&[5, 2]), Ok(1));
    assert_eq!(with(&[4, 2]), Ok(0));
}

/// Malformed is judged on the words as they are lent: a mark that is false is, though replacement would make it true.
#[test]
fn malformed_as_lent() {
    let first = |mark| state(&[(1, 5), (1, 2)], [0, mark, 0]);
    let second = |mark| state(&[(5, 5), (2, 7)], [mark, 0, 0]);
    let acceptor = |mark| state(&[(0, 5), (0, 2)], [0, 0, mark]);
    let with = |first: Vec<u32>, second: Vec<u32>| side(lending(&first, &second, PLAIN, &[5, 2]));
    assert_eq!(with(first(0), second(0)), Ok(1));
    assert_eq!(with(first(2), second(2)), Ok(1));
    assert_eq!(with(first(1), second(0)), Err(2));
    assert_eq!(with(first(0), second(1)), Err(3));
    assert_eq!(with(acceptor(0), second(0)), Ok(1));
    assert_eq!(with(acceptor(1), second(0)), Err(2));
}

/// The outer labels stay, those too that the list has.
#[test]
fn outer_labels_stay() {
    let first = state(&[(5, 5), (5, 2)], [0; 3]);
    let second = state(&[(2, 5), (5, 5)], [0; 3]);
    let with = |ignored: &[u32]| labels(lending(&first, &second, PLAIN, ignored));
    assert_eq!(with(&[]), [(5, 5), (5, 5)]);
    // Side output: the first's epsilon alone, both by 2, and of the second's epsilon it alone and both at once.
    let trivial = [0, Filter::Trivial as u32, MAX, 0, MAX, 0];
    let with = |ignored: &[u32]| labels(lending(&first, &second, trivial, ignored));
    assert_eq!(with(&[5]), [(5, 0), (5, 5), (0, 5), (5, 5)]);
}

/// An acceptor whose mark is read as 0 by mode 0: sigma is rewritten on the matched side alone. A record in no list counts.
#[test]
fn an_acceptor_mark_that_is_true_no_longer() {
    let letter = state(&[(3, 3), (1, 0)], [0; 3]);
    let rules = state(&[(9, 9)], [0, 0, 1]);
    let settings = [0, 0, MAX, 0, 9, 0];
    // A second transition, of labels 5, that stands in no list.
    let mut unlisted = rules.clone();
    unlisted[1] = 2;
    unlisted.extend([5, 5, 0, 0, 0]);
    let with = |rules: &[u32], ignored: &[u32]| labels(lending(&letter, rules, settings, ignored));
    for rules in [&rules, &unlisted] {
        assert_eq!(with(rules, &[]), [(3, 3), (1, 0)]);
        assert_eq!(with(rules, &[8]), [(3, 3), (1, 0)]);
    }
    assert_eq!(with(&rules, &[5]), [(3, 3), (1, 0)]);
    assert_eq!(with(&unlisted, &[5]), [(3, 9), (1, 0)]);
}

/// A sigma label in the list is no epsilon on either machine: it matches letters, and where the other machine has it and is
/// walked, 11. It is listed all the same: no side "both", and 0 or 4294967295 beside it is refused.
#[test]
fn a_listed_sigma_is_exempt() {
    let letters = state(&[(1, 4), (2, 3)], [0; 3]);
    let marked = state(&[(1, 3), (2, 4)], [0, 1, 0]);
    let walked = state(&[(1, 9), (2, 3)], [0; 3]);
    let rules = state(&[(9, 7)], [1, 0, 0]);
    let settings = [0, 0, MAX, 0, 9, 0];
    let open = |first: &[u32], ignored: &[u32]| {
        Fixed::open(lending(first, &rules, settings, ignored), ROOM)
    };
    for ignored in [&[][..], &[9], &[30, 9]] {
        let mut matched = open(&letters, ignored).unwrap();
        assert_eq!(matched.side(), 0);
        let trs = matched.expand(0).unwrap().into_iter();
        let labels: Vec<_> = trs.map(|tr| (tr.input, tr.output)).collect();
        assert_eq!(labels, [(1, 7), (2, 7)], "{ignored:?}");
        let lent = matched.inputs.lent();
        let look_up = |label| sys::fan_out(&settings, &lent, 2, 0, label);
        assert_eq!([0, 3, 9].map(look_up), [Ok(1), Ok(1), Err(11)]);
        let mut walked = open(&walked, ignored).unwrap();
        assert_eq!(walked.expand(0), Err(11), "{ignored:?}");
        let lent = walked.inputs.lent();
        assert_eq!(sys::fan_out(&settings, &lent, 1, 0, 9), Ok(1));
        let side = if ignored.is_empty() { 2 } else { 1 };
        assert_eq!(open(&marked, ignored).unwrap().side(), side, "{ignored:?}");
    }
    for word in [0, MAX] {
        assert_eq!(open(&letters, &[9, word]).err(), Some(18));
    }
    // With a letter beside it, that one alone is replaced.
    let trs = open(&letters, &[9, 4]).unwrap().expand(0).unwrap();
    let labels: Vec<_> = trs.into_iter().map(|tr| (tr.input, tr.output)).collect();
    assert_eq!(labels, [(1, 0)]);
}

/// Two letters, and rules with a sigma: the first letter has one of its own.
const LETTERS: &str = "0 1 2 2\n1 2 4 4\n2\n";
const RULES: &str = "0 0 2 2 5\n0 0 9 9 7\n0\n";

/// README's warning: a list with labels that neither machine has takes the side "both", and sigma's readings.
#[test]
fn an_unrelated_list_may_change_a_total() {
    let format = Format::new().with_kind(Kind::Count);
    let read = |text: &str| text::read(text, "m", &format).unwrap();
    let total = |letters: &str, ignored: &[u32]| {
        let options = Options::new()
            .with_kind(Kind::Count)
            .with_sigma2(Sigma::new(9))
            .with_ignored(ignored);
        let mut composition = Composition::open(&read(letters), &read(RULES), &options).unwrap();
        composition.run().unwrap();
        let machine = composition.machine().unwrap();
        let readings = machine.readings(Kind::Count);
        let total: u64 = readings.map(|reading| reading.weight().unwrap()).sum();
        (composition.side(), total)
    };
    // The letter 2 in 5 ways of its own and 7 of any letter, the letter 4 in 7.
    assert_eq!(total(LETTERS, &[]), (Side::Both, (5 + 7) * 7));
    assert_eq!(total(LETTERS, &[30]), (Side::Output, 0));
    // A first machine that is not sorted: its state 2 has falling labels and leads nowhere.
    let falls = format!("{LETTERS}2 3 8 8\n2 3 7 7\n");
    assert_eq!(total(&falls, &[]), (Side::Input, (5 + 7) * 7));
    assert_eq!(total(&falls, &[30]), (Side::Input, (5 + 7) * 7));
    assert_eq!(total(&falls, &[8]), (Side::Output, 0));
    // A joiner, 6, between the two letters.
    let joined = falls.replace("1 2 4 4\n", "1 4 6 6\n4 2 4 4\n");
    assert_eq!(total(&joined, &[]), (Side::Input, (5 + 7) * 7 * 7));
    assert_eq!(total(&joined, &[6]), (Side::Input, (5 + 7) * 7));
}

/// What takes the cause of a refusal out.
type Cure = fn(&mut Inputs);

/// All calls with every cause of a refusal; they are taken out one by one.
#[test]
fn the_order_of_the_checks() {
    let falling = state(&[(9, 9), (5, 5)], [0; 3]);
    let mut inputs = lending(&falling, &falling, [2, 0, 0, 0, 9, 0], &[4, 0, MAX]);
    inputs.first[2] = 2;
    inputs.second[2] = 2;
    let cures: [(u32, Cure); 9] = [
        (1, |inputs| inputs.settings[0] = 1),
        (2, |inputs| inputs.first[2] = 1),
        (3, |inputs| inputs.second[2] = 1),
        (18, |inputs| inputs.ignored[1] = 4),
        (18, |inputs| inputs.ignored.truncate(2)),
        (4, |inputs| inputs.settings[2] = 9),
        (5, |inputs| inputs.settings[2] = MAX),
        (6, |inputs| inputs.settings[4] = MAX),
        (7, |inputs| inputs.ignored.push(9)),
    ];
    let room = Room {
        heads: 1,
        states: 0,
        trs: 0,
    };
    for (number, cure) in cures {
        let mut memory = Memory::new(room).unwrap();
        let mut session = Session::default();
        let lent = inputs.lent();
        let opened = sys::open(&inputs.settings, &lent, &mut session, &mut memory);
        assert_eq!(opened, number);
        assert_eq!(sys::fan_out(&inputs.settings, &lent, 3, 0, 9), Err(number));
        // A side that no rule gives: 8 stands behind.
        session.0[..6].copy_from_slice(&inputs.settings);
        session.0[6] = 7;
        let before = session;
        assert_eq!(
            sys::expand(&lent, &mut session, &mut memory, 3),
            Err(number)
        );
        assert_eq!(sys::final_weight(&lent, &session, &memory, 3), Err(number));
        assert_eq!(sys::run(&lent, &mut session, &mut memory), number);
        assert_eq!(session, before);
        cure(&mut inputs);
    }
    let opened = Fixed::open(inputs.clone(), room);
    assert_eq!(opened.err(), Some(13));
    let opened = Fixed::open(inputs, ROOM).unwrap();
    assert_eq!(opened.side(), 1);
}

/// A list that is refused hands back an empty part, and changes nothing; the list of the opening goes on.
#[test]
fn refused_after_an_opening() {
    let mut draw = Draw(197);
    let mut refused = 0;
    for _ in 0..2000 {
        let inputs = drawn(&mut draw);
        let Ok(mut fixed) = Fixed::open(inputs.clone(), ROOM) else {
            continue;
        };
        let _ = fixed.expand(0);
        let before = fixed.clone();
        let word = [0, MAX][draw.below(2) as usize];
        let place = draw.below(inputs.ignored.len() as u32 + 1) as usize;
        fixed.inputs.ignored.insert(place, word);
        for call in [0, 2, 3, 4, 5] {
            let answer = called(&mut fixed, call, 0, 1);
            let expected = if call == 4 { 0 } else { 18 };
            assert_eq!(answer, (expected, vec![]), "{call} of {inputs:?}");
            assert!(same(&fixed, &before));
        }
        assert_eq!(Fixed::open(fixed.inputs.clone(), ROOM).err(), Some(18));
        fixed.inputs.ignored.remove(place);
        assert_eq!(fixed.trs(0), before.trs(0));
        refused += 1;
    }
    assert!(refused > 500, "{refused}");
}

fn read(lines: &str) -> Machine {
    text::read(lines, "m", &Format::default()).unwrap()
}

#[test]
fn by_options() {
    let letters = read("0 1 2 2\n1\n");
    for label in [0, MAX] {
        let options = Options::new()
            .with_ignored([7, label])
            .with_sigma1(Sigma::new(0));
        let error = Composition::open(&letters, &letters, &options).unwrap_err();
        assert_eq!(error.refusal(), Some(Refusal::Ignored));
        assert_eq!(
            error.to_string(),
            "refused 18: a label to ignore is 0, which is epsilon already, or 4294967295, which is no label"
        );
    }
    let options = Options::new().with_ignored([7, 8, 7]);
    assert_eq!(
        [0, 6, 7, 8, 9].map(|label| options.heard(label)),
        [0, 6, 0, 0, 9]
    );
    assert_eq!(Options::new().heard(7), 7);
    let composition = Composition::open(&letters, &letters, &options).unwrap();
    assert_eq!(composition.side(), Side::Output);
    let plain = Composition::open(&letters, &letters, &Options::new()).unwrap();
    assert_eq!(plain.side(), Side::Both);
}

/// What is sorted is sorted with ignored labels as 0; the marks are true of the labels as they are.
#[test]
fn sorted_as_they_count() {
    let first = read("0 0 1 2\n0 0 2 5\n0 0 3 3\n0\n");
    let second = read("0 0 2 1\n0 0 5 2\n0 0 4 3\n0\n");
    let outputs = |words: &[u32]| -> Vec<u32> {
        let records = choice::list(words, 0);
        records.iter().map(|record| record[1]).collect()
    };
    let of = |ignored: &[u32], sort| {
        let options = Options::new().with_ignored(ignored).with_sort(sort);
        Inputs::of(&first, &second, &options)
    };
    let needed = of(&[], Sort::WhereNeeded);
    assert_eq!(outputs(&needed.first), [2, 3, 5]);
    assert_eq!(needed.first[3..6], [2, 1, 0]);
    // With 5 as 0 neither is sorted, and 5 comes first.
    let needed = of(&[5], Sort::WhereNeeded);
    assert_eq!(outputs(&needed.first), [5, 2, 3]);
    assert_eq!(needed.first[3..6], [2, 2, 0]);
    assert_eq!(outputs(&needed.second), [2, 1, 3]);
    assert_eq!(needed.ignored, [5]);
    // With 5 and 2 as 0 both are as they should be.
    let as_given = of(&[5, 2], Sort::Both);
    assert_eq!(as_given.first, of(&[5, 2], Sort::Never).first);
    assert_eq!(as_given.second, of(&[5, 2], Sort::Never).second);
    for sort in [Sort::WhereNeeded, Sort::Both] {
        for ignored in [&[][..], &[5], &[2], &[3, 4], &[2, 3, 4, 5]] {
            assert!(side(of(ignored, sort)).is_ok(), "{ignored:?}");
        }
    }
    assert_eq!(side(of(&[5], Sort::Never)), Err(7));
}

/// Where neither is sorted and the second has a sigma, it alone is sorted: the first is walked, and sigma matches.
#[test]
fn sorted_for_the_sigma_of_the_second() {
    let first = read("0 0 1 3\n0 0 2 2\n0\n");
    let second = read("0 0 9 9\n0 0 2 1\n0\n");
    for (ignored, sigma1, side, matches) in [
        (&[][..], None, Side::Both, 3),
        (&[7], None, Side::Input, 3),
        (&[7], Some(8), Side::Output, 1),
    ] {
        let mut options = Options::new()
            .with_sigma2(Sigma::new(9))
            .with_ignored(ignored);
        options.sigma1.label = sigma1;
        let mut composition = Composition::open(&first, &second, &options).unwrap();
        assert_eq!(composition.side(), side, "{ignored:?}");
        assert_eq!(composition.expand(0).unwrap().len(), matches, "{ignored:?}");
    }
}

/// The machine with what its inner labels count as in their place.
fn heard(machine: &Machine, by: By, options: &Options) -> Machine {
    let mut trs = Vec::new();
    let mut finals = Vec::new();
    for state in machine.states() {
        for &tr in machine.trs(state) {
            let label = options.heard(tr.label(by));
            let tr = match by {
                By::Input => Tr { input: label, ..tr },
                By::Output => Tr {
                    output: label,
                    ..tr
                },
            };
            trs.push((state, tr));
        }
        finals.extend(machine.final_weight(state).map(|weight| (state, weight)));
    }
    let mut made = Machine::from_lists(machine.start(), &trs, &finals).unwrap();
    made.ensure_state(machine.state_count() as u32 - 1).unwrap();
    made
}

/// What is read, written and weighed, without an order.
fn said(machine: &Machine, kind: Kind) -> Vec<(Vec<u32>, Vec<u32>, Option<u64>)> {
    let readings = machine
        .readings(kind)
        .take_while(|reading| reading.trs.len() < 7);
    let mut said: Vec<_> = readings
        .map(|reading| (reading.input(), reading.output(), reading.weight()))
        .collect();
    said.sort();
    said
}

/// Without sigma, ignored labels are what the label 0 in their place would be, whatever the side.
#[test]
fn as_the_label_0_in_their_place() {
    let (mut draw, mut met) = (Draw(199), 0);
    for _ in 0..600 {
        let kind = [Kind::Cost, Kind::Count][draw.below(2) as usize];
        let filter = common::FILTERS[draw.filter() as usize];
        let machine = |draw: &mut Draw| words::decode(&draw.machine(None, 4, 2)).unwrap();
        let (first, second) = (machine(&mut draw), machine(&mut draw));
        let plain = Options::new().with_kind(kind).with_filter(filter);
        let options = plain.clone().with_ignored(draw.some_ignored());
        let composed = compose(&first, &second, &options).unwrap();
        let (first, second) = (
            heard(&first, By::Output, &options),
            heard(&second, By::Input, &options),
        );
        let other = compose(&first, &second, &plain).unwrap();
        let (ours, theirs) = (said(&composed, kind), said(&other, kind));
        assert_eq!(ours, theirs, "{options:?}");
        met += ours.len();
    }
    println!("{met} readings");
    assert!(met > 1000, "{met}");
}

/// A long list costs its length for each label, and changes no answer.
#[test]
fn a_long_list() {
    let trs: Vec<_> = (0..200)
        .map(|label| (0, Tr::new(label + 1, label + 1, 0, 0)))
        .collect();
    let machine = Machine::from_lists(Some(0), &trs, &[(0, 0)]).unwrap();
    let list: Vec<u32> = (0..300).map(|word| 1 + word / 2 * 2).collect();
    let options = Options::new().with_ignored(list).with_filter(Filter::Null);
    let mut composition = Composition::open(&machine, &machine, &options).unwrap();
    // 100 odd labels of each are epsilons that meet, 100 even ones meet themselves.
    assert_eq!(composition.expand(0).unwrap().len(), 10_100);
}

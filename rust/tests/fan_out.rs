//! The fan-out of a look-up. Drawn machines, settings and labels, damaged words and slices of other lengths are held to
//! what `include/rinkolza.h` says of the call, read plainly here; expansions have as many moves as the look-ups say.

mod common;

use common::choice::{self, is_sorted, list, records_of, INNER, MAX};
use common::ignored::{is_refused, replaced};
use common::{Draw, Fixed, Seen, World, FILTERS, LEAST};
use rinkolza::{
    sys, Composition, Error, Filter, Inputs, Machine, Options, Refusal, Room, Sigma, Sort, Tr,
    Which, EPSILON, LARGEST_COUNT, NO_LABEL,
};

/// The words of a machine's header, of a state and of a transition.
const SIZES: [usize; 3] = [6, 3, 5];

/// Whether the words are a machine.
fn is_machine(words: &[u32]) -> bool {
    let Some(&[states, trs, start, ..]) = words.get(..SIZES[0]) else {
        return false;
    };
    let parts = [1, states as usize, trs as usize];
    let length: usize = parts
        .iter()
        .zip(SIZES)
        .map(|(count, size)| count * size)
        .sum();
    if parts.iter().any(|&count| count > LARGEST_COUNT) || words.len() != length || start > states {
        return false;
    }
    let (records, tail) = words[SIZES[0]..].split_at(SIZES[1] * parts[1]);
    let is_state = |of: &[u32]| of[0] <= trs && of[1] <= 1 && (of[1] == 1 || of[2] == 0);
    let is_tr = |(own, of): (u32, &[u32])| {
        let next = of[4] == 0 || (own < of[4] && of[4] <= trs);
        of[0] != MAX && of[1] != MAX && of[3] < states && next
    };
    records.chunks_exact(SIZES[1]).all(is_state)
        && (1..).zip(tail.chunks_exact(SIZES[2])).all(is_tr)
        && marks_hold(words, tail)
}

/// Whether no mark is false; the rest of the words is a machine's, `tail` its transitions.
fn marks_hold(words: &[u32], tail: &[u32]) -> bool {
    let side = |on: usize| match words[3 + on] {
        0 => true,
        1 => is_sorted(words, on),
        2 => !is_sorted(words, on),
        _ => false,
    };
    let acceptor = match words[5] {
        0 => true,
        1 => tail.chunks_exact(SIZES[2]).all(|tr| tr[0] == tr[1]),
        _ => false,
    };
    side(0) && side(1) && acceptor
}

/// The refusal of an opening, 1 to 7 or 18.
fn refused_opening(inputs: &Inputs) -> Option<u32> {
    let [kind, filter, sigma1, mode1, sigma2, mode2] = inputs.settings;
    if kind > 1 || filter as usize >= FILTERS.len() || mode1 > 2 || mode2 > 2 {
        return Some(1);
    }
    if !is_machine(&inputs.first) {
        return Some(2);
    }
    if !is_machine(&inputs.second) {
        return Some(3);
    }
    let read = replaced(inputs);
    let sorted1 = is_sorted(&read.first, INNER[0]);
    let sorted2 = is_sorted(&read.second, INNER[1]);
    let causes = [
        (is_refused(&inputs.ignored), 18),
        (sigma1 == 0 || sigma2 == 0, 4),
        (sigma1 != MAX && !sorted1, 5),
        (sigma2 != MAX && !sorted2, 6),
        (!sorted1 && !sorted2, 7),
    ];
    let cause = causes.into_iter().find(|cause| cause.0);
    cause.map(|cause| cause.1)
}

/// Machine, state and label.
type Query = [u32; 3];

/// What the header says of the call.
fn expected(inputs: &Inputs, [machine, state, label]: Query) -> Result<u32, u32> {
    if let Some(number) = refused_opening(inputs) {
        return Err(number);
    }
    let inputs = &replaced(inputs);
    let (words, allowed) = match machine {
        1 => (&inputs.first, &inputs.allowed1),
        2 => (&inputs.second, &inputs.allowed2),
        _ => return Err(9),
    };
    if state >= words[0] {
        return Err(9);
    }
    let place = machine as usize - 1;
    let sigma = inputs.settings[2 + 2 * place];
    let list = list(words, state);
    let with = |label| list.iter().filter(|tr| tr[INNER[place]] == label).count() as u32;
    let may_match = allowed.as_ref().is_none_or(|list| list.contains(&label));
    match label {
        _ if sigma != MAX && label == sigma => Err(11),
        0 => Ok(1 + with(0)),
        MAX => Ok(with(0)),
        _ if sigma != MAX && may_match => Ok(with(label) + with(sigma)),
        _ => Ok(with(label)),
    }
}

fn fan_out(inputs: &Inputs, [machine, state, label]: Query) -> Result<u32, u32> {
    sys::fan_out(&inputs.settings, &inputs.lent(), machine, state, label)
}

/// The call answers as the header says, and the opening is refused where it should be.
fn compare(inputs: &Inputs, queries: &[Query], seen: &mut Seen) {
    let opened = Fixed::open(inputs.clone(), LEAST).err();
    assert_eq!(opened, refused_opening(inputs), "{inputs:?}");
    for &query in queries {
        let answer = fan_out(inputs, query);
        assert_eq!(answer, expected(inputs, query), "{query:?} of {inputs:?}");
        seen[answer.err().unwrap_or(0) as usize] += 1;
    }
}

/// Two machines, with scattered records and shared tails now and then, sorted or not, marked or not; settings with sigma
/// labels, allowed lists and ignored labels.
fn drawn(draw: &mut Draw) -> Inputs {
    let mut inputs = match draw.below(8) {
        0..4 => choice::inputs(draw, 4, 4),
        4..7 => draw.inputs(4, 6),
        _ => Inputs {
            first: draw.machine(None, 3, 6),
            second: draw.machine(None, 3, 6),
            ..draw.inputs(1, 0)
        },
    };
    for place in 0..2 {
        if draw.one_in(3) {
            inputs.settings[2 + 2 * place] = [1, 2, 4, MAX - 1][draw.below(4) as usize];
        }
    }
    let list = |draw: &mut Draw| (0..draw.below(4)).map(|_| draw.below(5)).collect();
    inputs.allowed1 = draw.one_in(2).then(|| list(draw));
    inputs.allowed2 = draw.one_in(2).then(|| list(draw));
    inputs.ignored = draw.ignored();
    inputs
}

/// All that can be asked of both machines, one state past the last and a label that none has included.
fn queries(inputs: &Inputs) -> Vec<Query> {
    let labels = [0, 1, 2, 3, 4, 5, MAX - 1, MAX];
    let mut queries = vec![[0, 0, 1], [3, 0, 1], [MAX, 0, 1], [2, MAX, 0]];
    for (machine, words) in [(1, &inputs.first), (2, &inputs.second)] {
        for state in 0..=words[0] {
            queries.extend(labels.map(|label| [machine, state, label]));
        }
    }
    queries
}

/// How many look-ups of letters had own and sigma matches, sigma matches alone, own matches and sigma that may not match,
/// own matches on an unsorted side; and how many were of ignored labels.
#[derive(Debug, Default)]
struct Met {
    both: u32,
    sigma: u32,
    not_allowed: u32,
    unsorted: u32,
    ignored: u32,
}

impl Met {
    fn count(&mut self, inputs: &Inputs, query: Query) {
        let [machine, state, label] = query;
        let Ok(all) = fan_out(inputs, query) else {
            return;
        };
        self.ignored += u32::from(inputs.ignored.contains(&label));
        let inputs = &replaced(inputs);
        let place = machine as usize - 1;
        let words = [&inputs.first, &inputs.second][place];
        let sigma = inputs.settings[2 + 2 * place];
        let list = list(words, state);
        let with = |label| list.iter().filter(|tr| tr[INNER[place]] == label).count() as u32;
        let (own, sigmas) = (with(label), with(sigma));
        self.both += u32::from(own > 0 && all > own && label != 0);
        self.sigma += u32::from(own == 0 && all > 0 && label != MAX && label != 0);
        self.not_allowed += u32::from(own > 0 && sigmas > 0 && all == own);
        self.unsorted += u32::from(own > 1 && !is_sorted(words, INNER[place]));
    }
}

#[test]
fn drawn_look_ups() {
    let (mut draw, mut seen, mut met) = (Draw(151), Seen::default(), Met::default());
    for _ in 0..9000 {
        let inputs = drawn(&mut draw);
        let queries = queries(&inputs);
        compare(&inputs, &queries, &mut seen);
        queries.iter().for_each(|&query| met.count(&inputs, query));
    }
    println!("{seen:?} {met:?}");
    for number in [0, 5, 6, 7, 9, 11, 18] {
        assert!(seen[number] > 1000, "{number} of {seen:?}");
    }
    let counts = [met.both, met.sigma, met.not_allowed, met.unsorted];
    let counts = counts.iter().chain([&met.ignored]);
    assert!(counts.into_iter().all(|&count| count > 400), "{met:?}");
}

/// The words of one of the slices that are lent.
fn slice(inputs: &mut Inputs, which: usize) -> &mut [u32] {
    match which {
        0 => &mut inputs.settings,
        1 => &mut inputs.first,
        2 => &mut inputs.second,
        _ => &mut inputs.ignored,
    }
}

/// An input that is accepted.
fn accepted(draw: &mut Draw) -> Inputs {
    loop {
        let inputs = drawn(draw);
        if refused_opening(&inputs).is_none() {
            return inputs;
        }
    }
}

/// The input with one word of a slice replaced, by each of these words and by its neighbours.
fn damaged(inputs: &Inputs, which: usize, place: usize) -> impl Iterator<Item = Inputs> + '_ {
    const ODD: [u32; 9] = [
        0,
        1,
        2,
        3,
        6,
        LARGEST_COUNT as u32 + 1,
        1 << 31,
        MAX - 1,
        MAX,
    ];
    let word = slice(&mut inputs.clone(), which)[place];
    let near = [word.wrapping_sub(1), word.wrapping_add(1)];
    ODD.into_iter().chain(near).map(move |new| {
        let mut damaged = inputs.clone();
        slice(&mut damaged, which)[place] = new;
        damaged
    })
}

#[test]
fn damaged_words() {
    let (mut draw, mut seen) = (Draw(157), Seen::default());
    for _ in 0..16 {
        let mut inputs = accepted(&mut draw);
        for which in 0..4 {
            for place in 0..slice(&mut inputs, which).len() {
                for damaged in damaged(&inputs, which, place) {
                    let (state, label) = (draw.below(4), draw.below(5));
                    let queries = [1, 2, 3].map(|machine| [machine, state, label]);
                    compare(&damaged, &queries, &mut seen);
                }
            }
        }
    }
    println!("{seen:?}");
    for number in [0, 1, 2, 3, 4, 5, 6, 7, 9, 11, 18] {
        assert!(seen[number] > 50, "{number} of {seen:?}");
    }
}

/// Machines of other lengths, and words that were never a machine's.
#[test]
fn other_lengths_and_any_words() {
    let (mut draw, mut seen) = (Draw(163), Seen::default());
    for _ in 0..200 {
        let inputs = drawn(&mut draw);
        for cut in 0..inputs.first.len().max(inputs.second.len()) + 3 {
            let mut other = inputs.clone();
            match draw.below(2) {
                0 => other.first.resize(cut, draw.below(2)),
                _ => other.second.resize(cut, draw.below(2)),
            }
            compare(&other, &[[1, 0, 1], [2, 0, 1]], &mut seen);
        }
    }
    for _ in 0..20_000 {
        let listed = |draw: &mut Draw| draw.one_in(2).then(|| draw.words(4));
        let inputs = Inputs {
            first: draw.words(40),
            second: draw.words(40),
            settings: std::array::from_fn(|_| draw.word()),
            allowed1: listed(&mut draw),
            allowed2: listed(&mut draw),
            ignored: draw.words(3),
        };
        let query = [draw.word(), draw.word(), draw.word()];
        compare(&inputs, &[query], &mut seen);
    }
    println!("{seen:?}");
    assert!(
        [0, 1, 2, 3].iter().all(|&number| seen[number] > 50),
        "{seen:?}"
    );
}

/// A state with these inner labels in both machines, whatever their order; no mark.
fn both(labels: &[u32]) -> Inputs {
    let trs: Vec<_> = labels
        .iter()
        .map(|&label| (0, Tr::new(label, label, 0, 0)))
        .collect();
    let machine = Machine::from_lists(Some(0), &trs, &[]).unwrap();
    let options = Options::new().with_sort(Sort::Never);
    let mut inputs = Inputs::of(&machine, &machine, &options);
    inputs.first[3..6].fill(0);
    inputs.second[3..6].fill(0);
    inputs
}

/// What takes the cause of a refusal out.
type Cure = fn(&mut Inputs, &mut Query);

/// An input with every cause of a refusal; they are taken out one by one.
#[test]
fn the_order_of_the_checks() {
    let (mut inputs, mut query) = (both(&[9, 5, 9, 5, 5]), [3, 1, 9]);
    inputs.settings = [2, 0, 0, 0, 9, 0];
    inputs.ignored = vec![7, MAX, 0];
    inputs.first[2] = 2;
    inputs.second[2] = 2;
    let cures: [(u32, Cure); 12] = [
        (1, |inputs, _| inputs.settings[0] = 1),
        (2, |inputs, _| inputs.first[2] = 1),
        (3, |inputs, _| inputs.second[2] = 0),
        (18, |inputs, _| inputs.ignored[1] = 3),
        (18, |inputs, _| inputs.ignored[2] = MAX - 1),
        (4, |inputs, _| inputs.settings[2] = 9),
        (5, |inputs, _| inputs.settings[2] = MAX),
        (6, |inputs, _| inputs.settings[4] = MAX),
        (7, |inputs, _| {
            inputs.settings[4] = 9;
            let labels = [5, 5, 5, 9, 9];
            let records = records_of(&mut inputs.second).zip(labels);
            records.for_each(|(record, label)| record[0] = label);
        }),
        (9, |_, query| query[0] = 2),
        (9, |_, query| query[1] = 0),
        (11, |_, query| query[2] = 5),
    ];
    for (number, cure) in cures {
        assert_eq!(fan_out(&inputs, query), Err(number));
        assert_eq!(expected(&inputs, query), Err(number));
        cure(&mut inputs, &mut query);
    }
    assert_eq!(fan_out(&inputs, query), Ok(5));
    assert_eq!(fan_out(&inputs, [1, 0, 9]), Ok(2));
    assert_eq!(fan_out(&inputs, [1, 1, 9]), Err(9));
}

extern "C" {
    #[allow(clippy::too_many_arguments)]
    fn rinkolza_fan_out(
        settings: *const u32,
        settings_len: usize,
        m1: *const u32,
        m1_len: usize,
        m2: *const u32,
        m2_len: usize,
        allowed1: *const u32,
        allowed1_len: usize,
        has1: u32,
        allowed2: *const u32,
        allowed2_len: usize,
        has2: u32,
        ignored: *const u32,
        ignored_len: usize,
        machine: u32,
        state: u32,
        label: u32,
        answer: *mut u32,
        answer_len: usize,
    ) -> u32;
}

/// The call with slices of any length, without allowed lists; `sys` has those of the right length alone.
fn lend(settings: &[u32], inputs: &Inputs, query: Query, answer: &mut [u32]) -> u32 {
    let none: [u32; 0] = [];
    // SAFETY: every pointer and length is that of a live slice; the answer, which is written, is borrowed as such.
    unsafe {
        rinkolza_fan_out(
            settings.as_ptr(),
            settings.len(),
            inputs.first.as_ptr(),
            inputs.first.len(),
            inputs.second.as_ptr(),
            inputs.second.len(),
            none.as_ptr(),
            0,
            0,
            none.as_ptr(),
            0,
            0,
            inputs.ignored.as_ptr(),
            inputs.ignored.len(),
            query[0],
            query[1],
            query[2],
            answer.as_mut_ptr(),
            answer.len(),
        )
    }
}

/// Settings that are not of six words and answers that are not of one are refused by 1; nothing is written then, nor past
/// an answer of one.
#[test]
fn lengths_and_what_is_written() {
    let inputs = both(&[5, 5, 9]);
    let settings = [0, 0, MAX, 0, 9, 0, 0, 0];
    for words in 0..=settings.len() {
        for length in 0..4 {
            let mut answer = [77; 4];
            let refused = lend(
                &settings[..words],
                &inputs,
                [2, 0, 5],
                &mut answer[..length],
            );
            let (number, first) = match (words, length) {
                (6, 1) => (0, 3),
                _ => (1, 77),
            };
            assert_eq!((refused, answer), (number, [first, 77, 77, 77]));
        }
    }
}

#[test]
fn nothing_is_written_where_it_is_refused() {
    let (mut draw, mut seen) = (Draw(167), Seen::default());
    for _ in 0..2000 {
        let mut inputs = drawn(&mut draw);
        (inputs.allowed1, inputs.allowed2) = (None, None);
        let queries = queries(&inputs);
        if draw.one_in(4) {
            let which = draw.below(3) as usize;
            let words = slice(&mut inputs, which);
            words[draw.below(words.len() as u32) as usize] = draw.word();
        }
        for query in queries {
            let mut answer = [77];
            let number = lend(&inputs.settings, &inputs, query, &mut answer);
            let written = fan_out(&inputs, query).unwrap_or(77);
            assert_eq!(answer, [written], "{query:?} of {inputs:?}");
            seen[number as usize] += 1;
        }
    }
    println!("{seen:?}");
    assert!(
        [0, 1, 2, 3, 9, 11, 18]
            .iter()
            .all(|&number| seen[number] > 50),
        "{seen:?}"
    );
}

/// Room for all states of what is drawn and for all their transitions.
const ROOM: Room = Room {
    heads: 64,
    states: 64,
    trs: 8192,
};

/// The machine that is looked up at a pair of states: 0 the first, 1 the second. 10 where both have sigma transitions.
fn looked_up(fixed: &Fixed, at: [u32; 2]) -> Result<usize, u32> {
    let [_, _, sigma1, _, sigma2, _] = fixed.inputs.settings;
    let read = replaced(&fixed.inputs);
    let one = list(&read.first, at[0]);
    let two = list(&read.second, at[1]);
    let has = |list: &[&[u32]], on: usize, sigma| list.iter().any(|tr| tr[on] == sigma);
    match (fixed.side(), has(&one, 1, sigma1), has(&two, 0, sigma2)) {
        (0, _, _) => Ok(1),
        (1, _, _) => Ok(0),
        (_, true, true) => Err(10),
        (_, true, false) => Ok(0),
        (_, false, true) => Ok(1),
        _ => Ok(usize::from(one.len() <= two.len())),
    }
}

/// How many transitions a composed state has by trivial, which keeps every move: the epsilons of the machine that is
/// looked up, alone, and the matches of each label that is walked.
fn moves(inputs: &Inputs, looked: usize, at: [u32; 2]) -> Result<u32, u32> {
    let walked = 1 - looked;
    let read = replaced(inputs);
    let list = list([&read.first, &read.second][walked], at[walked]);
    let walks = list.iter().map(|tr| tr[INNER[walked]]);
    let look_up = |label| fan_out(inputs, [looked as u32 + 1, at[looked], label]);
    [NO_LABEL].into_iter().chain(walks).map(look_up).sum()
}

#[test]
fn as_many_as_are_handed_out() {
    let (mut draw, mut seen) = (Draw(173), Seen::default());
    let (mut sides, mut most) = ([0; 3], 0);
    for _ in 0..12_000 {
        let mut inputs = drawn(&mut draw);
        inputs.settings[1] = Filter::Trivial as u32;
        let Ok(mut fixed) = Fixed::open(inputs, ROOM) else {
            continue;
        };
        let (mut n, mut refused) = (0, None);
        while refused.is_none() && n < fixed.found() {
            let (first, second, _) = fixed.triple(n);
            let at = [first, second];
            let looked = looked_up(&fixed, at);
            let expected = looked.and_then(|looked| moves(&fixed.inputs, looked, at));
            let answer = fixed.expand(n).map(|trs| trs.len() as u32);
            assert_eq!(answer, expected, "{n} of {:?}", fixed.inputs);
            seen[answer.err().unwrap_or(0) as usize] += 1;
            most = most.max(answer.unwrap_or(0));
            (n, refused) = (n + 1, answer.err());
        }
        sides[fixed.side() as usize] += n;
    }
    println!("{seen:?}, by side {sides:?}, at most {most}");
    assert!(seen[0] > 5000 && seen[10] > 5 && seen[11] > 200);
    assert!(sides.iter().all(|&count| count > 1000) && most > 20);
}

/// Long lists: as many own matches as sigma matches.
#[test]
fn long_lists() {
    let many = 100_000;
    let labels: Vec<u32> = (0..2 * many).map(|place| 1 + place / many).collect();
    let mut inputs = both(&labels);
    inputs.settings[4] = 2;
    assert_eq!(fan_out(&inputs, [2, 0, 1]), Ok(2 * many));
    assert_eq!(fan_out(&inputs, [2, 0, 3]), Ok(many));
    assert_eq!(fan_out(&inputs, [1, 0, 2]), Ok(many));
    inputs.allowed2 = Some(vec![3]);
    assert_eq!(fan_out(&inputs, [2, 0, 1]), Ok(many));
}

/// Options that sort the machines leave each state its number, and matches are as many in any order.
#[test]
fn states_keep_their_numbers() {
    let trs = [
        (0, Tr::new(7, 1, 0, 2)),
        (2, Tr::new(3, 9, 0, 1)),
        (2, Tr::new(9, 3, 0, 0)),
        (2, Tr::new(3, 3, 0, 0)),
        (1, Tr::new(0, 9, 0, 1)),
        (1, Tr::new(9, 3, 0, 1)),
        (1, Tr::new(0, 0, 0, 1)),
    ];
    let machine = Machine::from_lists(Some(2), &trs, &[(1, 0)]).unwrap();
    for sort in [Sort::WhereNeeded, Sort::Both] {
        let options = Options::new().with_sort(sort).with_sigma1(Sigma::new(9));
        let inputs = Inputs::of(&machine, &machine, &options);
        let composition = Composition::open(&machine, &machine, &options).unwrap();
        let by_state = |which, label| {
            let of_words = [0, 1, 2].map(|state| inputs.fan_out(which, state, label).ok());
            let of_open = [0, 1, 2].map(|state| composition.fan_out(which, state, label).ok());
            assert_eq!(of_words, of_open);
            of_words
        };
        let (first, second) = (Which::First, Which::Second);
        assert_eq!(by_state(first, 3), [Some(0), Some(2), Some(3)]);
        assert_eq!(by_state(first, EPSILON), [Some(1), Some(2), Some(1)]);
        assert_eq!(by_state(first, 9), [None; 3]);
        assert_eq!(by_state(second, 3), [Some(0), Some(0), Some(2)]);
        assert_eq!(by_state(second, 9), [Some(0), Some(1), Some(1)]);
        assert_eq!(by_state(second, NO_LABEL), [Some(0), Some(2), Some(0)]);
    }
}

#[test]
fn refusals_in_words() {
    let mut inputs = both(&[5, 9]);
    inputs.settings[2] = 9;
    let says = |inputs: &Inputs, state, label| {
        let error = inputs.fan_out(Which::First, state, label).unwrap_err();
        assert!(
            matches!(error, Error::Refused { state: None, .. }),
            "{error:?}"
        );
        error.to_string()
    };
    let no_state = "refused 9: there is no such state, or it has not been found yet";
    assert_eq!(says(&inputs, 1, 5), no_state);
    assert_eq!(
        says(&inputs, 0, 9),
        "refused 11: a label to look up is the sigma label of the machine it is looked up in"
    );
    inputs.first.pop();
    let error = inputs.fan_out(Which::Second, 0, 5).unwrap_err();
    assert_eq!(error.refusal(), Some(Refusal::FirstMalformed));
}

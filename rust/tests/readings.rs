//! The readings of a machine: against paths that are walked plainly, on machines with cycles, and of compositions against pairs of readings.

mod common;

use common::{Draw, EXACT, FILTERS};
use rinkolza::{
    compose, text, words, Composition, Filter, Format, Kind, Machine, Options, Reading, Rewrite,
    Side, Sigma, Tr,
};

/// The paths from a state that have exactly so many transitions and end in a final state, in the order of the lists.
fn plainly(machine: &Machine, kind: Kind, state: u32, length: usize) -> Vec<(Vec<Tr>, u32)> {
    if length == 0 {
        let last = machine.final_weight(state).filter(|&w| w != kind.zero());
        return last
            .map(|weight| (Vec::new(), weight))
            .into_iter()
            .collect();
    }
    let mut paths = Vec::new();
    for &tr in machine.trs(state) {
        if tr.weight == kind.zero() {
            continue;
        }
        for (mut rest, weight) in plainly(machine, kind, tr.target, length - 1) {
            rest.insert(0, tr);
            paths.push((rest, weight));
        }
    }
    paths
}

#[test]
fn as_paths_walked_plainly() {
    let mut draw = Draw(41);
    let (mut given, mut ended) = (0, 0);
    for _ in 0..600 {
        let machine = words::decode(&draw.machine(None, 7, 2)).unwrap();
        for kind in [Kind::Cost, Kind::Count] {
            let plain: Vec<_> = (0..8)
                .flat_map(|length| plainly(&machine, kind, 0, length))
                .collect();
            let mut readings = machine.readings(kind);
            for path in &plain {
                let reading = readings.next().expect("as many as walked plainly");
                assert_eq!((&reading.trs, reading.final_weight), (&path.0, path.1));
            }
            let next = readings.next();
            assert!(next.iter().all(|reading| reading.trs.len() >= 8));
            given += plain.len();
            ended += next.is_none() as usize;
        }
    }
    assert!(
        given > 5000 && ended > 100 && ended < 1000,
        "{given} {ended}"
    );
}

fn read(lines: &str) -> Machine {
    text::read(lines, "m", &Format::default()).unwrap()
}

fn lengths(machine: &Machine, count: usize) -> Vec<usize> {
    let readings = machine.readings(Kind::Cost).take(count);
    readings.map(|reading| reading.trs.len()).collect()
}

#[test]
fn cycles() {
    // A cycle that leads nowhere, one that cannot be reached, one of infinite cost: one reading, and then none.
    let nowhere = read("0 1 1 1\n0 2 1 1\n2 2 1 1\n1\n3 1 1 1\n3 3 1 1\n1 1 1 1 Infinity\n");
    assert_eq!(lengths(&nowhere, 9), [1]);
    assert_eq!(lengths(&read("0 0 1 1\n"), 9), []);
    assert_eq!(lengths(&Machine::new(), 9), []);
    // The loop comes first in the list, and the readings do not wait for its end.
    assert_eq!(lengths(&read("0 0 1 1\n0 1 1 1\n1\n"), 4), [1, 2, 3, 4]);
    // Every third length has a reading.
    let ring = read("0 1 1 1\n1 2 1 1\n2 0 1 1\n1\n");
    assert_eq!(lengths(&ring, 4), [1, 4, 7, 10]);
    let mut readings = nowhere.readings(Kind::Cost);
    assert!(readings.next().is_some());
    assert!((0..3).all(|_| readings.next().is_none()));
}

#[test]
fn large_machines() {
    let last = 99_999;
    let chain: Vec<(u32, Tr)> = (0..last)
        .map(|state| (state, Tr::new(1, 0, 1, state + 1)))
        .collect();
    let one = Machine::from_lists(Some(0), &chain, &[(last, 7)]).unwrap();
    let all: Vec<Reading> = one.readings(Kind::Cost).collect();
    assert_eq!(all.len(), 1);
    assert_eq!(all[0].weight(), Some(u64::from(last) + 7));
    assert_eq!((all[0].input().len(), all[0].output().len()), (99_999, 0));
    // Two ways at each of thirty states: 2^30 readings, the first of which come at once.
    let ways: Vec<(u32, Tr)> = (0..60)
        .map(|k| (k / 2, Tr::new(k, k, 4_000_000_000, k / 2 + 1)))
        .collect();
    let many = Machine::from_lists(Some(0), &ways, &[(30, 2)]).unwrap();
    let first: Vec<Reading> = many.readings(Kind::Count).take(3).collect();
    assert_eq!(first[2].trs[28..], [ways[57].1, ways[58].1]);
    assert_eq!(first[0].weight(), None);
    assert_eq!(
        many.readings(Kind::Cost).next().unwrap().weight(),
        Some(120_000_000_002)
    );
}

/// What a reading says: word read, word written, weight.
type Said = (Vec<u32>, Vec<u32>, u64);

fn said(readings: impl Iterator<Item = Reading>) -> Vec<Said> {
    let mut said: Vec<Said> = readings
        .map(|reading| (reading.input(), reading.output(), reading.weight().unwrap()))
        .collect();
    said.sort();
    said
}

/// The machine without the transitions that lead back or stay: it has no cycle.
fn forward(machine: &Machine) -> Machine {
    let mut trs = Vec::new();
    for state in machine.states() {
        let ahead = machine.trs(state).iter().filter(|tr| tr.target > state);
        trs.extend(ahead.map(|&tr| (state, tr)));
    }
    Machine::from_lists(Some(0), &trs, &finals(machine)).unwrap()
}

fn finals(machine: &Machine) -> Vec<(u32, u32)> {
    let last = |state| Some((state, machine.final_weight(state)?));
    machine.states().filter_map(last).collect()
}

/// A reading of each of two machines that agree: the second reads what the first writes.
struct Pair {
    /// The inner labels of both, epsilons included.
    inner: [Vec<u32>; 2],
    said: Said,
}

/// What the second's reading writes where it reads this word, sigma in it being any letter that is allowed; none: the two
/// do not agree.
fn written(word: &[u32], reading: &Reading, sigma: &Sigma, rewrites: bool) -> Option<Vec<u32>> {
    let allows = |label| {
        sigma
            .allowed
            .as_ref()
            .is_none_or(|list| list.contains(label))
    };
    let mut word = word.iter();
    let mut written = Vec::new();
    for tr in &reading.trs {
        let by_sigma = Some(tr.input) == sigma.label;
        let read = match tr.input {
            0 => &0,
            _ => word.next()?,
        };
        if *read != tr.input && !(by_sigma && allows(read)) {
            return None;
        }
        let takes_it = by_sigma && rewrites && tr.output == tr.input;
        written.push(if takes_it { *read } else { tr.output });
    }
    written.retain(|&label| label != 0);
    word.next().is_none().then_some(written)
}

/// The pairs that agree, with sigma on the second machine's inputs and ignored labels, but for sigma, as 0 on the inner
/// sides.
fn pairs(drawn: &Drawn, kind: Kind) -> Vec<Pair> {
    let Drawn { sigma, ignored, .. } = drawn;
    let silent = |label| ignored.contains(&label) && sigma.label != Some(label);
    let heard = |label| if silent(label) { 0 } else { label };
    let first = &changed(&drawn.first, |tr| Tr {
        output: heard(tr.output),
        ..tr
    });
    let second = &changed(&drawn.second, |tr| Tr {
        input: heard(tr.input),
        ..tr
    });
    let product = |a: u64, b: u64| if kind == Kind::Cost { a + b } else { a * b };
    let rewrites = match sigma.mode {
        Rewrite::Auto => drawn.second.is_acceptor() && second.is_acceptor(),
        mode => mode == Rewrite::Each,
    };
    let others: Vec<Reading> = second.readings(kind).collect();
    let mut pairs = Vec::new();
    for one in first.readings(kind) {
        let word = one.output();
        for other in &others {
            let Some(written) = written(&word, other, sigma, rewrites) else {
                continue;
            };
            let weight = product(one.weight().unwrap(), other.weight().unwrap());
            pairs.push(Pair {
                inner: [
                    one.trs.iter().map(|tr| tr.output).collect(),
                    other.trs.iter().map(|tr| tr.input).collect(),
                ],
                said: (one.input(), written, weight),
            });
        }
    }
    pairs
}

/// Two drawn machines without cycles, the second's sigma, and ignored labels.
struct Drawn {
    first: Machine,
    second: Machine,
    sigma: Sigma,
    ignored: Vec<u32>,
}

fn without_sigma(draw: &mut Draw) -> Drawn {
    let mut machine = || forward(&words::decode(&draw.machine(None, 9, 6)).unwrap());
    Drawn {
        first: machine(),
        second: machine(),
        sigma: Sigma::default(),
        ignored: Vec::new(),
    }
}

impl Drawn {
    fn options(&self, kind: Kind, filter: Filter) -> Options {
        Options::new()
            .with_kind(kind)
            .with_filter(filter)
            .with_sigma2(self.sigma.clone())
            .with_ignored(self.ignored.clone())
    }

    /// Whether the second's sigma is looked up, where it has one: not always, where labels are ignored.
    fn is_any_letter(&self) -> bool {
        let options = self.options(Kind::Cost, Filter::Sequence);
        let opened = Composition::open(&self.first, &self.second, &options).unwrap();
        self.sigma.label.is_none() || opened.side() != Side::Output
    }
}

/// Composes drawn machines by these filters: what is listed is each pair as often as said, and no more. How many pairs
/// are listed never, once, and more often.
fn compare(
    filters: &[Filter],
    drawn: fn(&mut Draw) -> Drawn,
    mut times: impl FnMut(Filter, &Pair) -> usize,
) -> [usize; 3] {
    let mut draw = Draw(42);
    let mut met = [0; 3];
    for _ in 0..800 {
        let drawn = drawn(&mut draw);
        if !drawn.is_any_letter() {
            continue;
        }
        for kind in [Kind::Cost, Kind::Count] {
            let pairs = pairs(&drawn, kind);
            for &filter in filters {
                let mut expected = Vec::new();
                for pair in &pairs {
                    let times = times(filter, pair);
                    met[times.min(2)] += 1;
                    expected.extend(std::iter::repeat_n(pair.said.clone(), times));
                }
                expected.sort();
                let options = drawn.options(kind, filter);
                let composed = compose(&drawn.first, &drawn.second, &options).unwrap();
                assert_eq!(said(composed.readings(kind)), expected, "{options:?}");
            }
        }
    }
    println!("{filters:?}: {met:?} never, once, more often");
    met
}

#[test]
fn a_composition_has_one_reading_for_each_pair_that_meets() {
    let [never, once, more] = compare(&FILTERS[..EXACT], without_sigma, |_, _| 1);
    assert!(never == 0 && once > 3000 && more == 0);
}

const SIGMA: u32 = 3;

/// The machine with each of its transitions changed.
fn changed(machine: &Machine, change: impl Fn(Tr) -> Tr) -> Machine {
    let trs: Vec<(u32, Tr)> = machine
        .states()
        .flat_map(|state| machine.trs(state).iter().map(move |&tr| (state, tr)))
        .map(|(state, tr)| (state, change(tr)))
        .collect();
    Machine::from_lists(Some(0), &trs, &finals(machine)).unwrap()
}

/// The second has sigma, which the first never hands on; it may be an acceptor, and there may be an allowed list.
fn with_sigma(draw: &mut Draw) -> Drawn {
    let mut drawn = without_sigma(draw);
    drawn.first = changed(&drawn.first, |tr| Tr {
        output: tr.output.min(SIGMA - 1),
        ..tr
    });
    if draw.one_in(3) {
        drawn.second = changed(&drawn.second, |tr| Tr {
            output: tr.input,
            ..tr
        });
    }
    let sigma = &mut drawn.sigma;
    sigma.label = Some(SIGMA);
    sigma.mode = [Rewrite::Auto, Rewrite::Each, Rewrite::Matched][draw.below(3) as usize];
    sigma.allowed = [None, Some(vec![]), Some(vec![2, 7])][draw.below(3) as usize].clone();
    drawn
}

/// Each pair is listed once, and some go by sigma.
fn sigma_matches(drawn: fn(&mut Draw) -> Drawn) {
    let mut by_sigma = 0;
    let [never, once, more] = compare(&FILTERS[..EXACT], drawn, |_, pair| {
        by_sigma += usize::from(pair.inner[1].contains(&SIGMA));
        1
    });
    println!("{by_sigma} pairs by sigma");
    assert!(never == 0 && once > 3000 && more == 0 && by_sigma > 200);
}

/// A letter that is allowed meets sigma and, beside it, itself: each of these pairs is a reading of its own.
#[test]
fn with_sigma_on_the_second_too() {
    sigma_matches(with_sigma);
}

/// Two readings agree where their inner labels do, ignored ones left out as epsilons are.
#[test]
fn with_ignored_labels_too() {
    let drawn = |draw: &mut Draw| {
        let mut drawn = without_sigma(draw);
        drawn.ignored = draw.some_ignored();
        drawn
    };
    let [never, once, more] = compare(&FILTERS[..EXACT], drawn, |_, _| 1);
    assert!(never == 0 && once > 3000 && more == 0);
}

/// Both, where the first machine is not sorted, ignored labels as 0: it is walked then.
#[test]
fn with_sigma_on_the_second_and_ignored_labels_too() {
    sigma_matches(|draw| {
        let mut drawn = with_sigma(draw);
        drawn.ignored = draw.some_ignored();
        drawn.ignored.retain(|&label| label != SIGMA);
        drawn.ignored.push(30);
        drawn
    });
}

/// And where sigma stands among the ignored labels, or alone: it is any letter still.
#[test]
fn with_a_sigma_that_is_listed_too() {
    sigma_matches(|draw| {
        let mut drawn = with_sigma(draw);
        if draw.one_in(2) {
            drawn.ignored = draw.some_ignored();
        }
        drawn.ignored.push(SIGMA);
        drawn
    });
}

/// With the same inner labels place by place, epsilons included.
#[test]
fn null_lists_the_pairs_with_equal_labels_once() {
    let equal = |_, pair: &Pair| usize::from(pair.inner[0] == pair.inner[1]);
    let [never, once, more] = compare(&[Filter::Null], without_sigma, equal);
    assert!(never > 500 && once > 500 && more == 0);
}

/// The orders in which readings with these inner labels can be taken: one machine alone on an epsilon, or both on the
/// same label; on epsilons where `both` allows it.
fn orders(both: bool, one: &[u32], other: &[u32]) -> usize {
    if one.is_empty() && other.is_empty() {
        return 1;
    }
    let (label, met) = (one.first(), other.first());
    let mut count = 0;
    if label == Some(&0) {
        count += orders(both, &one[1..], other);
    }
    if met == Some(&0) {
        count += orders(both, one, &other[1..]);
    }
    if label.is_some() && label == met && (both || label != Some(&0)) {
        count += orders(both, &one[1..], &other[1..]);
    }
    count
}

/// No pair is lost: there is an order for each. Where there are several the pair is listed in all.
#[test]
fn trivial_and_no_match_list_each_pair_in_every_order() {
    for filter in [Filter::Trivial, Filter::NoMatch] {
        let in_each = |filter, pair: &Pair| {
            let [one, other] = &pair.inner;
            orders(filter == Filter::Trivial, one, other)
        };
        let [never, once, more] = compare(&[filter], without_sigma, in_each);
        assert!(never == 0 && once > 500 && more > 100);
    }
}

/// The readings of two machines composed by a filter.
fn listed(first: &Machine, second: &Machine, filter: Filter, kind: Kind) -> Vec<Said> {
    let options = Options::new().with_kind(kind).with_filter(filter);
    said(compose(first, second, &options).unwrap().readings(kind))
}

/// One reading each, both with an epsilon before the label 5: a pair that the filters list as often as is said here. So
/// often counts are added up; the least cost is the same by all.
#[test]
fn a_pair_is_listed_more_than_once() {
    let first = read("0 1 1 0 1\n1 2 2 5 2\n2 1\n");
    let second = read("0 1 0 7 4\n1 2 5 8 1\n2 3\n");
    for (filter, times) in FILTERS.into_iter().zip([1, 1, 1, 1, 3, 2]) {
        let costs = listed(&first, &second, filter, Kind::Cost);
        assert_eq!(costs, vec![(vec![1, 2], vec![7, 8], 12); times]);
        let counts = listed(&first, &second, filter, Kind::Count);
        let total: u64 = counts.iter().map(|reading| reading.2).sum();
        assert_eq!(total, 24 * times as u64, "{filter:?}");
    }
}

/// The first has an epsilon, the second none: null loses the pair.
#[test]
fn a_pair_is_lost() {
    let first = read("0 1 1 0 1\n1 2 2 5 2\n2 1\n");
    let second = read("0 1 5 8 1\n1 3\n");
    for filter in FILTERS {
        let times = usize::from(filter != Filter::Null);
        let costs = listed(&first, &second, filter, Kind::Cost);
        assert_eq!(costs, vec![(vec![1, 2], vec![8], 8); times], "{filter:?}");
    }
}

//! Sigma is any letter: all own matches of a label, then the sigma matches, rewritten, where the label is allowed.

mod common;

use common::choice::{is_sorted, list, records_of, times, INNER, MAX, WEIGHT};
use common::{Draw, Fixed, World, EXACT, FILTERS};
use rinkolza::{
    compose, text, Composition, Filter, Format, Inputs, Kind, Machine, Options, Refusal, Rewrite,
    Room, Sigma, Tr,
};

const SIGMA: u32 = 5;
/// Inner and outer labels: two letters, each twice, and sigma, twice, between them.
const RULES: [(u32, u32); 6] = [(3, 31), (3, 32), (SIGMA, 51), (SIGMA, 52), (7, 71), (7, 72)];

/// A state with these labels; its machine stands at this place, 0 the first or 1 the second.
fn state(labels: &[(u32, u32)], place: usize) -> Machine {
    let tr = |&(inner, outer)| match place {
        0 => (0, Tr::new(outer, inner, 0, 0)),
        _ => (0, Tr::new(inner, outer, 0, 0)),
    };
    let trs: Vec<_> = labels.iter().map(tr).collect();
    Machine::from_lists(Some(0), &trs, &[(0, 0)]).unwrap()
}

/// The rules at this place with the letter at the other, opened.
fn opened(rules: &[(u32, u32)], place: usize, letter: u32, sigma: Sigma) -> Composition {
    let machine = |at| match at == place {
        true => state(rules, place),
        false => state(&[(letter, letter)], at),
    };
    let options = match place {
        0 => Options::new().with_sigma1(sigma),
        _ => Options::new().with_sigma2(sigma),
    };
    Composition::open(&machine(0), &machine(1), &options).unwrap()
}

/// The outer labels that the rules at this place give for the letter, in the order of the composed list.
fn given(rules: &[(u32, u32)], place: usize, letter: u32, sigma: Sigma) -> Vec<u32> {
    let mut composition = opened(rules, place, letter, sigma);
    let trs = composition.expand(0).unwrap();
    trs.map(|tr| [tr.input, tr.output][place]).collect()
}

#[test]
fn all_own_matches_and_then_sigma() {
    for place in 0..2 {
        let given = |letter| given(&RULES, place, letter, Sigma::new(SIGMA));
        assert_eq!(given(3), [31, 32, 51, 52]);
        assert_eq!(given(7), [71, 72, 51, 52]);
        assert_eq!(given(4), [51, 52]);
        // Epsilon is no letter: the rules rest.
        assert_eq!(given(0), [0]);
    }
}

#[test]
fn where_the_letter_is_allowed() {
    for place in 0..2 {
        let given = |letter, allowed: &[u32]| {
            let sigma = Sigma::new(SIGMA).with_allowed(allowed);
            given(&RULES, place, letter, sigma)
        };
        assert_eq!(given(3, &[]), [31, 32]);
        assert_eq!(given(4, &[]), []);
        assert_eq!(given(3, &[9, 3]), [31, 32, 51, 52]);
        assert_eq!(given(7, &[9, 3]), [71, 72]);
        assert_eq!(given(4, &[9, 3]), []);
        assert_eq!(given(4, &[4]), [51, 52]);
        assert_eq!(given(0, &[0]), [0]);
    }
}

#[test]
fn sigma_itself_is_refused() {
    for place in 0..2 {
        for sigma in [Sigma::new(SIGMA), Sigma::new(SIGMA).with_allowed([SIGMA])] {
            let mut composition = opened(&RULES, place, SIGMA, sigma);
            let error = composition.run().unwrap_err();
            assert_eq!(error.refusal(), Some(Refusal::SigmaWalked));
        }
    }
}

/// What names a letter is never rewritten, also where it has sigma on the outer side.
#[test]
fn the_three_ways_to_rewrite() {
    let mixed = [(3, SIGMA), (SIGMA, SIGMA), (SIGMA, 8)];
    let acceptor = [(3, 3), (SIGMA, SIGMA)];
    for place in 0..2 {
        for (mode, of_mixed, of_acceptor) in [
            (Rewrite::Each, [SIGMA, 3, 8], [3, 3]),
            (Rewrite::Matched, [SIGMA, SIGMA, 8], [3, SIGMA]),
            (Rewrite::Auto, [SIGMA, SIGMA, 8], [3, 3]),
        ] {
            let given = |rules| given(rules, place, 3, Sigma::new(SIGMA).with_mode(mode));
            assert_eq!(given(&mixed), of_mixed, "{mode:?}");
            assert_eq!(given(&acceptor), of_acceptor, "{mode:?}");
        }
    }
}

/// A letter in 2 ways, for which there are 5 ways of its own and 7 of any letter: 2 × 5 + 2 × 7.
#[test]
fn both_are_counted() {
    let format = Format::new().with_kind(Kind::Count);
    let read = |lines| text::read(lines, "m", &format).unwrap();
    let (first, second) = (read("0 1 3 3 2\n1\n"), read("0 1 3 3 5\n0 1 5 5 7\n1\n"));
    let total = |filter, sigma| {
        let plain = Options::new().with_kind(Kind::Count).with_filter(filter);
        let composed = compose(&first, &second, &plain.with_sigma2(sigma)).unwrap();
        let readings = composed.readings(Kind::Count);
        readings
            .map(|reading| reading.weight().unwrap())
            .sum::<u64>()
    };
    for filter in &FILTERS[..EXACT] {
        assert_eq!(total(*filter, Sigma::new(SIGMA)), 24);
        assert_eq!(total(*filter, Sigma::new(SIGMA).with_allowed([3])), 24);
        assert_eq!(total(*filter, Sigma::new(SIGMA).with_allowed([4])), 10);
    }
}

/// How many letters had own and sigma matches, own alone though there was sigma, sigma alone; how many expansions were
/// refused by 10 and by 11.
#[derive(Debug, Default)]
struct Met {
    both: usize,
    not_allowed: usize,
    sigma: usize,
    refused: [usize; 2],
}

/// The machine at a place, with its sigma.
struct Operand<'a> {
    words: &'a [u32],
    inner: usize,
    sigma: u32,
    both_sides: bool,
    allowed: Option<&'a [u32]>,
}

impl<'a> Operand<'a> {
    fn of(inputs: &'a Inputs, place: usize) -> Operand<'a> {
        let words = [&inputs.first, &inputs.second][place];
        let [sigma, mode] = [2, 3].map(|word| inputs.settings[2 * place + word]);
        Operand {
            words,
            inner: INNER[place],
            sigma,
            both_sides: mode == 1 || (mode == 0 && words[5] == 1),
            allowed: [&inputs.allowed1, &inputs.allowed2][place].as_deref(),
        }
    }

    /// The transitions of a state with this inner label.
    fn with(&self, state: u32, label: u32) -> Vec<Vec<u32>> {
        let list = list(self.words, state);
        let with = list.iter().filter(|record| record[self.inner] == label);
        with.map(|record| record.to_vec()).collect()
    }

    fn has_sigma(&self, state: u32) -> bool {
        self.sigma != MAX && !self.with(state, self.sigma).is_empty()
    }

    /// The matches of a label.
    fn look_up(&self, met: &mut Met, state: u32, label: u32) -> Result<Vec<Vec<u32>>, u32> {
        if label == self.sigma {
            return Err(11);
        }
        let mut matches = self.with(state, label);
        let own = !matches.is_empty();
        if label != 0 && self.has_sigma(state) {
            if self.allowed.is_some_and(|list| !list.contains(&label)) {
                met.not_allowed += usize::from(own);
                return Ok(matches);
            }
            *if own { &mut met.both } else { &mut met.sigma } += 1;
            let sigma = self.with(state, self.sigma).into_iter();
            matches.extend(sigma.map(|record| self.rewritten(record, label)));
        }
        Ok(matches)
    }

    fn rewritten(&self, mut record: Vec<u32>, label: u32) -> Vec<u32> {
        for (side, held) in record[..2].iter_mut().enumerate() {
            if side == self.inner || (self.both_sides && *held == self.sigma) {
                *held = label;
            }
        }
        record
    }
}

/// A composed transition: input, output, weight, and the states that are reached.
type Composed = [u32; 5];

/// Which machine is walked at a pair of states.
fn walked(side: u32, operands: &[Operand; 2], at: [u32; 2]) -> Result<usize, u32> {
    let has = [0, 1].map(|place| operands[place].has_sigma(at[place]));
    let [one, two] = [0, 1].map(|place| list(operands[place].words, at[place]).len());
    match (side, has) {
        (2, [true, true]) => Err(10),
        (2, [true, false]) => Ok(1),
        (2, [false, true]) => Ok(0),
        (2, _) => Ok(usize::from(one > two)),
        (side, _) => Ok(side as usize),
    }
}

/// What trivial, which keeps every move, lists at a pair of states, by the rules that `include/rinkolza.h` has.
fn expected(met: &mut Met, fixed: &Fixed, at: [u32; 2]) -> Result<Vec<Composed>, u32> {
    let kind = fixed.inputs.settings[0];
    let operands = [0, 1].map(|place| Operand::of(&fixed.inputs, place));
    let walked = walked(fixed.side(), &operands, at)?;
    let looked = 1 - walked;
    let resting = |place: usize| vec![0, 0, kind, at[place], 0];
    // Pairs of records, the walked machine's first.
    let alone = operands[looked].with(at[looked], 0).into_iter();
    let mut moves: Vec<_> = alone.map(|own| [resting(walked), own]).collect();
    for record in list(operands[walked].words, at[walked]) {
        let label = record[INNER[walked]];
        if label == 0 {
            moves.push([record.to_vec(), resting(looked)]);
        }
        let matches = operands[looked].look_up(met, at[looked], label)?;
        moves.extend(matches.into_iter().map(|own| [record.to_vec(), own]));
    }
    let composed = |mut pair: [Vec<u32>; 2]| {
        pair.rotate_left(walked);
        let [one, two] = pair;
        let weight = times(kind, one[WEIGHT], two[WEIGHT]).expect("small weights");
        [one[0], two[1], weight, one[3], two[3]]
    };
    Ok(moves.into_iter().map(composed).collect())
}

/// The list of a state as the library gives it.
fn expanded(fixed: &mut Fixed, n: u32) -> Result<Vec<Composed>, u32> {
    let trs = fixed.expand(n)?;
    let composed = |tr: Tr| {
        let (first, second, _) = fixed.triple(tr.target);
        [tr.input, tr.output, tr.weight, first, second]
    };
    Ok(trs.into_iter().map(composed).collect())
}

/// Two machines, most of them with sigma, 3, on one or both; a machine without it seldom hands it on. Where both are
/// sorted they are often marked so: then states decide which is looked up.
fn drawn(draw: &mut Draw) -> Inputs {
    let mut inputs = draw.inputs(4, 6);
    inputs.settings[1] = Filter::Trivial as u32;
    let [_, _, sigma1, _, sigma2, _] = inputs.settings;
    let machines = [(&mut inputs.first, sigma1), (&mut inputs.second, sigma2)];
    for ((words, sigma), inner) in machines.into_iter().zip(INNER) {
        if sigma == MAX && !draw.one_in(8) {
            records_of(words).for_each(|record| record[inner] = record[inner].min(2));
        }
    }
    let sorted = is_sorted(&inputs.first, INNER[0]) && is_sorted(&inputs.second, INNER[1]);
    if sorted && draw.one_in(2) {
        (inputs.first[4], inputs.second[3]) = (1, 1);
    }
    inputs
}

/// Trivial has a state for each pair, and each has fewer than 60 moves.
const ROOM: Room = Room {
    heads: 16,
    states: 16,
    trs: 16 * 60,
};

#[test]
fn as_the_rules_say() {
    let (mut draw, mut met) = (Draw(137), Met::default());
    for _ in 0..6000 {
        let Ok(mut fixed) = Fixed::open(drawn(&mut draw), ROOM) else {
            continue;
        };
        let (mut n, mut refused) = (0, None);
        while refused.is_none() && n < fixed.found() {
            let (first, second, _) = fixed.triple(n);
            let expected = expected(&mut met, &fixed, [first, second]);
            let answer = expanded(&mut fixed, n);
            assert_eq!(answer, expected, "{n} of {:?}", fixed.inputs);
            refused = answer.err();
            n += 1;
        }
        if let Some(number) = refused {
            met.refused[number as usize - 10] += 1;
        }
    }
    println!("{met:?}");
    let least = [met.both, met.not_allowed, met.sigma].into_iter();
    assert!(least.chain(met.refused).all(|count| count > 50), "{met:?}");
}

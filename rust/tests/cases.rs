//! Document 01's cases, and one input for each refusal.

mod common;

use common::{lending, listing, number, Fixed, World, FILTERS};
use rinkolza::{Composition, Error, Inputs, Options, Refusal, Room};

const MAX: u32 = u32::MAX;
const FIRST: [u32; 25] = [
    3, 2, 1, 0, 0, 0, 1, 0, 0, 2, 0, 0, 0, 1, 0, 1, 0, 1, 1, 0, 2, 5, 2, 2, 0,
];
const SECOND: [u32; 25] = [
    3, 2, 1, 0, 0, 0, 1, 0, 0, 2, 0, 0, 0, 1, 3, 0, 7, 4, 1, 0, 5, 8, 1, 2, 0,
];
/// What document 01 lists of the two; the program `composed` is held to the same file.
const LISTED: &str = include_str!("../../crates/composed/stdout");

fn inputs(settings: [u32; 6], first: &[u32], second: &[u32]) -> Inputs {
    lending(first, second, settings, &[])
}

fn plain(kind: u32, filter: u32) -> [u32; 6] {
    [kind, filter, MAX, 0, MAX, 0]
}

fn opened(inputs: Inputs) -> Result<Composition, u32> {
    let options = Options::default();
    Composition::open_words(inputs, options.room, options.most).map_err(number)
}

fn listed(settings: [u32; 6], first: &[u32], second: &[u32]) -> Result<String, u32> {
    listing(opened(inputs(settings, first, second)))
}

/// One state, final with the weight, and a loop 1:1 of the weight.
fn weighing(weight: u32) -> [u32; 14] {
    [1, 1, 1, 0, 0, 0, 1, 1, weight, 1, 1, weight, 0, 0]
}

#[test]
fn case_1_sequence() {
    assert_eq!(listed(plain(0, 0), &FIRST, &SECOND).unwrap(), LISTED);
}

#[test]
fn case_2_alternate() {
    assert!(listed(plain(0, 1), &FIRST, &SECOND)
        .unwrap()
        .ends_with("end 4 3\n"));
}

#[test]
fn case_3_match() {
    let text = listed(plain(0, 2), &FIRST, &SECOND).unwrap();
    assert!(text.ends_with("end 3 2\n"));
    assert!(text.lines().nth(2).unwrap().starts_with("t 1 7 5 "));
}

/// The same machines by null, trivial and no-match, worked out by hand: the one pair of readings once, three times, twice.
#[test]
fn the_other_filters() {
    let list = |filter| listed(plain(0, filter), &FIRST, &SECOND).unwrap();
    let null =
        "side output\ns 0 0 0 0 -\nt 1 7 5 1\ns 1 1 1 0 -\nt 2 8 3 2\ns 2 2 2 0 3\nend 3 2\n";
    let start = "side output\ns 0 0 0 0 -\nt 1 0 1 1\nt 0 7 4 2\n";
    let rest =
        "s 1 1 0 0 -\nt 0 7 4 3\ns 2 0 1 0 -\nt 1 0 1 3\ns 3 1 1 0 -\nt 2 8 3 4\ns 4 2 2 0 3\n";
    assert_eq!(list(3), null);
    assert_eq!(list(4), format!("{start}t 1 7 5 3\n{rest}end 5 6\n"));
    assert_eq!(list(5), format!("{start}{rest}end 5 5\n"));
}

#[test]
fn case_4_no_start() {
    let mut first = FIRST;
    first[2] = 0;
    assert_eq!(
        listed(plain(0, 0), &first, &SECOND).unwrap(),
        "side output\nend 0 0\n"
    );
}

#[test]
fn cases_5_to_8_weights() {
    let cost = |a, b| listed(plain(0, 0), &weighing(a), &weighing(b));
    let count = |a, b| listed(plain(1, 0), &weighing(a), &weighing(b));
    assert!(cost(2147483647, 2147483647)
        .unwrap()
        .contains("t 1 1 4294967294 0\n"));
    assert_eq!(cost(2147483648, 2147483647), Err(12));
    assert!(count(65535, 65537)
        .unwrap()
        .contains("t 1 1 4294967295 0\n"));
    assert_eq!(count(65536, 65536), Err(12));
}

#[test]
fn case_9_room_for_three_states() {
    let room = Room {
        heads: 64,
        states: 3,
        trs: 1024,
    };
    let mut fixed = Fixed::open(inputs(plain(0, 0), &FIRST, &SECOND), room).unwrap();
    assert!(fixed.expand(0).is_ok() && fixed.expand(1).is_ok());
    assert_eq!(fixed.expand(2), Err(13));
    assert_eq!(fixed.found(), 3);
    let small = Composition::open_words(inputs(plain(0, 0), &FIRST, &SECOND), room, room).unwrap();
    assert_eq!(listing(Ok(small.clone())), Err(13));
    let mut small = small;
    let error = small.run().unwrap_err();
    assert_eq!(error.refusal(), Some(Refusal::NoRoom));
    assert!(matches!(error, Error::Refused { state: Some(2), .. }));
    assert_eq!(
        (small.found(), small.is_expanded(1), small.is_expanded(2)),
        (3, true, false)
    );
    let grown = Composition::open_words(inputs(plain(0, 0), &FIRST, &SECOND), room, Room::LARGEST);
    assert_eq!(listing(grown.map_err(number)).unwrap(), LISTED);
}

#[test]
fn case_10_both_marked() {
    let first = [1, 2, 1, 0, 1, 0, 1, 0, 0, 1, 4, 0, 0, 2, 2, 4, 0, 0, 0];
    let second = [1, 2, 1, 1, 0, 0, 1, 0, 0, 4, 7, 0, 0, 2, 4, 8, 0, 0, 0];
    let text = listed(plain(0, 0), &first, &second).unwrap();
    let lines: Vec<&str> = text.lines().collect();
    assert_eq!(lines[0], "side both");
    assert_eq!(
        lines[2..6],
        ["t 1 7 0 0", "t 1 8 0 0", "t 2 7 0 0", "t 2 8 0 0"]
    );
}

#[test]
fn sigma_beside_an_explicit_label() {
    let second = [1, 2, 1, 1, 0, 0, 1, 1, 0, 3, 6, 0, 0, 2, 9, 7, 0, 0, 0];
    let first = |output| [1, 1, 1, 0, 0, 0, 1, 1, 0, 1, output, 0, 0, 0];
    let settings = [0, 0, MAX, 0, 9, 0];
    let allowing = |output, allowed: Option<&[u32]>| {
        let mut inputs = inputs(settings, &first(output), &second);
        inputs.allowed2 = allowed.map(<[u32]>::to_vec);
        listing(opened(inputs)).unwrap()
    };
    let start = "side input\ns 0 0 0 0 0\n";
    let both = format!("{start}t 1 6 0 0\nt 1 7 0 0\nend 1 2\n");
    let own = format!("{start}t 1 6 0 0\nend 1 1\n");
    let sigma = format!("{start}t 1 7 0 0\nend 1 1\n");
    let none = format!("{start}end 1 0\n");
    for (allowed, of_3, of_4) in [
        (None, &both, &sigma),
        (Some(&[][..]), &own, &none),
        (Some(&[8, 4]), &own, &sigma),
        (Some(&[3]), &both, &none),
    ] {
        assert_eq!(allowing(3, allowed), *of_3, "{allowed:?}");
        assert_eq!(allowing(4, allowed), *of_4, "{allowed:?}");
    }
}

#[test]
fn every_refusal() {
    let refused =
        |settings, first: &[u32], second: &[u32]| listed(settings, first, second).unwrap_err();
    let falling = [1, 2, 1, 0, 0, 0, 1, 0, 0, 2, 2, 0, 0, 2, 1, 1, 0, 0, 0];
    assert_eq!(refused(plain(2, 0), &FIRST, &SECOND), 1);
    assert_eq!(refused(plain(0, FILTERS.len() as u32), &FIRST, &SECOND), 1);
    assert_eq!(refused(plain(0, MAX), &FIRST, &SECOND), 1);
    assert_eq!(refused(plain(0, 0), &FIRST[..24], &SECOND), 2);
    assert_eq!(refused(plain(0, 0), &FIRST, &[]), 3);
    assert_eq!(refused([0, 0, 0, 0, MAX, 0], &FIRST, &SECOND), 4);
    assert_eq!(refused([0, 0, 9, 0, MAX, 0], &falling, &SECOND), 5);
    assert_eq!(refused([0, 0, MAX, 0, 9, 0], &FIRST, &falling), 6);
    assert_eq!(refused(plain(0, 0), &falling, &falling), 7);
    let mut open = opened(inputs(plain(0, 0), &FIRST, &SECOND)).unwrap();
    assert_eq!(World::expand(&mut open, 1), Err(9));
    assert_eq!(World::final_weight(&open, 1), Err(9));
    let sigma1 = [1, 1, 1, 0, 1, 0, 1, 1, 0, 1, 9, 0, 0, 0];
    let sigma2 = [1, 1, 1, 1, 0, 0, 1, 1, 0, 9, 1, 0, 0, 0];
    assert_eq!(refused([0, 0, 9, 0, 9, 0], &sigma1, &sigma2), 10);
    assert_eq!(refused([0, 0, MAX, 0, 9, 0], &sigma1, &sigma2), 11);
}

#[test]
fn a_session_of_other_machines_is_refused() {
    let mut fixed = Fixed::open(
        inputs(plain(0, 0), &FIRST, &SECOND),
        Room {
            heads: 1,
            states: 9,
            trs: 9,
        },
    )
    .unwrap();
    fixed.run().unwrap();
    fixed.inputs.first = weighing(1).to_vec();
    assert_eq!(fixed.run(), Err(8));
    assert!(fixed.trs(0).is_empty());
}

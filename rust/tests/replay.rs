//! The replay vectors: cases of ours with the answers of the Rust or, where a label has own and sigma matches, of the
//! model in `tests/`, `crates/replay`.
//!
//! Each case is seven lines (`-` for a listing or the states to expand; settings; two allowed lists; ignored labels; two
//! machines), each answer ends in a line `--`. Where labels are ignored the Rust was asked with machines in which they are
//! replaced. In the last case the input ends; its answer is ours. They are run by plain calls in the room that the answers
//! have, and again by the composition that owns its memory, from no room on: what is answered must be the same.

mod common;

use common::{listing, number, ordered, Fixed, World, LEAST};
use rinkolza::{Composition, Inputs, Room};
use std::fs;
use std::path::Path;

const ROOM: Room = Room {
    heads: 64,
    states: 1024,
    trs: 1024,
};

#[test]
fn fixed_room() {
    replay(|inputs| Fixed::open(inputs, ROOM));
}

#[test]
fn growing_room() {
    replay(|inputs| Composition::open_words(inputs, LEAST, ROOM).map_err(number));
}

/// The lines of a case.
const LINES: usize = 7;

/// The cases that `tests/ours.txt` numbers, counted from 1, have a sigma label: without one each answer is the Rust's.
#[test]
fn ours_have_sigma() {
    let (cases, ours) = (file("crates/replay/stdin"), file("tests/ours.txt"));
    let lines: Vec<&str> = cases.lines().collect();
    let numbers = ours.lines().skip(1).flat_map(str::split_whitespace);
    let numbers: Vec<usize> = numbers.map(|word| word.parse().unwrap()).collect();
    assert!(numbers.len() > 200 && numbers.windows(2).all(|pair| pair[0] < pair[1]));
    for number in numbers {
        let settings = words(lines[LINES * (number - 1) + 1]).expect("settings");
        assert!(
            [2, 4].into_iter().any(|label| settings[label] != u32::MAX),
            "{number}"
        );
    }
}

/// A file of the repository.
fn file(name: &str) -> String {
    let root = Path::new(env!("CARGO_MANIFEST_DIR")).join("..");
    fs::read_to_string(root.join(name)).expect(name)
}

fn replay<W: World>(open: impl Fn(Inputs) -> Result<W, u32>) {
    let (cases, answers) = (file("crates/replay/stdin"), file("crates/replay/stdout"));
    let lines: Vec<&str> = cases.lines().collect();
    let answers: Vec<&str> = answers.split_terminator("--\n").collect();
    assert_eq!(
        lines.len().div_ceil(LINES),
        answers.len(),
        "an answer a case"
    );
    let mut ignoring = 0;
    for (place, (case, answer)) in lines.chunks(LINES).zip(answers).enumerate() {
        let case = whole(case);
        let given = answer_to(&case, &open);
        assert_eq!(given, answer, "case {place}:\n{}", case.join("\n"));
        ignoring += usize::from(!case[4].is_empty());
    }
    assert!(ignoring > 100, "{ignoring}");
}

/// A case in which the input ends has empty lines for those that it lacks.
fn whole<'a>(case: &[&'a str]) -> [&'a str; LINES] {
    std::array::from_fn(|line| case.get(line).copied().unwrap_or(""))
}

fn answer_to<W: World>(case: &[&str], open: impl Fn(Inputs) -> Result<W, u32>) -> String {
    let Some(inputs) = inputs(case) else {
        return "refused 1\n".to_string();
    };
    let world = open(inputs);
    let answer = match case[0] {
        "-" => listing(world),
        order => ordered(world, &words(order).expect("state numbers")),
    };
    answer.unwrap_or_else(|refused| format!("refused {refused}\n"))
}

/// The inputs of a case; none where the settings are not six words. A machine that is not words counts as none.
fn inputs(case: &[&str]) -> Option<Inputs> {
    let allowed = |line: &str| (line != "-").then(|| words(line).expect("an allowed list"));
    let machine = |line: &str| {
        words(line)
            .filter(|words| words.len() <= 4096)
            .unwrap_or_default()
    };
    Some(Inputs {
        first: machine(case[5]),
        second: machine(case[6]),
        settings: words(case[1])?.try_into().ok()?,
        allowed1: allowed(case[2]),
        allowed2: allowed(case[3]),
        ignored: words(case[4]).expect("ignored labels"),
    })
}

fn words(line: &str) -> Option<Vec<u32>> {
    line.split_whitespace()
        .map(|word| word.parse().ok())
        .collect()
}

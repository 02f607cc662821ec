//! Glyph rules composed with spacing rules, from Rust: `cargo run --example kerning`.

use rinkolza::{compose, text, Error, Filter, Format, Kind, Machine, Options, Tr};

/// Labels: A, V and the mark for a tight pair.
const A: u32 = 1;
const V: u32 = 2;
const TIGHT: u32 = 9;

fn main() -> Result<(), Error> {
    // A word: A V.
    let word = Machine::from_lists(
        Some(0),
        &[(0, Tr::new(A, A, 0, 1)), (1, Tr::new(V, V, 0, 2))],
        &[(2, 0)],
    )?;
    // Between A and V the mark may be set; leaving it out costs 5.
    let rules = [
        (0, Tr::new(A, A, 0, 1)),
        (1, Tr::new(0, TIGHT, 0, 2)),
        (1, Tr::new(V, V, 5, 0)),
        (2, Tr::new(V, V, 0, 0)),
    ];
    let spacing = Machine::from_lists(Some(0), &rules, &[(0, 0)])?;

    let options = Options::new().with_filter(Filter::Sequence);
    let composed = compose(&word, &spacing, &options)?;
    print!("{}", text::write(&composed, &Format::default())?);
    // It has no cycle, so its readings come to an end: with the mark, and without it for 5.
    for reading in composed.readings(Kind::Cost) {
        println!("{:?} for {:?}", reading.output(), reading.weight());
    }
    Ok(())
}

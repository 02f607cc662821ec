//! The example of README: glyph rules and spacing rules that lose no word.

use rinkolza::{compose, text, Format, Kind, Machine, Options, Reading, SymbolTable};
use std::collections::HashSet;
use std::fs;
use std::path::Path;

fn example(name: &str) -> String {
    let path = Path::new(env!("CARGO_MANIFEST_DIR"))
        .join("examples")
        .join(name);
    fs::read_to_string(path).expect("an example")
}

struct Example {
    table: SymbolTable,
    glyphs: Machine,
    composed: Machine,
}

fn foundry() -> Example {
    let table = SymbolTable::parse(&example("labels.syms"), "labels.syms").unwrap();
    let format = Format::new().with_symbols(&table);
    let glyphs = text::read(&example("glyphs.txt"), "glyphs.txt", &format).unwrap();
    let spacing = text::read(&example("spacing.txt"), "spacing.txt", &format).unwrap();
    let composed = compose(&glyphs, &spacing, &Options::default()).unwrap();
    Example {
        table,
        glyphs,
        composed,
    }
}

/// What the readings of so many transitions at most read and write, with the label left out of what is written.
fn said(machine: &Machine, longest: usize, without: u32) -> HashSet<(Vec<u32>, Vec<u32>)> {
    let short = |reading: &Reading| reading.trs.len() <= longest;
    let readings = machine.readings(Kind::Cost).take_while(short);
    readings
        .map(|reading| {
            let mut output = reading.output();
            output.retain(|&label| label != without);
            (reading.input(), output)
        })
        .collect()
}

#[test]
fn no_word_is_lost() {
    let Example {
        table,
        glyphs,
        composed,
    } = foundry();
    let tight = table.number("tight").unwrap();
    let before = said(&glyphs, 4, tight);
    let after = said(&composed, 6, tight);
    assert!(before.len() > 500, "{}", before.len());
    let lost: Vec<_> = before.difference(&after).collect();
    assert!(lost.is_empty(), "{lost:?}");
}

#[test]
fn the_mark_stands_between_a_and_v() {
    let Example {
        table, composed, ..
    } = foundry();
    let word = |names: &str| -> Vec<u32> {
        let labels = names.split_whitespace();
        labels.map(|name| table.number(name).unwrap()).collect()
    };
    let written = |input: &str| -> Vec<(Vec<u32>, u64)> {
        let readings = composed.readings(Kind::Cost);
        readings
            .take_while(|reading| reading.trs.len() <= 4)
            .filter(|reading| reading.input() == word(input))
            .map(|reading| (reading.output(), reading.weight().unwrap()))
            .collect()
    };
    let both = [(word("A V"), 5), (word("A tight V"), 0)];
    assert_eq!(written("A V"), both);
    assert_eq!(written("A f"), [(word("A f"), 1)]);
    let ligature = [(word("A f_i"), 0), (word("A f i"), 1)];
    let mut found = written("A f i");
    found.sort_by_key(|reading| reading.1);
    assert_eq!(found, ligature);
}

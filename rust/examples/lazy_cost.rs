//! What it costs to expand states one by one, beside a whole run: `cargo run --release --example lazy_cost`.
//!
//! A drawn lattice of glyphs (two or three alternatives at each place) is composed with drawn spacing rules of 20 states,
//! both with epsilons. Each time is the best of several, from the opened composition on, in memory that grows.

use rinkolza::{Composition, Error, Machine, Options, Tr};
use std::time::{Duration, Instant};

const GLYPHS: u32 = 40;
const RULES: u32 = 20;
/// Places of the lattice: for some 1,000, 5,000 and 20,000 composed states.
const PLACES: [u32; 3] = [57, 276, 1110];
const ROUNDS: usize = 15;

/// Numbers that look random, the same at every run.
struct Draw(u64);

impl Draw {
    fn below(&mut self, limit: u32) -> u32 {
        self.0 = self
            .0
            .wrapping_mul(6364136223846793005)
            .wrapping_add(1442695040888963407);
        ((self.0 >> 33) % u64::from(limit)) as u32
    }
}

/// So many places; at each two glyphs, and at every fifth one more, which is not handed on.
fn lattice(draw: &mut Draw, places: u32) -> Result<Machine, Error> {
    let mut trs = Vec::new();
    for place in 0..places {
        for _ in 0..2 {
            let glyph = 1 + draw.below(GLYPHS);
            trs.push((place, Tr::new(glyph, glyph, draw.below(9), place + 1)));
        }
        if place % 5 == 0 {
            trs.push((place, Tr::new(1 + draw.below(GLYPHS), 0, 1, place + 1)));
        }
    }
    Machine::from_lists(Some(0), &trs, &[(places, 0)])
}

/// Rules that read every glyph in every state, and in some put in a mark of their own.
fn rules(draw: &mut Draw) -> Result<Machine, Error> {
    let mut trs = Vec::new();
    for state in 0..RULES {
        for glyph in 1..=GLYPHS {
            let target = draw.below(RULES);
            trs.push((state, Tr::new(glyph, glyph, draw.below(9), target)));
        }
        if state % 4 == 0 {
            trs.push((state, Tr::new(0, 99, 1, draw.below(RULES))));
        }
    }
    let last: Vec<(u32, u32)> = (0..RULES).map(|state| (state, 0)).collect();
    Machine::from_lists(Some(0), &trs, &last)
}

/// The best of several times of what is done with a fresh composition.
fn best(
    open: &Composition,
    work: impl Fn(&mut Composition) -> Result<(), Error>,
) -> Result<Duration, Error> {
    let mut best = Duration::MAX;
    for _ in 0..ROUNDS {
        let mut composition = open.clone();
        let begun = Instant::now();
        work(&mut composition)?;
        best = best.min(begun.elapsed());
    }
    Ok(best)
}

fn one_by_one(composition: &mut Composition) -> Result<(), Error> {
    let mut n = 0;
    while n < composition.found() {
        composition.expand(n)?;
        n += 1;
    }
    Ok(())
}

fn milliseconds(time: Duration) -> f64 {
    time.as_secs_f64() * 1000.0
}

fn main() -> Result<(), Error> {
    println!("| states | transitions | a run | one by one | |");
    println!("|---|---|---|---|---|");
    for places in PLACES {
        let mut draw = Draw(1);
        let (second, first) = (rules(&mut draw)?, lattice(&mut draw, places)?);
        let open = Composition::open(&first, &second, &Options::default())?;
        let whole = best(&open, Composition::run)?;
        let single = best(&open, one_by_one)?;
        let mut done = open.clone();
        done.run()?;
        println!(
            "| {} | {} | {:.1} ms | {:.1} ms | {:.2} times |",
            done.found(),
            done.tr_count(),
            milliseconds(whole),
            milliseconds(single),
            single.as_secs_f64() / whole.as_secs_f64()
        );
    }
    Ok(())
}

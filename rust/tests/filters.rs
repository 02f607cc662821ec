//! What sets the last three filters apart, and what all six have in common.

mod common;

use common::choice::{inputs, records_of, INNER};
use common::{listing, number, Draw, World, EXACT, FILTERS};
use rinkolza::{Composition, Inputs, Options};

/// The composition of the inputs by the filter of this number.
fn opened(inputs: &Inputs, filter: usize) -> Result<Composition, u32> {
    let mut inputs = inputs.clone();
    inputs.settings[1] = filter as u32;
    let Options { room, most, .. } = Options::new();
    Composition::open_words(inputs, room, most).map_err(number)
}

/// They remember nothing: the filter's state stays 0.
#[test]
fn the_last_three_have_one_state() {
    let mut draw = Draw(127);
    let mut others = [0; FILTERS.len()];
    for _ in 0..300 {
        let drawn = inputs(&mut draw, 5, 5);
        for (filter, others) in others.iter_mut().enumerate() {
            let mut composition = opened(&drawn, filter).unwrap();
            World::run(&mut composition).unwrap();
            let states = composition.states();
            *others += states
                .filter(|&n| World::triple(&composition, n).2 != 0)
                .count();
        }
    }
    println!("states with another filter state than 0, by filter: {others:?}");
    assert!(others[..EXACT].iter().all(|&count| count > 50));
    assert!(others[EXACT..].iter().all(|&count| count == 0));
}

/// Where no inner label is an epsilon there is nothing to choose.
#[test]
fn without_inner_epsilons_all_list_the_same() {
    let mut draw = Draw(131);
    let mut trs = 0;
    for _ in 0..300 {
        let mut drawn = inputs(&mut draw, 5, 5);
        for (machine, inner) in [&mut drawn.first, &mut drawn.second].into_iter().zip(INNER) {
            records_of(machine).for_each(|record| record[inner] = record[inner].max(1));
        }
        let lists = FILTERS.map(|filter| listing(opened(&drawn, filter as usize)).unwrap());
        assert!(lists.iter().all(|list| *list == lists[0]), "{drawn:?}");
        trs += lists[0].matches("\nt ").count();
    }
    assert!(trs > 1000, "{trs}");
}

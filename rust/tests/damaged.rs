//! Damaged input: drawn words as machines, settings, sessions and memory. Every call is answered, by 0 or a refusal's number, and a refused one changes nothing.

mod common;

use common::{Draw, Fixed, Seen, World};
use rinkolza::sys::{self, Memory, Session};
use rinkolza::{words, Inputs, Refusal, Room};

/// Makes a call on what is there, which may be anything.
fn one_call(draw: &mut Draw, damaged: &mut Fixed, seen: &mut Seen) {
    let n = draw.word();
    let (session, memory) = (damaged.session, damaged.memory.clone());
    let lent = damaged.inputs.lent();
    let call = draw.below(5);
    let number = match call {
        0 => sys::open(
            &damaged.inputs.settings,
            &lent,
            &mut damaged.session,
            &mut damaged.memory,
        ),
        1 => sys::expand(&lent, &mut damaged.session, &mut damaged.memory, n)
            .err()
            .unwrap_or(0),
        2 => sys::final_weight(&lent, &damaged.session, &damaged.memory, n)
            .err()
            .unwrap_or(0),
        3 => sys::run(&lent, &mut damaged.session, &mut damaged.memory),
        _ => {
            let part = sys::records(&lent, &damaged.session, &damaged.memory, n);
            assert!(
                part.len().is_multiple_of(sys::TR_WORDS) && part.len() <= damaged.memory.trs.len()
            );
            0
        }
    };
    seen[number as usize] += 1;
    let keeps = call == 3 && (10..=13).contains(&number);
    if number != 0 && !keeps {
        assert!(
            session == damaged.session && memory == damaged.memory,
            "refused {number}"
        );
    }
}

#[test]
fn drawn_words() {
    let mut draw = Draw(5);
    let mut seen = Seen::default();
    for _ in 0..20_000 {
        let listed = |draw: &mut Draw| draw.one_in(2).then(|| draw.words(4));
        let mut drawn = Fixed {
            inputs: Inputs {
                first: draw.words(40),
                second: draw.words(40),
                settings: std::array::from_fn(|_| draw.word()),
                allowed1: listed(&mut draw),
                allowed2: listed(&mut draw),
                ignored: draw.words(4),
            },
            session: Session(std::array::from_fn(|_| draw.word())),
            memory: Memory {
                heads: draw.words(6),
                states: draw.words(30),
                trs: draw.words(30),
            },
        };
        let _ = words::decode(&drawn.inputs.first);
        for _ in 0..3 {
            one_call(&mut draw, &mut drawn, &mut seen);
        }
    }
    assert!(seen[1] > 0, "{seen:?}");
}

#[test]
fn one_word_changed() {
    let mut draw = Draw(6);
    let mut seen = Seen::default();
    for _ in 0..60_000 {
        let mut inputs = draw.inputs(4, 4);
        inputs.ignored = draw.ignored();
        let room = Room {
            heads: draw.below(6) as usize,
            states: draw.below(12) as usize,
            trs: draw.below(24) as usize,
        };
        let Ok(mut opened) = Fixed::open(inputs, room) else {
            continue;
        };
        match draw.below(3) {
            0 => drop(opened.run()),
            1 => drop(opened.expand(0)),
            _ => {}
        }
        for _ in 0..1 + draw.below(2) {
            damage(&mut draw, &mut opened);
        }
        for _ in 0..3 {
            one_call(&mut draw, &mut opened, &mut seen);
        }
    }
    let numbers = (0..seen.len() as u32).filter(|&n| n == 0 || Refusal::from_number(n).is_some());
    for number in numbers {
        assert!(seen[number as usize] > 0, "{number} of {seen:?}");
    }
}

/// Changes a word somewhere.
fn damage(draw: &mut Draw, opened: &mut Fixed) {
    let words: &mut [u32] = match draw.below(8) {
        0 => &mut opened.inputs.first,
        1 => &mut opened.inputs.second,
        2 => &mut opened.inputs.settings,
        3 => &mut opened.session.0,
        4 => &mut opened.memory.heads,
        5 => &mut opened.memory.states,
        6 => &mut opened.inputs.ignored,
        _ => &mut opened.memory.trs,
    };
    if words.is_empty() {
        return;
    }
    let place = draw.below(words.len() as u32) as usize;
    words[place] = match draw.below(4) {
        0 => words[place].wrapping_add(1),
        1 => words[place].wrapping_sub(1),
        2 => 1 << 31,
        _ => draw.word(),
    };
}

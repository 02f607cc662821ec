//! Memory that is lengthened yields the same answers: drawn lists of calls on a composition that begins without room and grows on every 13, and on one in room that suffices.

mod common;

use common::{grid, number, Draw, Fixed, World, LARGE, LEAST};
use rinkolza::sys::{Memory, Owned, Piece};
use rinkolza::{Composition, Error, Machine, Options, Room, Tr};

/// Heads enough, and records that suffice for an opening.
const FEW: Room = Room {
    heads: 16384,
    states: 1,
    trs: 1,
};

#[test]
fn drawn_lists_of_calls() {
    let mut draw = Draw(13);
    let (mut grew, mut refused) = (0, 0);
    for _ in 0..400 {
        let inputs = draw.inputs(6, 6);
        let small = Composition::open_words(inputs.clone(), LEAST, Room::LARGEST).map_err(number);
        let large = Composition::open_words(inputs, LARGE, LARGE).map_err(number);
        match (small, large) {
            (Ok(small), Ok(large)) => grew += calls(&mut draw, small, large),
            (small, large) => {
                assert_eq!(small.err(), large.err());
                refused += 1;
            }
        }
    }
    assert!(
        grew > 300 && refused < 200,
        "{grew} growths, {refused} refused openings"
    );
}

fn calls(draw: &mut Draw, mut small: Composition, mut large: Composition) -> u32 {
    for _ in 0..1 + draw.below(24) {
        let n = draw.below(large.found() + 2);
        match draw.below(12) {
            0 => assert_eq!(World::run(&mut small), World::run(&mut large)),
            1 | 2 => assert_eq!(
                World::final_weight(&small, n),
                World::final_weight(&large, n)
            ),
            3 => assert_eq!(small.step(n), large.step(n)),
            _ => assert_eq!(World::expand(&mut small, n), World::expand(&mut large, n)),
        }
        same(&small, &large);
    }
    small.growths()
}

fn same(small: &Composition, large: &Composition) {
    assert_eq!(small.progress(), large.progress());
    for n in 0..large.found() {
        assert_eq!(small.triple(n), large.triple(n));
        assert_eq!(small.is_expanded(n), large.is_expanded(n));
        assert!(small.trs(n).eq(large.trs(n)));
        assert!(large.is_expanded(n) || large.trs(n).len() == 0);
    }
    assert_eq!(small.machine(), large.machine());
}

/// Makes a call, and on 13 again with some records more, until there is another answer.
fn insist<T>(
    draw: &mut Draw,
    small: &mut Owned,
    grew: &mut u32,
    mut call: impl FnMut(&mut Owned) -> (Option<u32>, T),
) -> T {
    loop {
        let (refused, answer) = call(small);
        if refused != Some(13) {
            return answer;
        }
        let room = small.memory().room();
        let (states, trs) = match draw.below(3) {
            0 => (1, 0),
            1 => (0, 1),
            _ => (draw.below(4) as usize, draw.below(9) as usize),
        };
        small
            .lengthen(room.states + states, room.trs + trs)
            .unwrap();
        *grew += 1;
    }
}

/// A piece that goes on where it was refused for lack of room.
fn piece_insisting(draw: &mut Draw, small: &mut Owned, grew: &mut u32, n: u32, k: u32) -> Piece {
    let mut next = n;
    insist(draw, small, grew, |small| {
        let piece = small.run_from(next, k - (next - n));
        next = piece.next;
        (piece.refused, piece)
    })
}

#[test]
fn drawn_lists_of_pieces() {
    let mut draw = Draw(17);
    let (mut grew, mut refused) = (0, 0);
    for _ in 0..400 {
        let mut inputs = draw.inputs(6, 6);
        draw.make_heavy(&mut inputs.second);
        let small = Room { heads: 3, ..FEW };
        let Ok(mut large) = Owned::open(inputs.clone(), LARGE) else {
            continue;
        };
        let mut small = Owned::open(inputs, small).unwrap();
        for _ in 0..1 + draw.below(12) {
            let n = draw.below(large.session().used_states() + 2);
            match draw.below(3) {
                0 => {
                    let expanded = insist(&mut draw, &mut small, &mut grew, |small| {
                        let answer = small.expand(n);
                        (answer.err(), answer)
                    });
                    assert_eq!(expanded, large.expand(n));
                }
                drawn => {
                    let k = if drawn == 1 { draw.below(9) } else { u32::MAX };
                    let piece = piece_insisting(&mut draw, &mut small, &mut grew, n, k);
                    assert_eq!(piece, large.run_from(n, k));
                    refused += u32::from(piece.refused.is_some());
                }
            }
            same_owned(&small, &large);
        }
    }
    assert!(
        grew > 1000 && refused > 100,
        "{grew} growths, {refused} refused pieces"
    );
}

fn same_owned(small: &Owned, large: &Owned) {
    assert_eq!(small.session(), large.session());
    assert_eq!(small.final_weights(), large.final_weights());
    for n in 0..large.session().used_states() {
        assert_eq!(small.records(n), large.records(n));
        assert_eq!(small.final_weight(n), large.final_weight(n));
        // All but the next of the chain, which is by the heads.
        let record = |owned: &Owned| owned.memory().state(n).unwrap()[..5].to_vec();
        assert_eq!(record(small), record(large));
    }
}

/// Expands state n by calls that check; on 13 any words are put behind the records, and the call is made again.
fn expand_lengthening(
    draw: &mut Draw,
    fixed: &mut Fixed,
    grew: &mut u32,
    n: u32,
) -> Result<Vec<Tr>, u32> {
    loop {
        let expanded = fixed.expand(n);
        if expanded != Err(13) {
            return expanded;
        }
        let (states, trs) = (draw.words(12), draw.words(12));
        fixed.memory.states.extend(states);
        fixed.memory.trs.extend(trs);
        *grew += 1;
    }
}

#[test]
fn calls_that_check_go_on_too() {
    let mut draw = Draw(31);
    let mut grew = 0;
    for _ in 0..400 {
        let inputs = draw.inputs(6, 6);
        let room = |count| Room {
            heads: 3,
            states: count,
            trs: count,
        };
        let Ok(mut large) = Fixed::open(inputs.clone(), room(2000)) else {
            continue;
        };
        let mut small = Fixed::open(inputs, room(1)).unwrap();
        for _ in 0..1 + draw.below(12) {
            let n = draw.below(large.found() + 2);
            let expanded = expand_lengthening(&mut draw, &mut small, &mut grew, n);
            assert_eq!(expanded, large.expand(n));
            assert_eq!(small.session, large.session);
            assert_eq!(small.final_weight(n), large.final_weight(n));
            assert_eq!(small.trs(n), large.trs(n));
        }
    }
    assert!(grew > 1000, "{grew}");
}

#[test]
fn heads_stay_as_opened() {
    let mut composition = Composition::open_words(grid(40), FEW, Room::LARGEST).unwrap();
    assert_eq!((composition.room(), composition.growths()), (FEW, 0));
    composition.run().unwrap();
    assert!(composition.growths() > 0);
    assert_eq!(composition.room().heads, FEW.heads);
}

#[test]
fn heads_by_the_machines() {
    let heads = |room: Room, most: Room| {
        let opened = Composition::open_words(grid(2000), room, most);
        opened.map(|opened| opened.room().heads).map_err(number)
    };
    let chosen = Options::default().room;
    // 2000 + 31 × 2000.
    assert_eq!(heads(chosen, Room::LARGEST), Ok(64_000));
    assert_eq!(heads(FEW, Room::LARGEST), Ok(FEW.heads));
    assert_eq!(heads(Room { heads: 7, ..FEW }, LEAST), Ok(7));
    assert_eq!(heads(chosen, Room { heads: 9, ..LARGE }), Ok(9));
    assert_eq!(heads(chosen, Room { heads: 0, ..LARGE }), Err(13));
    assert_eq!(heads(chosen, Room { states: 0, ..LARGE }), Err(13));
    // What is no machine asks for no memory.
    let mut broken = grid(9);
    broken.first[0] = u32::MAX;
    let refused = Composition::open_words(broken, chosen, Room::LARGEST);
    assert_eq!(refused.map_err(number).err(), Some(2));
}

/// A chain of so many states, each with this many transitions to the next, beside one state that takes them all.
fn ladder(states: u32, width: u32) -> (Machine, Machine) {
    let rungs = (1..states)
        .flat_map(|target| (0..width).map(move |_| (target - 1, Tr::new(1, 1, 0, target))));
    let rungs: Vec<(u32, Tr)> = rungs.collect();
    let first = Machine::from_lists(Some(0), &rungs, &[]).unwrap();
    let second = Machine::from_lists(Some(0), &[(0, Tr::new(1, 1, 0, 0))], &[]).unwrap();
    (first, second)
}

/// Room of a sort is doubled where it may be used up, and that of the other sort stays; so the copies together are no longer
/// than the last one twice. A wide state gets room for its two lists at once.
#[test]
fn what_is_lacking_grows() {
    let room = Room {
        heads: 0,
        states: 1024,
        trs: 4096,
    };
    let options = Options::new().with_room(room);
    let run = |states, width| {
        let (first, second) = ladder(states, width);
        let mut composition = Composition::open(&first, &second, &options).unwrap();
        composition.run().unwrap();
        assert_eq!(composition.tr_count(), width * (states - 1));
        let room = composition.room();
        (room.states, room.trs, composition.growths())
    };
    assert_eq!(run(30_000, 1), (32_768, 32_768, 5));
    assert_eq!(run(1000, 40), (1024, 65_536, 4));
    // One state with more transitions than there is room for: its targets might all be new.
    assert_eq!(run(2, 20_000), (20_002, 20_001, 1));
}

/// A state that takes any of many glyphs, beside one that leads with each to a state of its own: in little room it is
/// refused once, and in that which suits the machines never.
#[test]
fn a_wide_state_is_refused_once() {
    let glyphs = 1..=2000;
    let loops: Vec<_> = glyphs.clone().map(|g| (0, Tr::new(g, g, 0, 0))).collect();
    let fan: Vec<_> = glyphs.map(|g| (0, Tr::new(g, g, 0, g))).collect();
    let first = Machine::from_lists(Some(0), &loops, &[]).unwrap();
    let second = Machine::from_lists(Some(0), &fan, &[]).unwrap();
    for (room, growths) in [(LEAST, 1), (Options::new().room, 0)] {
        let options = Options::new().with_room(room);
        let mut composition = Composition::open(&first, &second, &options).unwrap();
        assert_eq!(composition.expand(0).unwrap().len(), 2000);
        assert_eq!(
            (composition.found(), composition.growths()),
            (2001, growths)
        );
    }
}

/// Where one sort may not grow, the other does not either, beyond what a state could use of it.
#[test]
fn no_more_of_one_sort_than_can_be_used() {
    let (first, second) = ladder(100, 1);
    for (states, trs) in [(10, LARGE.trs), (LARGE.states, 10)] {
        let most = Room {
            states,
            trs,
            ..Room::LARGEST
        };
        let options = Options::new().with_room(LEAST).with_most(most);
        let mut composition = Composition::open(&first, &second, &options).unwrap();
        assert_eq!(World::run(&mut composition), Err(13));
        let room = composition.room();
        assert_eq!(room.states.min(room.trs), 10);
        assert!(room.states.max(room.trs) < 32, "{room:?}");
    }
}

/// Room of a sort that was named above the most stays while the other grows.
#[test]
fn named_room_above_the_most_stays() {
    let (first, second) = ladder(100, 1);
    let room = |states, trs| Room {
        states,
        trs,
        ..LEAST
    };
    let options = Options::new().with_room(room(40, 37));
    let options = options.with_most(room(1, LARGE.trs));
    let mut composition = Composition::open(&first, &second, &options).unwrap();
    assert_eq!(World::run(&mut composition), Err(13));
    assert_eq!(
        (composition.room(), composition.found()),
        (room(40, 74), 40)
    );
}

#[test]
fn the_most_room_is_the_end() {
    let most = Room {
        heads: FEW.heads,
        ..LARGE
    };
    let mut composition = Composition::open_words(grid(300), FEW, most).unwrap();
    let refused = World::run(&mut composition);
    assert_eq!(refused, Err(13));
    assert_eq!(composition.room(), most);
    assert!(composition.found() > 30_000, "{}", composition.found());
    // Asked again it answers the same, and what was found stays.
    let (found, trs) = (composition.found(), composition.tr_count());
    assert_eq!(World::run(&mut composition), Err(13));
    assert_eq!(composition.step(1).map_err(number), Err(13));
    assert_eq!((composition.found(), composition.tr_count()), (found, trs));
    let list: Vec<_> = composition.trs(0).collect();
    assert!(composition.expand(0).unwrap().eq(list));
}

#[test]
fn steps_find_what_a_run_finds() {
    let mut stepped = Composition::open_words(grid(30), LEAST, Room::LARGEST).unwrap();
    let mut run = stepped.clone();
    run.run().unwrap();
    assert_eq!(run.progress().expanded, run.found());
    let mut shown = Vec::new();
    stepped
        .run_with(100, |progress| shown.push(progress))
        .unwrap();
    assert_eq!(stepped.machine().unwrap(), run.machine().unwrap());
    assert_eq!(shown.len() as u32, stepped.found().div_ceil(100));
    assert!(shown
        .windows(2)
        .all(|pair| pair[0].expanded < pair[1].expanded));
    assert_eq!(shown.last().unwrap().expanded, stepped.found());
}

/// A step of so many states is so many expansions, each of the lowest state that is not expanded, however many states
/// between them are expanded already.
#[test]
fn steps_count_what_they_expand() {
    let mut draw = Draw(19);
    for _ in 0..200 {
        let mut stepped = Composition::open_words(grid(12), FEW, Room::LARGEST).unwrap();
        for _ in 0..draw.below(40) {
            let n = draw.below(stepped.found());
            stepped.expand(n).unwrap();
        }
        let mut single = stepped.clone();
        let count = draw.below(60);
        for _ in 0..count {
            let n = single.progress().expanded;
            if n < single.found() {
                single.expand(n).unwrap();
            }
        }
        assert_eq!(stepped.step(count).unwrap(), single.progress());
        same(&stepped, &single);
    }
}

#[test]
fn too_much_room_is_cut_down() {
    let huge = Room {
        heads: usize::MAX,
        states: usize::MAX,
        trs: usize::MAX,
    };
    let many = Room {
        heads: usize::MAX,
        ..FEW
    };
    let mut composition = Composition::open_words(grid(300), many, huge).unwrap();
    composition.run().unwrap();
    assert_eq!(composition.found(), 90_000);
    let room = composition.room();
    assert_eq!(room.heads, Room::LARGEST.heads);
    assert!(room.states < 200_000 && room.trs < 600_000, "{room:?}");
}

fn is_for_want_of_memory(error: Error) -> bool {
    let said = error.to_string().starts_with("there is no memory for ");
    matches!(error, Error::Memory { .. }) && said
}

#[test]
fn memory_that_is_not_to_be_had_is_an_error() {
    for room in [
        Room {
            heads: usize::MAX,
            ..LEAST
        },
        Room {
            states: usize::MAX / 6,
            ..LEAST
        },
        Room {
            trs: usize::MAX / 2,
            ..LEAST
        },
    ] {
        assert!(is_for_want_of_memory(Memory::new(room).unwrap_err()));
    }
}

#[test]
fn what_cannot_be_lengthened_stays() {
    let mut owned = Owned::open(grid(5), FEW).unwrap();
    assert_eq!(owned.run_from(0, u32::MAX).refused, Some(13));
    let before = owned.clone();
    for (states, trs) in [(usize::MAX, 9), (9, usize::MAX / 8), (usize::MAX / 6, 9)] {
        assert!(is_for_want_of_memory(
            owned.lengthen(states, trs).unwrap_err()
        ));
        assert_eq!(owned, before);
    }
    owned.lengthen(0, 1).unwrap();
    assert_eq!(owned, before);
    owned.lengthen(99, 99).unwrap();
    assert_eq!(owned.run_from(0, u32::MAX).refused, None);
}

//! Expansions and runs in room that just suffices, and in room that does not by one record.
//!
//! What to expect is worked out in `common/moves.rs` from the moves of a state. These are the list of the same state of the
//! same machines with weights that cannot be too large, and that name the records of which a move is made.

mod common;

use common::choice::{put_weight, MAX};
use common::moves::{named, Step};
use common::wide::{alone, crowded, wide, with_sigma};
use common::{keeps_alone, keeps_both, Draw, Fixed, World, FILTERS};
use rinkolza::sys::{self, Memory, Owned, Session, STATE_WORDS, TR_WORDS};
use rinkolza::{Inputs, Room};
use std::collections::{BTreeMap, BTreeSet};

/// The sorts of cases that are counted in every test, beside the moves on epsilons of each filter.
const SORTS: [&str; 10] = [
    "12, and 13 behind it",
    "13, and 12 behind it",
    "13",
    "costs",
    "counts",
    "again, rising",
    "again, falling",
    "found before",
    "sigma",
    "own and sigma",
];

/// How often each sort of case was met; one that never was is there too.
struct Seen(BTreeMap<String, u32>);

/// The sorts for the moves on epsilons: of one machine alone, and of both at once.
fn on_epsilons(filter: u32) -> [String; 2] {
    ["alone", "both"].map(|moved| format!("{moved}, filter {filter}"))
}

impl Seen {
    /// None met, of the usual sorts and these. Of a filter there are the moves that it keeps.
    fn none(more: &[&str]) -> Seen {
        let sorts = SORTS.iter().chain(more).map(|sort| sort.to_string());
        let kept = (0..FILTERS.len() as u32).flat_map(|filter| {
            let [alone, both] = on_epsilons(filter);
            let alone = keeps_alone(filter).then_some(alone);
            alone.into_iter().chain(keeps_both(filter).then_some(both))
        });
        Seen(sorts.chain(kept).map(|sort| (sort, 0)).collect())
    }

    /// Counts what is met, which must be one of the sorts.
    fn count(&mut self, what: &str, met: bool) {
        if met {
            *self.0.get_mut(what).expect(what) += 1;
        }
    }

    fn all(&self, least: u32) {
        println!("{:?}", self.0);
        assert!(self.0.values().all(|&count| count >= least), "{:?}", self.0);
    }
}

/// Whether session, heads and all used records are these.
fn same(session: &Session, memory: &Memory, after: &Fixed) -> bool {
    let states = STATE_WORDS * session.used_states() as usize;
    let trs = TR_WORDS * session.used_trs() as usize;
    *session == after.session
        && memory.heads == after.memory.heads
        && memory.states[..states] == after.memory.states[..states]
        && memory.trs[..trs] == after.memory.trs[..trs]
}

/// A composition in plenty of room, the same with weights that name records, and again in room for what is used alone.
struct Case {
    ample: Fixed,
    named: Fixed,
    exact: Owned,
}

impl Case {
    /// None where the opening is refused.
    fn open(inputs: Inputs, ample: Room) -> Option<Case> {
        let least = Room {
            states: 1,
            trs: 0,
            ..ample
        };
        Some(Case {
            named: Fixed::open(named(&inputs), ample).ok()?,
            ample: Fixed::open(inputs.clone(), ample).ok()?,
            exact: Owned::open(inputs, least).ok()?,
        })
    }

    /// The expansion in this room, with checks, without, and as a piece of a run.
    fn in_room(&self, step: &Step, after: &Fixed, room: (usize, usize)) {
        let (n, answer) = (step.n, step.answer(room));
        let case = || format!("{n} in {room:?} of {:?}", after.inputs);
        let mut cut = self.ample.clone();
        cut.memory.states.truncate(STATE_WORDS * room.0);
        cut.memory.trs.truncate(TR_WORDS * room.1);
        let before = cut.clone();
        let lent = before.inputs.lent();
        let checked = sys::expand(&lent, &mut cut.session, &mut cut.memory, n);
        assert_eq!(checked, answer, "{}", case());
        let mut single = self.exact.clone();
        single.lengthen(room.0, room.1).unwrap();
        let mut run = single.clone();
        let kept = single.clone();
        assert_eq!(single.expand(n), answer, "{}", case());
        let piece = run.run_from(n, 1);
        assert_eq!(piece.refused, answer.err(), "{}", case());
        assert_eq!(piece.next, n + u32::from(answer.is_ok()), "{}", case());
        let stays = match answer {
            Ok(_) => {
                same(&cut.session, &cut.memory, after)
                    && same(single.session(), single.memory(), after)
            }
            Err(_) => cut == before && single == kept,
        };
        assert!(stays && run == single, "{}", case());
    }

    /// Expands state n in plenty of room and in rooms chosen by what it needs; goes on with it where it is accepted.
    fn step(&mut self, seen: &mut Seen, n: u32, rooms: impl FnOnce(&Step) -> Rooms) {
        let (mut named, mut after) = (self.named.clone(), self.ample.clone());
        let Ok(trs) = named.expand(n) else {
            // By sigma: 10 or 11.
            assert!(after.expand(n).is_err());
            return;
        };
        let step = Step::of(&self.ample, n, trs);
        let enough = step.needs();
        let stored = after.expand(n);
        assert_eq!(stored.clone().err(), step.refusal(enough));
        let rooms = rooms(&step);
        for &room in &rooms {
            self.in_room(&step, &after, room);
        }
        count(seen, &self.ample.inputs, &step, &rooms);
        if let Ok(stored) = stored {
            let mut moves = step.moves.iter().zip(stored);
            assert!(
                moves.all(|(kept, tr)| (kept.target, kept.weight) == (tr.target, Some(tr.weight)))
            );
            self.exact.lengthen(enough.0, enough.1).unwrap();
            self.exact.expand(n).unwrap();
            (self.named, self.ample) = (named, after);
        }
    }
}

/// Rooms, in state records and transition records.
type Rooms = Vec<(usize, usize)>;

/// Just enough room, one record less of each sort, and a room drawn between what is used and what is needed.
fn rooms_about(draw: &mut Draw, step: &Step) -> Rooms {
    let (states, trs) = step.needs();
    let mut between =
        |used: usize, needs: usize| used + draw.below((needs - used) as u32 + 1) as usize;
    let mut rooms = vec![
        (states, trs),
        (between(step.found, states), between(step.stored, trs)),
        (between(step.found, states), trs),
    ];
    if states > step.found {
        rooms.push((states - 1, trs));
    }
    if trs > step.stored {
        rooms.push((states, trs - 1));
    }
    rooms
}

fn count(seen: &mut Seen, inputs: &Inputs, step: &Step, rooms: &[(usize, usize)]) {
    let enough = step.needs();
    let mut lacking = rooms.to_vec();
    lacking.retain(|&(states, trs)| states < enough.0 || trs < enough.1);
    let refused = |number| {
        lacking
            .iter()
            .any(|&room| step.refusal(room) == Some(number))
    };
    if step.refusal(enough) == Some(12) {
        seen.count("12, and 13 behind it", refused(12));
        seen.count("13, and 12 behind it", refused(13));
        return;
    }
    let [kind, filter, ..] = inputs.settings;
    let mut met = BTreeSet::new();
    let mut again: Vec<u32> = step.moves.iter().map(|kept| kept.target).collect();
    let before = again.iter().any(|&target| target < step.found as u32);
    again.retain(|&target| !met.insert(target));
    let mut pairs = again.windows(2);
    let alone = step.moves.iter().any(|kept| kept.made_of.contains(&0));
    let both = step.moves.iter().any(|kept| kept.is_by_epsilons(inputs));
    let sigma = step.moves.iter().any(|kept| kept.is_by_sigma(inputs));
    let sorts = on_epsilons(filter);
    seen.count("13", refused(13));
    seen.count("costs", kind == 0 && refused(13));
    seen.count("counts", kind == 1 && refused(13));
    seen.count(&sorts[0], alone);
    seen.count(&sorts[1], both);
    seen.count("again, rising", pairs.clone().any(|pair| pair[0] < pair[1]));
    seen.count("again, falling", pairs.any(|pair| pair[0] > pair[1]));
    seen.count("found before", before);
    seen.count("sigma", sigma);
    seen.count("own and sigma", step.has_own_before_sigma(inputs));
}

#[test]
fn short_lists() {
    let (mut draw, mut seen) = (Draw(97), Seen::none(&[]));
    for _ in 0..1500 {
        let mut inputs = draw.inputs(6, 6);
        draw.make_heavy_one_in(3, &mut inputs);
        let ample = Room {
            heads: 1 + draw.below(20) as usize,
            states: 120,
            trs: 400,
        };
        let Some(mut case) = Case::open(inputs, ample) else {
            continue;
        };
        for _ in 0..8 {
            let n = draw.below(case.ample.found());
            if case.ample.memory.state(n).unwrap()[3] == 0 {
                case.step(&mut seen, n, |step| rooms_about(&mut draw, step));
            }
        }
    }
    seen.all(50);
}

const PLENTY: Room = Room {
    heads: 4096,
    states: 20_000,
    trs: 40_000,
};

#[test]
fn long_lists_and_many_targets() {
    let mut draw = Draw(101);
    let mut seen = Seen::none(&["over 2048 new", "over 4096 new"]);
    for _ in 0..210 {
        let mut inputs = wide(&mut draw);
        match draw.below(4) {
            0 => put_weight(&mut draw, &mut inputs.first, MAX - 1),
            1 => put_weight(&mut draw, &mut inputs.second, MAX - 1),
            _ => false,
        };
        let mut case = Case::open(inputs, PLENTY).unwrap();
        for n in 0..3 {
            let found = case.ample.found();
            if n < found {
                case.step(&mut seen, n, |step| rooms_about(&mut draw, step));
                seen.count("over 2048 new", case.ample.found() - found > 2048);
                seen.count("over 4096 new", case.ample.found() - found > 4096);
            }
        }
    }
    seen.all(5);
}

/// Plenty for the expansion of state 0 alone.
const FOR_ONE: Room = Room {
    heads: 4096,
    states: 7_000,
    trs: 10_000,
};

/// Just enough room for state 0, one record less of each sort, half of the state records, and half as many more.
fn rooms_by_halves(step: &Step) -> Rooms {
    let (states, trs) = step.needs();
    let half = states / 2;
    vec![
        (states, trs),
        (states - 1, trs),
        (states, trs - 1),
        (1 + half, trs),
        (states + half, trs),
    ]
}

/// In tight room the library takes new targets into a set of 2048, and where they are more, goes class by class of a
/// hash, a class for each 1536 moves or records that are left; where a sigma label is set it weighs the moves one by one,
/// in windows of 2048 new targets. As many, one less and one more, each once or with some again.
#[test]
fn about_sets_classes_and_windows() {
    let mut seen = Seen::none(&[]);
    let borders = [1536, 2048, 2 * 1536, 4096, 3 * 1536];
    for count in borders.iter().flat_map(|&border| border - 1..=border + 1) {
        let all = 1..=count;
        let cases = [
            alone(all.clone()),
            alone(all.clone().chain(1..3)),
            alone((1..3).chain(all.clone().rev())),
            alone(all.clone().chain(all.rev())),
        ];
        for inputs in cases.iter().flat_map(|own| [own.clone(), with_sigma(own)]) {
            let mut case = Case::open(inputs, FOR_ONE).unwrap();
            case.step(&mut seen, 0, rooms_by_halves);
            assert_eq!(case.ample.found(), 1 + count);
        }
    }
    assert_eq!(seen.0["13"], 15 * 8);
}

/// A class of more than 2048 new targets tells nothing, unless those that were taken are too many already: the moves are
/// weighed one by one, also where there is room enough.
#[test]
fn crowded_classes() {
    let mut seen = Seen::none(&[]);
    let cases: [&[usize]; 8] = [
        &[2048, 100],
        &[2049, 100],
        &[2100, 100],
        &[100, 2048],
        &[100, 2049],
        &[100, 2100],
        &[2100, 600, 500],
        &[500, 600, 2100],
    ];
    for counts in cases {
        let new: usize = counts.iter().sum();
        assert_eq!(new / 1536 + 1, counts.len());
        let rooms = |step: &Step| {
            let mut rooms = rooms_by_halves(step);
            // 2100 of a class are 52 more than are taken.
            rooms.extend([52, 53].map(|less| (1 + new - less, new)));
            rooms
        };
        let mut case = Case::open(crowded(counts), FOR_ONE).unwrap();
        case.step(&mut seen, 0, rooms);
        assert_eq!(case.ample.found() as usize, 1 + new);
    }
    assert_eq!(seen.0["13"], 8);
}

/// The room that is needed by the expansions in number order up to each; none where one is refused.
fn needs(inputs: &Inputs) -> Option<Vec<(usize, usize)>> {
    let mut ample = Owned::open(inputs.clone(), PLENTY).ok()?;
    let mut needs = Vec::new();
    while needs.len() < ample.session().used_states() as usize {
        ample.expand(needs.len() as u32).ok()?;
        let session = ample.session();
        needs.push((session.used_states() as usize, session.used_trs() as usize));
    }
    Some(needs)
}

/// A run in this room ends where an expansion lacks a record, and leaves what the expansions before leave; whether it
/// comes to the end.
fn run_in_room(inputs: &Inputs, needs: &[(usize, usize)], (states, trs): (usize, usize)) -> bool {
    let room = Room {
        states,
        trs,
        ..PLENTY
    };
    let fits = |needed: &&(usize, usize)| needed.0 <= states && needed.1 <= trs;
    let end = needs.iter().take_while(fits).count() as u32;
    let refused = ((end as usize) < needs.len()).then_some(13);
    let mut single = Owned::open(inputs.clone(), room).unwrap();
    let mut run = single.clone();
    let mut checked = Fixed::open(inputs.clone(), room).unwrap();
    (0..end).for_each(|n| assert!(single.expand(n).is_ok()));
    let piece = run.run_from(0, MAX);
    assert_eq!(
        (piece.refused, piece.next),
        (refused, end),
        "{room:?} of {inputs:?}"
    );
    assert_eq!(checked.run().err(), refused, "{room:?} of {inputs:?}");
    let same = run == single && same(run.session(), run.memory(), &checked);
    assert!(same, "{room:?} of {inputs:?}");
    refused.is_none()
}

#[test]
fn whole_runs() {
    let (mut draw, mut ran) = (Draw(103), 0);
    for round in 0..200 {
        let inputs = match round % 10 {
            0 => wide(&mut draw),
            _ => draw.inputs(6, 6),
        };
        let Some(needs) = needs(&inputs) else {
            continue;
        };
        let (states, trs) = needs[needs.len() - 1];
        assert!(run_in_room(&inputs, &needs, (states, trs)));
        assert!(states == 1 || !run_in_room(&inputs, &needs, (states - 1, trs)));
        assert!(trs == 0 || !run_in_room(&inputs, &needs, (states, trs - 1)));
        ran += u32::from(states > 1);
    }
    assert!(ran > 60, "{ran}");
}

//! Machines in and out: what is sorted before a composition, and the composed machine against the calls, state by state.

mod common;

use common::{number, Draw, Fixed, World, LARGE};
use rinkolza::{
    text, words, By, Composition, Format, Kind, Machine, Options, Refusal, Sigma, Sort,
};

fn read(lines: &str) -> Machine {
    text::read(lines, "m", &Format::default()).unwrap()
}

#[test]
fn the_machine_is_what_the_calls_say() {
    let mut draw = Draw(21);
    let mut finals = 0;
    for _ in 0..400 {
        let inputs = draw.inputs(6, 5);
        let options = Options::default();
        let Ok(mut composition) =
            Composition::open_words(inputs.clone(), options.room, options.most)
        else {
            continue;
        };
        let mut fixed = Fixed::open(inputs, LARGE).unwrap();
        assert_eq!(composition.run().map_err(number), fixed.run());
        let Ok(machine) = composition.machine() else {
            assert!((0..fixed.found()).any(|n| fixed.final_weight(n) == Err(12)));
            continue;
        };
        assert_eq!(machine.state_count() as u32, fixed.found());
        for n in 0..fixed.found() {
            assert_eq!(Ok(machine.final_weight(n)), fixed.final_weight(n));
            assert_eq!(machine.trs(n), fixed.trs(n));
        }
        finals += machine.final_count();
    }
    assert!(finals > 200, "{finals}");
}

#[test]
fn a_composed_machine_can_be_composed_again() {
    let mut draw = Draw(22);
    for _ in 0..100 {
        let first = words::decode(&draw.machine(None, 4, 4)).unwrap();
        let second = words::decode(&draw.machine(None, 4, 4)).unwrap();
        let mut composition = Composition::open(&first, &second, &Options::default()).unwrap();
        composition.run().unwrap();
        let machine = composition.machine().unwrap();
        let mut again = Composition::open(&machine, &second, &Options::default()).unwrap();
        again.run().unwrap();
        assert_eq!(
            words::decode(&words::encode(&machine, words::Marks::True)).unwrap(),
            machine
        );
    }
}

#[test]
fn sorted_where_needed() {
    let (first, second) = (read("0 0 1 3\n0 0 2 1\n0\n"), read("0 0 3 1\n0 0 1 2\n0\n"));
    let composed = |sort| {
        let options = Options::new().with_sort(sort);
        let mut composition = Composition::open(&first, &second, &options)?;
        composition.run()?;
        text::write(&composition.machine()?, &Format::default())
    };
    assert_eq!(
        composed(Sort::WhereNeeded).unwrap(),
        "0\t0\t2\t2\n0\t0\t1\t1\n0\n"
    );
    assert_eq!(composed(Sort::Both), composed(Sort::WhereNeeded));
    assert_eq!(
        composed(Sort::Never).unwrap_err().refusal(),
        Some(Refusal::NoSide)
    );
}

#[test]
fn what_can_stay_stays() {
    let unsorted = read("0 0 1 3\n0 0 2 1\n0\n");
    let sorted = read("0 0 1 1\n0 0 3 3\n0\n");
    let plain = Options::default();
    assert_eq!(
        rinkolza::to_sort(&unsorted, &sorted, &plain),
        (false, false)
    );
    let sigma = plain.with_sigma1(Sigma::new(9));
    assert_eq!(rinkolza::to_sort(&unsorted, &sorted, &sigma), (true, false));
    let mut copy = unsorted.clone();
    copy.sort(By::Output);
    assert!(copy.is_sorted(By::Output) && !unsorted.is_sorted(By::Output));
}

#[test]
fn a_final_weight_of_zero_is_read_as_not_final() {
    assert_eq!(read("0 Infinity\n").final_weight(0), None);
    assert_eq!(read("0 0 1 1 Infinity\n0\n").trs(0)[0].weight, u32::MAX);
    let counts = Format::new().with_kind(Kind::Count);
    let machine = text::read("0 0\n1\n2 3\n", "m", &counts).unwrap();
    assert_eq!(
        [0, 1, 2].map(|state| machine.final_weight(state)),
        [None, Some(1), Some(3)]
    );
}

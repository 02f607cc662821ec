//! Texts there and back, and texts that are none.

mod common;

use common::Draw;
use rinkolza::{dot, text, words, Format, Kind, SymbolTable};

#[test]
fn what_is_written_is_read_again() {
    let mut draw = Draw(31);
    for _ in 0..500 {
        let mut machine = words::decode(&draw.machine(None, 8, 5)).unwrap();
        let start = draw.below(machine.state_count() as u32);
        machine.set_start(Some(start)).unwrap();
        let mut format = Format::new();
        format.keep_numbers = true;
        format.show_one = draw.one_in(2);
        let lines = text::write(&machine, &format).unwrap();
        assert_eq!(text::read(&lines, "m", &format).unwrap(), machine);
    }
}

#[test]
fn numbers_in_order_of_mention_stay() {
    let mut draw = Draw(32);
    let format = Format::new().with_kind(Kind::Count);
    for _ in 0..500 {
        let machine = words::decode(&draw.machine(None, 8, 5)).unwrap();
        let once = text::read(&text::write(&machine, &format).unwrap(), "m", &format).unwrap();
        assert_eq!(once.tr_count(), machine.tr_count());
        assert_eq!(once.start(), Some(0));
        assert_eq!(once.trs(0).len(), machine.trs(0).len());
    }
}

/// Pieces of lines, whole and broken.
const PIECES: [&str; 22] = [
    "0",
    "1",
    "2",
    "16777215",
    "4294967294",
    "4294967295",
    "99999999999999999999",
    "-1",
    "0.5",
    "1e3",
    "1e999999999999",
    "Infinity",
    "inf",
    "x",
    "<eps>",
    "é",
    "\t",
    " ",
    " ",
    "\n",
    "\n",
    "\r\n",
];

#[test]
fn any_text_is_answered() {
    let mut draw = Draw(33);
    let table = SymbolTable::parse("<eps> 0\nx 1\n", "t").unwrap();
    let mut read = 0;
    for _ in 0..20_000 {
        let lines: String = (0..draw.below(24))
            .map(|_| PIECES[draw.below(PIECES.len() as u32) as usize])
            .collect();
        let symbols = draw.one_in(3).then_some(&table);
        let mut format = Format::new();
        if draw.one_in(2) {
            format.kind = Kind::Count;
        }
        format.acceptor = draw.one_in(2);
        format.keep_numbers = draw.one_in(2);
        format.isymbols = symbols;
        format.osymbols = symbols;
        let _ = SymbolTable::parse(&lines, "t");
        if let Ok(machine) = text::read(&lines, "m", &format) {
            read += 1;
            assert!(text::write(&machine, &format).is_ok());
            assert!(dot::draw(&machine, &format).is_ok());
        }
    }
    assert!(read > 1000, "{read}");
}

#[test]
fn any_bytes_are_answered() {
    let mut draw = Draw(34);
    for _ in 0..5000 {
        let bytes: Vec<u8> = (0..draw.below(40)).map(|_| draw.next() as u8).collect();
        if let Ok(lines) = text::utf8(&bytes, "m") {
            let _ = text::read(lines, "m", &Format::default());
        }
    }
}

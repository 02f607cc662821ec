//! The declarations in `src/sys.rs`, the refusals' numbers and the filters', held to the library's header.

mod common;

use common::FILTERS;
use rinkolza::{sys, Options, Refusal, LARGEST_COUNT};
use std::fs;
use std::path::Path;

const CALLS: [&str; 11] = [
    "rinkolza_open",
    "rinkolza_expand",
    "rinkolza_final_weight",
    "rinkolza_run",
    "rinkolza_records",
    "rinkolza_fan_out",
    "rinkolza_trusted_expand",
    "rinkolza_trusted_final_weight",
    "rinkolza_trusted_records",
    "rinkolza_trusted_final_weights",
    "rinkolza_trusted_run",
];

fn header() -> String {
    let path = Path::new(env!("CARGO_MANIFEST_DIR")).join("../include/rinkolza.h");
    fs::read_to_string(path).expect("include/rinkolza.h")
}

/// What stands between the parentheses of a declaration, and what stands before and after it up to the line's ends.
fn declaration<'a>(text: &'a str, before: &str, name: &str) -> (&'a str, &'a str, &'a str) {
    let sought = format!("{before}{name}(");
    let at = text
        .find(&sought)
        .unwrap_or_else(|| panic!("{name} is declared"));
    let start = at + sought.len();
    let end = start + text[start..].find(')').expect("a closing parenthesis");
    let line = text[..at + before.len()]
        .rfind('\n')
        .map_or(0, |place| place + 1);
    let rest = end + 1 + text[end + 1..].find(';').expect("a semicolon");
    (
        &text[line..at + before.len()],
        &text[start..end],
        &text[end + 1..rest],
    )
}

/// A parameter of C as Rust writes it.
fn in_rust(parameter: &str) -> String {
    let words: Vec<&str> = parameter.split_whitespace().collect();
    match words[..] {
        ["const", "uint32_t", name] => format!("{}: *const u32", name.trim_start_matches('*')),
        ["uint32_t", name] if name.starts_with('*') => format!("{}: *mut u32", &name[1..]),
        ["uint32_t", name] => format!("{name}: u32"),
        ["size_t", name] => format!("{name}: usize"),
        _ => panic!("a parameter of another form: {parameter}"),
    }
}

#[test]
fn the_calls_are_declared_as_in_the_header() {
    let header = header();
    let own = include_str!("../src/sys.rs");
    assert_eq!(header.matches(");\n").count(), CALLS.len());
    assert_eq!(own.matches("\n    fn rinkolza_").count(), CALLS.len());
    for name in CALLS {
        let (returned, parameters, _) = declaration(&header, " ", name);
        let theirs: Vec<String> = parameters.split(',').map(in_rust).collect();
        let (_, parameters, result) = declaration(own, "fn ", name);
        let ours: Vec<&str> = parameters
            .split(',')
            .map(str::trim)
            .filter(|parameter| !parameter.is_empty())
            .collect();
        assert_eq!(ours, theirs, "{name}");
        let expected = match returned.trim() {
            "uint32_t" => "-> u32",
            "void" => "",
            other => panic!("{name} returns {other}"),
        };
        assert_eq!(result.trim(), expected, "{name}");
    }
}

#[test]
fn the_refusals_are_numbered_as_in_the_header() {
    let header = header();
    let mut numbers: Vec<u32> = header
        .lines()
        .filter_map(|line| line.strip_prefix("#define RINKOLZA_REFUSED_"))
        .filter_map(|line| {
            line.split("UINT32_C(")
                .nth(1)?
                .trim_end_matches(')')
                .parse()
                .ok()
        })
        .collect();
    numbers.sort_unstable();
    let known: Vec<u32> = (0..100)
        .filter_map(Refusal::from_number)
        .map(Refusal::number)
        .collect();
    assert_eq!(numbers, known);
}

/// A name of Rust as C writes it: `NoMatch` is `NO_MATCH`.
fn in_c(name: &str) -> String {
    let mut written = String::new();
    for letter in name.chars() {
        if letter.is_uppercase() && !written.is_empty() {
            written.push('_');
        }
        written.push(letter.to_ascii_uppercase());
    }
    written
}

/// All of them, by name and in the order of their numbers.
#[test]
fn the_filters_are_named_and_numbered_as_in_the_header() {
    let header = header();
    let begin = header.find("/* Settings, word 1.").expect("the filters");
    let part = header[begin..].split("\n\n").next().unwrap();
    let names = part.lines().filter_map(|line| {
        let rest = line.strip_prefix("#define RINKOLZA_")?;
        rest.split(' ').next()
    });
    let theirs: Vec<(usize, &str)> = names.map(|name| (defined(&header, name), name)).collect();
    let own = FILTERS.map(|filter| {
        let number = Options::new().with_filter(filter).words()[1];
        (number as usize, in_c(&format!("{filter:?}")))
    });
    let ours: Vec<(usize, &str)> = own.iter().map(|(k, name)| (*k, name.as_str())).collect();
    assert_eq!(theirs, ours);
    assert!((0..FILTERS.len()).eq(ours.iter().map(|filter| filter.0)));
}

/// What the header defines a name as, a number.
fn defined(header: &str, name: &str) -> usize {
    let sought = format!("#define RINKOLZA_{name} ");
    let line = header.lines().find_map(|line| line.strip_prefix(&sought));
    let value = line.unwrap_or_else(|| panic!("{name} is defined"));
    let digits = value.trim_start_matches("UINT32_C(").trim_end_matches(')');
    digits.parse().expect("a number")
}

#[test]
fn the_limit_and_the_records_are_as_in_the_header() {
    let header = header();
    assert_eq!(defined(&header, "LIMIT"), LARGEST_COUNT);
    assert_eq!(defined(&header, "STATE_WORDS"), sys::STATE_WORDS);
    assert_eq!(defined(&header, "TR_WORDS"), sys::TR_WORDS);
    let memo = format!("MEMO_WORDS: usize = {};", defined(&header, "MEMO_WORDS"));
    assert!(include_str!("../src/sys.rs").contains(&memo));
    let room = format!(
        "states_len / {} and trs_len / {}",
        sys::STATE_WORDS,
        sys::TR_WORDS
    );
    assert!(header.contains(&room));
}

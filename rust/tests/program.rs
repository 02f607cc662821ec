//! The program as people call it.

mod common;

use common::{Draw, FILTERS};
use rinkolza::{compose, text, words, By, Filter, Format, Inputs, Machine, Options, Sigma, Which};
use std::collections::BTreeSet;
use std::io::Write;
use std::path::{Path, PathBuf};
use std::process::{Command, Output, Stdio};

fn example(name: &str) -> String {
    let path: PathBuf = [env!("CARGO_MANIFEST_DIR"), "examples", name]
        .iter()
        .collect();
    path.display().to_string()
}

fn call(words: &[&str], stdin: &str) -> Output {
    let mut child = Command::new(env!("CARGO_BIN_EXE_rinkolza"))
        .args(words)
        .stdin(Stdio::piped())
        .stdout(Stdio::piped())
        .stderr(Stdio::piped())
        .spawn()
        .expect("the program starts");
    // A program that has not read its input to the end may be gone by now.
    let _ = child.stdin.take().unwrap().write_all(stdin.as_bytes());
    child.wait_with_output().expect("the program ends")
}

fn said(output: &Output) -> (i32, &str, &str) {
    (
        output.status.code().expect("an exit status"),
        std::str::from_utf8(&output.stdout).unwrap(),
        std::str::from_utf8(&output.stderr).unwrap(),
    )
}

/// The exit status and what is said on standard error.
fn complaint(words: &[&str], stdin: &str) -> (i32, String) {
    let output = call(words, stdin);
    let (status, text, error) = said(&output);
    assert_eq!(text, "");
    (status, error.to_string())
}

fn foundry(more: &[&str]) -> Output {
    let (symbols, glyphs, spacing) = (
        example("labels.syms"),
        example("glyphs.txt"),
        example("spacing.txt"),
    );
    let mut words = vec!["compose", "--symbols", &symbols];
    words.extend(more);
    words.extend([glyphs.as_str(), spacing.as_str()]);
    call(&words, "")
}

#[test]
fn composes_the_examples() {
    let output = foundry(&[]);
    let (status, text, _) = said(&output);
    assert_eq!(status, 0);
    assert!(text.starts_with("0\t1\tA\tA\n"), "{text}");
    assert!(text.contains("\t<eps>\ttight\n"), "{text}");
    let counts = foundry(&["--to=counts"]);
    let lines = said(&counts).1;
    assert!(
        lines.starts_with("states ") && lines.contains("\nside input\n"),
        "{lines}"
    );
    let progress = foundry(&["--progress"]);
    assert_eq!(said(&progress).1, text);
    assert!(said(&progress).2.contains("states found are expanded"));
}

/// Machines that the six compose to six others; each name gives what the crate gives by its filter.
#[test]
fn filters_by_their_names() {
    let texts = [
        "0 1 1 0 1\n1 2 2 5 2\n2\n",
        "0 1 0 7 4\n1 2 5 8 1\n2 3 0 9\n3 3\n",
    ];
    let format = Format::default();
    let [first, second] = texts.map(|text| text::read(text, "m", &format).unwrap());
    let mut met = BTreeSet::new();
    for (name, filter) in [
        ("sequence", Filter::Sequence),
        ("alternate", Filter::Alternate),
        ("alt_sequence", Filter::Alternate),
        ("match", Filter::Match),
        ("null", Filter::Null),
        ("trivial", Filter::Trivial),
        ("no_match", Filter::NoMatch),
        ("no-match", Filter::NoMatch),
    ] {
        let machine = compose(&first, &second, &Options::new().with_filter(filter)).unwrap();
        let expected = text::write(&machine, &format).unwrap();
        let printed = composed_with(&["--filter", name], texts[0], texts[1], name);
        assert_eq!(printed, expected, "{name}");
        met.insert(printed);
    }
    assert_eq!(met.len(), FILTERS.len());
}

#[test]
fn names_of_no_filter() {
    for name in ["auto", "nomatch", "Null", ""] {
        let option = format!("--filter={name}");
        let (status, error) = complaint(&["compose", &option, "-", "a"], "");
        let names = "sequence, alternate, match, null, trivial, no_match, alt_sequence, no-match";
        let message = format!("rinkolza: --filter is one of {names}, not \"{name}\"");
        assert_eq!(status, 2);
        assert!(error.starts_with(&message), "{error}");
    }
}

/// The program with a standard error that cannot be written, and its exit status and standard output.
fn unheard(words: &[&str], stderr: Stdio) -> (Option<i32>, Vec<u8>) {
    let output = Command::new(env!("CARGO_BIN_EXE_rinkolza"))
        .args(words)
        .stdin(Stdio::null())
        .stderr(stderr)
        .output()
        .expect("the program ends");
    (output.status.code(), output.stdout)
}

/// Standard errors that cannot be written: a full device, and a pipe whose reader has gone.
fn deaf() -> [Stdio; 2] {
    let full = std::fs::OpenOptions::new().write(true).open("/dev/full");
    let mut reader = Command::new("true")
        .stdin(Stdio::piped())
        .spawn()
        .expect("true starts");
    let pipe = reader.stdin.take().unwrap();
    reader.wait().expect("true ends");
    [full.expect("/dev/full").into(), pipe.into()]
}

#[test]
fn a_message_that_nobody_hears_costs_no_result() {
    let (symbols, glyphs, spacing) = (
        example("labels.syms"),
        example("glyphs.txt"),
        example("spacing.txt"),
    );
    let words = ["compose", "--progress", "--symbols", &symbols, &glyphs];
    for stderr in deaf() {
        let (status, text) = unheard(&[&words[..], &[&spacing]].concat(), stderr);
        assert_eq!((status, text), (Some(0), foundry(&[]).stdout));
    }
    for stderr in deaf() {
        assert_eq!(unheard(&["juggle"], stderr), (Some(2), Vec::new()));
    }
    for stderr in deaf() {
        assert_eq!(
            unheard(&["print", "/no/such/file"], stderr),
            (Some(3), Vec::new())
        );
    }
}

#[test]
fn draws() {
    let picture = foundry(&["--to", "dot", "--triples"]);
    let (status, dot, _) = said(&picture);
    assert_eq!(status, 0);
    assert!(
        dot.starts_with("digraph FST {") && dot.contains("label = \"0,0,0\""),
        "{dot}"
    );
    let (symbols, glyphs) = (example("labels.syms"), example("glyphs.txt"));
    let one = call(&["draw", "--symbols", &symbols, &glyphs], "");
    assert!(said(&one).1.contains("1 -> 0 [label = \"i:f_i\"];"));
}

#[test]
fn standard_input_and_weights() {
    let output = call(&["print", "-"], "3 1 5 6 1e1\n1 2\n");
    assert_eq!(said(&output), (0, "0\t1\t5\t6\t10\n1\t2\n", ""));
    let counts = call(
        &["print", "--kind=count", "--show-weight-one", "-"],
        "3 1 5 6\n1 2\n",
    );
    assert_eq!(said(&counts), (0, "0\t1\t5\t6\t1\n1\t2\n", ""));
    let words = call(&["print", "--words", "-"], "0 0 5 5\n0 2\n");
    assert_eq!(said(&words), (0, "1 1 1 1 1 1 1 1 2 5 5 0 0 0\n", ""));
    let sorted = call(&["print", "--sort", "output", "-"], "0 0 5 5\n0 0 7 3\n");
    assert_eq!(said(&sorted).1, "0\t0\t7\t3\n0\t0\t5\t5\n");
}

#[test]
fn acceptors_and_inner_symbols() {
    let folder = std::env::temp_dir().join(format!("rinkolza-inner-{}", std::process::id()));
    std::fs::create_dir_all(&folder).unwrap();
    let (table, file) = (
        folder.join("t").display().to_string(),
        folder.join("m").display().to_string(),
    );
    std::fs::write(&table, "<eps> 0\nx 5\n").unwrap();
    std::fs::write(&file, "4 2 x 7\n2\n").unwrap();
    let one = call(
        &["compose", "--acceptor1", "--msymbols", &table, "-", &file],
        "0 1 x 3\n1\n",
    );
    assert_eq!(said(&one), (0, "0\t1\t5\t7\t3\n1\n", ""));
    let kept = call(
        &[
            "print",
            "--keep-state-numbering",
            "--isymbols",
            &table,
            &file,
        ],
        "",
    );
    assert_eq!(said(&kept).1.lines().next(), Some("4\t2\tx\t7"));
    let unnamed = call(
        &[
            "compose",
            "--symbols",
            &table,
            "--osymbols",
            &table,
            "-",
            &file,
        ],
        "0 1 x x\n1\n",
    );
    assert_eq!(said(&unnamed).0, 3);
    std::fs::remove_dir_all(&folder).unwrap();
}

#[test]
fn what_is_wrong_is_said_with_its_line() {
    let (status, error) = complaint(&["print", "-"], "0 1 5 6\n0 1 5 6 0.25\n");
    assert_eq!(status, 3);
    assert_eq!(
        error,
        "rinkolza: standard input:2: the weight \"0.25\" is not a whole number from 0 to 4294967294 or Infinity\n"
    );
    let (status, error) = complaint(&["print", "/no/such/file"], "");
    assert!(
        status == 3 && error.contains("/no/such/file cannot be read"),
        "{error}"
    );
    let (status, error) = complaint(
        &["print", "--symbols", &example("labels.syms"), "-"],
        "0 1 A Z\n",
    );
    assert!(
        status == 3 && error.contains("the output symbol \"Z\" is not in the symbol table"),
        "{error}"
    );
}

#[test]
fn wrong_calls() {
    let glyphs = example("glyphs.txt");
    for words in [
        &[][..],
        &["juggle"],
        &["print"],
        &["print", "--fast", "-"],
        &["print", "-x", "-"],
        &["print", "--filter=match", "-"],
        &["print", "--kind=money", "-"],
        &["print", "--numeric=yes", "-"],
        &["print", "--kind"],
        &["print", "--kind=cost", "--kind=cost", "-"],
        &["compose", "-"],
        &["compose", "-", "-"],
        &["print", "--symbols=-", "-"],
        &["compose", "--sigma1", "x", "-", "a"],
        &["compose", "--allowed1", "3", "-", "a"],
        &["compose", "--ignore", "3,x", "-", "a"],
        &["compose", "--ignore=4294967295", "-", "a"],
        &["print", "--ignore=3", "-"],
        &["draw", "--words", &glyphs],
    ] {
        let (status, error) = complaint(words, "");
        assert!(
            status == 2 && error.contains("--help"),
            "{words:?}: {error}"
        );
    }
    for words in [&["--help"][..], &["compose", "--help"], &["help"]] {
        assert!(said(&call(words, "")).1.starts_with("rinkolza: composes"));
    }
}

#[test]
fn wrong_calls_of_fan_out() {
    let glyphs = example("glyphs.txt");
    for words in [
        &["fan-out"][..],
        &["fan-out", "-", &glyphs],
        &["fan-out", "--by=both", "-"],
        &["fan-out", "--top=0", "-"],
        &["fan-out", "--top=-1", "-"],
        &["fan-out", "--top=ten", "-"],
        &["fan-out", "--sigma=x", "-"],
        &["fan-out", "--allowed=3", "-"],
        &["fan-out", "--ignore=x", "-"],
        &["fan-out", "--sort=input", "-"],
        &["fan-out", "--show-weight-one", "-"],
        &["print", "--top=3", "-"],
    ] {
        let (status, error) = complaint(words, "");
        assert!(
            status == 2 && error.contains("--help"),
            "{words:?}: {error}"
        );
    }
}

#[test]
fn refusals_in_words() {
    let folder = std::env::temp_dir().join(format!("rinkolza-program-{}", std::process::id()));
    std::fs::create_dir_all(&folder).unwrap();
    let file = folder.join("unsorted.txt").display().to_string();
    std::fs::write(&file, "0 0 2 2\n0 0 1 1\n0\n").unwrap();
    let text = "0 0 2 2\n0 0 1 1\n0\n";
    let (status, error) = complaint(&["compose", "--sort=never", &file, "-"], text);
    assert!(
        status == 1 && error.starts_with("rinkolza: refused 7: no side to match"),
        "{error}"
    );
    let sorted = call(&["compose", &file, "-"], text);
    let (status, composed, note) = said(&sorted);
    assert_eq!((status, composed), (0, "0\t0\t1\t1\n0\t0\t2\t2\n0\n"));
    assert!(
        note.contains("the first machine's transitions were sorted by output label"),
        "{note}"
    );
    std::fs::write(&file, "0 0 2 2 4000000000\n0\n").unwrap();
    let (status, error) = complaint(&["compose", &file, "-"], "0 0 2 2 1000000000\n0\n");
    assert!(
        status == 1 && error.starts_with("rinkolza: refused 12 at composed state 0: a weight"),
        "{error}"
    );
    assert!(
        error.contains("made of state 0 of the first machine"),
        "{error}"
    );
    std::fs::write(&file, "0 0 9 9\n0\n").unwrap();
    let (status, error) = complaint(&["compose", "--sigma2=0", &file, "-"], "0 0 9 9\n0\n");
    assert!(
        status == 1 && error.starts_with("rinkolza: refused 4: "),
        "{error}"
    );
    let (status, error) = complaint(&["compose", "--sigma2=9", &file, "-"], "0 0 9 9\n0\n");
    assert!(
        status == 1 && error.starts_with("rinkolza: refused 11 at composed state 0: "),
        "{error}"
    );
    std::fs::remove_dir_all(&folder).unwrap();
}

/// The letter 3 has a transition of its own, the letter 4 none; sigma is 7. What each becomes.
#[test]
fn sigma_by_its_options() {
    let letters = "0 0 3 3\n0 0 4 4\n0\n";
    let rules = "0 0 3 3 5\n0 0 7 7\n0\n";
    let both = ["3 3 5", "3 3", "4 4"];
    for (options, becomes) in [
        (&["--sigma2=7"][..], &both[..]),
        (&["--sigma2=7", "--rewrite2=each"], &both),
        (
            &["--sigma2=7", "--rewrite2=matched"],
            &["3 3 5", "3 7", "4 7"],
        ),
        (&["--sigma2=7", "--allowed2=3"], &["3 3 5", "3 3"]),
        (&["--sigma2=7", "--allowed2=4,9"], &["3 3 5", "4 4"]),
        (&["--sigma2=7", "--allowed2="], &["3 3 5"]),
        (&["--sigma1=7"], &both),
        (
            &["--sigma1=7", "--rewrite1=matched"],
            &["3 3 5", "7 3", "7 4"],
        ),
        (&["--sigma1=7", "--allowed1=4,9"], &["3 3 5", "4 4"]),
    ] {
        let mut machines = [letters, rules];
        machines.rotate_left(usize::from(options[0] == "--sigma1=7"));
        let composed = composed_with(options, machines[0], machines[1], "sigma");
        let lines = becomes.iter().map(|labels| format!("0 0 {labels}\n"));
        let expected = lines.collect::<String>() + "0\n";
        assert_eq!(composed.replace('\t', " "), expected, "{options:?}");
    }
}

/// A joiner, 6, in the letters and in the rules, where it stands for nothing.
#[test]
fn ignored_by_its_option() {
    let letters = "0 1 3 3\n1 2 6 6\n2 3 4 4\n3\n";
    let rules = "0 1 3 3 5\n1 2 4 4\n2 3 6 8\n3\n";
    for (options, becomes) in [
        (&[][..], "0 1 3 3 5\n1 Infinity\n"),
        (&["--ignore="], "0 1 3 3 5\n1 Infinity\n"),
        (&["--ignore=7,9"], "0 1 3 3 5\n1 Infinity\n"),
        (&["--ignore=6"], "0 1 3 3 5\n1 2 6 0\n2 3 4 4\n3 4 0 8\n4\n"),
        (
            &["--ignore=7,6,6"],
            "0 1 3 3 5\n1 2 6 0\n2 3 4 4\n3 4 0 8\n4\n",
        ),
    ] {
        let composed = composed_with(options, letters, rules, "ignored");
        assert_eq!(composed.replace('\t', " "), becomes, "{options:?}");
    }
    let (symbols, glyphs) = (example("labels.syms"), example("glyphs.txt"));
    let names = format!("--symbols={symbols}");
    for command in ["compose", "fan-out"] {
        // 18 before 4.
        let sigma = ["--sigma2=<eps>", "--sigma=<eps>"][usize::from(command == "fan-out")];
        let mut words = vec![command, "--ignore=A,<eps>", sigma, &names, &glyphs];
        words.extend((command == "compose").then_some(&*glyphs));
        let (status, error) = complaint(&words, "");
        assert!(
            status == 1 && error.contains("rinkolza: refused 18: a label to ignore is 0"),
            "{error}"
        );
    }
    let (status, error) = complaint(&["fan-out", "--ignore=0", "--sigma=0", "-"], "");
    assert!(status == 1 && error.starts_with("rinkolza: refused 18: "));
}

/// Where the first machine is sorted, the second's sigma is a label like others, and a note says so; else it is not.
#[test]
fn ignored_labels_and_sigma() {
    let rules = "0 0 9 9\n0\n";
    let folder = std::env::temp_dir().join(format!("rinkolza-silent-{}", std::process::id()));
    std::fs::create_dir_all(&folder).unwrap();
    let file = folder.join("rules").display().to_string();
    std::fs::write(&file, rules).unwrap();
    let (sorted, falls) = ("0 1 3 3\n1\n", "0 1 4 4\n0 1 3 3\n1\n");
    let all = "0 1 4 4\n0 1 3 3\n1\n";
    for (letters, options, composed, noted) in [
        (sorted, &["--sigma2=9"][..], "0 1 3 3\n1\n", false),
        (sorted, &["--sigma2=9", "--ignore="], "0 1 3 3\n1\n", false),
        (sorted, &["--sigma2=9", "--ignore=7"], "0 Infinity\n", true),
        (sorted, &["--ignore=7"], "0 Infinity\n", false),
        (falls, &["--sigma2=9", "--ignore=7"], all, false),
        (sorted, &["--sigma2=9", "--ignore=9"], "0 Infinity\n", true),
        (falls, &["--sigma2=9", "--ignore=9"], all, false),
        (falls, &["--sigma2=9", "--ignore=4"], "0 1 4 0\n1\n", true),
    ] {
        let words = [&["compose"], options, &["-", &file]].concat();
        let output = call(&words, letters);
        let (status, text, error) = said(&output);
        let note =
            "note: with --ignore the first machine, which is sorted, is the one that is looked up";
        assert_eq!(status, 0);
        assert_eq!(
            text.replace('\t', " "),
            composed,
            "{options:?} of {letters}"
        );
        assert_eq!(error.contains(note), noted, "{options:?}: {error}");
        let exempt = error.contains("note: --ignore names a sigma label");
        assert_eq!(exempt, options.contains(&"--ignore=9"), "{error}");
    }
    std::fs::remove_dir_all(&folder).unwrap();
}

/// What `fan-out` prints of a machine, below its heading and with spaces for tabs.
fn widest(options: &[&str], machine: &str) -> String {
    let output = call(&[&["fan-out"], options, &["-"]].concat(), machine);
    let (status, text, error) = said(&output);
    assert_eq!((status, error), (0, ""), "{options:?}");
    let rows = text.strip_prefix("state\tlabel\tmatches\n");
    rows.expect("a heading").replace('\t', " ")
}

/// Of the inputs, state 0 has 2 and 3 twice, state 1 an epsilon, state 2 the label 5 three times, and state 3 nothing.
#[test]
fn the_widest_look_ups() {
    let machine = "0 0 3 1\n0 1 2 1\n0 1 3 1\n0 2 2 8\n1 2 0 6\n\
                   2 3 5 6\n2 3 4 7\n2 0 5 7\n2 0 5 6\n3\n";
    for (options, rows) in [
        (&[][..], "2 5 3\n0 2 2\n1 0 2\n"),
        (&["--by=input", "--top=3"], "2 5 3\n0 2 2\n1 0 2\n"),
        (&["--top", "2"], "2 5 3\n0 2 2\n"),
        (&["--by=output"], "0 1 3\n2 6 2\n1 6 1\n"),
        (&["--by=output", "--top=1"], "0 1 3\n"),
        (&["--kind=count"], "2 5 3\n0 2 2\n1 0 2\n"),
        (&["--sigma=4"], "2 5 4\n0 2 2\n1 0 2\n"),
    ] {
        assert_eq!(widest(options, machine), rows, "{options:?}");
    }
    assert_eq!(widest(&[], ""), "");
    let lines: String = (0..12).map(|state| format!("{state} 0 1 1\n")).collect();
    assert_eq!(widest(&[], &lines).lines().count(), 10);
    assert_eq!(widest(&["--top=100"], &lines).lines().count(), 12);
    let kept = widest(&["--keep-state-numbering", "--acceptor"], "7 4 9\n7 4 9\n");
    assert_eq!(kept, "7 9 2\n");
}

/// State 0 has the letter 2 twice and sigma, 9; state 1 sigma alone, twice; state 2 an epsilon, the letter 5 and sigma.
#[test]
fn the_widest_look_ups_with_sigma() {
    let machine = "0 0 2 2\n0 0 2 3\n0 1 9 9\n1 1 9 9\n1 2 9 9\n2 2 0 1\n2 0 9 1\n2 0 5 1\n";
    for (options, rows) in [
        (&[][..], "0 2 2\n1 9 2\n2 0 2\n"),
        (&["--sigma=9"], "0 2 3\n1 other 2\n2 0 2\n"),
        (&["--sigma=9", "--allowed=5"], "0 2 2\n1 other 2\n2 0 2\n"),
        (&["--sigma=9", "--allowed=0,2"], "0 2 3\n1 other 2\n2 0 2\n"),
        (&["--sigma=9", "--allowed=0,9"], "0 2 2\n2 0 2\n"),
        (&["--sigma=9", "--allowed="], "0 2 2\n2 0 2\n"),
        (&["--by=output", "--sigma=9"], "2 1 3\n0 2 2\n1 other 2\n"),
    ] {
        assert_eq!(widest(options, machine), rows, "{options:?}");
    }
    let (status, error) = complaint(&["fan-out", "--sigma=0", "-"], machine);
    assert_eq!(status, 1);
    assert!(
        error.starts_with("rinkolza: refused 4: a sigma label is 0"),
        "{error}"
    );
}

/// State 0 has 2 twice and 3 twice; state 1 has sigma, 9, twice and a 3.
#[test]
fn the_widest_look_ups_with_ignored_labels() {
    let machine = "0 0 2 2\n0 0 2 3\n0 1 3 9\n0 1 3 8\n1 1 9 9\n1 1 9 1\n1 0 3 1\n";
    for (options, rows) in [
        (&["--ignore=7"][..], "0 2 2\n1 9 2\n"),
        (&["--ignore=2"], "0 0 3\n1 9 2\n"),
        (&["--ignore=3,2"], "0 0 5\n1 0 2\n"),
        (&["--ignore=3", "--sigma=9"], "0 0 3\n1 0 2\n"),
        (&["--ignore=2", "--sigma=9"], "0 0 3\n1 3 3\n"),
        (&["--ignore=9", "--sigma=9"], "1 3 3\n0 2 2\n"),
        (
            &["--ignore=3,1", "--sigma=9", "--allowed=1,4"],
            "0 0 3\n1 0 2\n",
        ),
        (&["--ignore=3,8", "--by=output"], "0 0 3\n1 1 2\n"),
    ] {
        assert_eq!(widest(options, machine), rows, "{options:?}");
    }
}

#[test]
fn the_widest_look_ups_by_symbols() {
    let (symbols, glyphs) = (example("labels.syms"), example("glyphs.txt"));
    let table = format!("--symbols={symbols}");
    let rows = |options: &[&str]| {
        let words = [&["fan-out", &table], options, &[&glyphs]].concat();
        let output = call(&words, "");
        let (status, text, error) = said(&output);
        assert_eq!((status, error), (0, ""));
        text.lines().skip(1).collect::<Vec<_>>().join(" ")
    };
    assert_eq!(rows(&[]), "0\tf\t2 1\ti\t1 2\tacute\t1");
    assert_eq!(rows(&["--numeric"]), "0\t3\t2 1\t4\t1 2\t6\t1");
    assert_eq!(rows(&["--by=output", "--top=1"]), "0\t<eps>\t3");
    assert_eq!(
        rows(&["--sigma=acute", "--top=3"]),
        "0\tf\t2 1\ti\t1 2\tother\t1"
    );
    let one = format!("--isymbols={symbols}");
    let acceptor = ["--acceptor", "--by=output", &one];
    assert_eq!(widest(&acceptor, "0 0 V\n0 0 V\n"), "0 V 2\n");
}

/// The table of a machine by look-ups of every label of every state. 77 is a letter that no state names.
fn rows_by_look_ups(machine: &Machine, by: By, sigma: &Sigma, ignored: &[u32]) -> String {
    let (none, options) = (Machine::new(), Options::new().with_ignored(ignored));
    let (inputs, which) = match by {
        By::Input => (
            Inputs::of(&none, machine, &options.with_sigma2(sigma.clone())),
            Which::Second,
        ),
        By::Output => (
            Inputs::of(machine, &none, &options.with_sigma1(sigma.clone())),
            Which::First,
        ),
    };
    let mut rows = Vec::new();
    for state in machine.states() {
        let mut labels: BTreeSet<u32> = machine.trs(state).iter().map(|tr| tr.label(by)).collect();
        labels.retain(|label| Some(*label) != sigma.label && !ignored.contains(label));
        labels.extend([0, 77]);
        let look_up = |label| inputs.fan_out(which, state, label).unwrap();
        // The loop alone is no row.
        let mut widest = (0, 0);
        for label in labels {
            widest = if look_up(label) > widest.1 + u32::from(label == 0) {
                (label, look_up(label))
            } else {
                widest
            };
        }
        rows.push((std::cmp::Reverse(widest.1), state, widest.0));
    }
    rows.retain(|row| row.0 .0 > 0);
    rows.sort_unstable();
    let lines = rows
        .iter()
        .map(|(matches, state, label)| format!("{state} {label} {}\n", matches.0));
    lines.collect::<String>().replace(" 77 ", " other ")
}

#[test]
fn the_table_is_that_of_all_look_ups() {
    let mut draw = Draw(181);
    let mut met = BTreeSet::new();
    for round in 0..80 {
        let machine = words::decode(&draw.machine(None, 9, 9)).unwrap();
        let text = text::write(&machine, &Format::default()).unwrap();
        let mut sigma = Sigma::default();
        let mut options = vec!["--keep-state-numbering", "--top=99"];
        if round % 3 > 0 {
            sigma = Sigma::new(3);
            options.push("--sigma=3");
        }
        if round % 3 > 1 {
            sigma = sigma.with_allowed([2, 77]);
            options.push("--allowed=77,2");
        }
        let ignored = [&[][..], &[1], &[2, 9], &[3, 1]][draw.below(4) as usize];
        let list = format!("--ignore={ignored:?}").replace(['[', ']', ' '], "");
        options.push(&list);
        let by = [By::Input, By::Output][round % 2];
        options.push(["--by=input", "--by=output"][round % 2]);
        let rows = rows_by_look_ups(&machine, by, &sigma, ignored);
        assert_eq!(widest(&options, &text), rows, "{options:?} of {text}");
        met.extend(rows.split_whitespace().map(str::to_string));
    }
    assert!(met.contains("other") && met.contains("8"), "{met:?}");
}

/// The indented blocks of a part of README.
fn readme_blocks(name: &str) -> Vec<String> {
    let readme = include_str!("../../README.md");
    let part = readme
        .split("\n## ")
        .find(|part| part.starts_with(&format!("{name}\n")));
    let indented = part
        .unwrap()
        .split("\n\n")
        .filter(|block| block.starts_with("    "));
    indented
        .map(|block| block.replace("    ", "") + "\n")
        .collect()
}

/// The commands print what README says, with blanks for tabs.
fn as_in_readme(folder: &Path, commands: &str, printed: &str) {
    let output = Command::new("sh")
        .args(["-ec", &commands.replace("rinkolza ", "\"$RINKOLZA\" ")])
        .env("RINKOLZA", env!("CARGO_BIN_EXE_rinkolza"))
        .current_dir(folder)
        .output()
        .expect("a shell");
    let (status, text, error) = said(&output);
    assert_eq!(
        (status, text.replace('\t', " ").as_str(), error),
        (0, printed, "")
    );
}

/// A part of README with so many commands that make their files, each before what it prints.
fn readme_part(name: &str, commands: usize) {
    let blocks = readme_blocks(name);
    assert_eq!(blocks.len(), 2 * commands);
    let folder = format!("rinkolza-readme-{}-{}", &name[..5], std::process::id());
    let folder = std::env::temp_dir().join(folder);
    std::fs::create_dir_all(&folder).unwrap();
    for block in blocks.chunks(2) {
        as_in_readme(&folder, &block[0], &block[1]);
    }
    std::fs::remove_dir_all(&folder).unwrap();
}

#[test]
fn the_readme_on_sigma() {
    readme_part("Sigma", 2);
}

#[test]
fn the_readme_on_joiners() {
    readme_part("Joiners and soft hyphens", 1);
}

#[test]
fn the_readme_on_fan_outs() {
    // the first block is of the proved program
    let blocks = readme_blocks("Fan-out");
    assert_eq!(blocks.len(), 3);
    let folder = Path::new(env!("CARGO_MANIFEST_DIR"));
    as_in_readme(folder, &blocks[1], &blocks[2]);
}

#[test]
fn versions() {
    let version = concat!("rinkolza ", env!("CARGO_PKG_VERSION"), "\n");
    for words in [
        &["--version"][..],
        &["-V"],
        &["compose", "--version"],
        &["print", "-V", "-"],
    ] {
        assert_eq!(said(&call(words, "")), (0, version, ""), "{words:?}");
    }
}

#[test]
fn helpful_words() {
    for (option, word) in [
        ("--connect", "fstconnect"),
        ("--connect=false", "fstcompose --connect=false"),
        ("--compose_filter=match", "--filter"),
        ("--rho2=3", "which OpenFst calls rho, is not offered"),
        ("--rho_label=3", "which OpenFst calls rho, is not offered"),
        ("--sigma_label=3", "it is named by --sigma1 or --sigma2"),
        ("--sigma=3", "it is named by --sigma1 or --sigma2"),
        ("--show_weight_one", "it is --show-weight-one"),
    ] {
        let (status, error) = complaint(&["compose", option, "-", "a"], "");
        assert!(status == 2 && error.contains(word), "{option}: {error}");
    }
    for option in ["--sigma1=3", "--sigma2=3", "--sigma_label=3"] {
        let (status, error) = complaint(&["fan-out", option, "-"], "");
        let word = "it is named by --sigma (";
        assert!(status == 2 && error.contains(word), "{option}: {error}");
    }
    let (status, error) = complaint(&["print", "-"], "\u{feff}0 1 5 6\n");
    assert!(
        status == 3 && error.contains("standard input:1: the text begins with a byte-order mark"),
        "{error}"
    );
    let (status, error) = complaint(
        &["print", "--symbols=-", &example("glyphs.txt")],
        "\u{feff}A 1\n",
    );
    assert!(status == 3 && error.contains("byte-order mark"), "{error}");
}

#[test]
fn a_machine_that_is_too_long_for_composed() {
    let lines = |count: usize| "0 0 1 1\n".repeat(count);
    // 6 words, 3 for the state, 5 for each transition: 4094 and 4099.
    let (fits, long) = (lines(817), lines(818));
    let words = |text: &str| call(&["print", "--words", "-"], text);
    assert_eq!(said(&words(&fits)).2, "");
    let output = words(&long);
    let (status, line, note) = said(&output);
    assert_eq!((status, line.split(' ').count()), (0, 4099));
    assert!(
        note.contains("composed takes 4096 words a machine, here are 4099"),
        "{note}"
    );
}

#[test]
fn the_help_fits_and_names_every_option() {
    let output = call(&["--help"], "");
    let help = said(&output).1;
    for line in help.lines() {
        assert!(line.len() <= 85, "{line}");
    }
    let source = include_str!("../src/bin/rinkolza/args.rs");
    let names = source.lines().filter_map(|line| {
        let rest = line.trim().strip_prefix("known(\"")?;
        rest.split('"').next()
    });
    let mut count = 0;
    for name in names {
        assert!(help.contains(&format!("--{name}")), "--{name}");
        count += 1;
    }
    assert_eq!(count, 29);
    for word in [
        "16777215",
        "refused 13",
        "include/rinkolza.h",
        "4096",
        "OpenFst's rho",
        "--connect=false",
        "sequence|alternate|match|null|trivial|no_match",
    ] {
        assert!(help.contains(word), "{word}");
    }
}

/// The kerning of two glyphs, one after the other; 0 before the first.
fn kern(before: u32, glyph: u32) -> u32 {
    if before == 0 {
        return 0;
    }
    (before * 7919 + glyph * 104_729) % 61
}

/// Pair kerning in full: state g is "the last glyph was g", with a transition for each next glyph.
fn kerning(glyphs: u32) -> String {
    let mut text = String::new();
    for last in 0..=glyphs {
        for glyph in 1..=glyphs {
            let cost = kern(last, glyph);
            text += &format!("{last}\t{glyph}\t{glyph}\t{glyph}\t{cost}\n");
        }
    }
    (0..=glyphs).for_each(|last| text += &format!("{last}\n"));
    text
}

/// The words of a text in pieces that look random.
fn drawn_glyphs(count: usize, glyphs: u32) -> Vec<u32> {
    let mut word = 1u64;
    let mut next = || {
        word = word.wrapping_mul(6364136223846793005);
        word = word.wrapping_add(1442695040888963407);
        1 + (word >> 33) as u32 % glyphs
    };
    (0..count).map(|_| next()).collect()
}

/// The program's answer for a first machine in standard input and a second in a file of its own.
fn composed_with(options: &[&str], first: &str, second: &str, name: &str) -> String {
    let file = std::env::temp_dir().join(format!("rinkolza-{name}-{}", std::process::id()));
    std::fs::write(&file, second).unwrap();
    let path = file.display().to_string();
    let words = [
        &["compose", "--keep-state-numbering"],
        options,
        &["-", &path],
    ]
    .concat();
    let output = call(&words, first);
    std::fs::remove_file(&file).unwrap();
    let (status, text, error) = said(&output);
    assert_eq!((status, error), (0, ""));
    text.to_string()
}

#[test]
fn four_hundred_glyphs_with_kerning_in_full() {
    let second = kerning(400);
    assert_eq!(second.lines().count(), 401 * 400 + 401);
    let glyphs = drawn_glyphs(5000, 400);
    let (mut first, mut expected) = (String::new(), String::new());
    let mut before = 0;
    for (place, &glyph) in glyphs.iter().enumerate() {
        let next = place + 1;
        first += &format!("{place} {next} {glyph} {glyph}\n");
        expected += &format!("{place}\t{next}\t{glyph}\t{glyph}");
        match kern(before, glyph) {
            0 => expected += "\n",
            cost => expected += &format!("\t{cost}\n"),
        }
        before = glyph;
    }
    let last = format!("{}\n", glyphs.len());
    let composed = composed_with(&[], &(first + &last), &second, "kerning");
    // Not `assert_eq`: the texts are long.
    assert!(composed == expected + &last);
}

/// 160400 transitions; of all states the last alone has a glyph twice, and every state is printed.
#[test]
fn the_widest_look_ups_of_kerning_in_full() {
    let machine = kerning(400) + "400\t1\t7\t7\n";
    let rows = widest(&["--top=1000"], &machine);
    let others: String = (0..400).map(|state| format!("{state} 1 1\n")).collect();
    assert_eq!(rows, "400 7 2\n".to_string() + &others);
}

const PRIME: u64 = (1 << 61) - 1;

/// How many paths there are from state 0 to a final state, modulo a prime, and the least cost of one: of a text whose
/// lines stand in the order of states and lead to higher ones.
fn paths(text: &str, states: usize) -> (u64, u64) {
    let mut here = vec![(0, u64::MAX); states];
    here[0] = (1, 0);
    let mut all = (0, u64::MAX);
    for line in text.lines() {
        let fields: Vec<usize> = line.split('\t').map(|f| f.parse().unwrap()).collect();
        let (ways, cost) = here[fields[0]];
        let (to, more) = match fields.len() {
            1 | 2 => (&mut all, fields.get(1)),
            _ => {
                assert!(fields[1] > fields[0], "{line}");
                (&mut here[fields[1]], fields.get(4))
            }
        };
        let more = more.map_or(0, |&cost| cost as u64);
        *to = ((to.0 + ways) % PRIME, to.1.min(cost.saturating_add(more)));
    }
    all
}

const GLYPHS: u32 = 6;

/// So many places with two glyphs each, and the least cost of a text of them with its kerning.
fn lattice(places: usize) -> (String, u64) {
    let mut text = String::new();
    // The least cost up to here that ends in the glyph.
    let mut costs = [u64::MAX; 1 + GLYPHS as usize];
    costs[0] = 0;
    for (place, &glyph) in drawn_glyphs(places, GLYPHS).iter().enumerate() {
        let mut next = [u64::MAX; 1 + GLYPHS as usize];
        for (label, cost) in [(glyph, 0), (glyph % GLYPHS + 1, 3)] {
            text += &format!("{place} {} {label} {label} {cost}\n", place + 1);
            let cheapest = (0..=GLYPHS).map(|before| {
                let so_far = costs[before as usize];
                so_far.saturating_add(cost + u64::from(kern(before, label)))
            });
            next[label as usize] = cheapest.min().unwrap();
        }
        costs = next;
    }
    let least = costs.into_iter().min().unwrap();
    (text + &format!("{places}\n"), least)
}

#[test]
fn a_hundred_thousand_states() {
    let places = 99_999;
    let (first, cheapest) = lattice(places);
    let composed = composed_with(&[], &first, &kerning(GLYPHS), "lattice");
    // From the second place on two states, one for each glyph that may be the last, and from each two transitions.
    let (states, trs) = (1 + 2 * places, 2 + 4 * (places - 1));
    assert_eq!(composed.lines().count(), trs + 2);
    assert_eq!(composed.lines().last(), Some(&*format!("{}", states - 1)));
    let (ways, least) = paths(&composed, states);
    let expected = (0..places).fold(1, |ways, _| 2 * ways % PRIME);
    assert_eq!((ways, least), (expected, cheapest));
    // What is read is printed as it was.
    let printed = call(&["print", "--keep-state-numbering", "-"], &first);
    assert!(said(&printed).1 == first.replace(' ', "\t").replace("\t0\n", "\n"));
}

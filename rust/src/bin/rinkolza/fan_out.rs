//! `rinkolza fan-out`: the widest look-ups of a machine.

use crate::args::{Args, Stop, REFUSED};
use crate::compose::{ignored, label, labels, refused};
use crate::files::{self, write_out, Tables};
use crate::{plain_format, shown};
use rinkolza::{
    By, Error, Format, Inputs, Machine, Options, Refusal, Sigma, SymbolTable, Tr, Which, EPSILON,
};
use std::cmp::Reverse;

/// States that are printed where nobody says how many.
const TOP: usize = 10;

/// The widest look-up at a state.
struct Row {
    state: u32,
    label: u32,
    /// The label is one that the state does not name, and stands for all such.
    other: bool,
    matches: usize,
}

/// What each label would match is counted here, in one pass over each list: to look up every label of every state would
/// take the square of that. The look-ups that are printed are made, and must give what was counted.
pub fn fan_out(args: &Args) -> Result<(), Stop> {
    let [file] = args.files::<1>("one machine")?;
    let by = args.choice("by", &[("input", By::Input), ("output", By::Output)])?;
    let top = top(args)?;
    let tables = Tables::read(args)?;
    let mut format = plain_format(args)?.with_acceptor(args.has("acceptor"));
    format.isymbols = tables.input();
    format.osymbols = tables.output();
    let options = options(args, symbols(&format, by))?;
    let machine = files::read_machine(file, &format)?;
    let of_state = |state| widest(&machine, state, by, &options);
    let mut rows: Vec<Row> = machine.states().filter_map(of_state).collect();
    rows.sort_by_key(|row| (Reverse(row.matches), row.state));
    rows.truncate(top);
    let shown = shown(args, &format);
    let mut text = "state\tlabel\tmatches\n".to_string();
    for row in &rows {
        let matches = looked_up(&machine, row, by, &options).map_err(refused)?;
        let counted = row.matches;
        assert_eq!(matches as usize, counted, "matches at state {}", row.state);
        let name = name(row, symbols(&shown, by));
        text += &format!("{}\t{name}\t{matches}\n", row.state);
    }
    write_out(args, &text)
}

/// How many states to print.
fn top(args: &Args) -> Result<usize, Stop> {
    let Some(word) = args.value("top") else {
        return Ok(TOP);
    };
    let number = word.parse().ok().filter(|&number| number > 0);
    number.ok_or_else(|| Stop::usage(format!("--top is a number from 1 on, not \"{word}\"")))
}

/// The names of the labels on a side; an acceptor has those of its inputs on both.
fn symbols<'a>(format: &Format<'a>, by: By) -> Option<&'a SymbolTable> {
    match by {
        By::Output if !format.acceptor => format.osymbols,
        _ => format.isymbols,
    }
}

/// The machine's sigma, as if it were the second's, and the labels that are ignored. Refused as the library would refuse
/// them, which is not asked where nothing is printed.
fn options(args: &Args, symbols: Option<&SymbolTable>) -> Result<Options, Stop> {
    let options = Options::new().with_ignored(ignored(args, symbols)?);
    if options.ignored.contains(&EPSILON) {
        return Err(Stop::new(REFUSED, Refusal::Ignored));
    }
    Ok(options.with_sigma2(sigma(args, symbols)?))
}

/// The machine's sigma; the labels that it may match are sorted.
fn sigma(args: &Args, symbols: Option<&SymbolTable>) -> Result<Sigma, Stop> {
    let mut sigma = Sigma::default();
    if let Some(word) = args.value("sigma") {
        sigma.label = Some(label("sigma", word, symbols)?);
    }
    if let Some(list) = args.value("allowed") {
        let mut allowed = labels("allowed", list, symbols)?;
        allowed.sort_unstable();
        sigma.allowed = Some(allowed);
    }
    match sigma.label {
        Some(EPSILON) => Err(Stop::new(REFUSED, Refusal::SigmaZero)),
        None if sigma.allowed.is_some() => Err(Stop::usage("--allowed needs --sigma")),
        _ => Ok(sigma),
    }
}

/// The label of a state with most matches: one that its list has, but not sigma, or else any other letter; ignored ones
/// count as epsilons. The lowest of several; none where nothing can be looked up but the loop.
fn widest(machine: &Machine, state: u32, by: By, options: &Options) -> Option<Row> {
    let sigma = &options.sigma2;
    let trs = machine.trs(state).iter();
    let mut labels: Vec<u32> = trs.map(|tr| options.heard(tr.label(by))).collect();
    labels.sort_unstable();
    let is_sigma = |label| Some(label) == sigma.label;
    let sigmas = labels.iter().filter(|&&label| is_sigma(label)).count();
    let row = |label, other, matches| Row {
        state,
        label,
        other,
        matches,
    };
    let more = |label| match label {
        EPSILON => 1,
        _ if may_match(sigma, label) => sigmas,
        _ => 0,
    };
    let runs = labels
        .chunk_by(|a, b| a == b)
        .map(|run| (run[0], run.len()));
    let named = runs.filter(|&(label, _)| !is_sigma(label));
    let rows = named.map(|(label, own)| row(label, false, own + more(label)));
    let others = (sigmas > 0).then(|| other(&labels, options)).flatten();
    rows.chain(others.map(|label| row(label, true, sigmas)))
        .max_by_key(|row| (row.matches, !row.other, Reverse(row.label)))
}

fn may_match(sigma: &Sigma, letter: u32) -> bool {
    let list = sigma.allowed.as_ref();
    list.is_none_or(|list| list.binary_search(&letter).is_ok())
}

/// A letter that sigma may match and that is none of these labels, which are sorted. An ignored label is no letter.
fn other(labels: &[u32], options: &Options) -> Option<u32> {
    let unnamed =
        |&letter: &u32| options.heard(letter) != EPSILON && labels.binary_search(&letter).is_err();
    match &options.sigma2.allowed {
        Some(list) => list.iter().copied().find(unnamed),
        None => (1..).find(unnamed),
    }
}

/// The row's look-up by the library. It sees the list of its state alone: that list is lent as a machine of one state,
/// since a call goes through all that it is lent.
fn looked_up(machine: &Machine, row: &Row, by: By, options: &Options) -> Result<u32, Error> {
    let list = machine.trs(row.state).iter();
    let list: Vec<(u32, Tr)> = list.map(|tr| (0, Tr { target: 0, ..*tr })).collect();
    let (alone, none) = (Machine::from_lists(Some(0), &list, &[])?, Machine::new());
    let mut options = options.clone();
    let (first, second, which) = match by {
        By::Input => (&none, &alone, Which::Second),
        By::Output => {
            std::mem::swap(&mut options.sigma1, &mut options.sigma2);
            (&alone, &none, Which::First)
        }
    };
    Inputs::of(first, second, &options).fan_out(which, 0, row.label)
}

/// The label as it is printed.
fn name(row: &Row, symbols: Option<&SymbolTable>) -> String {
    match symbols.and_then(|table| table.symbol(row.label)) {
        _ if row.other => "other".to_string(),
        Some(symbol) => symbol.to_string(),
        None => row.label.to_string(),
    }
}

//! `rinkolza compose`.

use crate::args::{Args, Stop, INPUT, REFUSED};
use crate::files::{self, say, write_out, Tables};
use crate::{plain_format, shown, unwritable};
use rinkolza::{
    dot, text, to_sort, Composition, Error, Filter, Format, Machine, Options, Refusal, Rewrite,
    Room, Side, Sigma, Sort, SymbolTable, LARGEST_COUNT,
};

/// States expanded between two lines of progress.
const STEP: u32 = 256;

/// Records of each sort to begin with, some three megabytes of them: up to that nothing is copied.
const BEGIN: usize = 65535;

#[derive(Clone, Copy)]
enum To {
    Text,
    Dot,
    Counts,
}

pub fn compose(args: &Args) -> Result<(), Stop> {
    let [file1, file2] = args.files::<2>("two machines")?;
    let to = args.choice(
        "to",
        &[("text", To::Text), ("dot", To::Dot), ("counts", To::Counts)],
    )?;
    let tables = Tables::read(args)?;
    let options = options(args, &tables)?;
    let mut format = plain_format(args)?;
    format.isymbols = tables.input();
    format.osymbols = tables.output();
    let first = files::read_machine(file1, &first_format(args, &tables, &format))?;
    let second = files::read_machine(file2, &second_format(args, &tables, &format))?;
    say_sorted(&first, &second, &options);
    let options = options.with_room(room(&first, &second));
    let mut composition = Composition::open(&first, &second, &options).map_err(refused)?;
    say_silent_sigma(&composition, &options);
    say_exempt_sigma(&options);
    let ran = match args.has("progress") {
        false => composition.run(),
        true => with_progress(&mut composition),
    };
    let made = ran.and_then(|()| composition.machine());
    let machine = made.map_err(|error| refused_at(error, &composition))?;
    let shown = shown(args, &format);
    let text = match to {
        To::Text => text::write(&machine, &shown).map_err(unwritable)?,
        To::Dot => picture(args, &composition, &machine, &shown)?,
        To::Counts => counts(&composition, &machine),
    };
    write_out(args, &text)
}

/// The room to begin with: more than small machines would get.
fn room(first: &Machine, second: &Machine) -> Room {
    Room {
        states: BEGIN.max(first.state_count() + second.state_count()),
        trs: BEGIN.max(first.tr_count() + second.tr_count()),
        ..Options::new().room
    }
}

/// FIRST has the inner labels on its outputs. As an acceptor it has one table, by whatever option it is named.
fn first_format<'a>(args: &Args, tables: &'a Tables, format: &Format<'a>) -> Format<'a> {
    let acceptor = args.has("acceptor") || args.has("acceptor1");
    let mut format = format.with_acceptor(acceptor);
    format.isymbols = match acceptor {
        true => tables.input().or(tables.inner()),
        false => tables.input(),
    };
    format.osymbols = tables.inner();
    format
}

/// SECOND has the inner labels on its inputs.
fn second_format<'a>(args: &Args, tables: &'a Tables, format: &Format<'a>) -> Format<'a> {
    let acceptor = args.has("acceptor") || args.has("acceptor2");
    let mut format = format.with_acceptor(acceptor);
    format.isymbols = match acceptor {
        true => tables.inner().or(tables.output()),
        false => tables.inner(),
    };
    format.osymbols = tables.output();
    format
}

fn options(args: &Args, tables: &Tables) -> Result<Options, Stop> {
    let filters = [
        ("sequence", Filter::Sequence),
        ("alternate", Filter::Alternate),
        ("match", Filter::Match),
        ("null", Filter::Null),
        ("trivial", Filter::Trivial),
        ("no_match", Filter::NoMatch),
        ("alt_sequence", Filter::Alternate),
        ("no-match", Filter::NoMatch),
    ];
    let sorts = [
        ("needed", Sort::WhereNeeded),
        ("both", Sort::Both),
        ("never", Sort::Never),
    ];
    Ok(Options::new()
        .with_kind(plain_format(args)?.kind)
        .with_filter(args.choice("filter", &filters)?)
        .with_sigma1(sigma(args, "1", tables.inner())?)
        .with_sigma2(sigma(args, "2", tables.inner())?)
        .with_ignored(ignored(args, tables.inner())?)
        .with_sort(args.choice("sort", &sorts)?))
}

fn sigma(args: &Args, machine: &str, symbols: Option<&SymbolTable>) -> Result<Sigma, Stop> {
    let modes = [
        ("auto", Rewrite::Auto),
        ("each", Rewrite::Each),
        ("matched", Rewrite::Matched),
        ("always", Rewrite::Each),
        ("never", Rewrite::Matched),
    ];
    let name = format!("sigma{machine}");
    let mode_name = format!("rewrite{machine}");
    let list_name = format!("allowed{machine}");
    let mut sigma = Sigma::default().with_mode(args.choice(&mode_name, &modes)?);
    if let Some(word) = args.value(&name) {
        sigma.label = Some(label(&name, word, symbols)?);
    }
    if let Some(list) = args.value(&list_name) {
        sigma.allowed = Some(labels(&list_name, list, symbols)?);
    }
    if sigma.label.is_none() && (args.has(&mode_name) || args.has(&list_name)) {
        return Err(Stop::usage(format!(
            "--{mode_name} and --{list_name} need --{name}"
        )));
    }
    Ok(sigma)
}

/// The labels that count as epsilon.
pub fn ignored(args: &Args, symbols: Option<&SymbolTable>) -> Result<Vec<u32>, Stop> {
    let list = args.value("ignore").unwrap_or_default();
    labels("ignore", list, symbols)
}

/// Labels on the command line, apart by commas.
pub fn labels(option: &str, list: &str, symbols: Option<&SymbolTable>) -> Result<Vec<u32>, Stop> {
    list.split(',')
        .filter(|word| !word.is_empty())
        .map(|word| label(option, word, symbols))
        .collect()
}

/// A label on the command line: a symbol of the table, without a table a number.
pub fn label(option: &str, word: &str, symbols: Option<&SymbolTable>) -> Result<u32, Stop> {
    match symbols {
        Some(table) => table.number(word).ok_or_else(|| {
            Stop::usage(format!(
                "--{option}: the symbol \"{word}\" is not in the symbol table {}",
                table.name()
            ))
        }),
        None => word
            .parse()
            .ok()
            .filter(|&number: &u32| number < u32::MAX)
            .ok_or_else(|| {
                Stop::usage(format!(
                    "--{option}: the label \"{word}\" is not a number from 0 to 4294967294"
                ))
            }),
    }
}

fn say_sorted(first: &Machine, second: &Machine, options: &Options) {
    if options.sort != Sort::WhereNeeded {
        return;
    }
    let (sort1, sort2) = to_sort(first, second, options);
    for (sorted, which, side) in [(sort1, "first", "output"), (sort2, "second", "input")] {
        if sorted {
            say(format!(
                "note: the {which} machine's transitions were sorted by {side} label (--sort)"
            ));
        }
    }
}

/// Where labels are ignored and the first machine is sorted, the second's sigma is not looked up.
fn say_silent_sigma(composition: &Composition, options: &Options) {
    let set = options.sigma2.label.is_some() && !options.ignored.is_empty();
    if set && composition.side() == Side::Output {
        say("note: with --ignore the first machine, which is sorted, is the one that is looked up: the second's sigma is a label like others here (--sigma2)");
    }
}

/// A sigma label that is named among the labels to ignore stays sigma.
fn say_exempt_sigma(options: &Options) {
    let sigmas = [options.sigma1.label, options.sigma2.label];
    if sigmas
        .iter()
        .flatten()
        .any(|label| options.ignored.contains(label))
    {
        say("note: --ignore names a sigma label, which is never ignored");
    }
}

fn with_progress(composition: &mut Composition) -> Result<(), Error> {
    composition.run_with(STEP, |progress| {
        say(format!(
            "{} of {} states found are expanded, {} transitions",
            progress.expanded, progress.found, progress.trs
        ));
    })
}

fn picture(
    args: &Args,
    composition: &Composition,
    machine: &Machine,
    format: &Format<'_>,
) -> Result<String, Stop> {
    let name = |state: u32| match composition.triple(state).filter(|_| args.has("triples")) {
        Some(triple) => format!("{},{},{}", triple.first, triple.second, triple.filter),
        None => state.to_string(),
    };
    dot::draw_named(machine, format, name).map_err(unwritable)
}

fn counts(composition: &Composition, machine: &Machine) -> String {
    let side = match composition.side() {
        Side::Input => "input",
        Side::Output => "output",
        Side::Both => "both",
    };
    format!(
        "states {}\ntransitions {}\nfinal {}\nside {side}\n",
        machine.state_count(),
        machine.tr_count(),
        machine.final_count()
    )
}

/// An error of the crate: a refusal, or what else there is.
pub fn refused(error: Error) -> Stop {
    match error.refusal() {
        Some(_) => Stop::new(REFUSED, error),
        None => Stop::new(INPUT, error),
    }
}

/// A refusal at a composed state, with what helps to find its cause.
fn refused_at(error: Error, composition: &Composition) -> Stop {
    let Error::Refused { refusal, state } = &error else {
        return refused(error);
    };
    let made_of = state.and_then(|state| composition.triple(state));
    let hint = match (refusal, made_of) {
        (Refusal::NoRoom, _) => format!(
            "\nrinkolza: a composition has at most {LARGEST_COUNT} states and {LARGEST_COUNT} transitions"
        ),
        (_, Some(triple)) => format!(
            "\nrinkolza: that state is made of state {} of the first machine and state {} of the second, as rinkolza print numbers them",
            triple.first, triple.second
        ),
        (_, None) => String::new(),
    };
    Stop::new(REFUSED, format!("{error}{hint}"))
}

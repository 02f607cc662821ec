//! `rinkolza`: composition of weighted transducers at the shell. `rinkolza --help` says what it does.

#![forbid(unsafe_code)]

mod args;
mod compose;
mod fan_out;
mod files;

use args::{Args, Stop, INPUT};
use files::{say, write_out, Tables};
use rinkolza::{dot, text, words, By, Error, Format, Kind, Machine};
use std::process::ExitCode;

const HELP: &str = include_str!("help.txt");

fn main() -> ExitCode {
    match run() {
        Ok(()) => ExitCode::SUCCESS,
        Err(stop) => {
            say(stop.message);
            ExitCode::from(stop.status)
        }
    }
}

fn run() -> Result<(), Stop> {
    let words: Result<Vec<String>, _> = std::env::args_os()
        .skip(1)
        .map(|word| word.into_string())
        .collect();
    let words =
        words.map_err(|word| Stop::usage(format!("{} is not UTF-8", word.to_string_lossy())))?;
    let args = Args::parse(words)?;
    match args.command.as_str() {
        "compose" => compose::compose(&args),
        "print" | "draw" => one_machine(&args),
        "fan-out" => fan_out::fan_out(&args),
        "--help" | "-h" | "help" => write_out(&args, HELP),
        "--version" | "-V" => {
            write_out(&args, concat!("rinkolza ", env!("CARGO_PKG_VERSION"), "\n"))
        }
        "" => Err(Stop::usage(
            "say what to do: compose, print, draw or fan-out",
        )),
        other => Err(Stop::usage(format!("there is no command {other}"))),
    }
}

/// `print` and `draw`: reads a machine and writes it.
fn one_machine(args: &Args) -> Result<(), Stop> {
    let [file] = args.files::<1>("one machine")?;
    let sort = args.choice(
        "sort",
        &[
            ("no", None),
            ("input", Some(By::Input)),
            ("output", Some(By::Output)),
        ],
    )?;
    let tables = Tables::read(args)?;
    let mut format = plain_format(args)?.with_acceptor(args.has("acceptor"));
    format.isymbols = tables.input();
    format.osymbols = tables.output();
    let mut machine = files::read_machine(file, &format)?;
    if let Some(by) = sort {
        machine.sort(by);
    }
    let shown = shown(args, &format);
    let text = match args.command.as_str() {
        "draw" => dot::draw(&machine, &shown),
        _ if args.has("words") => Ok(word_line(&machine)),
        _ => text::write(&machine, &shown),
    };
    write_out(args, &text.map_err(unwritable)?)
}

/// The words of a machine that the program `composed` takes.
const COMPOSED_WORDS: usize = 4096;

/// The machine's words with true marks, on one line.
fn word_line(machine: &Machine) -> String {
    let words = words::encode(machine, words::Marks::True);
    if words.len() > COMPOSED_WORDS {
        say(format!(
            "note: composed takes {COMPOSED_WORDS} words a machine, here are {}: it will say refused 2 or 3 (rinkolza compose takes it)",
            words.len()
        ));
    }
    let digits: Vec<String> = words.iter().map(u32::to_string).collect();
    digits.join(" ") + "\n"
}

/// What all commands say of texts.
fn plain_format(args: &Args) -> Result<Format<'static>, Stop> {
    let kind = args.choice("kind", &[("cost", Kind::Cost), ("count", Kind::Count)])?;
    let mut format = Format::new().with_kind(kind);
    format.keep_numbers = args.has("keep-state-numbering");
    format.show_one = args.has("show-weight-one");
    Ok(format)
}

/// The format to write in: without symbols where numbers are asked for.
fn shown<'a>(args: &Args, format: &Format<'a>) -> Format<'a> {
    let mut format = *format;
    if args.has("numeric") {
        format.isymbols = None;
        format.osymbols = None;
    }
    format
}

fn unwritable(error: Error) -> Stop {
    let hint = match error.to_string().contains("has no symbol") {
        true => " (--numeric prints labels as numbers)",
        false => "",
    };
    Stop::new(INPUT, format!("{error}{hint}"))
}

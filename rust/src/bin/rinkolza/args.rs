//! The command line: a command, its options and its files.

use std::fmt::Display;

/// An option: its name, whether a value follows, and the commands that take it.
struct Known {
    name: &'static str,
    value: bool,
    commands: &'static [&'static str],
}

const EACH: &[&str] = &["compose", "print", "draw", "fan-out"];
const MACHINES: &[&str] = &["compose", "print", "draw"];
const COMPOSE: &[&str] = &["compose"];
const FAN_OUT: &[&str] = &["fan-out"];
const LOOK_UPS: &[&str] = &["compose", "fan-out"];

const fn known(name: &'static str, value: bool, commands: &'static [&'static str]) -> Known {
    Known {
        name,
        value,
        commands,
    }
}

const OPTIONS: [Known; 29] = [
    known("kind", true, EACH),
    known("symbols", true, EACH),
    known("isymbols", true, EACH),
    known("osymbols", true, EACH),
    known("numeric", false, EACH),
    known("keep-state-numbering", false, EACH),
    known("show-weight-one", false, MACHINES),
    known("output", true, EACH),
    known("sort", true, MACHINES),
    known("acceptor", false, EACH),
    known("acceptor1", false, COMPOSE),
    known("acceptor2", false, COMPOSE),
    known("msymbols", true, COMPOSE),
    known("to", true, COMPOSE),
    known("filter", true, COMPOSE),
    known("sigma1", true, COMPOSE),
    known("sigma2", true, COMPOSE),
    known("rewrite1", true, COMPOSE),
    known("rewrite2", true, COMPOSE),
    known("allowed1", true, COMPOSE),
    known("allowed2", true, COMPOSE),
    known("ignore", true, LOOK_UPS),
    known("triples", false, COMPOSE),
    known("progress", false, COMPOSE),
    known("words", false, &["print"]),
    known("by", true, FAN_OUT),
    known("top", true, FAN_OUT),
    known("sigma", true, FAN_OUT),
    known("allowed", true, FAN_OUT),
];

/// For those who know OpenFst's tools, or another command: what stands for an option of theirs.
fn hint(command: &str, name: &str) -> String {
    let ours = name.replace('_', "-");
    match ours.as_str() {
        "connect" => {
            ": states from which no final state can be reached stay, as with fstcompose --connect=false; fstconnect takes them out".to_string()
        }
        "compose-filter" => ": the filter is named by --filter".to_string(),
        "rho1" | "rho2" | "rho-label" => {
            ": a label for the rest, which OpenFst calls rho, is not offered; sigma (--sigma1, --sigma2) is any letter".to_string()
        }
        "sigma" | "sigma-label" | "sigma1" | "sigma2" if command == "fan-out" => {
            ": it is named by --sigma".to_string()
        }
        "sigma" | "sigma-label" if command == "compose" => {
            ": it is named by --sigma1 or --sigma2".to_string()
        }
        _ if ours != name && OPTIONS.iter().any(|option| option.name == ours) => format!(": it is --{ours}"),
        _ => String::new(),
    }
}

/// What stops the program, with its exit status.
#[derive(Debug)]
pub struct Stop {
    pub status: u8,
    pub message: String,
}

/// The composition was refused.
pub const REFUSED: u8 = 1;
/// The program was called wrongly.
pub const USAGE: u8 = 2;
/// A file cannot be read, or what it holds; or the output cannot be written.
pub const INPUT: u8 = 3;

impl Stop {
    pub fn new(status: u8, message: impl Display) -> Stop {
        Stop {
            status,
            message: message.to_string(),
        }
    }

    pub fn usage(message: impl Display) -> Stop {
        Stop::new(USAGE, format!("{message} (rinkolza --help)"))
    }
}

/// A command line that was read.
#[derive(Debug, Default)]
pub struct Args {
    pub command: String,
    pub files: Vec<String>,
    given: Vec<(&'static str, String)>,
}

impl Args {
    /// Reads the words after the program's name.
    pub fn parse(words: impl IntoIterator<Item = String>) -> Result<Args, Stop> {
        let mut words = words.into_iter();
        let mut args = Args {
            command: words.next().unwrap_or_default(),
            ..Args::default()
        };
        let mut options = true;
        while let Some(word) = words.next() {
            match word.as_str() {
                "--" if options => options = false,
                "-o" if options => args.add("output", None, &mut words)?,
                "-h" | "--help" if options => args.command = "--help".to_string(),
                "-V" | "--version" if options => args.command = "--version".to_string(),
                _ if options && word.starts_with("--") => args.long(&word[2..], &mut words)?,
                _ if options && word.starts_with('-') && word != "-" => {
                    return Err(Stop::usage(format!("there is no option {word}")))
                }
                _ => args.files.push(word),
            }
        }
        Ok(args)
    }

    fn long(&mut self, word: &str, words: &mut impl Iterator<Item = String>) -> Result<(), Stop> {
        match word.split_once('=') {
            Some((name, value)) => self.add(name, Some(value.to_string()), words),
            None => self.add(word, None, words),
        }
    }

    fn add(
        &mut self,
        name: &str,
        value: Option<String>,
        words: &mut impl Iterator<Item = String>,
    ) -> Result<(), Stop> {
        let option = OPTIONS
            .iter()
            .find(|option| option.name == name)
            .ok_or_else(|| {
                let hint = hint(&self.command, name);
                Stop::usage(format!("there is no option --{name}{hint}"))
            })?;
        if EACH.contains(&self.command.as_str())
            && !option.commands.contains(&self.command.as_str())
        {
            return Err(Stop::usage(format!(
                "{} has no option --{name}{}",
                self.command,
                hint(&self.command, name)
            )));
        }
        let value = match (option.value, value) {
            (true, None) => words
                .next()
                .ok_or_else(|| Stop::usage(format!("--{name} needs a value")))?,
            (true, Some(value)) => value,
            (false, None) => String::new(),
            (false, Some(_)) => return Err(Stop::usage(format!("--{name} takes no value"))),
        };
        if self.value(name).is_some() {
            return Err(Stop::usage(format!("--{name} is given twice")));
        }
        self.given.push((option.name, value));
        Ok(())
    }

    /// The option's value.
    pub fn value(&self, name: &str) -> Option<&str> {
        let found = self.given.iter().find(|(given, _)| *given == name)?;
        Some(&found.1)
    }

    /// Whether the option is given.
    pub fn has(&self, name: &str) -> bool {
        self.value(name).is_some()
    }

    /// The option's value among named ones; the first where it is not given.
    pub fn choice<T: Copy>(&self, name: &str, choices: &[(&str, T)]) -> Result<T, Stop> {
        let Some(value) = self.value(name) else {
            return Ok(choices[0].1);
        };
        match choices.iter().find(|(word, _)| *word == value) {
            Some(choice) => Ok(choice.1),
            None => {
                let words: Vec<&str> = choices.iter().map(|choice| choice.0).collect();
                Err(Stop::usage(format!(
                    "--{name} is one of {}, not \"{value}\"",
                    words.join(", ")
                )))
            }
        }
    }

    /// Exactly so many files.
    pub fn files<const N: usize>(&self, what: &str) -> Result<&[String; N], Stop> {
        let files = self.files.as_slice();
        let tables = ["symbols", "isymbols", "osymbols", "msymbols"].map(|name| self.value(name));
        let named = files
            .iter()
            .map(String::as_str)
            .chain(tables.into_iter().flatten());
        if named.filter(|file| *file == "-").count() > 1 {
            return Err(Stop::usage("standard input (-) can be read once"));
        }
        files.try_into().map_err(|_| {
            Stop::usage(format!(
                "{} takes {what}, here are {} files",
                self.command,
                files.len()
            ))
        })
    }
}

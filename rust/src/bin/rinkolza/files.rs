//! Files in and out.

use crate::args::{Args, Stop, INPUT};
use rinkolza::{text, Error, Format, Machine, SymbolTable};
use std::fmt::Display;
use std::fs;
use std::io::{self, ErrorKind, Read, Write};

/// The symbol tables that the command line names.
pub struct Tables {
    all: Option<SymbolTable>,
    inputs: Option<SymbolTable>,
    inner: Option<SymbolTable>,
    outputs: Option<SymbolTable>,
}

impl Tables {
    pub fn read(args: &Args) -> Result<Tables, Stop> {
        let table = |name| args.value(name).map(read_table).transpose();
        Ok(Tables {
            all: table("symbols")?,
            inputs: table("isymbols")?,
            inner: table("msymbols")?,
            outputs: table("osymbols")?,
        })
    }

    /// For input labels.
    pub fn input(&self) -> Option<&SymbolTable> {
        self.inputs.as_ref().or(self.all.as_ref())
    }

    /// For inner labels: the first machine's outputs, the second's inputs.
    pub fn inner(&self) -> Option<&SymbolTable> {
        self.inner.as_ref().or(self.all.as_ref())
    }

    /// For output labels.
    pub fn output(&self) -> Option<&SymbolTable> {
        self.outputs.as_ref().or(self.all.as_ref())
    }
}

fn read_table(file: &str) -> Result<SymbolTable, Stop> {
    let bytes = read_bytes(file)?;
    let text = text::utf8(&bytes, name(file)).map_err(unreadable)?;
    SymbolTable::parse(text, name(file)).map_err(unreadable)
}

/// Reads a machine from a file, or from standard input.
pub fn read_machine(file: &str, format: &Format<'_>) -> Result<Machine, Stop> {
    let bytes = read_bytes(file)?;
    let text = text::utf8(&bytes, name(file)).map_err(unreadable)?;
    text::read(text, name(file), format).map_err(unreadable)
}

fn read_bytes(file: &str) -> Result<Vec<u8>, Stop> {
    let mut bytes = Vec::new();
    let read = match file {
        "-" => io::stdin().read_to_end(&mut bytes).map(|_| bytes),
        _ => fs::read(file),
    };
    read.map_err(|error| Stop::new(INPUT, format!("{} cannot be read: {error}", name(file))))
}

/// What a file is called in messages.
fn name(file: &str) -> &str {
    match file {
        "-" => "standard input",
        file => file,
    }
}

fn unreadable(error: Error) -> Stop {
    Stop::new(INPUT, error)
}

/// Writes to the file that `-o` names, else to standard output; a reader who has gone is no error.
pub fn write_out(args: &Args, text: &str) -> Result<(), Stop> {
    let (name, wrote) = match args.value("output") {
        None | Some("-") => ("standard output", print_all(text)),
        Some(file) => (file, fs::write(file, text)),
    };
    match wrote {
        Err(error) if error.kind() != ErrorKind::BrokenPipe => Err(Stop::new(
            INPUT,
            format!("{name} cannot be written: {error}"),
        )),
        _ => Ok(()),
    }
}

/// Says something on standard error. Where that is closed or full nobody hears it, and the result still counts.
pub fn say(message: impl Display) {
    let _ = writeln!(io::stderr(), "rinkolza: {message}");
}

fn print_all(text: &str) -> io::Result<()> {
    let mut out = io::stdout().lock();
    out.write_all(text.as_bytes())?;
    out.flush()
}

//! OpenFst's text form, as `fstcompile` reads and `fstprint` writes it.
//!
//! A line is `source target input output [weight]` or, for a final state, `state [weight]`; fields stand apart by tabs
//! or spaces, empty lines are passed over. The first line's source is the start. A weight that is left out is one. A
//! final weight of zero (`Infinity`, for counts `0`) means that the state is not final, as in OpenFst; `fstprint`
//! writes such a line for a state that has no other.

#![forbid(unsafe_code)]

use crate::error::Error;
use crate::machine::{Machine, Tr, LARGEST_COUNT, LARGEST_LABEL};
use crate::settings::Kind;
use crate::symbols::{fields, label_number, no_mark, SymbolTable};
use crate::weight_text;
use std::collections::HashMap;

/// How a text is read and written. It may get more fields: begin with [`Format::new`] and set what differs.
///
/// ```
/// use rinkolza::{text, Format, Kind, SymbolTable};
///
/// let table = SymbolTable::parse("<eps> 0\nA 1\n", "glyphs.syms")?;
/// let mut format = Format::new().with_kind(Kind::Count).with_symbols(&table);
/// format.show_one = true;
/// let machine = text::read("0 0 A A\n0\n", "m.txt", &format)?;
/// assert_eq!(text::write(&machine, &format)?, "0\t0\tA\tA\t1\n0\t1\n");
/// # Ok::<(), rinkolza::Error>(())
/// ```
#[derive(Clone, Copy, Debug, Default)]
#[non_exhaustive]
pub struct Format<'a> {
    /// What weights are.
    pub kind: Kind,
    /// Transitions have one label: `source target label [weight]`.
    pub acceptor: bool,
    /// Keep the numbers of states, with states without transitions in the gaps. Else states are numbered in the
    /// order in which they are first named.
    pub keep_numbers: bool,
    /// Write weights that are one.
    pub show_one: bool,
    /// Names of the input labels.
    pub isymbols: Option<&'a SymbolTable>,
    /// Names of the output labels.
    pub osymbols: Option<&'a SymbolTable>,
}

impl<'a> Format<'a> {
    /// Costs, two labels a transition, states numbered as they are named, no symbols.
    pub fn new() -> Format<'a> {
        Format::default()
    }

    /// With weights of this kind.
    #[must_use]
    pub fn with_kind(mut self, kind: Kind) -> Format<'a> {
        self.kind = kind;
        self
    }

    /// With one label a transition, or two.
    #[must_use]
    pub fn with_acceptor(mut self, acceptor: bool) -> Format<'a> {
        self.acceptor = acceptor;
        self
    }

    /// With this table for input and output labels.
    #[must_use]
    pub fn with_symbols(mut self, table: &'a SymbolTable) -> Format<'a> {
        self.isymbols = Some(table);
        self.osymbols = Some(table);
        self
    }
}

/// Reads a machine; `name` stands for the text in errors.
///
/// # Errors
///
/// [`Error::Text`], with the line, where a line has another form, a label is neither in its symbol table nor, without
/// one, a number, a weight is not whole, there are too many states or transitions, or the text begins with a byte-order
/// mark.
///
/// ```
/// use rinkolza::{text, Format};
///
/// let machine = text::read("0 1 3 4 2\n1\n", "m.txt", &Format::default())?;
/// assert_eq!((machine.state_count(), machine.tr_count()), (2, 1));
/// let error = text::read("0 1 3 4 0.5\n", "m.txt", &Format::default()).unwrap_err();
/// assert_eq!(
///     error.to_string(),
///     "m.txt:1: the weight \"0.5\" is not a whole number from 0 to 4294967294 or Infinity"
/// );
/// # Ok::<(), rinkolza::Error>(())
/// ```
pub fn read(text: &str, name: &str, format: &Format<'_>) -> Result<Machine, Error> {
    no_mark(text, name)?;
    let mut reader = Reader {
        format,
        machine: Machine::new(),
        numbers: HashMap::new(),
    };
    for (place, line) in text.lines().enumerate() {
        reader.line(line).map_err(|what| Error::Text {
            source: name.to_string(),
            line: place + 1,
            what,
        })?;
    }
    Ok(reader.machine)
}

/// Bytes as text.
///
/// # Errors
///
/// [`Error::Text`], with the first line that is not UTF-8.
pub fn utf8<'a>(bytes: &'a [u8], name: &str) -> Result<&'a str, Error> {
    std::str::from_utf8(bytes).map_err(|error| Error::Text {
        source: name.to_string(),
        line: 1 + bytes[..error.valid_up_to()]
            .iter()
            .filter(|&&byte| byte == b'\n')
            .count(),
        what: match bytes {
            [0xff, 0xfe, ..] | [0xfe, 0xff, ..] => {
                "the text begins with a byte-order mark of UTF-16: save it as UTF-8 without one"
            }
            _ => "the line is not UTF-8 text (is this a compiled machine? fstprint writes it as text)",
        }
        .to_string(),
    })
}

struct Reader<'f, 's> {
    format: &'f Format<'s>,
    machine: Machine,
    numbers: HashMap<u64, u32>,
}

impl Reader<'_, '_> {
    fn line(&mut self, line: &str) -> Result<(), String> {
        let fields: Vec<&str> = fields(line).collect();
        match (fields.len(), self.format.acceptor) {
            (0, _) => Ok(()),
            (1 | 2, _) => self.last(&fields),
            (3 | 4, true) => self.tr(&fields, fields[2], fields.get(3)),
            (4 | 5, false) => self.tr(&fields, fields[3], fields.get(4)),
            (count, acceptor) => Err(wrong_count(count, acceptor)),
        }
    }

    fn last(&mut self, fields: &[&str]) -> Result<(), String> {
        let state = self.source(fields[0])?;
        let weight = self.weight(fields.get(1))?;
        let given = (weight != self.format.kind.zero()).then_some(weight);
        self.machine.set_final(state, given).map_err(said)
    }

    fn tr(&mut self, fields: &[&str], output: &str, weight: Option<&&str>) -> Result<(), String> {
        let source = self.source(fields[0])?;
        let target = self.state(fields[1])?;
        let outputs = match self.format.acceptor {
            true => self.format.isymbols,
            false => self.format.osymbols,
        };
        let tr = Tr {
            input: label(fields[2], "input", self.format.isymbols)?,
            output: label(output, "output", outputs)?,
            weight: self.weight(weight)?,
            target,
        };
        self.machine.add_tr(source, tr).map_err(said)
    }

    /// The state that a line begins with; the first is the start.
    fn source(&mut self, field: &str) -> Result<u32, String> {
        let state = self.state(field)?;
        if self.machine.start().is_none() {
            self.machine.set_start(Some(state)).map_err(said)?;
        }
        Ok(state)
    }

    fn state(&mut self, field: &str) -> Result<u32, String> {
        let plain = field.bytes().all(|byte| byte.is_ascii_digit());
        let number: u64 = plain
            .then_some(field)
            .and_then(|digits| digits.parse().ok())
            .ok_or_else(|| format!("the state \"{field}\" is not a number"))?;
        if self.format.keep_numbers {
            return self.kept(number);
        }
        if let Some(&state) = self.numbers.get(&number) {
            return Ok(state);
        }
        let state = self.machine.add_state().map_err(said)?;
        self.numbers.insert(number, state);
        Ok(state)
    }

    fn kept(&mut self, number: u64) -> Result<u32, String> {
        let state = u32::try_from(number).map_err(|_| {
            format!(
                "state {number} is past the last possible one, {}",
                LARGEST_COUNT - 1
            )
        })?;
        self.machine.ensure_state(state).map_err(said)?;
        Ok(state)
    }

    fn weight(&self, field: Option<&&str>) -> Result<u32, String> {
        match field {
            None => Ok(self.format.kind.one()),
            Some(field) => weight_text::parse(field, self.format.kind),
        }
    }
}

fn said(error: Error) -> String {
    error.to_string()
}

fn wrong_count(count: usize, acceptor: bool) -> String {
    let forms = match acceptor {
        true => "\"source target label [weight]\" or \"state [weight]\"",
        false => "\"source target input output [weight]\" or \"state [weight]\"",
    };
    let hint = match (count, acceptor) {
        (3, false) => " (three fields are a transition of an acceptor)",
        _ => "",
    };
    format!("a line is {forms}, here are {count} fields{hint}")
}

fn label(field: &str, side: &str, symbols: Option<&SymbolTable>) -> Result<u32, String> {
    match symbols {
        Some(table) => table
            .number(field)
            .ok_or_else(|| format!("the {side} symbol \"{field}\" is not in the symbol table {}", table.name())),
        None => label_number(field).ok_or_else(|| {
            format!("the {side} label \"{field}\" is not a number from 0 to {LARGEST_LABEL}, and no symbol table is given")
        }),
    }
}

/// Writes a machine, the start's lines first, then the others in number order; nothing where there is no start.
///
/// # Errors
///
/// [`Error::Machine`] where a label has no symbol in its table, or as an acceptor's a transition's labels differ.
///
/// ```
/// use rinkolza::{text, Format};
///
/// let machine = text::read("7 3 1 2 0\n3 5\n", "m.txt", &Format::default())?;
/// assert_eq!(text::write(&machine, &Format::default())?, "0\t1\t1\t2\n1\t5\n");
/// # Ok::<(), rinkolza::Error>(())
/// ```
pub fn write(machine: &Machine, format: &Format<'_>) -> Result<String, Error> {
    let mut text = String::new();
    let Some(start) = machine.start() else {
        return Ok(text);
    };
    write_state(&mut text, machine, start, format)?;
    for state in machine.states().filter(|&state| state != start) {
        write_state(&mut text, machine, state, format)?;
    }
    Ok(text)
}

fn write_state(
    text: &mut String,
    machine: &Machine,
    state: u32,
    format: &Format<'_>,
) -> Result<(), Error> {
    for tr in machine.trs(state) {
        let labels = labels(tr, format, "\t")?;
        text.push_str(&format!("{state}\t{}\t{labels}", tr.target));
        end_line(text, tr.weight, format);
    }
    let zero = format.kind.zero();
    let weight = machine.final_weight(state).unwrap_or(zero);
    if weight != zero || machine.trs(state).is_empty() {
        text.push_str(&state.to_string());
        end_line(text, weight, format);
    }
    Ok(())
}

fn end_line(text: &mut String, weight: u32, format: &Format<'_>) {
    if format.show_one || weight != format.kind.one() {
        text.push('\t');
        text.push_str(&weight_text::show(weight, format.kind));
    }
    text.push('\n');
}

/// The labels of a transition: both, or the one of an acceptor.
pub(crate) fn labels(tr: &Tr, format: &Format<'_>, between: &str) -> Result<String, Error> {
    let input = symbol(tr.input, format.isymbols)?;
    if !format.acceptor {
        return Ok(format!(
            "{input}{between}{}",
            symbol(tr.output, format.osymbols)?
        ));
    }
    if tr.input != tr.output {
        return Err(Error::Machine(format!(
            "the transition {}:{} cannot be written as an acceptor's, whose input equals its output",
            tr.input, tr.output
        )));
    }
    Ok(input)
}

fn symbol(label: u32, symbols: Option<&SymbolTable>) -> Result<String, Error> {
    match symbols {
        None => Ok(label.to_string()),
        Some(table) => match table.symbol(label) {
            Some(symbol) => Ok(symbol.to_string()),
            None => Err(Error::Machine(format!(
                "the label {label} has no symbol in the table {}",
                table.name()
            ))),
        },
    }
}

#[cfg(test)]
mod tests {
    use super::*;

    fn twice(text: &str, format: &Format<'_>) -> String {
        write(&read(text, "m", format).unwrap(), format).unwrap()
    }

    fn says(text: &str, format: &Format<'_>) -> String {
        read(text, "m", format).unwrap_err().to_string()
    }

    #[test]
    fn numbers_in_order_of_mention() {
        let plain = Format::default();
        let kept = Format {
            keep_numbers: true,
            ..plain
        };
        let text = "5\t3\t1\t2\t4\n3\t4 4   4\n4\t2\n";
        assert_eq!(twice(text, &plain), "0\t1\t1\t2\t4\n1\t2\t4\t4\n2\t2\n");
        assert_eq!(
            twice(text, &kept),
            "5\t3\t1\t2\t4\n0\tInfinity\n1\tInfinity\n2\tInfinity\n3\t4\t4\t4\n4\t2\n"
        );
        assert_eq!(twice("3\n5 3 1 2\n", &plain), "0\n1\t0\t1\t2\n");
        assert_eq!(twice("", &plain), "");
        assert_eq!(
            twice("\n \r\n5 3 1 2\r\n3 0\n3 7", &plain),
            "0\t1\t1\t2\n1\t7\n"
        );
        assert_eq!(twice("0 Infinity\n", &plain), "0\tInfinity\n");
    }

    #[test]
    fn counts_and_acceptors() {
        let format = Format {
            kind: Kind::Count,
            acceptor: true,
            ..Format::default()
        };
        assert_eq!(
            twice("0 1 5\n0 1 6 0\n1 3\n", &format),
            "0\t1\t5\n0\t1\t6\t0\n1\t3\n"
        );
        let shown = Format {
            show_one: true,
            ..format
        };
        assert_eq!(twice("0 1 5\n1\n", &shown), "0\t1\t5\t1\n1\t1\n");
        assert!(says("0 1 5 6 7", &format).contains("here are 5 fields"));
        let machine = read("0 1 5 6\n", "m", &Format::default()).unwrap();
        assert!(write(&machine, &format).is_err());
    }

    #[test]
    fn symbols_both_ways() {
        let table = SymbolTable::parse("<eps> 0\na 1\nb 2", "t").unwrap();
        let format = Format {
            isymbols: Some(&table),
            osymbols: Some(&table),
            ..Format::default()
        };
        assert_eq!(twice("0 1 a <eps>\n1\n", &format), "0\t1\ta\t<eps>\n1\n");
        assert_eq!(
            says("0 1 a b\n0 1 a 1\n", &format),
            "m:2: the output symbol \"1\" is not in the symbol table t"
        );
        let machine = read("0 1 1 3\n", "m", &Format::default()).unwrap();
        assert!(write(&machine, &format).is_err());
    }

    #[test]
    fn the_most_states_and_transitions() {
        let plain = Format::default();
        let many: String = (0..70_000).map(|n| format!("{n} 0 1 1\n")).collect();
        let machine = read(&many, "m", &plain).unwrap();
        assert_eq!(
            (machine.state_count(), machine.tr_count()),
            (70_000, 70_000)
        );
        let mut reader = Reader {
            format: &plain,
            machine: machine.counting(LARGEST_COUNT - 1),
            numbers: HashMap::new(),
        };
        assert_eq!(reader.line("7 7 1 1"), Ok(()));
        assert_eq!(
            reader.line("7 7 1 1"),
            Err("a machine has at most 16777215 transitions".to_string())
        );
        let kept = Format {
            keep_numbers: true,
            ..plain
        };
        assert_eq!(
            says("5\n16777215\n", &kept),
            "m:2: state 16777215 is past the last possible one: a machine has at most 16777215 states"
        );
        assert_eq!(
            says("4294967296\n", &kept),
            "m:1: state 4294967296 is past the last possible one, 16777214"
        );
    }

    #[test]
    fn errors_name_their_line() {
        let plain = Format::default();
        assert!(says("0 1 1 1\n\n0 1 1\n", &plain).starts_with("m:3: a line is"));
        assert!(says("0 1 1 1 1 1", &plain).starts_with("m:1: "));
        assert_eq!(says("a", &plain), "m:1: the state \"a\" is not a number");
        assert_eq!(says("-1", &plain), "m:1: the state \"-1\" is not a number");
        assert!(says("0 1 x 1", &plain).contains("the input label \"x\""));
        assert!(says("0 1 1 4294967295", &plain).contains("the output label \"4294967295\""));
        assert!(says("0 99999999999999999999 1 1", &plain).starts_with("m:1: "));
        assert!(
            says("\u{feff}0 1 1 1\n", &plain).starts_with("m:1: the text begins with a byte-order")
        );
        assert!(utf8(b"\xff\xfe0\0", "m")
            .unwrap_err()
            .to_string()
            .contains("UTF-16"));
        assert!(utf8(b"0 1\n\xff", "m")
            .unwrap_err()
            .to_string()
            .starts_with("m:2: "));
    }
}

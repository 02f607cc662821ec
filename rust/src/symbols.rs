//! Symbol tables: a line for each symbol, the symbol and its number, as OpenFst writes them.

#![forbid(unsafe_code)]

use crate::error::Error;
use crate::machine::LARGEST_LABEL;
use std::collections::HashMap;

/// Names for labels.
///
/// ```
/// use rinkolza::SymbolTable;
///
/// let table = SymbolTable::parse("<eps>\t0\nA\t1\n", "glyphs.syms")?;
/// assert_eq!(table.number("A"), Some(1));
/// assert_eq!(table.symbol(0), Some("<eps>"));
/// # Ok::<(), rinkolza::Error>(())
/// ```
#[derive(Clone, Debug, Default, PartialEq, Eq)]
pub struct SymbolTable {
    name: String,
    numbers: HashMap<String, u32>,
    symbols: HashMap<u32, String>,
}

impl SymbolTable {
    /// Reads a table; `name` stands for it in errors. A symbol has one number; a number with two symbols is printed
    /// as the last, as OpenFst does.
    ///
    /// # Errors
    ///
    /// [`Error::Text`], with the line, where a line is not a symbol and a number up to 4294967294, a symbol has two
    /// numbers, or the text begins with a byte-order mark.
    pub fn parse(text: &str, name: &str) -> Result<SymbolTable, Error> {
        let mut table = SymbolTable {
            name: name.to_string(),
            ..SymbolTable::default()
        };
        no_mark(text, name)?;
        for (place, line) in text.lines().enumerate() {
            table.add_line(line).map_err(|what| Error::Text {
                source: name.to_string(),
                line: place + 1,
                what,
            })?;
        }
        Ok(table)
    }

    fn add_line(&mut self, line: &str) -> Result<(), String> {
        let fields: Vec<&str> = fields(line).collect();
        let (symbol, digits) = match fields[..] {
            [] => return Ok(()),
            [symbol, digits] => (symbol, digits),
            _ => {
                return Err(format!(
                    "a line of a symbol table has a symbol and a number, here are {} fields",
                    fields.len()
                ))
            }
        };
        let number = label_number(digits)
            .ok_or_else(|| format!("\"{digits}\" is not a number from 0 to {LARGEST_LABEL}"))?;
        match self.numbers.get(symbol) {
            Some(&old) if old != number => {
                return Err(format!(
                    "the symbol \"{symbol}\" has the number {old} already"
                ))
            }
            _ => {}
        }
        self.numbers.insert(symbol.to_string(), number);
        self.symbols.insert(number, symbol.to_string());
        Ok(())
    }

    /// The name by which errors call the table.
    pub fn name(&self) -> &str {
        &self.name
    }

    /// The symbol's number.
    pub fn number(&self, symbol: &str) -> Option<u32> {
        self.numbers.get(symbol).copied()
    }

    /// The number's symbol.
    pub fn symbol(&self, number: u32) -> Option<&str> {
        self.symbols.get(&number).map(String::as_str)
    }
}

/// An error where the text begins with a byte-order mark, which would else count as a part of its first field.
pub(crate) fn no_mark(text: &str, name: &str) -> Result<(), Error> {
    if !text.starts_with('\u{feff}') {
        return Ok(());
    }
    Err(Error::Text {
        source: name.to_string(),
        line: 1,
        what: "the text begins with a byte-order mark (EF BB BF): save it as UTF-8 without one"
            .to_string(),
    })
}

/// The fields of a line, apart by tabs or spaces, one or more; a carriage return at the end counts as a space.
pub(crate) fn fields(line: &str) -> impl Iterator<Item = &str> {
    line.strip_suffix('\r')
        .unwrap_or(line)
        .split([' ', '\t'])
        .filter(|field| !field.is_empty())
}

/// A label written as a number.
pub(crate) fn label_number(digits: &str) -> Option<u32> {
    let plain = !digits.is_empty() && digits.bytes().all(|byte| byte.is_ascii_digit());
    let number: u32 = plain.then_some(digits)?.parse().ok()?;
    (number <= LARGEST_LABEL).then_some(number)
}

#[cfg(test)]
mod tests {
    use super::*;

    #[test]
    fn tables() {
        let table = SymbolTable::parse("<eps> 0\r\n\na\t1\nb\t1\n", "t").unwrap();
        assert_eq!(table.number("a"), Some(1));
        assert_eq!(table.symbol(1), Some("b"));
        let says = |text: &str| SymbolTable::parse(text, "t").unwrap_err().to_string();
        assert_eq!(
            says("a\t1\na\t2\n"),
            "t:2: the symbol \"a\" has the number 1 already"
        );
        assert_eq!(
            says("a x"),
            "t:1: \"x\" is not a number from 0 to 4294967294"
        );
        assert!(says("\na 1 2").starts_with("t:2: "));
        assert!(SymbolTable::parse("a 4294967295", "t").is_err());
        assert!(SymbolTable::parse("a +1", "t").is_err());
        assert!(
            says("\u{feff}<eps> 0\n").starts_with("t:1: the text begins with a byte-order mark")
        );
    }
}

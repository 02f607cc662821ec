//! Pictures for Graphviz.

#![forbid(unsafe_code)]

use crate::error::Error;
use crate::machine::Machine;
use crate::text::{labels, Format};
use crate::weight_text;

/// The machine as a Graphviz graph: the start is bold, final states have two rings, weights stand behind a slash.
///
/// # Errors
///
/// As for [`text::write`](crate::text::write).
///
/// ```
/// use rinkolza::{dot, text, Format};
///
/// let machine = text::read("0 1 3 4 2\n1\n", "m.txt", &Format::default())?;
/// assert!(dot::draw(&machine, &Format::default())?.contains("0 -> 1 [label = \"3:4/2\"];"));
/// # Ok::<(), rinkolza::Error>(())
/// ```
pub fn draw(machine: &Machine, format: &Format<'_>) -> Result<String, Error> {
    draw_named(machine, format, |state| state.to_string())
}

/// As [`draw`], with a name of one's own in each state's ring.
///
/// # Errors
///
/// As for [`draw`].
pub fn draw_named(
    machine: &Machine,
    format: &Format<'_>,
    name: impl Fn(u32) -> String,
) -> Result<String, Error> {
    let mut dot = String::from("digraph FST {\n    rankdir = LR;\n    node [shape = circle];\n");
    for state in machine.states() {
        dot.push_str(&node(machine, state, format, &name(state)));
        for tr in machine.trs(state) {
            let both = escaped(&labels(tr, format, ":")?);
            let weight = behind_slash(tr.weight, format);
            dot.push_str(&format!(
                "    {state} -> {} [label = \"{both}{weight}\"];\n",
                tr.target
            ));
        }
    }
    dot.push_str("}\n");
    Ok(dot)
}

fn node(machine: &Machine, state: u32, format: &Format<'_>, name: &str) -> String {
    let weight = machine
        .final_weight(state)
        .filter(|&weight| weight != format.kind.zero());
    let ring = match weight {
        Some(_) => ", shape = doublecircle",
        None => "",
    };
    let bold = match machine.start() == Some(state) {
        true => ", style = bold",
        false => "",
    };
    let behind = weight.map_or(String::new(), |weight| behind_slash(weight, format));
    format!(
        "    {state} [label = \"{}{behind}\"{ring}{bold}];\n",
        escaped(name)
    )
}

fn behind_slash(weight: u32, format: &Format<'_>) -> String {
    if weight == format.kind.one() && !format.show_one {
        return String::new();
    }
    format!("/{}", weight_text::show(weight, format.kind))
}

/// A quoted string of Graphviz: quotes and backslashes are escaped.
fn escaped(text: &str) -> String {
    text.replace('\\', "\\\\").replace('"', "\\\"")
}

#[cfg(test)]
mod tests {
    use super::*;
    use crate::symbols::SymbolTable;

    #[test]
    fn names_and_symbols_are_escaped() {
        let table = SymbolTable::parse("<eps> 0\n\" 1\n\\ 2", "t").unwrap();
        let format = Format {
            isymbols: Some(&table),
            osymbols: Some(&table),
            ..Format::default()
        };
        let machine = crate::text::read("0 1 \" \\ 7\n1 5\n", "m", &format).unwrap();
        let dot = draw_named(&machine, &format, |state| format!("\"{state}\"")).unwrap();
        assert!(dot.contains("0 -> 1 [label = \"\\\":\\\\/7\"];"), "{dot}");
        assert!(
            dot.contains("1 [label = \"\\\"1\\\"/5\", shape = doublecircle];"),
            "{dot}"
        );
        assert!(
            dot.contains("0 [label = \"\\\"0\\\"\", style = bold];"),
            "{dot}"
        );
    }
}

//! Weights as OpenFst's text form has them: decimal numbers, perhaps with a point or an exponent.

#![forbid(unsafe_code)]

use crate::settings::Kind;

/// The weight that the field says. `Infinity` (also `inf`, in any case of letters) is a cost alone. A number with a
/// point or an exponent will do where its value is whole: `3.0`, `1e+02`.
pub(crate) fn parse(field: &str, kind: Kind) -> Result<u32, String> {
    let lower = field.to_ascii_lowercase();
    let infinite = matches!(lower.trim_start_matches('+'), "infinity" | "inf");
    match kind {
        Kind::Cost if infinite => Ok(u32::MAX),
        Kind::Cost => match whole(&lower) {
            Some(value) if value < u64::from(u32::MAX) => Ok(value as u32),
            _ => Err(format!(
                "the weight \"{field}\" is not a whole number from 0 to {} or Infinity",
                u32::MAX - 1
            )),
        },
        Kind::Count => match whole(&lower) {
            Some(value) if value <= u64::from(u32::MAX) => Ok(value as u32),
            _ => Err(format!(
                "the count \"{field}\" is not a whole number from 0 to {}",
                u32::MAX
            )),
        },
    }
}

/// The weight as text.
pub(crate) fn show(weight: u32, kind: Kind) -> String {
    if kind == Kind::Cost && weight == u32::MAX {
        return "Infinity".to_string();
    }
    weight.to_string()
}

/// The exact value of a decimal number, where it is whole and of at most 19 digits.
fn whole(text: &str) -> Option<u64> {
    let (mantissa, exponent) = match text.split_once('e') {
        Some((mantissa, exponent)) => (mantissa, exponent.parse::<i32>().ok()?),
        None => (text, 0),
    };
    let negative = mantissa.starts_with('-');
    let unsigned = mantissa.strip_prefix(['+', '-']).unwrap_or(mantissa);
    let (before, after) = unsigned.split_once('.').unwrap_or((unsigned, ""));
    let digits = format!("{before}{after}");
    if digits.is_empty() || !digits.bytes().all(|byte| byte.is_ascii_digit()) {
        return None;
    }
    let significant = digits.trim_start_matches('0').trim_end_matches('0');
    if significant.is_empty() {
        return Some(0);
    }
    let ending = digits.len() - digits.trim_end_matches('0').len();
    let power = i64::from(exponent) - after.len() as i64 + ending as i64;
    if negative || power < 0 || significant.len() as i64 + power > 19 {
        return None;
    }
    Some(significant.parse::<u64>().ok()? * 10u64.pow(power as u32))
}

#[cfg(test)]
mod tests {
    use super::*;

    #[test]
    fn whole_numbers() {
        for (text, value) in [
            ("0", 0),
            ("-0", 0),
            ("000", 0),
            ("0.000", 0),
            ("7", 7),
            ("+7", 7),
            ("007", 7),
            ("3.0", 3),
            (".5e1", 5),
            ("1e2", 100),
            ("1e+02", 100),
            ("1.25E2", 125),
            ("1200e-2", 12),
            ("4294967294", 4294967294),
            ("4.294967294e+09", 4294967294),
            ("0e99999", 0),
        ] {
            assert_eq!(parse(text, Kind::Cost), Ok(value), "{text}");
        }
        for text in [
            "",
            ".",
            "-",
            "e5",
            "1e",
            "0.5",
            "-1",
            "1e-1",
            "4294967295",
            "1e10",
            "1e999999999",
            "1e99999999999",
            "nan",
            "0x10",
            "1 2",
            "1_0",
            "--1",
            "+-1",
            "１",
            "-Infinity",
            "12345678901234567890",
        ] {
            assert!(parse(text, Kind::Cost).is_err(), "{text}");
        }
    }

    #[test]
    fn infinity_and_counts() {
        assert_eq!(parse("Infinity", Kind::Cost), Ok(u32::MAX));
        assert_eq!(parse("inf", Kind::Cost), Ok(u32::MAX));
        assert!(parse("Infinity", Kind::Count).is_err());
        assert_eq!(parse("4294967295", Kind::Count), Ok(u32::MAX));
        assert!(parse("4294967296", Kind::Count).is_err());
        assert_eq!(show(u32::MAX, Kind::Cost), "Infinity");
        assert_eq!(show(u32::MAX, Kind::Count), "4294967295");
    }
}

//! How values, rows and refusals are put in words for people.

use shorgavel::{Cell, Refusal, TextEncoding, Unread, Value};
use std::fmt::Write;

/// Longer texts, blobs and rows are cut.
const TEXT: usize = 60;
const BLOB: usize = 24;
const ROW: usize = 160;

/// Why the rows of some tables are not listed.
pub const KEYED: &str = "it has no row numbers: its rows are in an index, and are not listed";
pub const VIRTUAL: &str = "it is virtual: it has no pages of its own";

/// With a comma for each thousand.
pub fn grouped(number: usize) -> String {
    let digits = number.to_string();
    let mut words = String::new();
    for (at, digit) in digits.chars().enumerate() {
        if at > 0 && (digits.len() - at) % 3 == 0 {
            words.push(',');
        }
        words.push(digit);
    }
    words
}

/// For example `1 row` and `2,000 rows`.
pub fn counted(number: usize, noun: &str) -> String {
    format!("{} {noun}{}", grouped(number), if number == 1 { "" } else { "s" })
}

/// As SQL has it: `null`, `42`, `1.5`, `'text'`, `x'00ff'`.
pub fn value(words: &mut String, value: Value<'_>, encoding: TextEncoding) {
    match value {
        Value::Null => words.push_str("null"),
        Value::Integer(z) => push(words, format_args!("{z}")),
        Value::Real(x) if x.is_nan() => push(words, format_args!("not a number ({:016x})", x.to_bits())),
        Value::Real(x) => push(words, format_args!("{x:?}")),
        Value::Text(bytes) => match encoding.decode(bytes) {
            Some(characters) => text(words, &characters, bytes.len(), TEXT, hidden),
            None => {
                words.push_str("text ");
                blob(words, bytes);
            }
        },
        Value::Blob(bytes) => blob(words, bytes),
    }
}

/// A string takes every word.
fn push(words: &mut String, more: std::fmt::Arguments<'_>) {
    let _ = words.write_fmt(more);
}

/// So many characters of a text, which has that many bytes; those that are to be escaped have their numbers.
pub fn text(words: &mut String, characters: &str, bytes: usize, most: usize, escaped: fn(char) -> bool) {
    words.push('\'');
    let mut rest = characters.chars();
    for character in rest.by_ref().take(most) {
        match character {
            '\'' => words.push_str("''"),
            _ if escaped(character) => words.extend(character.escape_unicode()),
            _ => words.push(character),
        }
    }
    words.push('\'');
    if !rest.as_str().is_empty() {
        push(words, format_args!("… ({bytes} bytes)"));
    }
}

/// Names and statements, with nothing in them that would steer a terminal.
pub fn plain(characters: &str) -> String {
    let mut words = String::with_capacity(characters.len());
    for character in characters.chars() {
        match character {
            '\t' => words.push(' '),
            _ if hidden(character) => words.extend(character.escape_unicode()),
            _ => words.push(character),
        }
    }
    words
}

/// For example `row 3 of the schema, page 1 cell 2, tells nothing: its name is no text`.
pub fn unread(row: &Unread) -> String {
    let (place, why) = (row.place, &row.why);
    format!("row {} of the schema, page {} cell {}, tells nothing: {why}", place.rowid(), place.page(), place.cell())
}

/// The first of such rows, and how many more there are.
pub fn all_unread(rows: &[Unread]) -> Option<String> {
    match rows {
        [] => None,
        [one] => Some(unread(one)),
        [first, more @ ..] => Some(format!("{} (and {} more rows)", unread(first), more.len())),
    }
}

/// Characters that would steer a terminal or turn the direction of a line.
pub fn hidden(character: char) -> bool {
    character.is_control()
        || matches!(character, '\u{200e}' | '\u{200f}' | '\u{202a}'..='\u{202e}' | '\u{2066}'..='\u{2069}')
}

fn blob(words: &mut String, bytes: &[u8]) {
    words.push_str("x'");
    for byte in bytes.iter().take(BLOB) {
        push(words, format_args!("{byte:02x}"));
    }
    words.push('\'');
    if bytes.len() > BLOB {
        push(words, format_args!("… ({} bytes)", bytes.len()));
    }
}

/// For example `row 3: 1, 'Hi'`.
pub fn row(words: &mut String, cell: &Cell<'_>, encoding: TextEncoding) {
    push(words, format_args!("row {}", cell.rowid()));
    if cell.columns() == 0 {
        words.push_str(" with no columns");
    }
    let start = words.len();
    for (column, shown) in cell.values().enumerate() {
        words.push_str(if column == 0 { ": " } else { ", " });
        if words.len() - start > ROW {
            push(words, format_args!("… ({} columns)", cell.columns()));
            return;
        }
        value(words, shown, encoding);
    }
}

/// For example `13 CellCut: the cell is cut short`; a mark speaks for itself.
pub fn refusal(words: &mut String, refusal: Refusal) {
    push(words, format_args!("{} {}", refusal.number(), refusal.name()));
    if let Some(column) = refusal.column() {
        push(words, format_args!(" in column {column}"));
    }
    match refusal.mark() {
        Some(mark) => push(words, format_args!(": {mark}")),
        None => push(words, format_args!(": {}", refusal.meaning())),
    }
}

#[cfg(test)]
mod tests {
    use super::*;

    #[test]
    fn thousands_have_commas() {
        let words = [0, 999, 1_000, 65_536, 1_073_741_824].map(grouped);
        assert_eq!(words, ["0", "999", "1,000", "65,536", "1,073,741,824"]);
        assert_eq!([counted(1, "row"), counted(2_000, "row")], ["1 row", "2,000 rows"]);
    }

    fn said(shown: Value<'_>) -> String {
        let mut words = String::new();
        value(&mut words, shown, TextEncoding::Utf8);
        words
    }

    #[test]
    fn values_are_put_as_in_sql() {
        assert_eq!(said(Value::Null), "null");
        assert_eq!(said(Value::Integer(i64::MIN)), "-9223372036854775808");
        assert_eq!(said(Value::Real(44.0)), "44.0");
        assert_eq!(said(Value::Real(f64::from_bits(0x7ff0_0000_0000_0001))), "not a number (7ff0000000000001)");
        assert_eq!(said(Value::Text(b"it's")), "'it''s'");
        assert_eq!(said(Value::Text(b"\xff")), "text x'ff'");
        assert_eq!(said(Value::Blob(&[0, 255])), "x'00ff'");
    }

    #[test]
    fn nothing_steers_a_terminal() {
        assert_eq!(said(Value::Text("a\x1b[2Jb\u{202e}".as_bytes())), "'a\\u{1b}[2Jb\\u{202e}'");
    }

    #[test]
    fn names_steer_no_terminal_either() {
        assert_eq!(plain("a\tb\x1b[2J\nΩ"), "a b\\u{1b}[2J\\u{a}Ω");
    }

    #[test]
    fn long_values_are_cut() {
        assert_eq!(said(Value::Text("Ω".repeat(61).as_bytes())), format!("'{}'… (122 bytes)", "Ω".repeat(60)));
        assert_eq!(said(Value::Blob(&[7; 25])), format!("x'{}'… (25 bytes)", "07".repeat(24)));
    }
}

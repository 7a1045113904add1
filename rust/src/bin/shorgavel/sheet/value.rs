//! A value as a sheet shows it: as elsewhere, but a text is whole and keeps its line breaks.

use crate::words;
use shorgavel::{TextEncoding, Value};

/// A page of A4 has room for about so many characters; of a longer text the others are not shown.
const TEXT: usize = 4_000;

pub fn put(words: &mut String, value: Value<'_>, encoding: TextEncoding) {
    let text = match value {
        Value::Text(bytes) => encoding.decode(bytes).map(|characters| (characters, bytes.len())),
        _ => None,
    };
    match text {
        // HTML has one sign for a line break, whatever the text has.
        Some((characters, bytes)) => words::text(words, &characters.replace("\r\n", "\n"), bytes, TEXT, is_hidden),
        None => words::value(words, value, encoding),
    }
}

fn is_hidden(character: char) -> bool {
    !matches!(character, '\n' | '\t') && words::hidden(character)
}

/// Whether a value stands on the left, as words do.
pub fn is_text(value: Value<'_>) -> bool {
    matches!(value, Value::Text(_) | Value::Blob(_))
}

/// How many characters wide a value stands: as its longest line.
pub fn width(words: &str) -> usize {
    words.lines().map(|line| line.chars().count()).max().unwrap_or(0)
}

#[cfg(test)]
mod tests {
    use super::*;

    fn said(bytes: &[u8]) -> String {
        let mut words = String::new();
        put(&mut words, Value::Text(bytes), TextEncoding::Utf8);
        words
    }

    #[test]
    fn line_breaks_are_kept() {
        assert_eq!(said(b"one\ntwo\r\n\tthree\rit's\x1b"), "'one\ntwo\n\tthree\\u{d}it''s\\u{1b}'");
        assert_eq!((width(&said(b"one\ntwo, three\n")), width("")), (10, 0));
    }

    #[test]
    fn a_text_is_whole_up_to_a_page() {
        let long = "Ω".repeat(TEXT);
        assert_eq!(said(long.as_bytes()), format!("'{long}'"));
        assert_eq!(said(format!("{long}x").as_bytes()), format!("'{long}'… (8001 bytes)"));
        assert_eq!(said(b"\xff"), "text x'ff'");
    }
}

//! The bytes of a text, which the original keeps to itself.

use std::fmt::{self, Write};

use sqlite_parser_nom::model::RawText;

/// The field of `RawText` is private, and `decode` loses bytes that are not
/// UTF-8. Its `Debug` form lists the bytes as numbers: `RawText([111, 107])`.
/// The comparison at the end makes sure of what was read from it.
pub fn bytes_of(text: &RawText) -> Vec<u8> {
    let mut numbers = Numbers::default();
    write!(numbers, "{text:?}").expect("Numbers takes everything");
    let bytes = numbers.finish();
    assert!(RawText::new(&bytes) == *text, "the text's bytes");
    bytes
}

/// Collects the decimal numbers in what is written to it. A number may come in
/// several pieces.
#[derive(Default)]
struct Numbers {
    done: Vec<u8>,
    open: Option<u8>,
}

impl Numbers {
    fn finish(mut self) -> Vec<u8> {
        self.done.extend(self.open);
        self.done
    }
}

impl fmt::Write for Numbers {
    fn write_str(&mut self, piece: &str) -> fmt::Result {
        for b in piece.bytes() {
            if b.is_ascii_digit() {
                self.open = Some(self.open.unwrap_or(0) * 10 + (b - b'0'));
            } else {
                self.done.extend(self.open.take());
            }
        }
        Ok(())
    }
}

//! Values as text.

use std::io::{self, Write};

use sqlite_parser_nom::model::Payload;

use crate::text;

/// What stands before a value of each variant.
pub struct Marks {
    i8: &'static str,
    i16: &'static str,
    i32: &'static str,
    i64: &'static str,
    f64: &'static str,
    blob: &'static str,
    text: &'static str,
}

/// The variant of the original.
pub const VARIANTS: Marks = Marks {
    i8: "i8",
    i16: "i16",
    i32: "i32",
    i64: "i64",
    f64: "f64",
    blob: "blob",
    text: "text",
};

/// The letters of the program `rows`, which does not say widths.
pub const PLAIN: Marks = Marks {
    i8: "i",
    i16: "i",
    i32: "i",
    i64: "i",
    f64: "r",
    blob: "b",
    text: "t",
};

/// A cell's values, with a space before each, and the end of its line.
pub fn print_all(
    out: &mut impl Write,
    marks: &Marks,
    values: &[Option<Payload>],
) -> io::Result<()> {
    for value in values {
        write!(out, " ")?;
        print(out, marks, value)?;
    }
    writeln!(out)
}

fn print(out: &mut impl Write, marks: &Marks, value: &Option<Payload>) -> io::Result<()> {
    match value {
        None => write!(out, "null"),
        Some(Payload::I8(n)) => write!(out, "{}:{n}", marks.i8),
        Some(Payload::I16(n)) => write!(out, "{}:{n}", marks.i16),
        Some(Payload::I32(n)) => write!(out, "{}:{n}", marks.i32),
        Some(Payload::I64(n)) => write!(out, "{}:{n}", marks.i64),
        Some(Payload::F64(x)) => write!(out, "{}:{:016x}", marks.f64, x.to_bits()),
        Some(Payload::Blob(bytes)) => print_hex(out, marks.blob, bytes),
        Some(Payload::Text(text)) => print_hex(out, marks.text, &text::bytes_of(text)),
    }
}

fn print_hex(out: &mut impl Write, mark: &str, bytes: &[u8]) -> io::Result<()> {
    const DIGITS: &[u8; 16] = b"0123456789abcdef";
    let digits: Vec<u8> = bytes
        .iter()
        .flat_map(|b| [DIGITS[usize::from(b >> 4)], DIGITS[usize::from(b & 15)]])
        .collect();
    write!(out, "{mark}:")?;
    out.write_all(&digits)
}

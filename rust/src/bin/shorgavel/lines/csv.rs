//! Rows as comma-separated values: a line a row and reading, and as many fields in each.

use crate::csv;
use crate::out::Out;
use shorgavel::{Reading, Row, TextEncoding, Value};
use std::io::Write;

/// Where a row is refused, its number is empty and these three are not; where it has no mark or no column, neither is told.
const HEADING: &[u8] = b"page,cell,reading,row,refused,mark,refused column";

pub fn heading(out: &mut Out, columns: usize) {
    out.text(HEADING);
    for column in 0..columns {
        out.text(b",column ");
        out.decimal(column as u64);
    }
    out.text(b"\n");
}

pub fn line(out: &mut Out, reading: Reading, row: &Row<'_>, encoding: TextEncoding, columns: usize) {
    out.decimal(row.page.into());
    out.text(b",");
    out.decimal(row.cell as u64);
    out.text(b",");
    out.text(reading.name().as_bytes());
    out.text(b",");
    let mut left = columns;
    match &row.shown {
        Ok(cell) => {
            out.signed(cell.rowid());
            out.text(b",,,");
            for shown in cell.values() {
                out.text(b",");
                value(out, shown, encoding);
                left -= 1;
            }
        }
        Err(refusal) => {
            out.text(b",");
            out.decimal(refusal.number().into());
            for number in [refusal.mark().map(|mark| mark.number().into()), refusal.column()] {
                out.text(b",");
                number.into_iter().for_each(|number: usize| out.decimal(number as u64));
            }
        }
    }
    (0..left).for_each(|_| out.text(b","));
    out.text(b"\n");
}

/// Null is an empty field, and so is an empty text.
fn value(out: &mut Out, value: Value<'_>, encoding: TextEncoding) {
    match value {
        Value::Null => {}
        Value::Integer(z) => out.signed(z),
        Value::Real(x) if x.is_nan() => {
            out.text(b"r:");
            out.hex(&x.to_bits().to_be_bytes());
        }
        // The fewest digits that read back as the same bits; the buffer takes all.
        Value::Real(x) => drop(write!(out, "{x:?}")),
        Value::Text(bytes) => match encoding.decode(bytes) {
            Some(characters) => csv::field(out, &characters),
            None => hex(out, bytes),
        },
        Value::Blob(bytes) => hex(out, bytes),
    }
}

fn hex(out: &mut Out, bytes: &[u8]) {
    out.text(b"x'");
    out.hex(bytes);
    out.text(b"'");
}

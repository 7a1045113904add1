//! A line as the proved program `rows` writes it.

use crate::out::Out;
use shorgavel::{Reading, Refusal, Row, Value};

pub const HEADING: &[u8] = b"page cell reading rowid values\n";

pub fn line(out: &mut Out, reading: Reading, row: &Row<'_>) {
    out.decimal(row.page.into());
    out.text(b" ");
    out.decimal(row.cell as u64);
    out.text(b" ");
    out.text(reading.name().as_bytes());
    match &row.shown {
        Ok(cell) => {
            out.text(b" ");
            out.signed(cell.rowid());
            cell.values().for_each(|shown| value(out, shown));
        }
        Err(refusal) => refused(out, *refusal),
    }
    out.text(b"\n");
}

fn value(out: &mut Out, value: Value<'_>) {
    match value {
        Value::Null => out.text(b" null"),
        Value::Integer(z) => {
            out.text(b" i:");
            out.signed(z);
        }
        Value::Real(x) => {
            out.text(b" r:");
            out.hex(&x.to_bits().to_be_bytes());
        }
        Value::Text(bytes) => {
            out.text(b" t:");
            out.hex(bytes);
        }
        Value::Blob(bytes) => {
            out.text(b" b:");
            out.hex(bytes);
        }
    }
}

/// Number, page, cell, column and mark; 0 where none applies.
fn refused(out: &mut Out, refusal: Refusal) {
    out.text(b" refused ");
    out.decimal(refusal.number().into());
    out.text(b" ");
    out.decimal(refusal.page().unwrap_or(0).into());
    out.text(b" ");
    out.decimal(refusal.cell().unwrap_or(0) as u64);
    out.text(b" ");
    out.decimal(refusal.column().unwrap_or(0) as u64);
    out.text(b" ");
    out.decimal(refusal.mark().map_or(0, |mark| mark.number()).into());
}

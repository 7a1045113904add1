//! Rows as objects of JSON: a line a row and reading.

use crate::json;
use crate::out::Out;
use shorgavel::{Reading, Refusal, Row, TextEncoding, Value};

pub fn line(out: &mut Out, reading: Reading, row: &Row<'_>, encoding: TextEncoding) {
    out.text(b"{\"page\":");
    out.decimal(row.page.into());
    out.text(b",\"cell\":");
    out.decimal(row.cell as u64);
    out.text(b",\"reading\":\"");
    out.text(reading.name().as_bytes());
    match &row.shown {
        Ok(cell) => {
            out.text(b"\",\"row\":");
            json::integer(out, cell.rowid());
            out.text(b",\"values\":[");
            for (column, shown) in cell.values().enumerate() {
                out.text(if column == 0 { b"" } else { b"," });
                value(out, shown, encoding);
            }
            out.text(b"]}\n");
        }
        Err(refusal) => {
            out.text(b"\",\"refused\":");
            refused(out, *refusal);
            out.text(b"}\n");
        }
    }
}

/// A text whose bytes are none in the database's encoding is told by them.
fn value(out: &mut Out, value: Value<'_>, encoding: TextEncoding) {
    match value {
        Value::Null => out.text(b"null"),
        Value::Integer(z) => json::integer(out, z),
        Value::Real(x) => json::real(out, x),
        Value::Text(bytes) => match encoding.decode(bytes) {
            Some(characters) => json::string(out, &characters),
            None => json::bytes(out, "text", bytes),
        },
        Value::Blob(bytes) => json::bytes(out, "blob", bytes),
    }
}

/// Mark and column where there are any.
fn refused(out: &mut Out, refusal: Refusal) {
    out.text(b"{\"number\":");
    out.decimal(refusal.number().into());
    out.text(b",\"name\":");
    json::string(out, refusal.name());
    if let Some(mark) = refusal.mark() {
        out.text(b",\"mark\":");
        out.decimal(mark.number().into());
    }
    if let Some(column) = refusal.column() {
        out.text(b",\"column\":");
        out.decimal(column as u64);
    }
    out.text(b"}");
}

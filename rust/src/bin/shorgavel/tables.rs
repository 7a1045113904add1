//! `tables`: the tables that the schema names, a line each, and below it, indented, what there is to say of it.

use crate::failure::Failure;
use crate::input::Database;
use crate::out::Out;
use crate::words;
use shorgavel::{Gauge, Named, Root, Unread};
use std::io::{self, Write};

pub fn show(database: &Database, out: &mut Out) -> Result<(), Failure> {
    let gauge = database.gauge()?;
    let schema = gauge.schema()?;
    writeln!(out, "root rows name")?;
    for named in &schema.tables {
        table(gauge, named, out)?;
        out.pass()?;
    }
    for row in &schema.unread {
        unread(row, out)?;
        out.pass()?;
    }
    Ok(())
}

/// Root page, rows and name. Where its rows cannot be listed, a word stands for their number, and the next line says why.
fn table(gauge: Gauge<'_>, named: &Named, out: &mut Out) -> io::Result<()> {
    let name = words::plain(&named.name);
    match named.root {
        Root::Numbered(root) => match gauge.count_rows(root) {
            Ok(rows) => writeln!(out, "{root} {rows} {name}")?,
            Err(refusal) => writeln!(out, "{root} refused {name}\n  {refusal}")?,
        },
        Root::Keyed(root) => writeln!(out, "{root} keyed {name}\n  {}", words::KEYED)?,
        Root::Virtual => writeln!(out, "- virtual {name}\n  {}", words::VIRTUAL)?,
    }
    for line in named.sql.iter().flat_map(|sql| sql.lines()) {
        writeln!(out, "    {}", words::plain(line))?;
    }
    Ok(())
}

fn unread(row: &Unread, out: &mut Out) -> io::Result<()> {
    writeln!(out, "- unread -\n  {}", words::unread(row))
}

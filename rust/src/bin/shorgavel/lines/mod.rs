//! `rows`: the lines of the proved program `rows`, for databases of any size up to the limit; or those of one table; or the same
//! rows for a spreadsheet or a program.

mod csv;
mod json;
mod plain;

use crate::failure::Failure;
use crate::form::Form;
use crate::input::Database;
use crate::out::Out;
use crate::progress::Progress;
use shorgavel::{Gauge, Notes, Reading, Refusal, Row, Rows, Table, TableRows, TextEncoding};
use std::io::Write;

/// Which lines are asked for.
pub struct Lines {
    pub readings: Vec<Reading>,
    /// With notes lent, rows that spill are shown too.
    pub notes: Option<Notes>,
    /// The root page of the one table; none for all table leaves, in the order of the file.
    pub table: Option<u32>,
    pub form: Form,
}

pub fn show(database: &Database, lines: Lines, out: &mut Out) -> Result<(), Failure> {
    let form = lines.form;
    if form == Form::Words {
        out.text(plain::HEADING);
    }
    match written(database, lines, out) {
        Err(Failure::Refused(refusal)) if form == Form::Words => refuse(refusal, out),
        done => done,
    }
}

fn written(database: &Database, mut lines: Lines, out: &mut Out) -> Result<(), Failure> {
    let gauge = database.gauge()?;
    let table = lines.table.map(|root| gauge.table(root)).transpose()?;
    let listed = Listed { gauge, table: table.as_ref() };
    let put = Put::of(&listed, &mut lines, out)?;
    let (readings, mut shown) = (lines.readings.len(), 0);
    // How much is done: pages of the file, or rows of the table.
    let mut progress = Progress::new(table.as_ref().map_or(gauge.pages(Reading::File)?.len(), Table::len));
    listed.each(&mut lines, |reading, row| {
        shown += 1;
        progress.reach(if table.is_some() { shown / readings } else { row.page as usize });
        put.line(out, reading, row);
        if shown % readings == 0 {
            out.pass()?;
        }
        Ok(())
    })
}

/// How a row is written.
enum Put {
    Plain,
    /// With so many places for values.
    Csv(TextEncoding, usize),
    Json(TextEncoding),
}

impl Put {
    /// The heading of CSV has a name for each column, so the rows are gone through once for the most that one has.
    fn of(listed: &Listed<'_, '_>, lines: &mut Lines, out: &mut Out) -> Result<Put, Failure> {
        let encoding = || listed.gauge.header(Reading::File).map(|header| header.db_text_encoding);
        match lines.form {
            Form::Words => Ok(Put::Plain),
            Form::Json => Ok(Put::Json(encoding()?)),
            Form::Csv => {
                let mut most = 0;
                listed.each(lines, |_, row| {
                    most = most.max(row.shown.as_ref().map_or(0, |cell| cell.columns()));
                    Ok(())
                })?;
                csv::heading(out, most);
                Ok(Put::Csv(encoding()?, most))
            }
        }
    }

    fn line(&self, out: &mut Out, reading: Reading, row: &Row<'_>) {
        match self {
            Put::Plain => plain::line(out, reading, row),
            Put::Csv(encoding, most) => csv::line(out, reading, row, *encoding, *most),
            Put::Json(encoding) => json::line(out, reading, row, *encoding),
        }
    }
}

/// All table leaves in the order of the file, or one table in the order of its row numbers.
struct Listed<'t, 'a> {
    gauge: Gauge<'a>,
    table: Option<&'t Table<'a>>,
}

impl<'t, 'a> Listed<'t, 'a> {
    /// The readings go through the same cells, side by side.
    fn each(
        &self,
        lines: &mut Lines,
        mut take: impl FnMut(Reading, &Row<'_>) -> Result<(), Failure>,
    ) -> Result<(), Failure> {
        let sides = lines.readings.iter().map(|&reading| Ok((reading, self.side(reading)?)));
        let mut sides = sides.collect::<Result<Vec<_>, Refusal>>()?;
        loop {
            for (reading, rows) in &mut sides {
                let Some(row) = rows.next(lines.notes.as_mut()) else {
                    return Ok(());
                };
                take(*reading, &row)?;
            }
        }
    }

    fn side(&self, reading: Reading) -> Result<Side<'t, 'a>, Refusal> {
        match self.table {
            None => Ok(Side::All(self.gauge.rows(reading)?)),
            Some(table) => Ok(Side::Of(table.rows(reading))),
        }
    }
}

/// A line for the whole: the number, and of a table the place where its walk stopped, as the lines of rows have it.
fn refuse(refusal: Refusal, out: &mut Out) -> Result<(), Failure> {
    write!(out, "refused {}", refusal.number())?;
    if let Some(page) = refusal.page() {
        write!(out, " {page} {} 0 0", refusal.cell().unwrap_or(0))?;
    }
    writeln!(out)?;
    Err(refusal.into())
}

/// The rows of all leaves or of one table, in one reading.
enum Side<'t, 'a> {
    All(Rows<'a>),
    Of(TableRows<'t, 'a>),
}

impl<'a> Side<'_, 'a> {
    fn next<'n>(&mut self, notes: Option<&'n mut Notes>) -> Option<Row<'n>>
    where
        'a: 'n,
    {
        match (self, notes) {
            (Side::All(rows), Some(notes)) => rows.next_with(notes),
            (Side::All(rows), None) => rows.next(),
            (Side::Of(rows), Some(notes)) => rows.next_with(notes),
            (Side::Of(rows), None) => rows.next(),
        }
    }
}

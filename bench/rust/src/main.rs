//! old|file|guarded|lent FILE PASSES: all values of all rows of all table leaves, PASSES times, by the Rust package.
//!
//! `lent` is the file reading with notes lent, so that rows that spill are shown too. It prints what the last pass was
//! shown; with no pass, it does everything but the work that is counted.

#[path = "../../shown.rs"]
mod shown;
mod values;

use std::error::Error;
use std::{env, fs};

use shorgavel::{Cell, Gauge, Notes, Reading, Refusal};

use shown::Shown;
use values::show;

fn main() -> Result<(), Box<dyn Error>> {
    let words: Vec<String> = env::args().skip(1).collect();
    let [name, file, passes] = words
        .try_into()
        .map_err(|_| "the words are old|file|guarded|lent FILE PASSES")?;
    let reading = Reading::ALL.into_iter().find(|r| r.name() == name);
    if reading.is_none() && name != "lent" {
        return Err("no such reading".into());
    }
    let bytes = fs::read(file)?;
    let mut shown = Shown::default();
    for _ in 0..passes.parse()? {
        shown = match reading {
            Some(reading) => pass(&bytes, reading)?,
            None => pass_lent(&bytes)?,
        };
    }
    println!("{shown}");
    Ok(())
}

fn pass(bytes: &[u8], reading: Reading) -> Result<Shown, Refusal> {
    let mut shown = Shown::default();
    for row in Gauge::new(bytes).rows(reading)? {
        show_cell(&mut shown, &row.shown?);
    }
    Ok(shown)
}

fn pass_lent(bytes: &[u8]) -> Result<Shown, Refusal> {
    let mut shown = Shown::default();
    let mut rows = Gauge::new(bytes).rows(Reading::File)?;
    let mut notes = Notes::new();
    while let Some(row) = rows.next_with(&mut notes) {
        show_cell(&mut shown, &row.shown?);
    }
    Ok(shown)
}

#[inline(always)]
fn show_cell(shown: &mut Shown, cell: &Cell) {
    shown.row(cell.rowid() as u64);
    for value in cell.values() {
        show(shown, value);
    }
}

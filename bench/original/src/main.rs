//! FILE PASSES: all values of all rows of all table leaves, PASSES times, by the original.
//!
//! It prints what the last pass was shown; with no pass, it does everything but the work that is counted.

#[path = "../../shown.rs"]
mod shown;

use std::error::Error;
use std::{env, fs};

use sqlite_parser_nom::model::{Page, Payload};
use sqlite_parser_nom::Reader;

use shown::Shown;

fn main() -> Result<(), Box<dyn Error>> {
    let words: Vec<String> = env::args().skip(1).collect();
    let [file, passes] = words.try_into().map_err(|_| "the words are FILE PASSES")?;
    let bytes = fs::read(file)?;
    let mut shown = Shown::default();
    for _ in 0..passes.parse()? {
        shown = pass(&bytes)?;
    }
    println!("{shown}");
    Ok(())
}

fn pass(bytes: &[u8]) -> Result<Shown, Box<dyn Error>> {
    let mut shown = Shown::default();
    let reader = Reader::from_source(bytes)?;
    let pages = bytes.len() / reader.header.page_size.real_size();
    for number in 0..pages as u32 {
        if let Page::LeafTable(leaf) = reader.get_page(number)? {
            for cell in &leaf.cells {
                shown.row(cell.rowid);
                for value in &cell.payload.column_values {
                    show(&mut shown, value);
                }
            }
        }
    }
    Ok(shown)
}

fn show(shown: &mut Shown, value: &Option<Payload>) {
    shown.values += 1;
    match value {
        None => {}
        Some(Payload::I8(n)) => shown.integer(i64::from(*n)),
        Some(Payload::I16(n)) => shown.integer(i64::from(*n)),
        Some(Payload::I32(n)) => shown.integer(i64::from(*n)),
        Some(Payload::I64(n)) => shown.integer(*n),
        Some(Payload::F64(x)) => shown.real(x.to_bits()),
        Some(Payload::Blob(bytes)) => shown.bytes(bytes),
        Some(Payload::Text(text)) => shown.bytes(text.0),
    }
}

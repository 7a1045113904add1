//! Shows forty values, ten rows of four columns: `cargo run --release --example screen -- gauge.db guarded`. They are those of the first
//! table leaf that has ten rows, in the reading old, file or guarded.
//!
//! It asks for the whole screen by one call. A value that the reading refuses is shown by the refusal's number, and what each number
//! means is told below the table.

use shorgavel::{Address, Answer, Gauge, Reading};
use std::collections::BTreeMap;
use std::error::Error;

const ROWS: usize = 10;
const COLUMNS: usize = 4;

fn main() -> Result<(), Box<dyn Error>> {
    let words: Vec<String> = std::env::args().skip(1).collect();
    let [file, reading] = words.as_slice() else {
        return Err("say a file, and a reading: old, file or guarded".into());
    };
    let reading: Reading = reading.parse()?;

    let bytes = std::fs::read(file)?;
    let gauge = Gauge::new(&bytes);
    let leaf = gauge.leaves(reading)?.find(|page| page.len() >= ROWS).ok_or("no table leaf has ten rows")?;
    let addresses: [Address; ROWS * COLUMNS] =
        std::array::from_fn(|at| Address { page: leaf.number(), cell: at / COLUMNS, column: at % COLUMNS });
    let mut answers = [Answer::default(); ROWS * COLUMNS];
    gauge.screen(reading, &addresses, &mut answers)?;

    println!("page {}, {reading}", leaf.number());
    let mut refused = BTreeMap::new();
    for (cell, row) in answers.chunks(COLUMNS).enumerate() {
        print!("{cell:>4}");
        for answer in row {
            match answer.shown(&gauge) {
                Ok(value) => print!(" | {:<20}", value.to_string()),
                Err(refusal) => {
                    print!(" | {:<20}", format!("refused {}", refusal.number()));
                    refused.insert(refusal.number(), refusal.meaning());
                }
            }
        }
        println!();
    }
    for (number, meaning) in refused {
        println!("{number}: {meaning}");
    }
    Ok(())
}

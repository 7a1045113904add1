//! Sums a column of a table: `cargo run --release --example sum -- gauge.db load 3`.
//!
//! The reading is the guarded one, so that no number counts on which the tablets' reader and the file disagree; rows that it
//! refuses are counted and told.

use shorgavel::{Gauge, Reading};
use std::error::Error;

fn main() -> Result<(), Box<dyn Error>> {
    let words: Vec<String> = std::env::args().skip(1).collect();
    let [file, name, column] = words.as_slice() else {
        return Err("say a file, the name of a table, and the column, from 0 on".into());
    };
    let column: usize = column.parse()?;

    let bytes = std::fs::read(file)?;
    let gauge = Gauge::new(&bytes);
    let schema = gauge.schema()?;
    let root = schema.table(name).and_then(|table| table.root.page()).ok_or("there is no such table")?;
    let (mut rows, mut refused, mut sum) = (0_u64, 0_u64, 0.0);
    for row in gauge.table(root)?.rows(Reading::Guarded) {
        match row.shown {
            Ok(cell) => {
                rows += 1;
                sum += cell.value(column).and_then(|value| value.number()).unwrap_or(0.0);
            }
            Err(_) => refused += 1,
        }
    }
    println!("{rows} rows, sum {sum}; {refused} rows refused");
    Ok(())
}

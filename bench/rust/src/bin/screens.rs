//! single|screen old|file|guarded FILE PASSES: screens of forty values, PASSES times, by a call for each value or by one call for a
//! screen: the work of bench/screen.c.
//!
//! A program of its own, so that what the compiler makes of the one for rows does not depend on it.

#[path = "../../../shown.rs"]
mod shown;
#[path = "../values.rs"]
mod values;

use std::error::Error;
use std::{env, fs};

use shorgavel::{Address, Answer, Gauge, Reading, Refusal};

use shown::Shown;
use values::show;

const ROWS: usize = 10;
const COLUMNS: usize = 4;
const VALUES: usize = ROWS * COLUMNS;

fn main() -> Result<(), Box<dyn Error>> {
    let words: Vec<String> = env::args().skip(1).collect();
    let [way, reading, file, passes] = words
        .try_into()
        .map_err(|_| "the words are single|screen old|file|guarded FILE PASSES")?;
    let pass = match way.as_str() {
        "single" => by_single,
        "screen" => by_screen,
        _ => return Err("the ways are single and screen".into()),
    };
    let reading = reading.parse()?;
    let bytes = fs::read(file)?;
    let gauge = Gauge::new(&bytes);
    let screens = all(&gauge, reading)?;
    let mut shown = Shown::default();
    for _ in 0..passes.parse()? {
        shown = pass(&gauge, reading, &screens)?;
    }
    shown.set_rows(screens.len() * ROWS);
    println!("{shown}");
    Ok(())
}

/// The addresses of all screens: on each table leaf as many as have ten rows.
fn all(gauge: &Gauge, reading: Reading) -> Result<Vec<[Address; VALUES]>, Refusal> {
    let mut screens = Vec::new();
    for leaf in gauge.leaves(reading)? {
        for first in (0..leaf.len() / ROWS).map(|screen| screen * ROWS) {
            screens.push(std::array::from_fn(|at| Address {
                page: leaf.number(),
                cell: first + at / COLUMNS,
                column: at % COLUMNS,
            }));
        }
    }
    Ok(screens)
}

fn by_single(
    gauge: &Gauge,
    reading: Reading,
    screens: &[[Address; VALUES]],
) -> Result<Shown, Refusal> {
    let mut shown = Shown::default();
    for screen in screens {
        for at in screen {
            show(
                &mut shown,
                gauge.value(reading, at.page, at.cell, at.column)?,
            );
        }
    }
    Ok(shown)
}

/// One list of answers serves all screens.
fn by_screen(
    gauge: &Gauge,
    reading: Reading,
    screens: &[[Address; VALUES]],
) -> Result<Shown, Refusal> {
    let mut shown = Shown::default();
    let mut answers = [Answer::default(); VALUES];
    for screen in screens {
        gauge.screen(reading, screen, &mut answers)?;
        for answer in &answers {
            show(&mut shown, answer.shown(gauge)?);
        }
    }
    Ok(shown)
}

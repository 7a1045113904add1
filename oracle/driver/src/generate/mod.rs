//! Databases by the thousand, to hold readings against each other. They follow
//! from a seed and an index. See oracle/README.md.

mod cells;
mod crafted;
mod damaged;
mod pages;
mod random;
mod varints;

use std::collections::BTreeMap;
use std::io::Write;

use crate::fault::{self, Fault};
use crate::stream;
use random::Random;

/// A database, and the class by which it is counted.
pub struct Made {
    pub class: &'static str,
    pub bytes: Vec<u8>,
}

#[derive(Clone, Copy, PartialEq)]
enum Kind {
    Crafted,
    Damaged,
    All,
}

struct Order {
    seed: u64,
    from: u64,
    count: u64,
    kind: Kind,
    /// Databases over so many bytes are left out.
    most: u64,
    files: Vec<String>,
}

pub fn run(words: &[String], out: &mut impl Write) -> Result<(), Fault> {
    let order = read(words)?;
    let mut classes = BTreeMap::new();
    each(&order, |made| {
        *classes.entry(made.class).or_insert(0u64) += 1;
        stream::put(out, &made.bytes)
    })?;
    tell(&order, &classes);
    Ok(())
}

/// The classes of the same databases, one a line.
pub fn list(words: &[String], out: &mut impl Write) -> Result<(), Fault> {
    each(&read(words)?, |made| Ok(writeln!(out, "{}", made.class)?))
}

fn each(order: &Order, mut put: impl FnMut(Made) -> Result<(), Fault>) -> Result<(), Fault> {
    let models = damaged::load(&order.files)?;
    if order.kind == Kind::Damaged && models.is_empty() {
        return Err(Fault::new("damaged databases want FILEs".to_string()));
    }
    for index in order.from..order.from.saturating_add(order.count) {
        let made = make(order, &models, index);
        if made.bytes.len() as u64 <= order.most {
            put(made)?;
        }
    }
    Ok(())
}

fn make(order: &Order, models: &[Vec<u8>], index: u64) -> Made {
    let mut random = Random::new(order.seed, index);
    let damages = match order.kind {
        Kind::Crafted => false,
        Kind::Damaged => true,
        Kind::All => !models.is_empty() && index % 2 == 1,
    };
    if damages {
        damaged::make(&mut random, models)
    } else {
        crafted::make(&mut random)
    }
}

fn tell(order: &Order, classes: &BTreeMap<&str, u64>) {
    let counts: Vec<String> = classes.iter().map(|(k, n)| format!("{k} {n}")).collect();
    fault::tell(&format!(
        "generated {} from index {}, seed {}: {}",
        classes.values().sum::<u64>(),
        order.from,
        order.seed,
        counts.join(", ")
    ));
}

fn read(words: &[String]) -> Result<Order, Fault> {
    let mut order = Order {
        seed: 0,
        from: 0,
        count: 0,
        kind: Kind::All,
        most: u64::MAX,
        files: Vec::new(),
    };
    let mut words = words.iter();
    while let Some(word) = words.next() {
        match word.as_str() {
            "--seed" => order.seed = number(words.next())?,
            "--from" => order.from = number(words.next())?,
            "--count" => order.count = number(words.next())?,
            "--most" => order.most = number(words.next())?,
            "--kind" => order.kind = kind(words.next())?,
            _ if word.starts_with("--") => return Err(usage()),
            _ => order.files.push(word.clone()),
        }
    }
    Ok(order)
}

fn number(word: Option<&String>) -> Result<u64, Fault> {
    word.and_then(|digits| digits.parse().ok())
        .ok_or_else(usage)
}

fn kind(word: Option<&String>) -> Result<Kind, Fault> {
    match word.map(String::as_str) {
        Some("crafted") => Ok(Kind::Crafted),
        Some("damaged") => Ok(Kind::Damaged),
        Some("all") => Ok(Kind::All),
        _ => Err(usage()),
    }
}

fn usage() -> Fault {
    let words =
        "--seed S --count N [--from I] [--kind crafted|damaged|all] [--most BYTES] [FILE..]";
    Fault::new(format!("generate wants {words}"))
}

//! Real databases with a few changes.

use std::fs;

use super::random::Random;
use super::Made;
use crate::fault::Fault;

const LARGEST: usize = 300_000;
const HEADER: usize = 100;

pub fn load(files: &[String]) -> Result<Vec<Vec<u8>>, Fault> {
    files.iter().map(|file| load_one(file)).collect()
}

fn load_one(file: &str) -> Result<Vec<u8>, Fault> {
    let bytes = fs::read(file).map_err(|e| Fault::new(format!("{file}: {e}")))?;
    if bytes.len() > LARGEST {
        return Err(Fault::new(format!("{file}: over {LARGEST} bytes")));
    }
    if bytes.len() < HEADER {
        return Err(Fault::new(format!("{file}: no database")));
    }
    Ok(bytes)
}

/// The smaller one of two, as large ones take the original long.
pub fn make(random: &mut Random, models: &[Vec<u8>]) -> Made {
    let one = &models[random.below(models.len())];
    let other = &models[random.below(models.len())];
    let model = if one.len() < other.len() { one } else { other };
    let size = page_size(model);
    let mut bytes = model.clone();
    for _ in 0..1 + random.below(8) {
        change(random, &mut bytes, size);
    }
    Made {
        class: "damaged",
        bytes,
    }
}

fn page_size(model: &[u8]) -> usize {
    match u16::from_be_bytes([model[16], model[17]]) {
        0 => 512,
        1 => 65_536,
        size => size.into(),
    }
}

fn change(random: &mut Random, bytes: &mut Vec<u8>, size: usize) {
    if bytes.is_empty() {
        return;
    }
    match random.below(24) {
        0..=3 => {
            let at = random.below(bytes.len());
            bytes[at] = random.edge_byte();
        }
        4 => {
            let (a, b) = (random.below(bytes.len()), random.below(bytes.len()));
            bytes.swap(a, b);
        }
        5 => change_header(random, bytes),
        6..=10 => change_head(random, bytes, size),
        11..=20 => change_cell(random, bytes, size),
        21 if random.once_in(3) => cut(random, bytes, size),
        _ => copy_page(random, bytes, size),
    }
}

fn change_header(random: &mut Random, bytes: &mut [u8]) {
    let at = match random.below(3) {
        0 => random.pick(&[16, 17, 18, 19, 20, 21, 24, 28, 31, 56, 59, 60, 92, 99]),
        _ => 20 + random.below(36),
    };
    set(bytes, at, random.edge_byte());
}

/// Where a page begins, and where its header stands.
fn a_page(random: &mut Random, bytes: &[u8], size: usize) -> (usize, usize) {
    let number = random.below(bytes.len() / size + 1);
    let from = if number == 0 { HEADER } else { 0 };
    (number * size, from)
}

fn change_head(random: &mut Random, bytes: &mut [u8], size: usize) {
    let (page, from) = a_page(random, bytes, size);
    set(bytes, page + from + random.below(24), random.edge_byte());
}

/// One of the first bytes of a cell that a page points to.
fn change_cell(random: &mut Random, bytes: &mut [u8], size: usize) {
    let (page, from) = a_page(random, bytes, size);
    let head = page + from;
    let count = u16::from_be_bytes([get(bytes, head + 3), get(bytes, head + 4)]);
    let first = if get(bytes, head) < 8 { 12 } else { 8 };
    let pointer = head + first + 2 * random.below(usize::from(count) + 1);
    let cell = u16::from_be_bytes([get(bytes, pointer), get(bytes, pointer + 1)]);
    // A pointer of zero names the opening bytes, which few changes should meet.
    let at = (page + usize::from(cell) + random.below(12)).max(HEADER);
    set(bytes, at, random.edge_byte());
}

fn cut(random: &mut Random, bytes: &mut Vec<u8>, size: usize) {
    let pages = random.below(bytes.len() / size + 1) * size;
    let to = match random.below(4) {
        0 => pages,
        1 => pages + 1,
        2 => pages.saturating_sub(1),
        _ => random.below(bytes.len() + 1),
    };
    bytes.truncate(to);
}

fn copy_page(random: &mut Random, bytes: &mut [u8], size: usize) {
    let pages = bytes.len() / size;
    if pages < 2 {
        return;
    }
    let from = random.below(pages) * size;
    // The first page keeps the header: a database without one says little.
    let to = (1 + random.below(pages - 1)) * size;
    bytes.copy_within(from..from + size, to);
}

fn get(bytes: &[u8], at: usize) -> u8 {
    bytes.get(at).copied().unwrap_or(0)
}

fn set(bytes: &mut [u8], at: usize, to: u8) {
    if let Some(byte) = bytes.get_mut(at) {
        *byte = to;
    }
}

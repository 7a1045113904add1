//! Cells: sound for the old reading, or with one thing wrong or at an edge.

use super::random::Random;
use super::varints::{fit, padded, shortest, unfinished, unfit};

/// What is odd about a cell.
#[derive(Clone, Copy, PartialEq)]
pub enum Twist {
    Nothing,
    /// The pointer names another place.
    Pointer,
    PayloadSize,
    Row,
    HeaderSize,
    ReservedType,
    /// A type that passes the body, or the page.
    LongType,
    /// A type at the header's end that does not end there.
    OpenType,
    /// A byte of the body too few or too many.
    Body,
    /// The closing varint of an index cell.
    Closing,
    /// Cut short at the page's end.
    Cut,
    /// Cut short, with a varint that is open at the page's end.
    CutOpen,
}

pub const TWISTS: [Twist; 11] = [
    Twist::Pointer,
    Twist::PayloadSize,
    Twist::Row,
    Twist::HeaderSize,
    Twist::ReservedType,
    Twist::LongType,
    Twist::OpenType,
    Twist::Body,
    Twist::Closing,
    Twist::Cut,
    Twist::CutOpen,
];

pub const INTERIOR_INDEX: u8 = 2;
pub const INTERIOR_TABLE: u8 = 5;
pub const LEAF_INDEX: u8 = 10;
pub const LEAF_TABLE: u8 = 13;

pub fn is_interior(kind: u8) -> bool {
    kind == INTERIOR_INDEX || kind == INTERIOR_TABLE
}

fn is_index(kind: u8) -> bool {
    kind == INTERIOR_INDEX || kind == LEAF_INDEX
}

pub fn make(random: &mut Random, kind: u8, twist: Twist) -> Vec<u8> {
    let mut cell = Vec::new();
    if is_interior(kind) {
        cell.extend(random.bytes(4));
    }
    if kind != INTERIOR_TABLE {
        cell.extend(varint(random, twist == Twist::PayloadSize));
    }
    if !is_index(kind) {
        cell.extend(varint(random, twist == Twist::Row));
    }
    if kind != INTERIOR_TABLE {
        cell.extend(record(random, twist));
    }
    if is_index(kind) {
        cell.extend(closing(random, twist));
    }
    cut(random, &mut cell, twist);
    cell
}

fn varint(random: &mut Random, odd: bool) -> Vec<u8> {
    if odd {
        unfit(random)
    } else {
        fit(random)
    }
}

fn closing(random: &mut Random, twist: Twist) -> Vec<u8> {
    if twist != Twist::Closing {
        return fit(random);
    }
    match random.below(3) {
        0 => Vec::new(),
        1 => unfinished(random),
        _ => unfit(random),
    }
}

fn cut(random: &mut Random, cell: &mut Vec<u8>, twist: Twist) {
    if twist == Twist::Cut || twist == Twist::CutOpen {
        cell.truncate(random.below(cell.len() + 1));
    }
    if twist == Twist::CutOpen {
        cell.extend(unfinished(random));
    }
}

fn record(random: &mut Random, twist: Twist) -> Vec<u8> {
    let mut types = Vec::new();
    let mut body = 0;
    let columns = columns(random);
    let odd = random.below(columns + 1);
    for column in 0..=columns {
        if column == odd {
            types.extend(odd_type(random, twist));
        }
        if column < columns {
            let kind = plain_type(random);
            body += width(kind);
            types.extend(spelt_type(random, kind));
        }
    }
    if twist == Twist::OpenType {
        types.extend(unfinished(random));
    }
    let mut record = header_size(random, types.len() + 1, twist);
    record.extend(types);
    let length = body_length(random, body, twist);
    record.extend(random.bytes(length));
    record
}

fn columns(random: &mut Random) -> usize {
    match random.below(20) {
        0 => 20 + random.below(130),
        1..=3 => 0,
        _ => random.below(6),
    }
}

fn plain_type(random: &mut Random) -> u64 {
    match random.below(10) {
        0..=5 => random.next() % 10,
        6 => 12 + random.next() % 4,
        7 => 12 + random.next() % 300,
        _ => 12 + random.next() % 40,
    }
}

fn spelt_type(random: &mut Random, kind: u64) -> Vec<u8> {
    if random.once_in(12) {
        padded(kind, 1 + random.below(5))
    } else {
        shortest(kind)
    }
}

fn odd_type(random: &mut Random, twist: Twist) -> Vec<u8> {
    match twist {
        Twist::ReservedType => spelt_reserved(random),
        Twist::LongType => match random.below(4) {
            0 => shortest(12 + random.next() % 2000),
            1 => shortest(12 + random.next() % 140_000),
            2 => shortest((1 << 35) - 1 - random.next() % 3),
            _ => unfit(random),
        },
        _ => Vec::new(),
    }
}

fn spelt_reserved(random: &mut Random) -> Vec<u8> {
    let kind = 10 + random.next() % 2;
    spelt_type(random, kind)
}

fn width(kind: u64) -> usize {
    const WIDTHS: [usize; 12] = [0, 1, 2, 3, 4, 6, 8, 8, 0, 0, 0, 0];
    match kind {
        0..=11 => WIDTHS[kind as usize],
        _ => ((kind - 12) / 2) as usize,
    }
}

fn header_size(random: &mut Random, exact: usize, twist: Twist) -> Vec<u8> {
    let exact = exact as u64;
    if twist != Twist::HeaderSize {
        return shortest(exact);
    }
    match random.below(10) {
        0 => shortest(0),
        1 => shortest(1),
        2 => shortest(exact - 1),
        3 => shortest(exact + 1),
        4 => padded(exact, 2 + random.below(4)),
        5 => padded(0, 2 + random.below(4)),
        6 => shortest(exact + random.next() % 600),
        7 => shortest(random.next() % 70_000),
        8 => shortest((1 << 35) - 1),
        _ => unfit(random),
    }
}

fn body_length(random: &mut Random, exact: usize, twist: Twist) -> usize {
    if twist != Twist::Body {
        return exact;
    }
    match random.below(3) {
        0 => exact.saturating_sub(1),
        1 => exact + 1,
        _ => random.below(exact + 2),
    }
}

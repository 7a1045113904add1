//! Pages: a head, pointers, and cells where the pointers say.

use super::cells::{self, Twist, INTERIOR_INDEX, INTERIOR_TABLE, LEAF_INDEX, LEAF_TABLE, TWISTS};
use super::random::Random;

/// How much of a page is odd.
#[derive(Clone, Copy, PartialEq)]
enum Mood {
    Sound,
    /// One cell at most.
    OneOdd,
    Wild,
}

/// Lays a page whose header stands at `from`. What does not fit is left out.
pub fn lay(random: &mut Random, page: &mut [u8], from: usize) {
    noise(random, page);
    let mood = random.pick(&[Mood::Sound, Mood::OneOdd, Mood::OneOdd, Mood::Wild]);
    let kind = kind(random, mood);
    let head = if cells::is_interior(kind) { 12 } else { 8 };
    let first = from + head;
    let count = random.below(7).min(room(page, first));
    put(page, from, &head_bytes(random, kind));
    let said = said_count(random, mood, count, room(page, first));
    put_u16(page, from + 3, said);
    let odd = random.below(count.max(1));
    for cell in 0..count {
        let twist = match mood {
            Mood::Sound => Twist::Nothing,
            Mood::OneOdd if cell != odd => Twist::Nothing,
            _ => random.pick(&TWISTS),
        };
        let pointer = lay_cell(random, page, from, first + 2 * count, kind, twist);
        put_u16(page, first + 2 * cell, pointer);
    }
}

/// What stands where nothing is laid, as it is read where a cell runs on.
fn noise(random: &mut Random, page: &mut [u8]) {
    let fill = random.pick(&[0, 0, 0, 1, 0x80, 0xff]);
    let loud = random.once_in(3);
    for byte in page {
        *byte = if loud { random.byte() } else { fill };
    }
}

fn kind(random: &mut Random, mood: Mood) -> u8 {
    if mood == Mood::Wild && random.once_in(4) {
        return random.edge_byte();
    }
    random.pick(&[
        LEAF_TABLE,
        LEAF_TABLE,
        LEAF_INDEX,
        INTERIOR_INDEX,
        INTERIOR_TABLE,
    ])
}

/// How many pointers fit behind the head.
fn room(page: &[u8], first: usize) -> usize {
    page.len().saturating_sub(first) / 2
}

/// Kind, freeblock, cells, content, fragmented, rightmost.
fn head_bytes(random: &mut Random, kind: u8) -> Vec<u8> {
    let mut bytes = random.bytes(if cells::is_interior(kind) { 12 } else { 8 });
    bytes[0] = kind;
    if random.once_in(2) {
        bytes[1..3].fill(0);
    }
    if random.once_in(2) {
        bytes[5..7].fill(0);
    }
    bytes
}

/// The count in the head: once in a while as many as fit, or one more.
fn said_count(random: &mut Random, mood: Mood, count: usize, most: usize) -> usize {
    if mood != Mood::Wild || !random.once_in(4) {
        return count;
    }
    match random.below(4) {
        0 => most,
        1 => most + 1,
        2 => 65_535,
        _ => random.below(65_536),
    }
}

fn lay_cell(
    random: &mut Random,
    page: &mut [u8],
    from: usize,
    behind: usize,
    kind: u8,
    twist: Twist,
) -> usize {
    if twist == Twist::Pointer {
        return odd_pointer(random, page.len(), from, behind);
    }
    let cell = cells::make(random, kind, twist);
    let at = place(random, page.len(), behind, cell.len(), twist);
    put(page, at, &cell);
    at
}

/// At the page's end, a byte before or past it, or anywhere behind the pointers.
fn place(random: &mut Random, size: usize, behind: usize, length: usize, twist: Twist) -> usize {
    let last = size.saturating_sub(length);
    if twist == Twist::Cut || twist == Twist::CutOpen {
        return last;
    }
    match random.below(12) {
        0..=2 => last,
        3 if twist != Twist::Nothing => last + 1,
        4 => last.saturating_sub(1),
        _ => behind + random.below(last.saturating_sub(behind) + 1),
    }
}

fn odd_pointer(random: &mut Random, size: usize, from: usize, behind: usize) -> usize {
    let edges = [
        0,
        1,
        99,
        100,
        101,
        from,
        from.saturating_sub(1),
        from + 8,
        from + 12,
        behind - 1,
        behind,
        behind + 1,
        size.saturating_sub(2),
        size.saturating_sub(1),
        size,
        size + 1,
        size + 2,
        65_535,
        random.below(65_536),
        random.below(size + 1),
    ];
    random.pick(&edges)
}

/// Puts what fits.
fn put(page: &mut [u8], at: usize, bytes: &[u8]) {
    for (place, byte) in page.iter_mut().skip(at).zip(bytes) {
        *place = *byte;
    }
}

fn put_u16(page: &mut [u8], at: usize, number: usize) {
    let number = u16::try_from(number).unwrap_or(u16::MAX);
    put(page, at, &number.to_be_bytes());
}

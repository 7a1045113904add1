//! Varints, as writers and as mischief would have them.

use super::random::Random;

/// The shortest spelling of a number below 2^63.
pub fn shortest(value: u64) -> Vec<u8> {
    let mut bytes = vec![(value & 0x7f) as u8];
    let mut rest = value >> 7;
    while rest > 0 {
        bytes.push((rest & 0x7f) as u8 | 0x80);
        rest >>= 7;
    }
    bytes.reverse();
    bytes
}

/// A number in so many bytes: longer than shortest where it is small.
pub fn padded(value: u64, length: usize) -> Vec<u8> {
    let short = shortest(value);
    let mut bytes = vec![0x80; length.saturating_sub(short.len())];
    bytes.extend(short);
    bytes
}

/// One that both readings take: up to five bytes, often at an end of its length.
pub fn fit(random: &mut Random) -> Vec<u8> {
    let length = 1 + random.below(5);
    let most = (1u64 << (7 * length)) - 1;
    match random.below(6) {
        0 => shortest(most),
        1 => shortest(most / 128 + 1),
        2 => padded(random.next() % 128, length),
        3 => shortest(random.next() % 128),
        _ => shortest(random.next() & most),
    }
}

/// One that needs more than five bytes, or has no end at all within nine.
pub fn unfit(random: &mut Random) -> Vec<u8> {
    match random.below(5) {
        0 => shortest(1 << 35),
        1 => padded(random.next() % 128, 6 + random.below(4)),
        2 => vec![0xff; 9],
        3 => vec![0x80; 5 + random.below(6)],
        _ => shortest((random.next() >> 1) | (1 << 35)),
    }
}

/// The first bytes of one whose end does not come: 1 to 9 of them.
pub fn unfinished(random: &mut Random) -> Vec<u8> {
    let count = 1 + random.below(9);
    (0..count).map(|_| random.byte() | 0x80).collect()
}

//! Small databases that sit on the boundaries of the old reading.

use super::pages;
use super::random::Random;
use super::Made;

const OPENING: &[u8; 16] = b"SQLite format 3\0";
const HEADER: usize = 100;

/// Sizes at which something changes, and some between: pages that cannot hold
/// the database's header, that just hold a page's head, and plain ones.
const SIZES: [usize; 36] = [
    2, 3, 7, 8, 9, 11, 12, 13, 20, 50, 98, 99, 100, 101, 107, 108, 109, 110, 111, 112, 113, 114,
    116, 119, 120, 121, 128, 160, 255, 256, 479, 480, 481, 511, 512, 513,
];

pub fn make(random: &mut Random) -> Made {
    match random.below(20) {
        0..=1 => headers(random),
        2 => sizes(random),
        3..=6 => paged(random, "small pages"),
        _ => paged(random, "cells"),
    }
}

/// Cut, mislabelled or misencoded.
fn headers(random: &mut Random) -> Made {
    let mut bytes = paged(random, "").bytes;
    match random.below(5) {
        0 => bytes.truncate(random.below(121)),
        1 => bytes.truncate(random.below(18)),
        2 => bytes[random.below(16)] = random.edge_byte(),
        3 => bytes[59] = random.pick(&[0, 1, 2, 3, 4, 5, 255]),
        _ => bytes[56 + random.below(4)] = random.edge_byte(),
    }
    Made {
        class: "headers",
        bytes,
    }
}

/// Page sizes of 0, of 1, and of any number, over bytes made for others.
fn sizes(random: &mut Random) -> Made {
    let mut bytes = paged(random, "").bytes;
    match random.below(10) {
        0..=3 => bytes[16..18].fill(0),
        4..=5 => bytes[16..18].copy_from_slice(&[0, 1]),
        6 => bytes = largest(random),
        _ => {
            let size = random.below(bytes.len() + 40).min(65_535) as u16;
            bytes[16..18].copy_from_slice(&size.to_be_bytes());
        }
    }
    Made {
        class: "page sizes",
        bytes,
    }
}

/// One page of 65,536 bytes, whole or a byte short.
fn largest(random: &mut Random) -> Vec<u8> {
    let mut bytes = vec![0; 65_536];
    pages::lay(random, &mut bytes, HEADER);
    head(random, &mut bytes, 1);
    bytes.truncate(65_536 - random.below(2));
    bytes
}

fn paged(random: &mut Random, class: &'static str) -> Made {
    let size = match class {
        "small pages" => random.pick(&SIZES),
        _ => random.pick(&[160, 200, 256, 300, 480, 512, 600, 1024]),
    };
    // Enough pages for the header, which the first ones hold together.
    let count = 1 + HEADER / size + random.below(4);
    let mut bytes = vec![0; size * count];
    for (number, page) in bytes.chunks_mut(size).enumerate() {
        pages::lay(random, page, if number == 0 { HEADER } else { 0 });
    }
    bytes.resize(bytes.len().max(HEADER), 0);
    head(random, &mut bytes, size as u16);
    match random.below(10) {
        0 => bytes.truncate(bytes.len() - 1),
        1 => bytes.push(random.edge_byte()),
        2 => bytes.truncate(HEADER + random.below(bytes.len() - HEADER + 1)),
        _ => {}
    }
    Made { class, bytes }
}

/// The database's header. Pages that lie below it are what its bytes make them.
fn head(random: &mut Random, bytes: &mut [u8], size: u16) {
    bytes[..16].copy_from_slice(OPENING);
    bytes[16..18].copy_from_slice(&size.to_be_bytes());
    let fields = random.bytes(HEADER - 18);
    bytes[18..HEADER].copy_from_slice(&fields);
    bytes[56..60].copy_from_slice(&[0, 0, 0, 1 + random.below(3) as u8]);
}

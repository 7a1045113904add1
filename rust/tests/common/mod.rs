//! Databases that are worked by hand: that of tests/c/calls.c, a table leaf of two rows, and one with rows that spill.

// Each test file takes what it needs of these.
#![allow(dead_code)]

pub mod command;
pub mod folder;
pub mod trees;

pub fn put(bytes: &mut [u8], at: usize, part: &[u8]) {
    bytes[at..at + part.len()].copy_from_slice(part);
}

/// Cell 0 is an idle load, a type 9, which the old reading shows as 0.
pub fn two_rows() -> Vec<u8> {
    let mut bytes = vec![0; 512];
    put(&mut bytes, 0, b"SQLite format 3\0");
    put(&mut bytes, 16, b"\x02\x00\x01\x01\x00\x40\x20\x20");
    put(&mut bytes, 59, b"\x01");
    put(&mut bytes, 100, b"\x0d\x00\x00\x00\x02\x01\xee\x00\x01\xf7\x01\xee");
    put(&mut bytes, 494, b"\x07\x02\x03\x08\x04\x01\x00\x00\x00");
    put(&mut bytes, 503, b"\x07\x01\x03\x09\x04\x01\x00\x00\x00");
    bytes
}

/// The same with a cell 1 that has every kind of value: types 1, 2, 6, 7, 17, 16 and 0.
pub fn every_kind() -> Vec<u8> {
    let mut bytes = two_rows();
    put(&mut bytes, 110, b"\x01\x90");
    put(&mut bytes, 400, b"\x1f\x02\x08\x01\x02\x06\x07\x11\x10\x00");
    put(&mut bytes, 410, b"\xff\xff\xfe\x80\0\0\0\0\0\0\0\x3f\xf8\0\0\0\0\0\0Hi\0\x01");
    bytes
}

/// A record of a 5, a text, a null and a blob of two bytes, so many bytes in all: types 1, one of two bytes, 0 and 16.
pub fn note(payload: usize) -> Vec<u8> {
    let kind = 13 + 2 * (payload - 9);
    let mut note = vec![6, 1, 0x80 | (kind >> 7) as u8, (kind & 0x7f) as u8, 0, 16, 5];
    note.extend((7..payload).map(|at| b'a' + (at % 23) as u8));
    note
}

/// A cell at `at` of a page of 512 bytes: its head, the bytes that are kept of its payload, and the others along the chain.
pub fn spill(bytes: &mut [u8], page: usize, at: usize, head: &[u8], payload: &[u8], kept: usize, chain: &[u8]) {
    let start = (page - 1) * 512 + at;
    put(bytes, start, head);
    put(bytes, start + head.len(), &payload[..kept]);
    put(bytes, start + head.len() + kept, &[0, 0, 0, chain[0]]);
    for (i, part) in payload[kept..].chunks(508).enumerate() {
        let next = chain.get(i + 1).copied().unwrap_or(0);
        put(bytes, (usize::from(chain[i]) - 1) * 512, &[0, 0, 0, next]);
        put(bytes, (usize::from(chain[i]) - 1) * 512 + 4, part);
    }
}

/// So many pages of 512 bytes; page 1 has no cells.
pub fn pages(count: usize) -> Vec<u8> {
    let mut bytes = two_rows();
    put(&mut bytes, 100, b"\x0d\x00\x00\x00\x00\x02\x00\x00");
    bytes.resize(512 * count, 0);
    bytes
}

/// Rows 1, 2 and 4 of page 2 spill, with payloads of 600, 987 and 478 bytes; row 3, a 7, is whole. Row 4 stands where the
/// old reading finds as many bytes as it takes the row to have. Page 7 is a leaf index with a key of 200 bytes, which
/// spills.
pub fn long_notes() -> Vec<u8> {
    let mut bytes = pages(8);
    put(&mut bytes, 512, b"\x0d\x00\x00\x00\x04\x00\x14\x00\x01\x9d\x01\x6f\x01\x6a\x00\x14");
    spill(&mut bytes, 2, 413, b"\x84\x58\x01", &note(600), 92, &[3]);
    spill(&mut bytes, 2, 367, b"\x87\x5b\x02", &note(987), 39, &[5, 4]);
    put(&mut bytes, 512 + 362, b"\x03\x03\x02\x01\x07");
    spill(&mut bytes, 2, 20, b"\x83\x5e\x04", &note(478), 39, &[6]);
    put(&mut bytes, 6 * 512, b"\x0a\x00\x00\x00\x01\x01\xd3\x00\x01\xd3");
    spill(&mut bytes, 7, 467, b"\x81\x48", &note(200), 39, &[8]);
    bytes
}

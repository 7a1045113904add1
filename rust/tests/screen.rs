//! A screenful at once: each answer is the single call's.

mod common;

use common::command::kept;
use common::trees::{idle_load, leaf, record, two_leaves};
use common::{every_kind, long_notes, pages, put, two_rows};
use shorgavel::Reading::{File, Guarded, Old};
use shorgavel::Value::{Integer, Text};
use shorgavel::{Address, Answer, Gauge, Reading, Refusal, Value};
use std::fs;

/// An address that no test asks for: what is shown of it fills the answers that must be left alone.
const NOWHERE: Address = Address { page: u32::MAX, cell: 77, column: 77 };

fn at(page: u32, cell: usize, column: usize) -> Address {
    Address { page, cell, column }
}

/// The databases worked by hand, and those that are kept for the program `rows` but for the longest.
fn databases() -> Vec<Vec<u8>> {
    let mut all = vec![vec![], two_rows(), every_kind(), long_notes(), idle_load(), two_leaves(), refused_between()];
    for name in ["rows", "rows_empty", "rows_hand", "rows_refused", "rows_reserved"] {
        all.push(fs::read(kept(name, "stdin")).unwrap());
    }
    all
}

/// Page 2 has five rows of three columns; of the second a type is reserved, the third is a stored 1, and the fourth is cut, which the old
/// reading does not ask.
fn refused_between() -> Vec<u8> {
    let mut bytes = pages(2);
    let whole = |number| record(&[Integer(number), Text(b"idle"), Integer(9)]);
    let (reserved, marked, cut) = (vec![3, 10, 1, 7], vec![4, 9, 1, 0, 7], vec![4, 1, 1, 6, 1]);
    leaf(&mut bytes, 2, &[(1, whole(1)), (2, reserved), (3, marked), (4, cut), (5, whole(5))]);
    bytes
}

/// The single call.
fn value<'a>(gauge: &Gauge<'a>, reading: Reading, a: Address) -> Result<Value<'a>, Refusal> {
    gauge.value(reading, a.page, a.cell, a.column)
}

/// An answer that is not blank.
fn used(bytes: &[u8]) -> Answer {
    let mut answers = [Answer::default()];
    Gauge::new(bytes).screen(File, &[NOWHERE], &mut answers).unwrap();
    assert_ne!(answers[0], Answer::default());
    answers[0]
}

/// Both calls on the list answer what the single calls do, and leave spare answers alone.
fn screen_is_single_calls(gauge: &Gauge, reading: Reading, addresses: &[Address], spare: usize) {
    let before = used(&two_rows());
    let mut answers = vec![before; addresses.len() + spare];
    assert_eq!(gauge.screen(reading, addresses, &mut answers), Ok(addresses.len()));
    let (told, left) = answers.split_at(addresses.len());
    let single: Vec<_> = addresses.iter().map(|&address| value(gauge, reading, address)).collect();
    assert_eq!(told.iter().map(|answer| answer.shown(gauge)).collect::<Vec<_>>(), single, "{reading} {addresses:?}");
    assert!(left.iter().all(|answer| *answer == before));
    assert_eq!(gauge.screened(reading, addresses), single);
}

/// Numbers that look drawn by lot.
struct Lot(u64);

impl Lot {
    fn below(&mut self, end: usize) -> usize {
        self.0 = self.0.wrapping_mul(6364136223846793005).wrapping_add(1442695040888963407);
        (self.0 >> 33) as usize % end
    }

    /// Near the one before, or anywhere, past the last page, cell and column too.
    fn address(&mut self, before: Address) -> Address {
        match self.below(16) {
            0..=7 => Address { column: (before.column + 1) % 3, ..before },
            8..=10 => at(before.page, (before.cell + 1) % 3, 0),
            11 => before,
            12 => at(before.page, self.below(3), self.below(3)),
            13..=14 => at(self.below(3) as u32, self.below(3), self.below(3)),
            _ => at(self.below(10) as u32, self.below(12), self.below(8)),
        }
    }
}

#[test]
fn addresses_in_any_order() {
    let (mut lot, mut shown, mut refused) = (Lot(7), 0, 0);
    for bytes in databases() {
        let gauge = Gauge::new(&bytes);
        for (reading, round) in Reading::ALL.into_iter().flat_map(|reading| (0..40).map(move |round| (reading, round)))
        {
            let mut last = at(reading.first_page() + 1, 0, 0);
            let addresses: Vec<_> = (0..round)
                .map(|_| {
                    last = lot.address(last);
                    last
                })
                .collect();
            screen_is_single_calls(&gauge, reading, &addresses, lot.below(4));
            let told = gauge.screened(reading, &addresses);
            shown += told.iter().filter(|answer| answer.is_ok()).count();
            refused += told.iter().filter(|answer| answer.is_err()).count();
        }
    }
    assert!(shown > 2_000 && refused > 2_000, "{shown} {refused}");
}

#[test]
fn every_address_of_every_database() {
    for bytes in databases() {
        let gauge = Gauge::new(&bytes);
        for reading in Reading::ALL {
            let columns = |page, cell| (0..8).map(move |column| at(page, cell, column));
            let cells = |page| (0..8).flat_map(move |cell| columns(page, cell));
            let mut addresses: Vec<_> = (0..10).flat_map(cells).collect();
            screen_is_single_calls(&gauge, reading, &addresses, 0);
            addresses.reverse();
            screen_is_single_calls(&gauge, reading, &addresses, 1);
        }
    }
}

#[test]
fn refused_rows_stop_no_other() {
    let bytes = refused_between();
    let gauge = Gauge::new(&bytes);
    for (reading, page, numbers) in [(Old, 1, [15, 0, 0]), (File, 2, [15, 0, 16]), (Guarded, 2, [15, 21, 16])] {
        let addresses: Vec<_> = (0..5).flat_map(|cell| (0..2).map(move |column| at(page, cell, column))).collect();
        screen_is_single_calls(&gauge, reading, &addresses, 0);
        let told = gauge.screened(reading, &addresses);
        assert_eq!((told[0], told[1]), (Ok(Integer(1)), Ok(Text(b"idle"))));
        assert_eq!((told[8], told[9]), (Ok(Integer(5)), Ok(Text(b"idle"))));
        for (row, number) in (1..4).zip(numbers) {
            for answer in &told[2 * row..2 * row + 2] {
                let refused = answer.map_or_else(|refusal| (refusal.number(), refusal.cell()), |_| (0, None));
                assert_eq!(refused, (number, (number != 0).then_some(row)));
            }
        }
    }
}

/// It is the first page of the old reading, and of the other two no page.
#[test]
fn page_0() {
    let bytes = two_rows();
    let gauge = Gauge::new(&bytes);
    let addresses = [at(0, 0, 1), at(1, 0, 1), at(0, 1, 1)];
    let told = |reading| gauge.screened(reading, &addresses).iter().map(|answer| answer.is_ok()).collect::<Vec<_>>();
    assert_eq!((told(Old), told(File)), (vec![true, false, true], vec![false, true, false]));
    // Row 0 is a stored 1.
    assert_eq!(told(Guarded), [false; 3]);
    let refusal = gauge.screened(File, &addresses)[2].unwrap_err();
    assert_eq!((refusal.number(), refusal.page()), (8, Some(0)));
    for reading in Reading::ALL {
        screen_is_single_calls(&gauge, reading, &addresses, 2);
    }
}

#[test]
fn numbers_of_any_size_are_answered() {
    let bytes = two_rows();
    for reading in Reading::ALL {
        let page = reading.first_page();
        let addresses = [
            at(page, 1, 0),
            at(page, usize::MAX, 0),
            at(page, 1, usize::MAX),
            at(u32::MAX, 1, 0),
            NOWHERE,
            at(page, 1, 1),
        ];
        screen_is_single_calls(&Gauge::new(&bytes), reading, &addresses, 0);
        let numbers =
            Gauge::new(&bytes).screened(reading, &addresses).into_iter().map(|told| told.map_err(|r| r.number()));
        let expected = [Ok(Integer(0)), Err(20), Err(20), Err(8), Err(8), Ok(Integer(1 << 24))];
        assert_eq!(numbers.collect::<Vec<_>>(), expected);
    }
}

#[test]
fn no_address_asks_nothing() {
    for bytes in [vec![], two_rows()] {
        for reading in Reading::ALL {
            screen_is_single_calls(&Gauge::new(&bytes), reading, &[], 0);
            screen_is_single_calls(&Gauge::new(&bytes), reading, &[], 3);
        }
    }
}

/// Before anything is read: where the bytes are no database too.
#[test]
fn fewer_answers_than_addresses() {
    let before = used(&two_rows());
    let mut no_database = two_rows();
    put(&mut no_database, 0, b"sQLite");
    for bytes in [vec![], no_database, two_rows()] {
        for (reading, places) in
            Reading::ALL.into_iter().flat_map(|reading| (0..4).map(move |places| (reading, places)))
        {
            let mut answers = vec![before; places];
            let addresses = [at(1, 0, 0), at(1, 0, 1), at(1, 1, 0), at(1, 1, 1)];
            let refusal = Gauge::new(&bytes).screen(reading, &addresses, &mut answers).unwrap_err();
            assert_eq!((refusal.number(), refusal.name(), refusal.page()), (19, "TableTooShort", Some(0)));
            assert_eq!((refusal.cell(), refusal.column(), refusal.mark()), (None, None, None));
            assert!(answers.iter().all(|answer| *answer == before));
        }
    }
}

/// A new answer is null, as an address of nothing but zeros is the first value.
#[test]
fn new_ones_are_blank() {
    assert_eq!(Answer::default().shown(&Gauge::new(&[])), Ok(Value::Null));
    assert_eq!(Address::default(), at(0, 0, 0));
}

/// The texts of answers are the caller's bytes, and outlive the answers.
#[test]
fn texts_are_the_callers_bytes() {
    let bytes = every_kind();
    let gauge = Gauge::new(&bytes);
    let text = {
        let mut answers = [Answer::default()];
        gauge.screen(File, &[at(1, 1, 4)], &mut answers).unwrap();
        answers[0].shown(&gauge).unwrap()
    };
    assert_eq!(text.bytes().map(<[u8]>::as_ptr_range), Some(bytes[429..431].as_ptr_range()));
}

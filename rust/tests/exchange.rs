//! Two trucks over one table.

mod common;

use common::{pages, put, two_rows};
use shorgavel::Reading::{File, Guarded, Old};
use shorgavel::{Entry, Exchange, Gauge, Reading, Refusal, Slot, Truck};
use std::thread;

/// Page 2 has so many rows of one column, a null, numbered from `number` on.
fn leaf(rows: u8, number: u8) -> Vec<u8> {
    let mut bytes = pages(3);
    put(&mut bytes, 512, &[13, 0, 0, 0, rows, 1, 0, 0]);
    for row in 0..rows {
        let at = 512 - 4 * (usize::from(row) + 1);
        put(&mut bytes, 512 + 8 + 2 * usize::from(row), &(at as u16).to_be_bytes());
        put(&mut bytes, 512 + at, &[2, number + row, 2, 0]);
    }
    bytes
}

/// What the truck's half holds.
fn held(truck: &Truck) -> Vec<Entry> {
    truck.entries().collect()
}

/// What the page call answers that has a table of its own, as long as the page asks.
fn alone(gauge: &Gauge, reading: Reading, pageno: u32) -> Result<Vec<Entry>, Refusal> {
    gauge.get_page(reading, pageno)?.entries()
}

#[test]
fn each_half_is_rounded_down() {
    let bytes = two_rows();
    for places in 0..9 {
        let mut table = vec![Slot::default(); places];
        let exchange = Exchange::new(Gauge::new(&bytes), Gauge::new(&bytes), &mut table);
        assert_eq!((exchange.first.places(), exchange.second.places()), (places / 2, places / 2));
    }
}

#[test]
fn each_truck_has_the_entries_of_its_own_page() {
    let (one, two) = (two_rows(), leaf(3, 40));
    let (one, two) = (Gauge::new(&one), Gauge::new(&two));
    let mut table = [Slot::default(); 7];
    let Exchange { mut first, mut second } = Exchange::new(one, two, &mut table);
    assert_eq!((held(&first), held(&second)), (vec![], vec![]));
    assert_eq!(first.page(File, 1), one.get_page(File, 1).unwrap().head());
    assert_eq!(second.page(Old, 1), two.get_page(Old, 1).unwrap().head());
    assert_eq!(Ok(held(&first)), alone(&one, File, 1));
    assert_eq!(Ok(held(&second)), alone(&two, Old, 1));
    // An empty page leaves the places as they were, and no entry is told of them.
    assert_eq!(second.page(Guarded, 1).unwrap().no_cells, 0);
    assert_eq!((held(&first).len(), held(&second)), (2, vec![]));
    assert!(table[..2].iter().all(|slot| !slot.is_blank()) && table[2].is_blank());
    assert!(table[3..6].iter().all(|slot| !slot.is_blank()) && table[6].is_blank());
}

#[test]
fn refusal_19_counts_against_the_half() {
    let (one, two) = (leaf(2, 1), leaf(3, 1));
    for places in 0..9 {
        let mut table = vec![Slot::default(); places];
        let mut exchange = Exchange::new(Gauge::new(&one), Gauge::new(&two), &mut table);
        let (first, second) = (exchange.first.page(File, 2), exchange.second.page(File, 2));
        let number = |answer: Result<_, Refusal>| answer.err().map(|refusal| (refusal.number(), refusal.page()));
        assert_eq!(number(first), (places < 4).then_some((19, Some(2))));
        assert_eq!(number(second), (places < 6).then_some((19, Some(2))));
        assert_eq!(
            (held(&exchange.first).len(), held(&exchange.second).len()),
            (2 * usize::from(places >= 4), 3 * usize::from(places >= 6))
        );
    }
}

#[test]
fn a_refused_page_leaves_the_last_accepted_one() {
    let (one, mut two) = (leaf(1, 1), leaf(2, 7));
    // Page 3 has a cell whose type is reserved.
    put(&mut two, 1024, &[13, 0, 0, 0, 1, 1, 0, 0, 1, 252]);
    put(&mut two, 1024 + 508, &[2, 1, 2, 10]);
    let mut table = [Slot::default(); 4];
    let mut exchange = Exchange::new(Gauge::new(&one), Gauge::new(&two), &mut table);
    exchange.second.page(File, 2).unwrap();
    let before = held(&exchange.second);
    for pageno in [0, 3, 4] {
        assert!(exchange.second.page(File, pageno).is_err());
        assert_eq!(held(&exchange.second), before);
    }
    assert_eq!(exchange.second.page(File, 3).unwrap_err().number(), 15);
}

/// Whatever the trucks are asked, in any order, each half is what its own last accepted page call wrote.
#[test]
fn calls_of_both_in_any_order() {
    let (one, two) = (leaf(3, 1), leaf(5, 60));
    let gauges = [Gauge::new(&one), Gauge::new(&two)];
    let mut state = 1_u32;
    let mut lot = |below: u32| {
        state = state.wrapping_mul(1_664_525).wrapping_add(1_013_904_223);
        (state >> 16) % below
    };
    let (mut shown, mut refused) = (0, 0);
    for _ in 0..400 {
        let mut table = vec![Slot::default(); lot(16) as usize];
        let Exchange { mut first, mut second } = Exchange::new(gauges[0], gauges[1], &mut table);
        let mut last = [vec![], vec![]];
        for _ in 0..25 {
            let (who, reading, pageno) = (lot(2) as usize, Reading::ALL[lot(3) as usize], lot(4));
            let truck = if who == 0 { &mut first } else { &mut second };
            match truck.page(reading, pageno) {
                Ok(_) => last[who] = alone(&gauges[who], reading, pageno).unwrap(),
                Err(_) => refused += 1,
            }
            shown += usize::from(!last[who].is_empty());
            assert_eq!([held(&first), held(&second)], last);
        }
    }
    assert!(shown > 1000 && refused > 1000);
}

/// Each thread has a truck of its own.
#[test]
fn both_trucks_at_once() {
    let (one, two) = (leaf(3, 1), leaf(5, 60));
    let (one, two) = (Gauge::new(&one), Gauge::new(&two));
    let mut table = vec![Slot::default(); 11];
    let Exchange { mut first, mut second } = Exchange::new(one, two, &mut table);
    thread::scope(|threads| {
        for (truck, gauge) in [(&mut first, one), (&mut second, two)] {
            threads.spawn(move || {
                for _ in 0..1000 {
                    truck.page(File, 2).unwrap();
                    assert_eq!(Ok(held(truck)), alone(&gauge, File, 2));
                }
            });
        }
    });
    assert!(table[10].is_blank());
}

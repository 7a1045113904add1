use crate::{Entry, Gauge, Head, Reading, Refusal, Slot};

/// Two gauges' databases over one table of entries, for exchange jobs: each truck has a half of the table, rounded down, and an
/// odd last place is nobody's.
///
/// What a half holds is what its own truck's last accepted page call wrote, in whatever order the two are asked and however often, and
/// that is a theorem of the calls. Here the compiler keeps it too: each truck borrows its half alone, so both can be held and asked at
/// once, also by two threads, and the table is the caller's again once they are gone.
///
/// ```
/// # // A page of two rows of one column, each a stored 0 (type 8).
/// # let mut bytes = vec![0; 512];
/// # bytes[..16].copy_from_slice(b"SQLite format 3\0");
/// # bytes[16..24].copy_from_slice(&[2, 0, 1, 1, 0, 64, 32, 32]);
/// # bytes[59] = 1;
/// # bytes[100..112].copy_from_slice(&[13, 0, 0, 0, 2, 1, 248, 0, 1, 252, 1, 248]);
/// # bytes[504..].copy_from_slice(&[2, 2, 2, 8, 2, 1, 2, 8]);
/// # let other = bytes.clone();
/// use shorgavel::{Exchange, Gauge, Reading, Slot};
///
/// let mut table = [Slot::default(); 5];
/// let Exchange { mut first, mut second } = Exchange::new(Gauge::new(&bytes), Gauge::new(&other), &mut table);
/// assert_eq!(first.page(Reading::File, 1)?.no_cells, 2);
/// assert_eq!(second.page(Reading::Old, 0)?.no_cells, 2);
/// assert_eq!(first.entries().next().and_then(|entry| entry.rowid), Some(1));
///
/// // A page that is refused leaves the half as it was.
/// assert_eq!(second.page(Reading::File, 7).unwrap_err().number(), 8);
/// assert_eq!(second.entries().len(), 2);
/// assert!(table[4].is_blank());
/// # Ok::<(), shorgavel::Refusal>(())
/// ```
///
/// Neither truck reaches the other's half, and while one of them is held nobody else reaches the table:
///
/// ```compile_fail,E0506
/// use shorgavel::{Exchange, Gauge, Reading, Slot};
///
/// let mut table = [Slot::default(); 4];
/// let mut exchange = Exchange::new(Gauge::new(&[]), Gauge::new(&[]), &mut table);
/// table[0] = Slot::default();
/// let _ = exchange.first.page(Reading::File, 1);
/// ```
#[derive(Debug)]
pub struct Exchange<'a, 't> {
    /// The truck that has the first half of the table.
    pub first: Truck<'a, 't>,
    /// The truck that has the second.
    pub second: Truck<'a, 't>,
}

impl<'a, 't> Exchange<'a, 't> {
    /// Two databases over this table. Nothing is read or written yet.
    pub fn new(first: Gauge<'a>, second: Gauge<'a>, table: &'t mut [Slot]) -> Exchange<'a, 't> {
        let half = table.len() / 2;
        let (one, rest) = table.split_at_mut(half);
        let (two, _) = rest.split_at_mut(half);
        Exchange { first: Truck::of(first, one), second: Truck::of(second, two) }
    }
}

/// A truck of an [`Exchange`]: its database, and its half of the table.
#[derive(Debug)]
pub struct Truck<'a, 't> {
    gauge: Gauge<'a>,
    half: &'t mut [Slot],
    /// The reading of the last page that was accepted, and how many cells it has.
    last: (Reading, usize),
}

impl<'a, 't> Truck<'a, 't> {
    fn of(gauge: Gauge<'a>, half: &'t mut [Slot]) -> Truck<'a, 't> {
        Truck { gauge, half, last: (Reading::File, 0) }
    }

    /// Its database.
    #[must_use]
    pub fn gauge(&self) -> Gauge<'a> {
        self.gauge
    }

    /// How many places its half has.
    #[must_use]
    pub fn places(&self) -> usize {
        self.half.len()
    }

    /// The page call: a page's head if every one of its cells is accepted, and in the half the entries of the cells. Else the first
    /// refusal, and the half is as it was. A page with more cells than the half has places is refused with 19.
    ///
    /// The guarded reading has no such call: of its pages the file reading's entries are told.
    ///
    /// # Errors
    /// The header's and the page's refusals, 19 where the half has fewer places than the page has cells, and that of the first cell that is refused.
    pub fn page(&mut self, reading: Reading, pageno: u32) -> Result<Head, Refusal> {
        let head = self.gauge.page_call(reading, pageno, self.half)?;
        self.last = (reading, head.no_cells);
        Ok(head)
    }

    /// The entries of the last page that was accepted; none before the first.
    #[must_use]
    pub fn entries(&self) -> impl ExactSizeIterator<Item = Entry> + '_ {
        let (reading, cells) = self.last;
        self.half[..cells].iter().map(move |slot| Entry::of(reading, slot))
    }
}

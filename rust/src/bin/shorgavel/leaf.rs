//! A table leaf in the three readings, for `trust`, `compare` and `sheet`.

use shorgavel::{Cell, Gauge, Notes, Page, Reading, Refusal};

pub struct Leaf<'a> {
    old: Page<'a>,
    file: Page<'a>,
    guarded: Page<'a>,
}

/// Where long notes are put together. Each of the two readings that do has its own, since a trio has both at once.
#[derive(Default)]
pub struct Lent {
    file: Notes,
    guarded: Notes,
}

/// A cell in the three readings, long notes too.
pub struct Trio<'a> {
    pub page: u32,
    pub cell: usize,
    pub old: Result<Cell<'a>, Refusal>,
    pub file: Result<Cell<'a>, Refusal>,
    pub guarded: Result<Cell<'a>, Refusal>,
}

/// How the readings stand to each other on a cell.
pub enum Standing<'t, 'a> {
    /// Old and file show the same. It is a theorem that they do wherever guarded shows something.
    Agree,
    /// Old and file refuse the cell.
    Refused,
    /// Old and file show the cell, and guarded refuses it for a mark.
    Differ(&'t Cell<'a>, &'t Cell<'a>, Refusal),
    /// Old refuses what file shows, and guarded refuses it for a mark.
    OldRefuses(Refusal, &'t Cell<'a>, Refusal),
    /// File refuses what old shows.
    FileRefuses(&'t Cell<'a>, Refusal),
}

impl<'a> Leaf<'a> {
    /// A table leaf, which all three readings open.
    pub fn open(gauge: &Gauge<'a>, number: u32) -> Result<Leaf<'a>, Refusal> {
        Ok(Leaf {
            old: gauge.get_page(Reading::Old, number - 1)?,
            file: gauge.get_page(Reading::File, number)?,
            guarded: gauge.get_page(Reading::Guarded, number)?,
        })
    }

    /// The page's number, from 1 on.
    pub fn number(&self) -> u32 {
        self.file.number()
    }

    pub fn len(&self) -> usize {
        self.file.len()
    }

    /// Why the original shows nothing of this page; none where it does. It answers a page whole or not at all, so where it
    /// refuses one cell, what the old reading shows of the others was never on a tablet.
    ///
    /// Where guarded shows every cell, old does too, and there is nothing to ask for.
    pub fn refused_whole(&self) -> Option<Refusal> {
        self.old.head().err()
    }

    pub fn trio<'n>(&self, cell: usize, lent: &'n mut Lent) -> Trio<'n>
    where
        'a: 'n,
    {
        Trio {
            page: self.number(),
            cell,
            old: self.old.cell(cell),
            file: self.file.cell_with(cell, &mut lent.file),
            guarded: self.guarded.cell_with(cell, &mut lent.guarded),
        }
    }

    /// What guarded shows, and so old and file too.
    pub fn agreed(&self, cell: usize) -> Option<Cell<'a>> {
        self.guarded.cell(cell).ok()
    }

    /// The cells on which guarded shows nothing. Where it does, it alone tells that all agree, so most rows are read once.
    pub fn doubtful(&self) -> impl Iterator<Item = usize> + '_ {
        (0..self.len()).filter(|&cell| self.guarded.cell(cell).is_err())
    }
}

impl<'a> Trio<'a> {
    pub fn standing(&self) -> Standing<'_, 'a> {
        match (&self.old, &self.file, &self.guarded) {
            (_, _, Ok(_)) => Standing::Agree,
            (Err(_), Err(_), _) => Standing::Refused,
            (Ok(old), Ok(file), Err(guarded)) => Standing::Differ(old, file, *guarded),
            (Err(old), Ok(file), Err(guarded)) => Standing::OldRefuses(*old, file, *guarded),
            (Ok(old), Err(file), _) => Standing::FileRefuses(old, *file),
        }
    }

    /// Whether the readings part.
    pub fn parts(&self) -> bool {
        !matches!(self.standing(), Standing::Agree | Standing::Refused)
    }
}

/// How many cells there are, and how they stand.
#[derive(Default)]
pub struct Count {
    pub cells: usize,
    pub parted: usize,
    pub refused: usize,
}

impl Count {
    /// A leaf's cells are counted; those that part or are refused come one by one, and `doubted` is shown them.
    pub fn leaf(&mut self, leaf: &Leaf<'_>, lent: &mut Lent, mut doubted: impl FnMut(&Trio<'_>)) {
        self.cells += leaf.len();
        for cell in leaf.doubtful() {
            let trio = leaf.trio(cell, lent);
            if trio.parts() {
                self.parted += 1;
            } else {
                self.refused += 1;
            }
            doubted(&trio);
        }
    }
}

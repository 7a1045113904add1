//! What the rows of some pages say of who wrote them.

use crate::words::{counted, grouped};
use shorgavel::{Gauge, Reading, Refusal};

/// The number of a refusal: the payload spills, and no gather buffer is lent.
const SPILLS: u8 = 18;

/// So many pages are named, and of others it is told how many there are.
const NAMED: usize = 12;

/// A row in the order of the walk.
struct First {
    row: i64,
    page: u32,
    cell: usize,
}

#[derive(Default)]
pub struct Asked {
    /// Rows all of whose varints are in their shortest form.
    shortest: usize,
    /// Those of which one is not, the first of them, and the pages where they stand.
    pub longer: usize,
    first: Option<First>,
    pub pages: Vec<u32>,
    /// Rows that could not be asked: their payload spills, or the file reading refuses them for something else.
    spilled: usize,
    damaged: usize,
}

impl Asked {
    /// Asks the rows of a table leaf.
    pub fn page(&mut self, gauge: &Gauge<'_>, number: u32) -> Result<(), Refusal> {
        let page = gauge.get_page(Reading::File, number)?;
        for cell in 0..page.len() {
            let shown = match page.cell(cell) {
                Ok(shown) => shown,
                Err(refusal) if refusal.number() == SPILLS => {
                    self.spilled += 1;
                    continue;
                }
                Err(_) => {
                    self.damaged += 1;
                    continue;
                }
            };
            match shown.shortest() {
                Some(true) => self.shortest += 1,
                Some(false) => self.take_longer(First { row: shown.rowid(), page: number, cell }),
                // Only with notes lent is a row shown that spills.
                None => self.spilled += 1,
            }
        }
        Ok(())
    }

    fn take_longer(&mut self, found: First) {
        self.longer += 1;
        if self.pages.last() != Some(&found.page) {
            self.pages.push(found.page);
        }
        self.first.get_or_insert(found);
    }

    /// How many could be asked.
    pub fn count(&self) -> usize {
        self.shortest + self.longer
    }

    /// How many could not.
    pub fn left(&self) -> usize {
        self.spilled + self.damaged
    }

    pub fn rows(&self) -> usize {
        self.count() + self.left()
    }

    pub fn label(&self) -> &'static str {
        match self {
            _ if self.rows() == 0 => "empty",
            _ if self.count() == 0 => "unasked",
            _ if self.longer == 0 => "shortest",
            _ => "longer",
        }
    }

    pub fn words(&self) -> String {
        let which = if self.left() == 0 { "" } else { " that could be asked" };
        match (&self.first, self.count()) {
            (None, 0) if self.rows() == 0 => "it has no rows".to_string(),
            (None, 0) => format!("none of its {} could be asked", counted(self.rows(), "row")),
            (None, 1) if self.left() == 0 => "its one row".to_string(),
            (None, 1) => format!("the one row{which}"),
            (None, count) => format!("all {}{which}", counted(count, "row")),
            (Some(First { row, page, cell }), count) => {
                let share = format!("{} of {}{which}", grouped(self.longer), counted(count, "row"));
                let verb = if self.longer == 1 { "holds" } else { "hold" };
                let places = format!("on {}; the first is row {row} (page {page}, cell {cell})", self.page_words());
                format!("{share} {verb} a varint that is not in its shortest form, {places}")
            }
        }
    }

    fn page_words(&self) -> String {
        let named: Vec<String> = self.pages.iter().take(NAMED).map(u32::to_string).collect();
        match (&named[..], self.pages.len() - named.len()) {
            ([one], _) => format!("page {one}"),
            ([most @ .., last], 0) => format!("pages {} and {last}", most.join(", ")),
            (all, more) => format!("pages {} and {} more", all.join(", "), grouped(more)),
        }
    }

    /// Why some could not be asked, where any could not.
    pub fn unasked(&self) -> Option<String> {
        let why = [
            (self.spilled, "spills to other pages", "spill to other pages"),
            (self.damaged, "is damaged", "are damaged"),
        ];
        let told = why.iter().filter(|(rows, ..)| *rows > 0);
        let told = told.map(|&(rows, one, more)| format!("{} {}", grouped(rows), if rows == 1 { one } else { more }));
        let reasons = told.collect::<Vec<_>>().join(", ");
        (self.left() > 0).then(|| format!("{} could not be asked: {reasons}.", counted(self.left(), "row")))
    }

    /// In short, of rows that do not count.
    pub fn shares(&self) -> String {
        let (shortest, longer) = (grouped(self.shortest), grouped(self.longer));
        format!("{longer} with a longer varint, {shortest} with none, {} that could not be asked", grouped(self.left()))
    }
}

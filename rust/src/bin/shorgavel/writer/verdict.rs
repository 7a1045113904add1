//! What is said of who wrote the whole file, last of all.

use super::Asked;
use crate::folded;
use crate::input::Database;
use crate::out::Out;
use crate::trees::Trees;
use crate::words::{counted, grouped};

/// How many rows of tables were asked, and what of.
#[derive(Default)]
pub struct Verdict {
    pub asked: usize,
    pub longer: usize,
    pages: usize,
    left: usize,
}

impl Verdict {
    pub fn take(&mut self, asked: &Asked) {
        self.asked += asked.count();
        self.longer += asked.longer;
        self.pages += asked.pages.len();
        self.left += asked.left();
    }

    pub fn put(&self, database: &Database, trees: &Trees, out: &mut Out) {
        if self.longer > 0 {
            folded::put_wide(out, "Pages count from 1, cells from 0. `shorgavel rows` shows what stands there.");
        }
        let cut = database.cut();
        if let Some(pages) = cut {
            let (present, count) = (grouped(pages.present as usize), grouped(pages.count as usize));
            folded::put_wide(out, &format!("The file is cut: {present} of its {count} pages are there."));
        }
        if let Some(log) = &database.log {
            folded::put_wide(out, &format!("The last writes are in {log}, beside the file: they are not read."));
        }
        let whole = cut.is_none() && database.log.is_none() && !trees.is_partial() && self.left == 0;
        folded::put_wide(out, &self.words(whole));
    }

    /// Of rows that were not asked nothing is said.
    fn words(&self, whole: bool) -> String {
        let (longer, pages) = (counted(self.longer, "row"), counted(self.pages, "page"));
        let rows = counted(self.asked, "row");
        let why = "all varints are in their shortest form, as both write them";
        match self {
            _ if self.asked == 0 => "No row was asked, so nothing is said of who wrote the file.".to_string(),
            Verdict { longer: 1, .. } => format!(
                "{longer} on {pages} was written by something else: SQLite never writes such forms, nor does the gauge."
            ),
            Verdict { longer: 2.., .. } => format!(
                "{longer} on {pages} were written by something else: SQLite never writes such forms, nor does the gauge."
            ),
            _ if !whole => format!(
                "Every row that was asked, {rows}, could have come from the gauge and from SQLite: {why}. But that is not all \
                 of the file."
            ),
            _ => format!("Every row of all tables, {rows}, could have come from the gauge and from SQLite: {why}."),
        }
    }
}

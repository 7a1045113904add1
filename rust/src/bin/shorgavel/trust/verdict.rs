//! What is said of the whole file, last of all.

use super::Found;
use crate::folded;
use crate::input::Database;
use crate::out::Out;
use crate::trees::Trees;
use crate::words::{self, counted, grouped};

/// How many tables stand how, and how many rows those have that were compared.
#[derive(Default)]
pub struct Verdict {
    agreeing: usize,
    pub parting: usize,
    damaged: usize,
    pub rows: usize,
}

impl Verdict {
    pub fn take(&mut self, found: &Found<'_>) {
        match found {
            Found::Agrees(rows) => {
                self.agreeing += 1;
                self.rows += rows;
            }
            Found::Parts(rows, ..) => {
                self.parting += 1;
                self.rows += rows;
            }
            Found::Apart(why) if why.is_fault() => self.damaged += 1,
            Found::Apart(_) | Found::Empty => {}
        }
    }

    /// How many tables were compared or are damaged.
    pub fn tables(&self) -> usize {
        self.agreeing + self.parting + self.damaged
    }

    /// A table of another name would be named by a row of this one.
    pub fn is_schema_alone(&self) -> bool {
        self.rows > 0 && self.agreeing == 1 && self.tables() == 1
    }

    pub fn put(&self, database: &Database, trees: &Trees, out: &mut Out) {
        if self.parting + self.damaged > 0 {
            let more = if self.parting > 0 { " `shorgavel compare` has every row that parts." } else { "" };
            folded::put_wide(out, &format!("Pages count from 1, cells and columns from 0.{more}"));
        }
        let cut = database.cut();
        if let Some(pages) = cut {
            let (present, count) = (grouped(pages.present as usize), grouped(pages.count as usize));
            folded::put_wide(out, &format!("The file is cut: {present} of its {count} pages are there."));
        }
        if let Some(log) = &database.log {
            let log = words::plain(log);
            folded::put_wide(out, &format!("The last writes are in {log}, beside the file: they are not read."));
        }
        let whole = cut.is_none() && database.log.is_none() && !trees.is_partial();
        folded::put_wide(out, &self.words(whole));
    }

    /// Rows that are not known of are not said to agree.
    fn words(&self, whole: bool) -> String {
        let tables = self.tables();
        let rows = counted(self.rows, "row");
        if self.rows == 0 {
            "Nothing was compared.".to_string()
        } else if self.agreeing < tables {
            self.shares(tables)
        } else if !whole {
            format!("Every row that was compared agrees, {rows}, but that is not all of the file.")
        } else if self.is_schema_alone() {
            format!("Nothing was compared but sqlite_schema, the list of the tables, which agrees: {rows}.")
        } else {
            format!("Every row of all {tables} tables agrees, {rows}: the printed sheets and the gauge say the same.")
        }
    }

    fn shares(&self, tables: usize) -> String {
        let verb = |number: usize, one: &str, more: &str| format!("{number} {}", if number == 1 { one } else { more });
        let mut others = Vec::new();
        if self.parting > 0 {
            others.push(verb(self.parting, "parts", "part"));
        }
        if self.damaged > 0 {
            others.push(verb(self.damaged, "is damaged", "are damaged"));
        }
        let agree = if self.agreeing == 1 { "agrees" } else { "agree" };
        format!("{} of {} {agree} in all rows; {}.", self.agreeing, counted(tables, "table"), others.join(", "))
    }
}

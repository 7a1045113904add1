//! The rows of a table, or of the pages that are of none: first counted and measured, then shown.

use super::body::Body;
use super::form::Form;
use super::head::Head;
use super::view::{Pages, Tally, Unshown, View};
use super::{names, section};
use crate::failure::Failure;
use crate::out::Out;
use crate::reason;
use crate::trees::Tree;
use crate::words;
use shorgavel::{Reading, Refusal, Schema, TextEncoding};
use std::io;

/// The columns of the schema's own table, which no statement names: the format does.
const SCHEMA: [&str; 5] = ["type", "name", "tbl_name", "rootpage", "sql"];

pub struct Part<'s> {
    pages: &'s [u32],
    /// Of a table, its root page.
    root: Option<u32>,
    /// The names of its columns, as far as they are known.
    columns: Vec<String>,
    form: Form,
    encoding: TextEncoding,
    pub tally: Tally,
}

impl<'s> Part<'s> {
    pub fn of(tree: &'s Tree, encoding: TextEncoding, pages: &mut Pages<'_>) -> Result<Part<'s>, Refusal> {
        let numbers = tree.leaves.as_deref().unwrap_or(&[]);
        Part::count(numbers, tree.named.root.page(), columns(tree), encoding, pages)
    }

    pub fn count(
        numbers: &'s [u32],
        root: Option<u32>,
        columns: Vec<String>,
        encoding: TextEncoding,
        pages: &mut Pages<'_>,
    ) -> Result<Part<'s>, Refusal> {
        let (mut form, mut tally) = (Form::new(&columns, encoding), Tally::default());
        for &page in numbers {
            tally += pages.count(page, |cell, line| form.measure(page, cell, line))?;
        }
        Ok(Part { pages: numbers, root, columns, form, encoding, tally })
    }

    pub fn show(&self, tree: &Tree, pages: &mut Pages<'_>, out: &mut Out) -> Result<(), Failure> {
        let heading = |out: &mut Out| section::table(tree, &self.tally, out);
        if let Err(why) = &tree.leaves {
            heading(out)?;
            section::apart(why, pages.view, out);
            return Ok(());
        }
        self.rows(&words::plain(&tree.named.name), heading, pages, out)
    }

    /// The pages of no table; nothing where there are none.
    pub fn show_loose(&self, pages: &mut Pages<'_>, out: &mut Out) -> Result<(), Failure> {
        if self.pages.is_empty() {
            return Ok(());
        }
        let view = pages.view;
        let heading = |out: &mut Out| section::loose(self.pages.len(), &self.tally, view, out);
        self.rows("Pages of no table", heading, pages, out)
    }

    /// The heading is the caption of the rows; where there are none to show, it stands alone.
    fn rows(
        &self,
        name: &str,
        heading: impl FnOnce(&mut Out) -> io::Result<()>,
        pages: &mut Pages<'_>,
        out: &mut Out,
    ) -> Result<(), Failure> {
        let Tally { rows, parted, unshown_pages, .. } = self.tally;
        let none = if pages.view == View::Parting { parted + unshown_pages == 0 } else { rows + unshown_pages == 0 };
        if none {
            heading(out)?;
            out.text(b"<p class=note>");
            out.text(if rows == 0 { b"It has no rows.</p>\n" } else { b"No row parts.</p>\n" });
            return Ok(());
        }
        let layout = self.form.layout(!matches!(pages.view, View::One(_)));
        Head { name, view: pages.view, columns: &self.columns }.write(&layout, heading, out)?;
        let walked = self.root.map(|root| pages.rows(root)).transpose()?;
        let mut left = walked.as_ref().map_or(&[][..], |table| table.places());
        let mut body = Body::new(out, layout, self.encoding);
        for &page in self.pages {
            let (here, rest) = left.split_at(left.iter().take_while(|place| place.page() == page).count());
            left = rest;
            let unshown = pages.unshown(page);
            top(page, unshown, pages.view, &mut body);
            pages.lines(page, here, |cell, line| body.line(page, cell, unshown.is_none(), line))?;
            body.out.pass()?;
        }
        out.text(b"</table>\n");
        Ok(())
    }
}

/// What is said of a page above its rows: on a sheet of the old reading which page it is, and on any that the original refuses
/// it whole.
fn top(page: u32, unshown: Option<Unshown>, view: View, body: &mut Body<'_>) {
    let old = view == View::One(Reading::Old);
    let number = if old { format!("Page {page}, {} on the tablets", page - 1) } else { format!("Page {page}") };
    let below = if matches!(view, View::One(_)) { "" } else { ". What stands below as old† is of single cells" };
    match unshown {
        Some(Unshown { refusal, rows }) => {
            body.note("x", &format!("{number}: {}{below}.", reason::unshown(rows, refusal)));
        }
        None if old => body.note("q", &number),
        None => {}
    }
}

/// The names of a table's columns, as far as they are known.
fn columns(tree: &Tree) -> Vec<String> {
    let found = match &tree.named.sql {
        Some(sql) => names::of(sql).unwrap_or_default(),
        None if tree.named.root.page() == Some(Schema::ROOT) => SCHEMA.to_vec(),
        None => Vec::new(),
    };
    found.into_iter().map(words::plain).collect()
}

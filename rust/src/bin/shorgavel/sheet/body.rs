//! The rows of a table, line by line.
//!
//! End tags that HTML does not ask for are left out: they would be half of a large sheet.

use super::form::Layout;
use super::html;
use super::line::{self, Line, Shown};
use super::value;
use crate::out::Out;
use crate::words;
use shorgavel::{Cell, Refusal, TextEncoding, Value};

/// Where values follow each other, a longer value takes two places, and a still longer one a line of its own.
const PLACE: usize = 10;
const TWO_PLACES: usize = 28;

pub struct Body<'o> {
    pub out: &'o mut Out,
    pub layout: Layout,
    pub encoding: TextEncoding,
    words: String,
}

impl<'o> Body<'o> {
    pub fn new(out: &'o mut Out, layout: Layout, encoding: TextEncoding) -> Body<'o> {
        Body { out, layout, encoding, words: String::new() }
    }

    /// A line of words on the rows below it.
    pub fn note(&mut self, class: &str, words: &str) {
        self.out.text(b"<tr class=");
        self.out.text(class.as_bytes());
        self.out.text(b"><td colspan=");
        self.out.decimal(self.layout.widths().len() as u64);
        self.out.text(b">");
        html::text(self.out, words);
        self.out.text(b"\n");
    }

    /// A row's line, at its place. `on_tablet` tells whether the original shows the page.
    pub fn line(&mut self, page: u32, cell: usize, on_tablet: bool, line: &Line<'_, '_>) {
        let parts = line.sides.as_ref().is_some_and(|sides| sides.parts);
        self.out.text(if parts { b"<tr class=p><th>" } else { b"<tr><th>" });
        if let Some(number) = line.number {
            self.out.signed(number);
        }
        self.out.text(b"<td>");
        self.out.decimal(page.into());
        self.out.text("·".as_bytes());
        self.out.decimal(cell as u64);
        if let Some(sides) = &line.sides {
            self.out.text(b"<td class=t>");
            self.out.text(sides.readings.words(on_tablet).as_bytes());
        }
        match line.shown {
            Shown::Refused(refusal) => self.refused(refusal),
            Shown::Row(row) => self.values(row, None),
            Shown::Differing(old, file) => self.values(old, Some(file)),
        }
        if let Some(sides) = &line.sides {
            let words = sides.guarded.map(line::guarded).unwrap_or_default();
            self.tag("td", [(true, "t"), (matches!(sides.guarded, Some(Err(_))), "r")]);
            self.out.text(words.as_bytes());
        }
        self.out.text(b"\n");
    }

    fn refused(&mut self, refusal: Refusal) {
        self.out.text(b"<td class=\"t r\" colspan=");
        self.out.decimal(self.layout.span().max(1) as u64);
        self.out.text(b">refused ");
        self.words.clear();
        words::refusal(&mut self.words, refusal);
        html::text(self.out, &self.words);
    }

    /// A row's values, and beside those in which file differs what it has.
    fn values(&mut self, row: &Cell<'_>, file: Option<&Cell<'_>>) {
        let mut others = file.map(|file| file.values());
        let pairs = row.values().map(|shown| {
            let wrote = others.as_mut().and_then(Iterator::next);
            (shown, wrote.filter(|wrote| *wrote != shown))
        });
        if self.layout.flows() {
            self.out.text(b"<td class=w><div>");
            pairs.for_each(|(shown, wrote)| self.flowing(shown, wrote));
            self.out.text(b"</div>");
            return;
        }
        for (column, (shown, wrote)) in pairs.enumerate() {
            let (differs, null) = (wrote.is_some(), is_null(shown, wrote));
            self.word(shown);
            self.tag("td", [(differs, "d"), (null, "u"), (self.layout.is_left(column), "t")]);
            self.pair(wrote);
        }
        // Rows of a table may have fewer columns than others.
        (row.columns()..self.layout.span()).for_each(|_| self.out.text(b"<td>"));
    }

    fn flowing(&mut self, shown: Value<'_>, wrote: Option<Value<'_>>) {
        let other = wrote.map_or(0, |wrote| {
            self.word(wrote);
            self.words.len()
        });
        self.word(shown);
        let length = self.words.len() + other;
        let (two, line) = (length > PLACE, length > TWO_PLACES);
        let (differs, null) = (wrote.is_some(), is_null(shown, wrote));
        self.tag("b", [(differs, "d"), (null, "u"), (two && !line, "m"), (line, "l")]);
        self.pair(wrote);
        self.out.text(b"</b>");
    }

    /// The value that is put in words and, where file has another, that one: old's stands first.
    fn pair(&mut self, wrote: Option<Value<'_>>) {
        let Some(wrote) = wrote else {
            html::text(self.out, &self.words);
            return;
        };
        self.out.text(b"<i class=o>");
        html::text(self.out, &self.words);
        self.out.text("</i> ≠ <i class=f>".as_bytes());
        self.word(wrote);
        html::text(self.out, &self.words);
        self.out.text(b"</i>");
    }

    /// A tag with those of the classes that apply.
    fn tag<const N: usize>(&mut self, name: &str, classes: [(bool, &str); N]) {
        self.out.text(b"<");
        self.out.text(name.as_bytes());
        let applying = || classes.iter().filter(|(applies, _)| *applies).map(|(_, class)| *class);
        // A class that is alone needs no quotes.
        let quote: &[u8] = if applying().count() > 1 { b"\"" } else { b"" };
        for (at, class) in applying().enumerate() {
            self.out.text(if at == 0 { b" class=" } else { b" " });
            self.out.text(if at == 0 { quote } else { b"" });
            self.out.text(class.as_bytes());
        }
        self.out.text(quote);
        self.out.text(b">");
    }

    /// Puts a value in words.
    fn word(&mut self, shown: Value<'_>) {
        self.words.clear();
        value::put(&mut self.words, shown, self.encoding);
    }
}

/// Whether null is all that a place shows.
fn is_null(shown: Value<'_>, wrote: Option<Value<'_>>) -> bool {
    shown.is_null() && wrote.is_none()
}

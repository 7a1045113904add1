//! The begin of a table: its caption, its columns and their heads, which stand on each printed page.

use super::form::{Layout, Values};
use super::html;
use super::view::View;
use crate::out::Out;
use crate::words::counted;
use shorgavel::Reading;
use std::io::{self, Write};

/// A caption is no narrower, in characters, however narrow the rows are.
const CAPTION: usize = 60;

/// What the heads say.
pub struct Head<'s> {
    /// The table's name.
    pub name: &'s str,
    pub view: View,
    /// The names of its columns, as far as they are known.
    pub columns: &'s [String],
}

impl Head<'_> {
    pub fn write(
        &self,
        layout: &Layout,
        caption: impl FnOnce(&mut Out) -> io::Result<()>,
        out: &mut Out,
    ) -> io::Result<()> {
        let widths = layout.widths();
        let class = if layout.flows() { "flow" } else { "grid" };
        write!(out, "<table class={class} style=\"--width:{}ch\">\n<caption>", layout.width.max(CAPTION))?;
        caption(out)?;
        out.text(b"</caption>\n<colgroup>");
        for width in &widths {
            // In shares of the table's width, a thousand in all, so that columns shrink alike on a narrow screen.
            let share = 1000 * width / widths.iter().sum::<usize>();
            write!(out, "<col style=\"width:{}.{}%\">", share / 10, share % 10)?;
        }
        let (class, reading) = self.reading();
        write!(out, "</colgroup>\n<thead>\n<tr class=\"b {class}\"><th colspan={}>", widths.len())?;
        html::text(out, self.name);
        write!(out, ": {reading}\n<tr><th>Row<th>Place")?;
        let readings = layout.names_readings();
        out.text(if readings { b"<th class=t>Readings" } else { b"" });
        self.values(layout, out)?;
        out.text(if readings { b"<th class=t>Guarded" } else { b"" });
        out.text(b"\n<tbody>\n");
        Ok(())
    }

    /// The columns by number, and by name where there is one.
    fn values(&self, layout: &Layout, out: &mut Out) -> io::Result<()> {
        let columns = match &layout.values {
            Values::Grid(columns) => columns,
            Values::Flow(columns) => return self.flowing(*columns, out),
        };
        for (number, column) in columns.iter().enumerate() {
            out.text(if column.texts { b"<th class=t>" } else { b"<th>" });
            match self.columns.get(number) {
                Some(name) => {
                    write!(out, "<small>{number}</small><br>")?;
                    html::text(out, name);
                }
                None => write!(out, "{number}")?,
            }
        }
        Ok(())
    }

    /// For example `30 columns: 0 idle, 1 coulombs`.
    fn flowing(&self, columns: usize, out: &mut Out) -> io::Result<()> {
        write!(out, "<th class=t>{}", counted(columns, "column"))?;
        for (number, name) in self.columns.iter().enumerate() {
            write!(out, "{} <small>{number}</small>\u{a0}", if number == 0 { ":" } else { "," })?;
            html::text(out, name);
        }
        Ok(())
    }

    /// The readings that are shown: the class of their colour, and words.
    fn reading(&self) -> (&'static str, &'static str) {
        match self.view {
            View::Three => ("a", "old, file and guarded reading"),
            View::Parting => ("a", "old, file and guarded reading, only the rows on which they part"),
            View::One(Reading::Old) => ("o", "old reading, what the tablets show"),
            View::One(Reading::File) => ("f", "file reading, what the gauge wrote"),
            View::One(Reading::Guarded) => ("g", "guarded reading, only rows on which old and file agree"),
        }
    }
}

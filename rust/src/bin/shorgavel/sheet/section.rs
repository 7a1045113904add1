//! The headings: of a table, and of the pages that are of none.

use super::html;
use super::view::{Tally, View};
use crate::out::Out;
use crate::trees::{Apart, Tree};
use crate::words::{self, counted, grouped};
use shorgavel::{Reading, Unread};
use std::io::{self, Write};

/// Of rows of the schema that tell nothing, so many are told; `tables` lists all.
const MOST: usize = 20;

/// The table's name, what there is of it, and the statement that made it.
pub fn table(tree: &Tree, tally: &Tally, out: &mut Out) -> io::Result<()> {
    out.text(b"<h2>");
    html::text(out, &words::plain(&tree.named.name));
    match tree.named.root.page() {
        Some(root) => write!(out, " <small>root page {root}")?,
        None => out.text(b" <small>no root page"),
    }
    if tree.leaves.is_ok() {
        out.text(b", ");
        rows(tally, out)?;
    }
    out.text(b"</small></h2>\n");
    if let Some(sql) = &tree.named.sql {
        out.text(b"<pre>");
        for line in sql.lines() {
            html::text(out, &words::plain(line));
            out.text(b"\n");
        }
        out.text(b"</pre>\n");
    }
    Ok(())
}

/// Why a table has no rows on the sheet.
pub fn apart(why: &Apart, view: View, out: &mut Out) {
    out.text(if why.is_fault() { b"<p class=\"note bad\">" } else { b"<p class=note>" });
    out.text(if matches!(view, View::One(_)) { b"Not shown: " } else { b"Not compared: " });
    html::text(out, &why.words());
    out.text(b".</p>\n");
}

/// The heading of the pages that are of no table.
pub fn loose(pages: usize, tally: &Tally, view: View, out: &mut Out) -> io::Result<()> {
    write!(out, "<h2>Pages of no table: deleted or damaged <small>{}, ", counted(pages, "page"))?;
    rows(tally, out)?;
    out.text(b"</small></h2>\n<p class=note>No table leads to these rows, and they do not count above. ");
    out.text(match view {
        View::One(Reading::Old) => b"The tablets know no tables, and show them with all others.</p>\n",
        _ => b"</p>\n",
    });
    Ok(())
}

/// The rows of the schema that tell nothing.
pub fn unread(rows: &[Unread], out: &mut Out) -> io::Result<()> {
    for row in rows.iter().take(MOST) {
        out.text(b"<p class=\"note bad\">");
        html::text(out, &words::unread(row));
        out.text(b".</p>\n");
    }
    if rows.len() > MOST {
        writeln!(out, "<p class=\"note bad\">And {} more rows of the schema.</p>", grouped(rows.len() - MOST))?;
    }
    Ok(())
}

fn rows(tally: &Tally, out: &mut Out) -> io::Result<()> {
    write!(out, "{}", counted(tally.rows, "row"))?;
    if tally.parted > 0 {
        write!(out, ", <b>{} part</b>", grouped(tally.parted))?;
    }
    if tally.refused > 0 {
        write!(out, ", {} refused", grouped(tally.refused))?;
    }
    Ok(())
}

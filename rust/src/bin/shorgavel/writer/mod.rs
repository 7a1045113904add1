//! `writer`: who wrote a file. SQLite and the gauge write every varint in its shortest form, so a row with a longer one was
//! written by something else. It goes table by table, and is made to be printed.

mod asked;
mod verdict;

use crate::failure::Failure;
use crate::folded;
use crate::input::Database;
use crate::out::Out;
use crate::progress::Progress;
use crate::trees::{Apart, Tree, Trees, Work};
use crate::words::{self, counted};
use asked::Asked;
use shorgavel::Gauge;
use verdict::Verdict;

pub fn show(database: &Database, out: &mut Out) -> Result<(), Failure> {
    let gauge = database.gauge()?;
    let trees = Trees::of(&gauge)?;
    let mut pages = Pages { gauge, progress: Progress::new(trees.leaves().count() + trees.loose.len()), done: 0 };
    let mut verdict = Verdict::default();

    let name = words::plain(&database.name);
    folded::put_wide(out, &format!("{name}: could its rows have come from the gauge and from SQLite?"));
    out.text(b"\n");
    for tree in &trees.tables {
        table(&mut pages, tree, &mut verdict, out)?;
        out.pass()?;
    }
    if let Some(unread) = words::all_unread(&trees.unread) {
        folded::put(out, "unread", &unread);
    }
    let loose = pages.ask(&trees.loose)?;
    if loose.rows() > 0 {
        let rows = counted(loose.rows(), "row");
        folded::put(out, "no table", &format!("{rows}, deleted or damaged, not counted: {}", loose.shares()));
    }
    out.text(b"\n");
    verdict.put(database, &trees, out);
    trees.verdict(Work::Ask, verdict.longer, verdict.asked)
}

/// What pages are asked with.
struct Pages<'a> {
    gauge: Gauge<'a>,
    progress: Progress,
    done: usize,
}

impl Pages<'_> {
    fn ask(&mut self, pages: &[u32]) -> Result<Asked, Failure> {
        let mut asked = Asked::default();
        for &page in pages {
            self.done += 1;
            self.progress.reach(self.done);
            asked.page(&self.gauge, page)?;
        }
        Ok(asked)
    }
}

/// A table in a statement of one line or more.
fn table(pages: &mut Pages<'_>, tree: &Tree, verdict: &mut Verdict, out: &mut Out) -> Result<(), Failure> {
    let name = words::plain(&tree.named.name);
    match &tree.leaves {
        Ok(leaves) => {
            let asked = pages.ask(leaves)?;
            folded::put(out, asked.label(), &format!("{name}: {}", asked.words()));
            if let Some(rest) = asked.unasked() {
                folded::put(out, "", &rest);
            }
            verdict.take(&asked);
        }
        Err(why) => apart(&name, why, out),
    }
    Ok(())
}

fn apart(name: &str, why: &Apart, out: &mut Out) {
    let label = if why.is_fault() { "damaged" } else { "left out" };
    folded::put(out, label, &format!("{name}: not asked, {}", why.words()));
}

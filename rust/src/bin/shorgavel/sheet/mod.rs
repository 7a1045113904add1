//! `sheet`: one HTML page for a browser and a printer, table by table: the three readings line by line, or one alone.
//!
//! It needs nothing but itself: no script, no other file. The database is gone through twice, first to count its rows and to
//! measure its columns and then to show them, and nothing is kept of a page that is shown.

mod body;
mod form;
mod head;
mod html;
mod line;
mod names;
mod part;
mod section;
mod summary;
mod value;
mod view;

use crate::failure::Failure;
use crate::input::Database;
use crate::out::Out;
use crate::trees::Trees;
use part::Part;
use shorgavel::{Gauge, Kind, Reading, Refusal};
use summary::Summary;
use view::{Pages, Tally};

pub use view::View;

/// What a sheet is asked to show.
pub struct Asked {
    pub view: View,
    /// The root page of the one table; none for all.
    pub table: Option<u32>,
}

/// The number of a refusal: the page is of no kind that has cells.
const KIND_UNFIT: u8 = 10;

pub fn show(database: &Database, asked: Asked, out: &mut Out) -> Result<(), Failure> {
    let (gauge, view) = (database.gauge()?, asked.view);
    let old = view == View::One(Reading::Old);
    let counting = if old { Reading::Old } else { Reading::File };
    let header = gauge.header(counting)?;
    let trees = trees(&gauge, &asked)?;
    let mut pages = Pages::new(gauge, view, 2 * (trees.leaves().count() + trees.loose.len()));

    let encoding = header.db_text_encoding;
    let mut tables = Vec::new();
    for tree in &trees.tables {
        tables.push(Part::of(tree, encoding, &mut pages)?);
    }
    let loose = Part::count(&trees.loose, None, Vec::new(), encoding, &mut pages)?;
    let mut tally = Tally::default();
    tables.iter().for_each(|part| tally += part.tally);
    Summary {
        name: &database.name,
        view,
        only: asked.table.is_some(),
        page_size: header.page_size,
        pages: gauge.page_count(counting)?.present,
        cut: database.cut(),
        log: database.log.as_deref(),
        refused: if old { gauge.header(Reading::File).err() } else { None },
        trees: &trees,
        tally,
        loose: loose.tally,
    }
    .write(out)?;

    for (tree, part) in trees.tables.iter().zip(tables) {
        part.show(tree, &mut pages, out)?;
    }
    loose.show_loose(&mut pages, out)?;
    section::unread(&trees.unread, out)?;
    out.text(b"</main>\n</body>\n</html>\n");
    Ok(())
}

/// The tables that are asked for, and the pages of none. The schema's own table stands behind those of the gauge.
fn trees(gauge: &Gauge<'_>, asked: &Asked) -> Result<Trees, Failure> {
    if let Some(root) = asked.table {
        // What cannot be walked is refused as `rows --table` refuses it.
        gauge.count_rows(root)?;
    }
    let old = asked.view == View::One(Reading::Old);
    let mut trees = match Trees::of(gauge) {
        // The tablets know no tables: they show pages also where file refuses the database.
        Err(_) if old => Trees { tables: Vec::new(), unread: Vec::new(), loose: Vec::new() },
        trees => trees?,
    };
    if old {
        trees.loose = loose_of_old(gauge, &trees)?;
    }
    if !trees.tables.is_empty() {
        trees.tables.rotate_left(1);
    }
    match asked.table {
        Some(root) => trees.only(root).ok_or(Failure::NoTable(root)),
        None => Ok(trees),
    }
}

/// The table leaves with rows that the original has and no table leads to, also behind the end of the file that its header
/// states; and pages that it refuses at once, which may be such leaves.
fn loose_of_old(gauge: &Gauge<'_>, trees: &Trees) -> Result<Vec<u32>, Refusal> {
    let pages = gauge.pages(Reading::Old)?;
    let mut taken = vec![false; pages.end as usize];
    trees.leaves().for_each(|page| taken[page as usize - 1] = true);
    let is_loose = |page: &u32| match gauge.get_page(Reading::Old, *page) {
        Ok(opened) => !taken[*page as usize] && opened.kind() == Kind::LeafTable && !opened.is_empty(),
        Err(refusal) => refusal.number() != KIND_UNFIT,
    };
    Ok(pages.filter(is_loose).map(|page| page + 1).collect())
}

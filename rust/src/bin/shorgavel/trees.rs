//! The tables of a database by their pages, and the pages that are of none, for `trust`, `writer`, `compare` and `sheet`.

use crate::failure::Failure;
use crate::words;
use shorgavel::{Gauge, Named, Reading, Refusal, Root, Schema, Unread};

/// Which pages have the rows of which table. Of the rows nothing is kept: a leaf's rows follow each other in the walk.
pub struct Trees {
    pub tables: Vec<Tree>,
    /// The rows of the schema that tell nothing.
    pub unread: Vec<Unread>,
    /// The table leaves with rows that are of no table: they were deleted, or the way to them is damaged.
    pub loose: Vec<u32>,
}

/// What is done with the rows of tables.
#[derive(Clone, Copy)]
pub enum Work {
    Compare,
    Ask,
}

pub struct Tree {
    pub named: Named,
    /// Its leaves in the order of the walk.
    pub leaves: Result<Vec<u32>, Apart>,
}

/// Why a table has no rows to show.
pub enum Apart {
    Refused(Refusal),
    /// A page is of a table before it as well.
    Shared(u32),
    Keyed,
    Virtual,
}

impl Tree {
    /// The root page, where its rows are listed.
    pub fn root(&self) -> Result<u32, &Apart> {
        self.leaves.as_ref()?;
        self.named.root.page().ok_or(&Apart::Virtual)
    }
}

impl Apart {
    /// Whether its rows should have been listed.
    pub fn is_fault(&self) -> bool {
        matches!(self, Apart::Refused(_) | Apart::Shared(_))
    }

    pub fn words(&self) -> String {
        match self {
            Apart::Refused(refusal) => refusal.to_string(),
            Apart::Shared(page) => format!("page {page} is of a table before it as well"),
            Apart::Keyed => words::KEYED.to_string(),
            Apart::Virtual => words::VIRTUAL.to_string(),
        }
    }
}

impl Trees {
    /// A schema that is refused is a table that is refused: then no other is known.
    pub fn of(gauge: &Gauge<'_>) -> Result<Trees, Refusal> {
        // Page 0 is none.
        let mut taken = vec![false; gauge.pages(Reading::File)?.end as usize];
        let schema = gauge.schema();
        let Schema { tables, unread } =
            schema.unwrap_or_else(|_| Schema { tables: vec![Named::schema()], unread: Vec::new() });
        let tree = |named: Named| Tree { leaves: leaves(gauge, named.root, &mut taken), named };
        let tables = tables.into_iter().map(tree).collect();
        let rest = gauge.leaves(Reading::File)?.filter(|page| !page.is_empty() && !taken[page.number() as usize]);
        let loose = rest.map(|page| page.number()).collect();
        Ok(Trees { tables, unread, loose })
    }

    /// All leaves of tables.
    pub fn leaves(&self) -> impl Iterator<Item = u32> + '_ {
        self.tables.iter().flat_map(|tree| tree.leaves.iter().flatten().copied())
    }

    /// The table at a root page alone, if there is one.
    pub fn only(self, root: u32) -> Option<Trees> {
        let found = self.tables.into_iter().find(|tree| tree.named.root.page() == Some(root))?;
        Some(Trees { tables: vec![found], unread: Vec::new(), loose: Vec::new() })
    }

    /// Whether rows may be of a table and are not known to be.
    pub fn is_partial(&self) -> bool {
        let faulty = |tree: &Tree| tree.leaves.as_ref().is_err_and(Apart::is_fault);
        self.tables.iter().any(faulty) || !(self.unread.is_empty() || self.loose.is_empty())
    }

    /// Content is who has worked through some rows, and all that there are, and found none to tell.
    pub fn verdict(&self, work: Work, found: usize, rows: usize) -> Result<(), Failure> {
        if found > 0 {
            Err(Failure::Found)
        } else if self.is_partial() {
            Err(Failure::Partial(work))
        } else if rows == 0 {
            Err(Failure::Nothing(work))
        } else {
            Ok(())
        }
    }
}

/// The leaves of a table; from then on they are taken.
fn leaves(gauge: &Gauge<'_>, root: Root, taken: &mut [bool]) -> Result<Vec<u32>, Apart> {
    let root = match root {
        Root::Numbered(root) => root,
        Root::Keyed(_) => return Err(Apart::Keyed),
        Root::Virtual => return Err(Apart::Virtual),
    };
    let table = gauge.table(root).map_err(Apart::Refused)?;
    let mut found: Vec<u32> = table.places().iter().map(|place| place.page()).collect();
    found.dedup();
    if let Some(&page) = found.iter().find(|&&page| taken[page as usize]) {
        return Err(Apart::Shared(page));
    }
    found.iter().for_each(|&page| taken[page as usize] = true);
    Ok(found)
}

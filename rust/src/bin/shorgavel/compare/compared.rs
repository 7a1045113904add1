//! What was found on the pages that were compared.

use crate::leaf::{Count, Leaf, Lent, Trio};

#[derive(Default)]
pub struct Compared {
    pub count: Count,
    /// The pages with rows that old and file refuse.
    pub refusing: Vec<u32>,
    /// How many pages the original refuses whole, and how many cells they have: what was on no tablet.
    pub unshown_pages: usize,
    pub unshown: usize,
}

impl Compared {
    /// A page more; `doubted` is shown its cells that part or are refused. Answers whether the original refuses it.
    pub fn page(&mut self, leaf: &Leaf<'_>, lent: &mut Lent, mut doubted: impl FnMut(&Trio<'_>)) -> bool {
        let (known, mut old_refuses) = (self.count.refused, false);
        self.count.leaf(leaf, lent, |trio| {
            old_refuses |= trio.old.is_err();
            doubted(trio);
        });
        if self.count.refused > known {
            self.refusing.push(leaf.number());
        }
        let whole = old_refuses && leaf.refused_whole().is_some();
        if whole {
            self.unshown_pages += 1;
            self.unshown += leaf.len();
        }
        whole
    }
}

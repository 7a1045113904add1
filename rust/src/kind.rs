use std::fmt;

/// The kind of a page, and of its cells: the original's names of pages.
#[derive(Clone, Copy, Debug, PartialEq, Eq, Hash)]
pub enum Kind {
    /// 2
    InteriorIndex,
    /// 5
    InteriorTable,
    /// 10
    LeafIndex,
    /// 13: its cells are rows.
    LeafTable,
}

impl Kind {
    /// A page with another number is refused, so no other comes here.
    pub(crate) fn of(number: u8) -> Kind {
        match number {
            2 => Kind::InteriorIndex,
            5 => Kind::InteriorTable,
            10 => Kind::LeafIndex,
            _ => Kind::LeafTable,
        }
    }

    /// The byte that the page starts with.
    #[must_use]
    pub fn number(self) -> u8 {
        match self {
            Kind::InteriorIndex => 2,
            Kind::InteriorTable => 5,
            Kind::LeafIndex => 10,
            Kind::LeafTable => 13,
        }
    }

    /// Whether the page has children.
    #[must_use]
    pub fn is_interior(self) -> bool {
        matches!(self, Kind::InteriorIndex | Kind::InteriorTable)
    }

    /// Whether the page is of an index.
    #[must_use]
    pub fn is_index(self) -> bool {
        matches!(self, Kind::InteriorIndex | Kind::LeafIndex)
    }
}

/// For example `leaf table`.
impl fmt::Display for Kind {
    fn fmt(&self, f: &mut fmt::Formatter<'_>) -> fmt::Result {
        f.write_str(match self {
            Kind::InteriorIndex => "interior index",
            Kind::InteriorTable => "interior table",
            Kind::LeafIndex => "leaf index",
            Kind::LeafTable => "leaf table",
        })
    }
}

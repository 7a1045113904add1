use crate::calls;
use crate::Mark;
use std::error::Error;
use std::fmt;

/// Why nothing is shown: a number, the place where it applies, and the meaning.
///
/// The rules are in `docs/READINGS.md`. Every call answers either what it is asked for or the first check that fails.
#[derive(Clone, Copy, Debug, PartialEq, Eq, Hash)]
pub struct Refusal {
    // Words, though bytes would do: a row is a result, and one that is words alone is moved with less work.
    number: usize,
    mark: usize,
    page: usize,
    cell: usize,
    column: usize,
}

/// Number, name and meaning of each refusal, a line each, in the order of the numbers.
const REASONS: &[(usize, &str, &str)] = &[
    (1, "OpeningDiffers", "the 16 opening bytes of a database are not there"),
    (2, "HeaderCut", "there are fewer than 100 bytes"),
    (3, "EncodingUnknown", "the text encoding is not 1, 2 or 3"),
    (4, "PageSizeUnfit", "the page size is not a power of two from 512 to 65,536"),
    (5, "UsableTooSmall", "the usable size of a page is below 480"),
    (6, "ReadVersionAbove", "the read version is above 2"),
    (7, "FractionsDiffer", "the payload fractions are not 64, 32, 32"),
    (8, "PageAbsent", "the page is not wholly in the bytes"),
    (9, "RootTooSmall", "the page size is under 100"),
    (10, "KindUnfit", "the page is of another kind, or of none"),
    (11, "PointersPassEnd", "the page's header or pointers pass its end"),
    (12, "PointerOutside", "the cell's pointer leads outside of the cells"),
    (13, "CellCut", "the cell is cut short"),
    (14, "HeaderUnfit", "the record's header does not fit"),
    (15, "TypeReserved", "the type is 10 or 11, which are reserved"),
    (16, "ValueUnfit", "the value passes the end, or bytes are left over behind the last"),
    (17, "ClosingCut", "the varint behind the index record has no end"),
    (18, "PayloadSpills", "the payload spills to overflow pages, and no gather buffer is lent"),
    (19, "TableTooShort", "the lent table or list is too short"),
    (20, "NoSuchCellOrColumn", "there is no such cell, or no such column in it"),
    (21, "Marked", "old and file need not agree"),
    (22, "OverLimit", "there are over 1,073,741,824 bytes"),
    (23, "ChainUnfit", "the overflow chain leaves the file, ends early or goes on"),
    (24, "BufferTooShort", "the gather buffer is shorter than the payload"),
    (25, "IndexPage", "the page is of an index"),
    (26, "TooDeep", "the page is over 20 pages deep"),
    (27, "OutOfOrder", "the row number or key is out of order"),
    (28, "VisitsUsedUp", "one more page is due than the file has"),
];

impl Refusal {
    /// What a call answers, where it refuses.
    #[inline]
    pub(crate) fn check(refused: &calls::Refused) -> Result<(), Refusal> {
        if refused.number == 0 {
            return Ok(());
        }
        Err(Refusal::of(refused))
    }

    /// Apart from the check, so that a row that is shown is not handled byte by byte for the sake of one that is not.
    #[cold]
    #[inline(never)]
    fn of(refused: &calls::Refused) -> Refusal {
        let (number, mark) = (usize::from(refused.number), usize::from(refused.mark));
        Refusal { number, mark, page: refused.page as usize, cell: refused.cell, column: refused.column }
    }

    /// The refusal of a database that is too long, 22.
    pub(crate) fn over_limit() -> Refusal {
        Refusal { number: 22, mark: 0, page: 0, cell: 0, column: 0 }
    }

    /// The number, as the table of refusals in `docs/READINGS.md` has it.
    #[must_use]
    pub fn number(self) -> u8 {
        self.number as u8
    }

    fn reason(self) -> (&'static str, &'static str) {
        let named = REASONS.iter().find(|(number, ..)| *number == self.number);
        named.map_or(("Unknown", "no meaning is known"), |&(_, name, meaning)| (name, meaning))
    }

    /// The number's name.
    #[must_use]
    pub fn name(self) -> &'static str {
        self.reason().0
    }

    /// What the number means, in words.
    #[must_use]
    pub fn meaning(self) -> &'static str {
        self.reason().1
    }

    /// The page, as the reading counts it that refuses: for all but 1 to 7 and 22, which are of the database. It is 0 for the 19 of a
    /// screen, which is of no page.
    #[must_use]
    pub fn page(self) -> Option<u32> {
        (!matches!(self.number, 1..=7 | 22)).then_some(self.page as u32)
    }

    /// The cell that is refused, where one is: for 12 to 18, 21, 23, 24 and 27.
    #[must_use]
    pub fn cell(self) -> Option<usize> {
        matches!(self.number, 12..=18 | 21 | 23 | 24 | 27).then_some(self.cell)
    }

    /// The column that is refused, where one is: for 15 and 16.
    #[must_use]
    pub fn column(self) -> Option<usize> {
        matches!(self.number, 15 | 16).then_some(self.column)
    }

    /// The mark for which a row is refused, where it is one: for 21.
    #[must_use]
    pub fn mark(self) -> Option<Mark> {
        Mark::of(self.mark as u8)
    }
}

/// For example `refused 15 (TypeReserved) on page 2, cell 1, column 0: the type is 10 or 11, which are reserved`.
impl fmt::Display for Refusal {
    fn fmt(&self, f: &mut fmt::Formatter<'_>) -> fmt::Result {
        write!(f, "refused {} ({})", self.number, self.name())?;
        if let Some(page) = self.page() {
            write!(f, " on page {page}")?;
        }
        if let Some(cell) = self.cell() {
            write!(f, ", cell {cell}")?;
        }
        if let Some(column) = self.column() {
            write!(f, ", column {column}")?;
        }
        write!(f, ": {}", self.meaning())?;
        match self.mark() {
            Some(mark) => write!(f, ": {mark}"),
            None => Ok(()),
        }
    }
}

impl Error for Refusal {}

#[cfg(test)]
mod tests {
    use super::*;

    /// The numbers and names are those of the table in docs/READINGS.md, which has two names for 20.
    #[test]
    fn names_are_the_documented_ones() {
        let rows = include_str!("../../docs/READINGS.md").lines().filter_map(|line| line.strip_prefix("| "));
        let mut documented = Vec::new();
        for row in rows {
            let mut fields = row.split(" | ");
            let (Some(Ok(number)), Some(name)) = (fields.next().map(str::parse), fields.next()) else {
                continue;
            };
            let refusal = Refusal { number, mark: 0, page: 0, cell: 0, column: 0 };
            if number != 20 {
                assert_eq!(format!("`{}`", refusal.name()), name);
            }
            documented.push(number);
        }
        assert_eq!(documented.len(), REASONS.len() + 1);
        documented.sort();
        documented.dedup();
        let told: Vec<usize> = REASONS.iter().map(|&(number, ..)| number).collect();
        assert_eq!(told, documented);
    }

    /// The comment on refusals in the header for C has the same numbers and meanings.
    #[test]
    fn meanings_are_those_told_in_c() {
        let header = include_str!("../../include/shorgavel.h");
        for (number, _, meaning) in REASONS {
            assert!(header.contains(&format!("\n * {number:2}  {meaning}\n")), "{number}");
        }
    }
}

use std::fmt;

/// Why old and file need not agree on a row: what [`Refusal::mark`](crate::Refusal::mark) tells of a refusal 21.
///
/// Where a record has several, the lowest number is told.
#[derive(Clone, Copy, Debug, PartialEq, Eq, Hash)]
pub enum Mark {
    /// 1: a varint (size, row number, header size or type) of over five bytes.
    LongVarint,
    /// 2: a header size that is not in one byte.
    LongHeaderSize,
    /// 3: a type 9, a stored 1, which old shows as 0.
    TypeNine,
    /// 4: a text or a blob of no bytes, which old shows as null.
    NoBytes,
    /// 5: a payload that spills to overflow pages, which old does not follow. It is told where [`Notes`](crate::Notes) are
    /// lent; where none are, the row is refused with 18.
    Spills,
}

impl Mark {
    pub(crate) fn of(number: u8) -> Option<Mark> {
        match number {
            1 => Some(Mark::LongVarint),
            2 => Some(Mark::LongHeaderSize),
            3 => Some(Mark::TypeNine),
            4 => Some(Mark::NoBytes),
            5 => Some(Mark::Spills),
            _ => None,
        }
    }

    /// Its number, from 1 to 5.
    #[must_use]
    pub fn number(self) -> u8 {
        match self {
            Mark::LongVarint => 1,
            Mark::LongHeaderSize => 2,
            Mark::TypeNine => 3,
            Mark::NoBytes => 4,
            Mark::Spills => 5,
        }
    }

    /// What stands in the record.
    #[must_use]
    pub fn meaning(self) -> &'static str {
        match self {
            Mark::LongVarint => "a varint of over five bytes",
            Mark::LongHeaderSize => "a header size that is not in one byte",
            Mark::TypeNine => "a type 9, a stored 1",
            Mark::NoBytes => "a text or a blob of no bytes",
            Mark::Spills => "a long note, whose payload spills",
        }
    }
}

impl fmt::Display for Mark {
    fn fmt(&self, f: &mut fmt::Formatter<'_>) -> fmt::Result {
        f.write_str(self.meaning())
    }
}

#[cfg(test)]
mod tests {
    use super::*;

    /// The comment on refusals in the header for C has the same numbers and meanings.
    #[test]
    fn meanings_are_those_told_in_c() {
        let header = include_str!("../../include/shorgavel.h");
        let marks: Vec<_> = (0..=u8::MAX).filter_map(Mark::of).collect();
        assert_eq!(marks.iter().map(|mark| mark.number()).collect::<Vec<_>>(), [1, 2, 3, 4, 5]);
        for mark in marks {
            assert!(header.contains(&format!("\n * {:2}  {mark}\n", mark.number())), "{mark}");
        }
    }
}

use std::error::Error;
use std::fmt;
use std::str::FromStr;

/// Which of the three readings shows a database.
#[derive(Clone, Copy, Debug, PartialEq, Eq, Hash)]
pub enum Reading {
    /// What the tablets' reader shows, faults and all. Its pages count from 0.
    Old,
    /// What the file format says: what the gauge wrote. Its pages count from 1.
    File,
    /// A row of a table leaf, only where the two agree. Its pages count from 1.
    Guarded,
}

impl Reading {
    /// The three, in the order in which they are listed everywhere.
    pub const ALL: [Reading; 3] = [Reading::Old, Reading::File, Reading::Guarded];

    /// The name: `old`, `file` or `guarded`.
    #[must_use]
    pub fn name(self) -> &'static str {
        match self {
            Reading::Old => "old",
            Reading::File => "file",
            Reading::Guarded => "guarded",
        }
    }

    /// The number of the first page.
    #[must_use]
    pub fn first_page(self) -> u32 {
        match self {
            Reading::Old => 0,
            Reading::File | Reading::Guarded => 1,
        }
    }

    /// The number by which calls are told a reading. Of headers and whole pages guarded has nothing of its own: there its
    /// number is taken for the file reading.
    pub(crate) fn number(self) -> u8 {
        match self {
            Reading::Old => 0,
            Reading::File => 1,
            Reading::Guarded => 2,
        }
    }
}

impl fmt::Display for Reading {
    fn fmt(&self, f: &mut fmt::Formatter<'_>) -> fmt::Result {
        f.write_str(self.name())
    }
}

/// By its name alone: `old`, `file` or `guarded`.
impl FromStr for Reading {
    type Err = NoSuchReading;

    fn from_str(name: &str) -> Result<Reading, NoSuchReading> {
        Reading::ALL.into_iter().find(|reading| reading.name() == name).ok_or(NoSuchReading(()))
    }
}

/// No reading has that name.
#[derive(Clone, Copy, Debug, PartialEq, Eq)]
pub struct NoSuchReading(());

impl fmt::Display for NoSuchReading {
    fn fmt(&self, f: &mut fmt::Formatter<'_>) -> fmt::Result {
        f.write_str("the readings are old, file and guarded")
    }
}

impl Error for NoSuchReading {}

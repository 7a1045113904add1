//! How rows and lists of files are written.

/// In words for people, or for a spreadsheet or a program.
#[derive(Clone, Copy, Default, PartialEq)]
pub enum Form {
    #[default]
    Words,
    /// Comma-separated values below a heading, as RFC 4180 has them, but that lines end in LF.
    Csv,
    /// A line is an object of JSON.
    Json,
}

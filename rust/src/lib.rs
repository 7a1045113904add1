//! Reads the SQLite files that a battery gauge on forklifts writes, with proof.
//!
//! There are three readings. [`Reading::Old`] is what the tablets' reader shows, faults and all; [`Reading::File`] is what
//! the file format says, what the gauge wrote; [`Reading::Guarded`] shows a row only where the two agree, and that they do
//! is a theorem. The readers are proved to answer for every input; this package calls them and adds Rust's types.
//!
//! ```
//! use shorgavel::{Gauge, Reading, Value};
//!
//! // A page of one row: an idle load, a stored 1 (type 9).
//! let mut bytes = vec![0; 512];
//! bytes[..16].copy_from_slice(b"SQLite format 3\0");
//! bytes[16..24].copy_from_slice(&[2, 0, 1, 1, 0, 64, 32, 32]);
//! bytes[59] = 1;
//! bytes[100..110].copy_from_slice(&[13, 0, 0, 0, 1, 1, 252, 0, 1, 252]);
//! bytes[508..].copy_from_slice(&[2, 1, 2, 9]);
//!
//! let gauge = Gauge::new(&bytes);
//! for row in gauge.rows(Reading::File)? {
//!     let cell = row.shown?;
//!     println!("row {}: {:?}", cell.rowid(), cell.values().collect::<Vec<_>>());
//!     assert_eq!(cell.value(0), Some(Value::Integer(1)));
//! }
//!
//! // The old reader shows 0 there, so the guarded reading refuses the row.
//! assert_eq!(gauge.value(Reading::Old, 0, 0, 0)?, Value::Integer(0));
//! let refusal = gauge.value(Reading::Guarded, 1, 0, 0).unwrap_err();
//! assert_eq!(refusal.number(), 21);
//! println!("{refusal}");
//! # Ok::<(), shorgavel::Refusal>(())
//! ```
//!
//! Pages count from 0 in the old reading, as in the original's `get_page`, and from 1 in the other two; cells and columns
//! count from 0. [`Gauge::schema`] names the tables, [`Gauge::table`] lists the rows of one in the order of their numbers, and
//! [`Gauge::trusted`] lists them if old and file show every one of them alike. Long notes, which spill to overflow pages, are
//! shown where [`Notes`] are lent. [`Gauge::screen`] shows the values at a list of addresses, a screenful at once. An [`Exchange`]
//! has two databases over one table of entries. [`Cell::shortest`] tells whether a cell could have come from SQLite, by how its
//! numbers are written. [`moving`] shows how to come over from sqlite-parser-nom.

#![deny(unsafe_code)]
#![warn(missing_docs)]
#![warn(clippy::must_use_candidate, clippy::missing_errors_doc)]

mod bytes;
#[allow(unsafe_code)]
mod calls;
mod cell;
mod encoding;
mod entry;
mod exchange;
mod gauge;
mod header;
mod kind;
mod mark;
mod notes;
mod page;
mod place;
mod reading;
mod refusal;
mod rows;
mod schema;
mod screen;
mod slot;
mod table;
mod value;
mod values;
mod walk;

pub use cell::{Cell, Cells};
pub use encoding::TextEncoding;
pub use entry::{Entry, Head};
pub use exchange::{Exchange, Truck};
pub use gauge::{Gauge, PageCount};
pub use header::DbHeader;
pub use kind::Kind;
pub use mark::Mark;
pub use notes::Notes;
pub use page::Page;
pub use place::Place;
pub use reading::{NoSuchReading, Reading};
pub use refusal::Refusal;
pub use rows::{Leaves, Row, Rows};
pub use schema::{Named, Root, Schema, Unread, Unreadable};
pub use screen::{Address, Answer};
pub use slot::Slot;
pub use value::{Value, Width};
pub use values::Values;
pub use walk::{Table, TableRows};

#[doc = include_str!("../docs/MOVING.md")]
pub mod moving {}

/// The examples of the README are compiled with the tests.
#[cfg(doctest)]
#[doc = include_str!("../README.md")]
mod readme {}

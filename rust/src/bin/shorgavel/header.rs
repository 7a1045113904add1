//! `header`: the fields of the database header, in the old and the file reading.

use crate::failure::Failure;
use crate::input::Database;
use crate::out::Out;
use shorgavel::{DbHeader, Reading};
use std::io::Write;

pub fn show(database: &Database, out: &mut Out) -> Result<(), Failure> {
    let gauge = database.gauge()?;
    // What old refuses file refuses too, so there is nothing to show.
    let old = gauge.header(Reading::Old)?;
    let file = gauge.header(Reading::File);
    writeln!(out, "{:26}{:>11}{:>11}", "field", "old", "file")?;
    for (name, field) in FIELDS {
        let in_file = file.as_ref().map_or("refused".to_string(), |header| field(header).to_string());
        writeln!(out, "{name:26}{:>11}{in_file:>11}", field(&old))?;
    }
    file.map(drop).map_err(Failure::from)
}

type Field = fn(&DbHeader) -> u32;

const FIELDS: [(&str, Field); 21] = [
    ("page_size", |h| h.page_size),
    ("write_version", |h| h.write_version),
    ("read_version", |h| h.read_version),
    ("reserved_space", |h| h.reserved_space),
    ("max_payload_fraction", |h| h.max_payload_fraction),
    ("min_payload_fraction", |h| h.min_payload_fraction),
    ("leaf_payload_fraction", |h| h.leaf_payload_fraction),
    ("file_change_counter", |h| h.file_change_counter),
    ("db_size", |h| h.db_size),
    ("first_freelist_page_no", |h| h.first_freelist_page_no),
    ("total_freelist_pages", |h| h.total_freelist_pages),
    ("schema_cookie", |h| h.schema_cookie),
    ("schema_format_no", |h| h.schema_format_no),
    ("default_page_cache_size", |h| h.default_page_cache_size),
    ("no_largest_root_b_tree", |h| h.no_largest_root_b_tree),
    ("db_text_encoding", |h| h.db_text_encoding.number()),
    ("user_version", |h| h.user_version),
    ("incremental_vacuum_mode", |h| h.incremental_vacuum_mode),
    ("application_id", |h| h.application_id),
    ("version_valid_for_no", |h| h.version_valid_for_no),
    ("sqlite_version_number", |h| h.sqlite_version_number),
];

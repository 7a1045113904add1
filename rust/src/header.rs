use crate::calls;
use crate::TextEncoding;

/// The fields of the database header, by the original's names.
#[derive(Clone, Copy, Debug, PartialEq, Eq)]
pub struct DbHeader {
    /// By its meaning: 65,536 where the field has 1.
    pub page_size: u32,
    /// 1 for a rollback journal, 2 for a log.
    pub write_version: u32,
    /// 1 for a rollback journal, 2 for a log.
    pub read_version: u32,
    /// Bytes at the end of each page that are not used; 0 in the old reading, which drops the field.
    pub reserved_space: u32,
    /// 64 in every sound database.
    pub max_payload_fraction: u32,
    /// 32 in every sound database.
    pub min_payload_fraction: u32,
    /// 32 in every sound database.
    pub leaf_payload_fraction: u32,
    /// How often the file was changed.
    pub file_change_counter: u32,
    /// How many pages the writer says there are.
    pub db_size: u32,
    /// The first page of the freelist, 0 for none.
    pub first_freelist_page_no: u32,
    /// How many pages the freelist has.
    pub total_freelist_pages: u32,
    /// How often the schema was changed.
    pub schema_cookie: u32,
    /// The schema's format.
    pub schema_format_no: u32,
    /// The page cache that is suggested.
    pub default_page_cache_size: u32,
    /// The largest root page, where the database is vacuumed by itself.
    pub no_largest_root_b_tree: u32,
    /// How texts are encoded.
    pub db_text_encoding: TextEncoding,
    /// A number of the user's.
    pub user_version: u32,
    /// Not 0 where the database is vacuumed step by step.
    pub incremental_vacuum_mode: u32,
    /// A number of the program's.
    pub application_id: u32,
    /// The change counter when the version number was written.
    pub version_valid_for_no: u32,
    /// The version of the SQLite that wrote last.
    pub sqlite_version_number: u32,
}

impl DbHeader {
    pub(crate) fn of(fields: &calls::Fields) -> DbHeader {
        DbHeader {
            page_size: fields.page_size,
            write_version: fields.write_version,
            read_version: fields.read_version,
            reserved_space: fields.reserved_space,
            max_payload_fraction: fields.max_payload_fraction,
            min_payload_fraction: fields.min_payload_fraction,
            leaf_payload_fraction: fields.leaf_payload_fraction,
            file_change_counter: fields.file_change_counter,
            db_size: fields.db_size,
            first_freelist_page_no: fields.first_freelist_page_no,
            total_freelist_pages: fields.total_freelist_pages,
            schema_cookie: fields.schema_cookie,
            schema_format_no: fields.schema_format_no,
            default_page_cache_size: fields.default_page_cache_size,
            no_largest_root_b_tree: fields.no_largest_root_b_tree,
            db_text_encoding: TextEncoding::of(fields.db_text_encoding),
            user_version: fields.user_version,
            incremental_vacuum_mode: fields.incremental_vacuum_mode,
            application_id: fields.application_id,
            version_valid_for_no: fields.version_valid_for_no,
            sqlite_version_number: fields.sqlite_version_number,
        }
    }
}

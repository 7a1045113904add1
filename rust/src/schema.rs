use crate::{Cell, Gauge, Notes, Place, Reading, Refusal, TextEncoding, Value};
use std::fmt;

/// The tables that a database names.
///
/// Names and statements are decoded for display: what is not in the database's encoding has a replacement character.
#[derive(Clone, Debug, PartialEq, Eq)]
pub struct Schema {
    /// The tables, in the order of the schema's rows. The schema's own, `sqlite_schema`, is the first.
    pub tables: Vec<Named>,
    /// The rows of the schema that tell nothing: each may name a table that is not among the others.
    pub unread: Vec<Unread>,
}

/// A table that is named.
#[derive(Clone, Debug, PartialEq, Eq)]
pub struct Named {
    /// Its name.
    pub name: String,
    /// Where its rows are.
    pub root: Root,
    /// The statement that made it, as it is stored; the schema's own table has none.
    pub sql: Option<String>,
}

/// Where a table's rows are.
#[derive(Clone, Copy, Debug, PartialEq, Eq)]
pub enum Root {
    /// From this root page on: [`Gauge::table`] lists them, or tells why not.
    Numbered(u32),
    /// From this root page on, but without row numbers: the page is one of an index, and a walk is refused with 25.
    Keyed(u32),
    /// Not in pages of its own: a virtual table's root is 0.
    Virtual,
}

/// A row of the schema that tells nothing.
#[derive(Clone, Copy, Debug, PartialEq, Eq)]
pub struct Unread {
    /// Where it stands.
    pub place: Place,
    /// Why it tells nothing.
    pub why: Unreadable,
}

/// Why a row of the schema tells nothing.
#[derive(Clone, Copy, Debug, PartialEq, Eq)]
pub enum Unreadable {
    /// The file reading refuses it.
    Refused(Refusal),
    /// It has other values than a schema's row.
    Unfit(&'static str),
}

impl fmt::Display for Unreadable {
    fn fmt(&self, f: &mut fmt::Formatter<'_>) -> fmt::Result {
        match self {
            Unreadable::Refused(refusal) => refusal.fmt(f),
            Unreadable::Unfit(what) => f.write_str(what),
        }
    }
}

impl Schema {
    /// The root page of the schema's own table.
    pub const ROOT: u32 = 1;

    /// Long statements spill, so notes are lent.
    pub(crate) fn of(gauge: Gauge<'_>) -> Result<Schema, Refusal> {
        let encoding = gauge.header(Reading::File)?.db_text_encoding;
        let table = gauge.table(Schema::ROOT)?;
        let mut schema = Schema { tables: vec![Named::schema()], unread: Vec::new() };
        let (mut rows, mut notes) = (table.rows(Reading::File), Notes::new());
        for &place in table.places() {
            let Some(row) = rows.next_with(&mut notes) else {
                break;
            };
            let told = row.shown.map_err(Unreadable::Refused);
            match told.and_then(|cell| Named::of(gauge, &cell, encoding)) {
                Ok(Some(named)) => schema.tables.push(named),
                Ok(None) => {}
                Err(why) => schema.unread.push(Unread { place, why }),
            }
        }
        Ok(schema)
    }

    /// The table of that name. As in SQL, letters of the alphabet count as the same whether large or small.
    #[must_use]
    pub fn table(&self, name: &str) -> Option<&Named> {
        self.tables.iter().find(|table| table.name.eq_ignore_ascii_case(name))
    }
}

impl Named {
    /// The schema's own table, which no row names.
    #[must_use]
    pub fn schema() -> Named {
        Named { name: "sqlite_schema".to_string(), root: Root::Numbered(Schema::ROOT), sql: None }
    }

    /// What a row of the schema names: type, name, the table's name, root page and statement. Nothing, where it is no table.
    fn of(gauge: Gauge<'_>, cell: &Cell<'_>, encoding: TextEncoding) -> Result<Option<Named>, Unreadable> {
        let values: Vec<Value<'_>> = cell.values().take(6).collect();
        let [kind, name, _, root, sql] = values[..] else {
            return Err(Unreadable::Unfit("it has not five columns"));
        };
        let Value::Text(kind) = kind else {
            return Err(Unreadable::Unfit("its type is no text"));
        };
        match encoding.decode_lossy(kind).as_ref() {
            "table" => {}
            "index" | "view" | "trigger" => return Ok(None),
            _ => return Err(Unreadable::Unfit("its type is no table, index, view or trigger")),
        }
        let Value::Text(name) = name else {
            return Err(Unreadable::Unfit("its name is no text"));
        };
        let sql = match sql {
            Value::Text(sql) => Some(encoding.decode_lossy(sql).into_owned()),
            _ => None,
        };
        Ok(Some(Named { name: encoding.decode_lossy(name).into_owned(), root: Root::of(gauge, root)?, sql }))
    }
}

impl Root {
    /// The number of the root page, if there is one. What it leads to, [`Gauge::table`] tells.
    #[must_use]
    pub fn page(self) -> Option<u32> {
        match self {
            Root::Numbered(page) | Root::Keyed(page) => Some(page),
            Root::Virtual => None,
        }
    }

    fn of(gauge: Gauge<'_>, value: Value<'_>) -> Result<Root, Unreadable> {
        let number = match value {
            Value::Null => 0,
            Value::Integer(root) => u32::try_from(root).map_err(|_| Root::unfit())?,
            _ => return Err(Root::unfit()),
        };
        let is_index = |number| gauge.get_page(Reading::File, number).is_ok_and(|page| page.kind().is_index());
        Ok(match number {
            0 => Root::Virtual,
            _ if is_index(number) => Root::Keyed(number),
            _ => Root::Numbered(number),
        })
    }

    fn unfit() -> Unreadable {
        Unreadable::Unfit("its root is no page number")
    }
}

//! Tables by hand: records, leaves, interior pages and a schema, on pages of 512 bytes.

use super::{pages, put};
use shorgavel::Value::{self, Integer, Null, Text};

/// A varint of at most eight bytes, or of nine for a negative number.
fn varint(number: i64) -> Vec<u8> {
    if number < 0 {
        let bits = number as u64;
        let mut long: Vec<u8> = (0..8).map(|i| 0x80 | (bits >> (57 - 7 * i) & 0x7f) as u8).collect();
        long.push(bits as u8);
        return long;
    }
    let mut groups = vec![(number & 0x7f) as u8];
    let mut left = number >> 7;
    while left > 0 {
        groups.insert(0, 0x80 | (left & 0x7f) as u8);
        left >>= 7;
    }
    groups
}

/// A record of texts, small integers and nulls.
pub fn record(values: &[Value<'_>]) -> Vec<u8> {
    let (mut types, mut body) = (Vec::new(), Vec::new());
    for value in values {
        match *value {
            Text(bytes) => {
                types.extend(varint(13 + 2 * bytes.len() as i64));
                body.extend(bytes);
            }
            Integer(number) => {
                types.push(1);
                body.push(u8::try_from(number).unwrap());
            }
            _ => types.push(0),
        }
    }
    let mut record = vec![types.len() as u8 + 1];
    record.extend(types);
    record.extend(body);
    record
}

/// Puts cells on a page, from its end downwards, behind a head of that kind.
fn fill(bytes: &mut [u8], page: usize, kind: u8, rightmost: &[u8], cells: &[Vec<u8>]) {
    let (at, from) = ((page - 1) * 512, if page == 1 { 100 } else { 0 });
    let mut head = vec![kind, 0, 0, 0, cells.len() as u8, 0, 0, 0];
    head.extend(rightmost);
    let mut end = 512;
    for cell in cells {
        end -= cell.len();
        put(bytes, at + end, cell);
        head.extend((end as u16).to_be_bytes());
    }
    put(bytes, at + from, &head);
}

/// A table leaf with rows, each a number and a record that is whole.
pub fn leaf(bytes: &mut [u8], page: usize, rows: &[(i64, Vec<u8>)]) {
    let cell = |(row, record): &(i64, Vec<u8>)| [varint(record.len() as i64), varint(*row), record.clone()].concat();
    fill(bytes, page, 13, &[], &rows.iter().map(cell).collect::<Vec<_>>());
}

/// A table leaf with cells as they are.
pub fn raw_leaf(bytes: &mut [u8], page: usize, cells: &[&[u8]]) {
    fill(bytes, page, 13, &[], &cells.iter().map(|cell| cell.to_vec()).collect::<Vec<_>>());
}

/// An interior table page: children with their keys, and the rightmost child.
pub fn interior(bytes: &mut [u8], page: usize, cells: &[(u8, i64)], rightmost: u8) {
    let cell = |&(child, key): &(u8, i64)| [vec![0, 0, 0, child], varint(key)].concat();
    fill(bytes, page, 5, &[0, 0, 0, rightmost], &cells.iter().map(cell).collect::<Vec<_>>());
}

/// A leaf index with no cell: the root of a table without row numbers.
pub fn index(bytes: &mut [u8], page: usize) {
    fill(bytes, page, 10, &[], &[]);
}

/// What a row of the schema says: type, name, root page and statement.
pub type Named<'a> = (&'a str, &'a str, u8, &'a str);

/// The record of such a row, with texts as the encoding has them.
pub fn schema_row(named: &Named<'_>, encode: impl Fn(&str) -> Vec<u8>) -> Vec<u8> {
    let (kind, name, root, sql) = named;
    let [kind, name, sql] = [kind, name, sql].map(|text| encode(text));
    record(&[Text(&kind), Text(&name), Text(&name), Integer((*root).into()), Text(&sql)])
}

/// Page 1 has these rows, from number 1 on.
pub fn schema(bytes: &mut [u8], rows: &[Named<'_>]) {
    let utf8 = |text: &str| text.as_bytes().to_vec();
    let records = (1..).zip(rows.iter().map(|row| schema_row(row, utf8)));
    leaf(bytes, 1, &records.collect::<Vec<_>>());
}

/// The database with a table named, and its root page.
pub fn named(mut bytes: Vec<u8>, name: &str, root: u8) -> Vec<u8> {
    schema(&mut bytes, &[("table", name, root, &format!("CREATE TABLE {name}(a)"))]);
    bytes
}

/// A row of one small integer.
pub fn row(number: i64, value: i64) -> (i64, Vec<u8>) {
    (number, record(&[Integer(value)]))
}

/// The table `load(idle, coulombs)`, root 2: row 1 is an idle load, a stored 1 (type 9), and row 2 is not.
pub fn idle_load() -> Vec<u8> {
    let mut bytes = pages(2);
    schema(&mut bytes, &[("table", "load", 2, "CREATE TABLE load(idle, coulombs)")]);
    leaf(&mut bytes, 2, &[(1, b"\x03\x09\x04\x01\0\0\0".to_vec()), (2, b"\x03\x08\x04\x01\0\0\0".to_vec())]);
    bytes
}

/// The table `load`, root 2, with the leaves 4 and 3: rows -5 and 2, and rows 7 and 9, each with a value of its own. Page 5 is
/// a leaf that no table leads to, with the row 8, a stored 1 (type 9); page 6 is the root of `keyed`, which has no row
/// numbers.
pub fn two_leaves() -> Vec<u8> {
    let mut bytes = pages(6);
    let sql = "CREATE TABLE load(idle)";
    let keyed = "CREATE TABLE keyed(k PRIMARY KEY) WITHOUT ROWID";
    let far = "CREATE VIRTUAL TABLE far USING x";
    schema(&mut bytes, &[("table", "load", 2, sql), ("table", "keyed", 6, keyed), ("table", "far", 0, far)]);
    interior(&mut bytes, 2, &[(4, 2)], 3);
    leaf(&mut bytes, 4, &[row(-5, 10), row(2, 11)]);
    leaf(&mut bytes, 3, &[row(7, 12), row(9, 13)]);
    leaf(&mut bytes, 5, &[(8, vec![2, 9])]);
    index(&mut bytes, 6);
    bytes
}

/// A record of five columns, one of them of another kind than a schema's row has there.
pub fn odd_row(column: usize) -> Vec<u8> {
    let mut values = [Text(b"table"), Text(b"t"), Text(b"t"), Integer(2), Text(b"CREATE TABLE t(a)")];
    values[column] = if column == 3 { Text(b"2") } else { Null };
    record(&values)
}

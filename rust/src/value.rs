use crate::calls;
use std::fmt;

/// A value of a column. The bytes of a text or a blob are the caller's: nothing is copied, but for a payload that spills,
/// whose bytes are those of the [`Notes`](crate::Notes) that were lent.
///
/// Two reals are equal if their bits are, so that a value that is not a number equals itself.
#[derive(Clone, Copy, Debug)]
pub enum Value<'a> {
    /// Null; in the old reading also a text or a blob of no bytes.
    Null,
    /// An integer of any width. [`Cell::widths`](crate::Cell::widths) has the old reading's widths.
    Integer(i64),
    /// A real, with the 64 bits that are stored.
    Real(f64),
    /// The bytes of a text, in the database's [`TextEncoding`](crate::TextEncoding).
    Text(&'a [u8]),
    /// The bytes of a blob.
    Blob(&'a [u8]),
}

impl<'a> Value<'a> {
    #[inline]
    pub(crate) fn of(bytes: &'a [u8], value: &calls::Value) -> Value<'a> {
        match value.kind {
            calls::INTEGER => Value::Integer(value.integer),
            calls::REAL => Value::Real(f64::from_bits(value.bits)),
            calls::TEXT => Value::Text(part(bytes, value.at, value.len)),
            calls::BLOB => Value::Blob(part(bytes, value.at, value.len)),
            _ => Value::Null,
        }
    }

    /// Whether it is null.
    #[must_use]
    pub fn is_null(&self) -> bool {
        matches!(self, Value::Null)
    }

    /// The integer, if it is one.
    #[must_use]
    pub fn integer(&self) -> Option<i64> {
        match *self {
            Value::Integer(z) => Some(z),
            _ => None,
        }
    }

    /// The real, if it is one. SQLite stores a whole number of a REAL column as an integer: [`Value::number`] takes both.
    #[must_use]
    pub fn real(&self) -> Option<f64> {
        match *self {
            Value::Real(x) => Some(x),
            _ => None,
        }
    }

    /// The integer or the real as a number.
    #[must_use]
    pub fn number(&self) -> Option<f64> {
        match *self {
            Value::Integer(z) => Some(z as f64),
            Value::Real(x) => Some(x),
            _ => None,
        }
    }

    /// The text, if it is one and its bytes are UTF-8, as they are in a database whose encoding is UTF-8.
    #[must_use]
    pub fn text(&self) -> Option<&'a str> {
        match *self {
            Value::Text(bytes) => std::str::from_utf8(bytes).ok(),
            _ => None,
        }
    }

    /// The bytes of a text or a blob.
    #[must_use]
    pub fn bytes(&self) -> Option<&'a [u8]> {
        match *self {
            Value::Text(bytes) | Value::Blob(bytes) => Some(bytes),
            _ => None,
        }
    }
}

/// It is proved that the part lies in the bytes. Safe code asks again, and shows as much of it as there is.
#[inline]
fn part(bytes: &[u8], at: usize, len: usize) -> &[u8] {
    let (_, rest) = bytes.split_at(at.min(bytes.len()));
    &rest[..len.min(rest.len())]
}

impl PartialEq for Value<'_> {
    fn eq(&self, other: &Self) -> bool {
        match (*self, *other) {
            (Value::Null, Value::Null) => true,
            (Value::Integer(a), Value::Integer(b)) => a == b,
            (Value::Real(a), Value::Real(b)) => a.to_bits() == b.to_bits(),
            (Value::Text(a), Value::Text(b)) | (Value::Blob(a), Value::Blob(b)) => a == b,
            _ => false,
        }
    }
}

impl Eq for Value<'_> {}

/// As SQL has it: `null`, `42`, `1.5`, `'text'` with each quote twice, `x'00ff'`. A text whose bytes are not UTF-8, as in a database
/// of another encoding, is shown as its bytes, and a real that is no number by its bits: `nan(7ff8000000000000)`.
///
/// ```
/// use shorgavel::Value;
///
/// assert_eq!(Value::Text(b"it's").to_string(), "'it''s'");
/// assert_eq!(Value::Real(44.0).to_string(), "44.0");
/// assert_eq!(Value::Blob(&[0, 255]).to_string(), "x'00ff'");
/// ```
impl fmt::Display for Value<'_> {
    fn fmt(&self, f: &mut fmt::Formatter<'_>) -> fmt::Result {
        match *self {
            Value::Null => f.write_str("null"),
            Value::Integer(z) => z.fmt(f),
            Value::Real(x) if x.is_nan() => write!(f, "nan({:016x})", x.to_bits()),
            Value::Real(x) => write!(f, "{x:?}"),
            Value::Text(bytes) => match std::str::from_utf8(bytes) {
                Ok(text) => write!(f, "'{}'", text.replace('\'', "''")),
                Err(_) => hex(f, bytes),
            },
            Value::Blob(bytes) => hex(f, bytes),
        }
    }
}

fn hex(f: &mut fmt::Formatter<'_>, bytes: &[u8]) -> fmt::Result {
    f.write_str("x'")?;
    bytes.iter().try_for_each(|byte| write!(f, "{byte:02x}"))?;
    f.write_str("'")
}

/// The type that the original has for an integer of the old reading: the name of a `Payload` there.
#[derive(Clone, Copy, Debug, PartialEq, Eq, Hash)]
pub enum Width {
    /// Types 1, 8 and 9.
    I8,
    /// Type 2.
    I16,
    /// Types 3 and 4.
    I32,
    /// Types 5 and 6.
    I64,
}

impl Width {
    pub(crate) fn of(bits: u8) -> Option<Width> {
        match bits {
            8 => Some(Width::I8),
            16 => Some(Width::I16),
            32 => Some(Width::I32),
            64 => Some(Width::I64),
            _ => None,
        }
    }
}

//! A value folded into what was shown.

use shorgavel::Value;

use crate::shown::Shown;

pub fn show(shown: &mut Shown, value: Value) {
    shown.values += 1;
    match value {
        Value::Null => {}
        Value::Integer(number) => shown.integer(number),
        Value::Real(x) => shown.real(x.to_bits()),
        Value::Text(bytes) | Value::Blob(bytes) => shown.bytes(bytes),
    }
}
